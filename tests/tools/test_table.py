"""tools/table and tools/steady: their rows and lines, worked out by hand from reports written by hand."""
import csv
import json
import os
import select
import subprocess
import sys
import unittest

from common import TOP, ToolTest
from test_reports import KEEP, REPORT

# What the two moments of REPORT say of its aircraft and of track, as rows.
AIRCRAFT = ["encounter,time,aircraft,now,alert,first,steady,changed,incomplete", "1,0,A,0,2,43,,new,", "1,10,A,1,2,0,,now,refused 9 6"]
TRACK = ["1,0,track,0 5 3;10 180 0;185 355 3,upper,,10,,,,,,new,",
         "1,10,track,0 355 3,none,,,found,12,40,,,bands answer upper recovery value,refused 9 6"]


def moment(time, *levels):
    """A moment whose aircraft A, B, .. alert at these levels; None where one is not there."""
    alerts = "".join(f"now {name} 0\nalert {name} {level} {5 if level else '-'}\n" for name, level in zip("ABC", levels) if level is not None)
    return (f"moment {time}\n{alerts}track 0 355 0\ngs 500 7000 0\nvs 0 0 0\nalt 0 50000 0\n"
            f"resolve track left keep right keep\n{KEEP}done {time}\n")


class Tables(ToolTest):
    def table(self, text, *words):
        status, out, said = self.tool("table", *words, self.write("a.report", text))
        self.assertEqual(status, int("refused" in text), said)
        return out.splitlines(), said

    def test_a_row_for_each_moment_and_aircraft(self):
        rows, said = self.table(REPORT, "aircraft")
        self.assertEqual(rows, AIRCRAFT)
        self.assert_one_line(said, "1 refused line is in no row: trust no row after it\n")
        self.assert_one_line(self.table(REPORT + "refused 10 6\n", "aircraft")[1], "2 refused lines are in no row: trust no row after the first of them\n")

    def test_a_row_for_each_moment_and_kind(self):
        rows, _ = self.table(REPORT, "kinds")
        self.assertEqual([row for row in rows if ",track," in row], TRACK)
        self.assertEqual([row for row in rows if ",alt," in row], ["1,0,alt,0 9000 0;9500 10500 1;11000 50000 0,keep,,,,,,,,new,",
                                                                  "1,10,alt,0 50000 0,incomplete,,,,,,,,bands answer,refused 9 6"])
        self.assertEqual(len(rows), 1 + 2 * 4)

    def test_on_which_sides_a_candidate_is_open(self):
        for left, right, wanted in (("350", "10", "both,350,10"), ("350", "none", "lower,350,"), ("none", "10", "upper,,10"), ("none", "none", "none,,"),
                                    ("keep", "keep", "keep,,")):
            text = moment(0, 1).replace("resolve track left keep right keep", f"resolve track left {left} right {right}")
            self.assertEqual(self.table(text, "kinds")[0][1], f"1,0,track,0 355 0,{wanted},,,,,,new,")
            out = self.tool("summary", self.write("a.report", text))[1].splitlines()
            self.assertIn(f"track: answer {wanted.split(',')[0]} at 1 moment, 0 s", out)

    def test_a_row_for_each_band(self):
        rows, _ = self.table(REPORT, "bands")
        self.assertEqual(rows[:4], ["encounter,time,kind,from,upto,level,incomplete", "1,0,track,0,5,3,", "1,0,track,10,180,0,", "1,0,track,185,355,3,"])
        self.assertEqual(len(rows), 1 + 3 + 1 + 1 + 3 + 4 * 1)

    def test_what_is_no_report_has_no_header(self):
        """Nor is an empty text a report to tools/steady."""
        for text, part in (("", "no report: it is empty"), ("mom", "no report: it has no whole line"), ("hello\n", "line 1 is no line of a report there")):
            for words in (("table", "kinds"), ("steady",)):
                status, out, said = self.tool(*words, self.write("a.report", text))
                self.assertEqual((status, out), (4, ""), (words, text))
                self.assert_one_line(said, part)

    def test_json_has_the_same_rows(self):
        """Each object has the columns of the CSV, with its texts as numbers, lists or null."""
        for what in ("aircraft", "kinds", "bands"):
            rows, _ = self.table(REPORT, what)
            objects = [json.loads(line) for line in self.table(REPORT, what, "--json")[0]]
            for row, found in zip(csv.DictReader(rows), objects, strict=True):
                if "bands" in found:
                    found["bands"] = ";".join(f"{band['from']} {band['upto']} {band['level']}" for band in found["bands"])
                self.assertEqual(row, {key: "" if value is None else str(value) for key, value in found.items()})
        first = json.loads(self.table(REPORT, "kinds", "--json")[0][0])
        self.assertEqual((first["bands"][0], first["upper"], first["lower"]), ({"from": 0, "upto": 5, "level": 3}, 10, None))

    def test_last_times(self):
        rows, _ = self.table(REPORT.replace("recover track", "last track 3\nlast gs none\nrecover track"), "kinds")
        found = [(row["time"], row["kind"], row["last_time"], row["last"]) for row in csv.DictReader(rows) if row["last_time"]]
        self.assertEqual(found, [("10", "track", "found", "3"), ("10", "gs", "none", "")])

    def test_last_times_in_their_columns_and_as_changes(self):
        """0 is found. One that falls is no change, and one that is found no more is."""
        one = moment(0, 1).replace("done", "last track 3\nlast gs 0\nlast vs none\ndone")
        two = moment(1, 1).replace("done", "last track 2\nlast gs none\nlast vs none\ndone")
        rows, _ = self.table(one + two, "kinds")
        self.assertEqual(rows[0], "encounter,time,kind,bands,answer,lower,upper,recovery,after,value,last_time,last,changed,incomplete")
        self.assertEqual([row.split(",keep,")[1] for row in rows[1:]], [",,,,,found,3,new,", ",,,,,found,0,new,", ",,,,,none,,new,", ",,,,,,,new,",
                                                                       ",,,,,found,2,,", ",,,,,none,,last_time,", ",,,,,none,,,", ",,,,,,,,"])

    def test_encounters_and_what_is_new_in_them(self):
        """The times 0 1 | 0 | 100 with a pause of 50: an encounter's first rows are new, and B's at time 1."""
        text = moment(0, 1) + moment(1, 1, 0) + moment(0, 1, 0) + moment(100, 2, 0)
        rows, _ = self.table(text, "aircraft")
        self.assertEqual([",".join((row["encounter"], row["aircraft"], row["changed"])) for row in csv.DictReader(rows)],
                         ["1,A,new", "1,A,", "1,B,new", "2,A,new", "2,B,new", "2,A,alert", "2,B,"])
        rows, _ = self.table(moment(0, 1, 0) + moment(1, 1, None) + moment(2, 1, 0), "aircraft")
        self.assertEqual(rows[-1], "1,2,B,0,0,,,new,")
        rows, _ = self.table(text, "aircraft", "--pause", "50")
        self.assertEqual([row["encounter"] for row in csv.DictReader(rows)], ["1", "1", "1", "2", "2", "3", "3"])

    def test_what_is_no_report_and_a_report_that_was_cut(self):
        for text, part in (("hello\n", "line 1 is no line of a report there: 'hello'"), ("", "it is empty")):
            status, _, said = self.tool("table", "kinds", self.write("a.report", text))
            self.assertEqual(status, 4)
            self.assert_one_line(said, part)
        rows, said = self.table(moment(0, 1) + "moment 1\n", "aircraft")
        self.assertEqual(len(rows), 2)
        self.assert_one_line(said, "the report ends within a moment")
        self.assertEqual((self.tool("table", "kinds", "nothing")[0], self.tool("table", "tracks")[0]), (7, 2))


class SteadyAlerts(ToolTest):
    def levels(self, text, *words):
        """The steady levels by aircraft, in the order of the moments; the other lines are the report's."""
        status, out, said = self.tool("steady", *words, self.write("a.report", text))
        self.assertEqual((status, said), (0, ""))
        added = [line for line in out.splitlines() if line.startswith("steady ")]
        self.assertEqual("".join(f"{line}\n" for line in out.splitlines() if line not in added), text)
        return {name: [int(line.split()[2]) for line in added if line.split()[1] == name] for name in sorted({line.split()[1] for line in added})}

    def test_two_of_four(self):
        """A: 3 | 3 1 -> two had 1 or more | 3 1 0 | 3 1 0 0 | 1 0 0 2 -> two had 1 | 0 0 2 2 -> 2."""
        text = "".join(moment(time, level) for time, level in enumerate((3, 1, 0, 0, 2, 2)))
        self.assertEqual(self.levels(text, "--m", "2", "--n", "4", "--hold", "0"), {"A": [0, 1, 1, 1, 1, 2]})

    def test_a_level_is_kept(self):
        """One of one, kept 2 s: 3 at 0 s stands until 2 s, then what is so at 3 s, and the 2 of 4 s until 6 s."""
        text = "".join(moment(time, level) for time, level in enumerate((3, 0, 0, 1, 2, 0, 0, 0)))
        self.assertEqual(self.levels(text, "--m", "1", "--n", "1", "--hold", "2"), {"A": [3, 3, 3, 1, 2, 2, 2, 0]})

    def test_each_aircraft_by_itself_and_one_that_is_not_there(self):
        """B is not there at 1 s and counts as 0 then; two of two."""
        text = moment(0, 0, 2) + moment(1, 3, None) + moment(2, 3, 2) + moment(3, 0, 2)
        self.assertEqual(self.levels(text, "--m", "2", "--n", "2", "--hold", "0"), {"A": [0, 0, 3, 0], "B": [0, 0, 2]})

    def test_an_encounter_begins_with_nothing(self):
        text = moment(0, 3) + moment(1, 3) + moment(0, 3) + moment(1, 3)
        self.assertEqual(self.levels(text, "--m", "2", "--n", "2", "--hold", "9"), {"A": [0, 3, 0, 3]})

    def test_what_is_taken_where_nothing_is_said(self):
        """Two of four moments, and 5 s: 3 counts from 3 s on, was so last at 3 s, and stands until 8 s."""
        text = "".join(moment(time, level) for time, level in enumerate((3, 0, 0, 3, 0, 0, 0, 0, 0, 0)))
        self.assertEqual(self.levels(text), {"A": [0, 0, 0, 3, 3, 3, 3, 3, 3, 0]})

    def test_a_moment_is_passed_on_at_once(self):
        """The lines of the first moment come while the second is not yet written."""
        buffered = {name: value for name, value in os.environ.items() if name != "PYTHONUNBUFFERED"}
        run = subprocess.Popen([sys.executable, "-B", os.path.join(TOP, "tools", "steady"), "--m", "1"], stdin=subprocess.PIPE,
                               stdout=subprocess.PIPE, text=True, env=buffered)
        self.addCleanup(run.stdout.close)
        self.addCleanup(run.kill)
        run.stdin.write(moment(7, 2))
        run.stdin.flush()
        found, ready = [], select.select([run.stdout], [], [], 60)[0]
        self.assertTrue(ready, "nothing came within a minute")
        while not found or not found[-1].startswith("done"):
            found.append(run.stdout.readline())
        self.assertIn("steady A 2\n", found)
        run.stdin.close()
        self.assertEqual(run.wait(), 0)

    def test_the_other_tools_read_it(self):
        text = moment(0, 3, 0) + "refused 7 3\n" + moment(1, 3, 0)
        out = self.tool("steady", "--hold", "0", self.write("a.report", text))[1]
        rows = self.tool("table", "aircraft", self.write("b.report", out))[1].splitlines()
        self.assertEqual(rows[1:], ["1,0,A,0,3,5,0,new,", "1,0,B,0,0,,0,new,", "1,1,A,0,3,5,3,steady,refused 7 3", "1,1,B,0,0,,0,,refused 7 3"])
        self.assertEqual(self.tool("compare", "a.report", "b.report")[0], 7)
        self.assertEqual(self.tool("compare", f"{self.folder}/a.report", f"{self.folder}/b.report")[0], 0)

    def test_refusals(self):
        for words in (["--m", "3", "--n", "2"], ["--hold", "-1"], ["--m", "0"]):
            self.assertEqual(self.tool("steady", *words, given=REPORT)[:2], (2, ""))
        status, _, said = self.tool("steady", given="moment 0\nhello\n")
        self.assertEqual(status, 4)
        self.assert_one_line(said, "line 2 is no line of a report there")
        status, out, said = self.tool("steady", given=moment(0, 1) + "moment 1\nnow A 0\n")
        self.assertEqual((status, out.count("steady")), (0, 1))
        self.assert_one_line(said, "the report ends within a moment")


if __name__ == "__main__":
    unittest.main()
