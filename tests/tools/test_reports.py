"""Reports and their readers: tools/summary and tools/compare, on reports written by hand."""
import io
import os
import re
import signal
import subprocess
import sys
import tempfile
import time
import unittest
import unittest.mock

from common import TOP, ToolTest, module, program
from daidalus_files import Band, encounters_of, parsed, read_report

import progress

compare = module("tools/compare")

# What is in tools/ and makes a part of the repository: no page for users names it.
MAKERS = {"made", "trust", "build", "install", "package", "page_module", "prove"}
IN_NODE = {"replay"}
# It writes nothing on standard output, and ends with its input.
SERVERS = {"show_live"}
# For makers of flight software: it reads an archive, and has statuses of its own.
OF_ARCHIVES = {"stack"}


def tools_for_users():
    """The names of the scripts in tools/ that are for users."""
    return {it.name for it in os.scandir(os.path.join(TOP, "tools")) if it.is_file() and not it.name.endswith(".py")} - MAKERS


KEEP = "resolve gs down keep up keep\nresolve vs down keep up keep\nresolve alt down keep up keep\n"
TOOLS = ("agree", "check", "compare", "draw", "encounters", "from_daa", "from_parameters", "from_sbs", "geojson", "judge_session", "moments", "reference", "steady", "study", "summary",
         "table", "volume")
# A line, and one that may not follow it, since its moment has such a line already.
TWICE = (("alert A 2 43", "now A 1"), ("alert A 2 43", "alert A 2 43"), ("recover track 12 40", "resolve gs down keep up keep"),
         ("recover track 12 40", "recover track none"), ("alert A 2 0", "steady A 1\nsteady A 2"), ("recover track 12 40", "last gs 1\nlast gs none"))
# Two moments, with a refused line between them: A alerts, and violates at the second one; no track is left there.
REPORT = ("moment 0\nnow A 0\nalert A 2 43\ntrack 0 5 3\ntrack 10 180 0\ntrack 185 355 3\ngs 500 7000 0\nvs 0 0 0\nalt 0 9000 0\n"
          "alt 9500 10500 1\nalt 11000 50000 0\nresolve track left none right 10\n" + KEEP + "done 0\nrefused 9 6\n"
          "moment 10\nnow A 1\nalert A 2 0\ntrack 0 355 3\ngs 500 7000 0\nvs 0 0 0\nalt 0 50000 0\nresolve track left none right none\n"
          + KEEP + "recover track 12 40\ndone 10\n")
NO_REPORTS = (("", "it is empty"), ("hello\n", "line 1 is no line of a report there: 'hello'"), ("done 0\n", "line 1"),
              ("moment 0\nmoment 1\n", "line 2"), (REPORT.replace("\n", "\r\n"), "a carriage return stands at its end"),
              (REPORT.encode("utf-16"), "the text is in UTF-16"),
              ("moment 0\ndone 0\n", "line 2 ends a moment that is not whole"), ("moment 0\nalert A 0 -\n", "line 2 is of A, of which no line"),
              ("moment 0\nnow A 0\nsteady B 0\n", "line 3 is of B, of which no line"),
              ("moment 0\ntrack 5 0 1\n", "line 2 does not rise"), ("moment 0\ntrack 0 5 1\ntrack 5 9 0\n", "line 3 does not rise"),
              ("config 3\n", "line 1 is no line of a report there: 'config 3'; the configuration was refused, and tools/check says why"),
              ("format 2\nmoment 0\n", "these are state lines, of which ./daidalus replay makes a report"), ("moment", "no whole line"),
              ("# a comment\nmoment 0\n", "a report has no comments, and of state lines ./daidalus replay makes one"),
              (REPORT.replace("done 0", "done 1"), "line 16 ends a moment that is not whole: 'done 1'"),
              (REPORT.replace("gs 500 7000", f"gs 500 {'9' * 5000}"), "line 7 is no line of a report there"),
              (f"moment {'1' * 5000}\n", "line 1 is no line"), (f"refused {'1' * 5000} 3\n", "line 1 is no line"),
              ("moment 0\ngs 3000 700000000000000000000 0\n", "line 2 is no line"),
              (f"moment 0\nnow {'A' * 59} 0\n", "line 2 is no line"), (f"moment 0\nnow {'A' * 60} 0{'1' * 9}\n", "line 2 is no line"),
              *((REPORT.replace(f"{line}\n", f"{line}\n{more}\n"), f"occurs twice in its moment: {' '.join(more.split()[:2])}\n") for line, more in TWICE),
              ("x" * 99, "line 1 is no line of a report there: 'xxx"), (f"# {'x' * 99}\n", "a report has no comments"))


class Makers(ToolTest):
    def test_what_page_module_writes_has_a_folder(self):
        """That is looked at before anything is built: here is no toolchain."""
        words = [sys.executable, "-B", os.path.join(TOP, "tools", "page_module"), "--to", os.path.join(self.folder, "none", "x")]
        run = subprocess.run(words, env={"PATH": self.folder}, capture_output=True, text=True, timeout=120)
        self.assertEqual((run.returncode, run.stdout), (1, ""))
        self.assert_one_line(run.stderr, f"page_module: there is no folder {self.folder}/none\n")
        run = subprocess.run([*words[:-1], self.folder], env={"PATH": self.folder}, capture_output=True, text=True, timeout=120)
        self.assertEqual((run.returncode, run.stdout), (1, ""))
        self.assert_one_line(run.stderr, f"page_module: {self.folder} is a folder\n")

    def test_an_interrupt_leaves_no_trace(self):
        """Here it comes while `rt doc` runs."""
        os.chmod(self.write("rt", "#!/bin/sh\nkill -INT $PPID\nexec /bin/sleep 9\n"), 0o755)
        words = [sys.executable, "-B", os.path.join(TOP, "tools", "page_module"), "--to", os.path.join(self.folder, "x")]
        run = subprocess.run(words, env={"PATH": self.folder}, capture_output=True, text=True, timeout=120,
                             preexec_fn=lambda: signal.signal(signal.SIGINT, signal.SIG_DFL))
        self.assertEqual((run.returncode, run.stdout, run.stderr), (130, "", ""))


class Reports(ToolTest):
    def setUp(self):
        super().setUp()
        self.report = self.write("a.report", REPORT)

    def tool(self, name, *words, given=""):
        """What a tool says. That a moment is incomplete, which test_incomplete looks at, is left out of a comparison."""
        status, out, said = super().tool(name, *words, given=given)
        lines = [line for line in out.splitlines(True) if name != "compare" or " incomplete, " not in line]
        return status, "".join(lines), said

    def test_says_what_is_no_report(self):
        for text, part in NO_REPORTS:
            path = self.write("b.report", text)
            for words in (["summary", path], ["draw", path], ["compare", self.report, path]):
                status, out, said = self.tool(*words)
                self.assertEqual((status, out), (4, ""), (words, text))
                self.assert_one_line(said, part)
        self.assertEqual([self.tool(*words)[0] for words in (["summary", "x"], ["draw", "x"], ["compare", "x", "y"])], [7, 7, 7])

    def test_a_name_is_an_identifier(self):
        """Else what is no character of a text would go into pictures and tables."""
        for line in ("now {} 1", "alert {} 2 43", "steady {} 1"):
            for name, is_taken in (("Az_-0189", True), ("A" * 9, False), ("A\x01B", False), ("\u00e9", False), ("\udce9", False), ("A&B", False)):
                self.assertEqual(parsed(line.format(name)) is not None, is_taken, (line, name))
        status, out, said = self.tool("draw", self.write("b.report", REPORT.encode().replace(b"now A 0", b"now A\xe9 0")))
        self.assertEqual((status, out), (4, ""))
        self.assert_one_line(said, "line 2 is no line of a report there")

    def test_a_name_that_is_empty_is_of_no_file(self):
        """As a variable of a shell that has no value gives one: it is not as if the word were left out."""
        config = os.path.join(TOP, "examples", "three_levels.toml")
        for words in (["summary", ""], ["compare", self.report, ""], ["draw", "--states", "", self.report], ["check", ""],
                      ["check", "--advice", config, ""], ["from_daa", ""]):
            status, out, said = self.tool(*words)
            self.assertEqual((status, out), (7, ""), words)
            self.assert_one_line(said, f"{words[0]}: a file without a name: No such file or directory\n")

    def test_a_file_is_told_in_one_line_whatever_its_name(self):
        for words in (["summary"], ["draw"], ["check"], ["from_daa"]):
            self.assertEqual(self.tool(*words, "a\nb\x1b[1m"), (7, "", f"{words[0]}: a\\nb\\x1b[1m: No such file or directory\n"))

    def test_a_report_that_was_cut(self):
        path = self.write("b.report", REPORT[:-20])
        status, out, said = self.tool("summary", path)
        self.assertEqual((status, out.splitlines()[0]), (1, "1 moment, 0 s; refused lines: 1"))
        self.assert_one_line(said, "the report ends within a moment")
        self.assertEqual(self.tool("compare", path, path)[0], 0)
        status, _, said = self.tool("compare", self.report, path)
        self.assertEqual(status, 1)
        self.assert_one_line(said, f"compare: {path}: the report ends within a moment, which is left out\n")
        status, out, said = self.tool("compare", self.report, self.write("c.report", REPORT + "moment 20\n"))
        self.assertEqual((status, "moment 20" in out), (1, False))
        self.assert_one_line(said, "the report ends within a moment")

    def test_summary(self):
        status, out, said = self.tool("summary", self.report)
        self.assertEqual((status, said), (1, ""))
        self.assertEqual(out.splitlines(), [
            "incomplete: 1 moment, 10 s: what they lack is not known, so no answer of theirs counts that is open",
            "2 moments, 0 to 10 s; refused lines: 1", "A: level 2 alerted at 2 moments, 0 to 10 s", "A: level 1 violated at 1 moment, 10 s",
            "track: answer none at 1 moment, 10 s", "track: answer upper at 1 moment, 0 s", "track: recovery found at 1 moment, 10 s",
            *[f"{kind}: answer {answer}" for kind in ("gs", "vs", "alt") for answer in ("incomplete at 1 moment, 10 s", "keep at 1 moment, 0 s")], "refused with code 6: 1 line, line 9"])

    def test_a_moment_counts_for_its_greatest_level_alone(self):
        """And the help says so."""
        out = self.tool("summary", self.write("b.report", REPORT.replace("now A 0", "now A 3")))[1]
        self.assertLessEqual({"A: level 1 violated at 1 moment, 10 s", "A: level 3 violated at 1 moment, 0 s"}, set(out.splitlines()))
        self.assertIn("`now`, the greatest level that it violates", self.tool("summary", "--help")[1])

    def test_summary_as_a_table(self):
        status, out, _ = self.tool("summary", "--csv", self.report)
        self.assertEqual(status, 1)
        self.assertEqual(out.splitlines()[:5], ["of,what,value,moments,first,last,encounters", "moment,incomplete,refused,1,10,10,1", "A,alert,2,2,0,10,1", "A,now,1,1,10,10,1",
                                                "track,answer,none,1,10,10,1"])
        self.assertEqual(out.splitlines()[-1], "input,refused,6,1,9,9,")

    def test_summary_tells_the_least_and_the_greatest(self):
        """Of the times, also where the last moment has not the greatest, and of the numbers of refused lines."""
        report = self.write("b.report", REPORT + "refused 12 6\n" + REPORT.split("refused")[0])
        out = self.tool("summary", "--csv", report)[1].splitlines()
        self.assertLessEqual({"A,alert,2,3,0,10,2", "gs,answer,keep,1,0,0,1", "gs,answer,incomplete,2,0,10,2", "input,refused,6,2,9,12,"}, set(out))
        self.assertEqual(self.tool("summary", report)[1].splitlines()[-1], "refused with code 6: 2 lines, from line 9 to line 12")

    def test_summary_by_encounter(self):
        """Two reports end to end: in the first A alerts twice, in the second once; the second begins at time 0 again."""
        report = self.write("b.report", REPORT + REPORT.split("refused")[0])
        status, out, said = self.tool("summary", report)
        self.assertEqual((status, said), (1, ""))
        self.assertEqual(out.splitlines()[1:4], [
            "3 moments in 2 encounters; refused lines: 1", "A: level 2 alerted at 3 moments of 2 encounters",
            "A: level 1 violated at 1 moment of 1 encounter"])
        out = self.tool("summary", "--encounters", report)[1].splitlines()
        at = out.index("encounter 1: 2 moments, 0 to 10 s")
        self.assertEqual(out[at + 1].split(":")[0], "  incomplete")
        self.assertEqual(out[at + 2:at + 4], ["  A: level 2 alerted at 2 moments, 0 to 10 s", "  A: level 1 violated at 1 moment, 10 s"])
        at = out.index("encounter 2: 1 moment, 0 s")
        self.assertEqual(out[at + 1:], ["  A: level 2 alerted at 1 moment, 0 s", "  track: answer upper at 1 moment, 0 s",
                                        *[f"  {kind}: answer keep at 1 moment, 0 s" for kind in ("gs", "vs", "alt")]])
        out = self.tool("summary", "--encounters", "--csv", report)[1].splitlines()
        self.assertEqual([row for row in out if ",A," in row],
                         ["1,A,alert,2,2,0,10,1", "1,A,now,1,1,10,10,1", "2,A,alert,2,1,0,0,1"])
        self.assertEqual(out[-1], ",input,refused,6,1,9,9,")

    def test_encounters_begin_where_times_fall_or_after_a_pause(self):
        """The times 0 10 | 0 | 0 1 5 | 5; with a pause of 4 also before 10 and 5."""
        moments = [type("At", (), {"time": time}) for time in (0, 10, 0, 0, 1, 5, 5)]
        self.assertEqual([[at.time for at in each] for each in encounters_of(moments)], [[0, 10], [0], [0, 1, 5], [5]])
        self.assertEqual([[at.time for at in each] for each in encounters_of(moments, 4)], [[0], [10], [0], [0, 1], [5], [5]])
        status, out, said = self.tool("summary", "--pause", "0", self.report)
        self.assertEqual((status, out), (2, ""))
        self.assertIn("0 is no whole number from 1 to 9999999999", said)

    def test_last_times_are_read(self):
        text = REPORT.replace("recover track", "last track 3\nlast gs none\nrecover track")
        report = read_report(self.write("b.report", text))
        self.assertEqual([moment.last for moment in report.moments], [{}, {"track": 3, "gs": None}])
        out = self.tool("summary", self.write("b.report", text))[1].splitlines()
        self.assertLessEqual({"track: last time found at 1 moment, 10 s", "gs: last time none at 1 moment, 10 s"}, set(out))
        out = self.tool("compare", self.report, self.write("b.report", text))[1].splitlines()
        self.assertEqual(out[:2], ["moment 10 last track: - and 3", "moment 10 last gs: - and none"])
        self.assertLessEqual({"last track: 1 of 1 differ, 100.0 % (1 by nothing/a value)"}, set(out))

    def test_a_last_time_of_0_is_found(self):
        """Of any kind. One of none is another, and a number below 0 is none of a report."""
        text = REPORT.replace("recover track", "last track 0\nlast gs 0\nlast vs none\nlast alt 0\nrecover track")
        report = self.write("b.report", text)
        self.assertEqual(read_report(report).moments[1].last, {"track": 0, "gs": 0, "vs": None, "alt": 0})
        out = [line for line in self.tool("summary", report)[1].splitlines() if "last time" in line]
        self.assertEqual(out, [f"{kind}: last time {value} at 1 moment, 10 s"
                               for kind, value in (("track", "found"), ("gs", "found"), ("vs", "none"), ("alt", "found"))])
        out = self.tool("compare", report, self.write("c.report", text.replace("last gs 0", "last gs none").replace("alt 0\n", "alt 7\n")))
        self.assertEqual(out[1].splitlines()[:2], ["moment 10 last gs: 0 and none", "moment 10 last alt: 0 and 7"])
        status, _, said = self.tool("summary", self.write("c.report", text.replace("last gs 0", "last gs -1")))
        self.assertEqual(status, 4)
        self.assert_one_line(said, "is no line of a report there: 'last gs -1'")

    def test_compare_tells_each_difference(self):
        other = (REPORT.replace("alert A 2 43", "alert A 3 40").replace("track 10 180 0\ntrack 185 355 3", "track 10 190 0\ntrack 195 355 3")
                 .replace("right 10", "right 15").replace("recover track 12 40", "recover track none").replace("refused 9 6", "refused 9 4")
                 .replace("now A 1", "now A 0"))
        status, out, said = self.tool("compare", self.report, self.write("b.report", other))
        self.assertEqual((status, said), (1, ""))
        self.assertEqual(out.splitlines(), [
            "moment 0 A alert: 2 and 3", "moment 0 A first second: 43 and 40", "moment 0 track 185 to 190: 3 and 0",
            "moment 0 resolve track right: 10 and 15", "moment 10 A now: 1 and 0", "moment 10 recover track: 12 40 and none",
            "line 9 refused: 6 and 4",
            "moment: 0 of 2 differ", "aircraft: 0 of 2 differ", "now: 1 of 2 differ, 50.0 % (1 by -1)",
            "alert: 1 of 2 differ, 50.0 % (1 by +1)", "first second: 1 of 2 differ, 50.0 % (1 by -3)",
            "track: 2 of 144 differ, 1.4 % (2 by -3)", "gs: 0 of 2 differ", "vs: 0 of 2 differ",
            "alt: 0 of 202 differ", "resolve track: 1 of 4 differ, 25.0 % (1 by +5)", "resolve gs: 0 of 4 differ",
            "resolve vs: 0 of 4 differ", "resolve alt: 0 of 4 differ", "recover track: 1 of 1 differ, 100.0 % (1 by a value/none)",
            "refused: 1 of 1 differ, 100.0 % (1 by 6/4)"])

    def test_compare_tells_what_one_lacks(self):
        other = REPORT.replace("now A", "now B").replace("alert A", "alert B")
        other = other.replace("moment 10\n", "moment 11\n").replace("done 10", "done 11")
        status, out, _ = self.tool("compare", self.report, self.write("b.report", other))
        self.assertEqual(status, 1)
        self.assertEqual(out.splitlines()[:4], ["moment 0 A: only in the first", "moment 0 B: only in the second",
                                                "moment 10: only in the first", "moment 11: only in the second"])

    def test_compare_tells_of_a_moment_beside_a_report_without_any(self):
        one, other = self.write("b.report", "refused 9 6\n"), self.write("c.report", "refused 9 6\n" + REPORT.split("refused")[0])
        for words, which in (([one, other], "second"), ([other, one], "first")):
            status, out, _ = self.tool("compare", *words)
            self.assertEqual((status, out.splitlines()[0]), (1, f"moment 0: only in the {which}"))

    def test_compare_tells_each_refused_line_of_reports_put_end_to_end(self):
        """Line numbers begin anew."""
        one, other = (self.write(name, f"refused 1 {code}\n" + REPORT + "refused 1 4\n" + REPORT) for name, code in (("b.report", 2), ("c.report", 3)))
        status, out, _ = self.tool("compare", one, other)
        self.assertEqual(status, 1)
        self.assertEqual([line for line in out.splitlines() if "refused" in line],
                         ["line 1 refused: 2 and 3", "refused: 1 of 4 differ, 25.0 % (1 by 2/3)"])

    def test_compare_tells_where_one_band_ends(self):
        """Of ground speeds no report has two bands; of tracks the greatest is on no step of 5 degrees."""
        one = REPORT.split("refused")[0]
        for old, new, line, total in (("gs 500 7000 0", "gs 500 6000 0", "gs 7000: 0 and -", "gs: 1 of 2 differ"),
                                      ("gs 500 7000 0", "gs 600 7000 0", "gs 500: 0 and -", "gs: 1 of 2 differ"),
                                      ("gs 500 7000 0", "gs 500 500 0", "gs 7000: 0 and -", "gs: 1 of 2 differ"),
                                      ("gs 500 7000 0", "gs 500 7000 1", "gs 500 to 7000: 0 and 1", "gs: 1 of 1 differ"),
                                      ("gs 500 7000 0\n", "", "gs 500 to 7000: 0 and -", "gs: 1 of 1 differ"),
                                      ("track 185 355 3", "track 185 357 3", "track 357: - and 3", "track: 1 of 73 differ")):
            status, out, _ = self.tool("compare", self.write("b.report", one), self.write("c.report", one.replace(old, new)))
            self.assertEqual((status, out.splitlines()[0]), (1, f"moment 0 {line}"))
            self.assertIn(f"\n{total}", out)

    def test_compare_tells_of_steady_levels(self):
        """Where both reports have them; so one to which they were added says what it said before."""
        steady = self.write("b.report", REPORT.replace("alert A 2 43\n", "alert A 2 43\nsteady A 1\n"))
        other = self.write("c.report", REPORT.replace("alert A 2 43\n", "alert A 2 43\nsteady A 2\n"))
        status, out, _ = self.tool("compare", steady, other)
        self.assertEqual((status, out.splitlines()[0]), (1, "moment 0 A steady: 1 and 2"))
        self.assertIn("\nfirst second: 0 of 2 differ\nsteady: 1 of 1 differ, 100.0 % (1 by +1)\ntrack: 0 of", out)
        for one in (steady, self.report):
            status, out, _ = self.tool("compare", one, one if one == steady else steady)
            self.assertEqual((status, "steady: 0 of 1 differ\n" in out, "steady" in out), (0, one == steady, one == steady))

    def test_compare_takes_the_finer_steps(self):
        """Of steps of 5 and of 10 degrees the candidates are those of 5; the second report tells nothing of the first gap."""
        other = REPORT.replace("track 0 5 3\ntrack 10 180 0\ntrack 185 355 3", "track 0 0 3\ntrack 10 180 0\ntrack 190 350 3")
        status, out, _ = self.tool("compare", self.report, self.write("b.report", other))
        self.assertEqual(status, 1)
        self.assertEqual(out.splitlines()[:3], ["moment 0 track 5: 3 and -", "moment 0 track 185: 3 and -", "moment 0 track 355: 3 and -"])

    def test_compare_takes_encounters_one_by_one(self):
        """Two reports end to end have their moments 0 each; a difference in the first one's is told, and of which it is."""
        other = REPORT.replace("alert A 2 43", "alert A 1 43", 1)
        one, other = self.write("b.report", REPORT + REPORT), self.write("c.report", other + REPORT)
        status, out, said = self.tool("compare", one, other)
        self.assertEqual((status, said), (1, ""))
        self.assertEqual(out.splitlines()[:2], ["encounter 1 moment 0 A alert: 2 and 1", "moment: 0 of 4 differ"])
        self.assertEqual(self.tool("compare", one, one)[0], 0)

    def test_compare_refuses_other_numbers_of_encounters(self):
        one = self.write("b.report", REPORT + REPORT)
        for words in ([one, self.report], [self.report, one]):
            status, out, said = self.tool("compare", *words)
            self.assertEqual((status, out), (4, ""))
            self.assert_one_line(said, f"times begin anew on line {REPORT.count(chr(10)) + 1}")

    def test_totals_go_by_size(self):
        totals = compare.Totals()
        for one, other in ((0, 3), (3, 0), (1, 0), (0, 1), (2, 0), (1, None), ("none", 4)):
            totals.note("alert", one, other)
        totals.note("alert", 1, 1, count=9993)
        self.assertEqual(list(totals.lines()), ["alert: 7 of 10000 differ, less than 0.1 % (1 by -1, 1 by +1, 1 by -2, 1 by -3, 1 by +3, "
                                                "1 by a value/nothing, 1 by none/a value)"])

    def test_of_many_sizes_the_greatest_are_told_together(self):
        """-1 to 10 are eleven sizes: eight are told, and then 8, 9 and 10, twice each, as 6."""
        totals = compare.Totals()
        for by in (-1, *range(1, 11)):
            totals.note("first second", 20, 20 + by, count=2)
        totals.note("first second", 20, None)
        self.assertEqual(list(totals.lines()), ["first second: 23 of 23 differ, 100.0 % (2 by -1, 2 by +1, 2 by +2, 2 by +3, 2 by +4, 2 by +5, "
                                                "2 by +6, 2 by +7, 6 by 8 or more, 1 by a value/nothing)"])

    def test_comparing_takes_at_most_three_times_what_reading_takes(self):
        """Of two reports of 1200 moments, of which each third differs; the processor's time, the least of five, with a little more for the start."""
        one = "".join(REPORT.split("refused")[0].replace("moment 0", f"moment {time}").replace("done 0", f"done {time}").replace("43", str(time % 50))
                      for time in range(1200))
        other = re.sub(r"(moment \d*[036]\n(?:.*\n){2}track 0) 5 3\ntrack 10 180 0", r"\1 15 3\ntrack 20 180 0", one)
        paths = [self.write("b.report", one), self.write("c.report", other)]
        reading, comparing = [], []
        for _ in range(5):
            began = time.process_time()
            reports = [read_report(path) for path in paths]
            reading.append(time.process_time() - began)
            found = list(compare.differences(reports, compare.paired_encounters(paths, reports), compare.Totals()))
            self.assertGreater(len(found), 300)
            comparing.append(time.process_time() - began)
        self.assertLessEqual(min(comparing), 3 * min(reading) + 0.1)

    def test_an_answer_beyond_north_differs_by_the_turn(self):
        one, other = REPORT.replace("right 10", "right 355"), REPORT.replace("right 10", "right 5")
        out = self.tool("compare", self.write("b.report", one), self.write("c.report", other))[1].splitlines()
        self.assertIn("resolve track: 1 of 4 differ, 25.0 % (1 by +10)", out)

    def test_turns_go_the_short_way(self):
        self.assertEqual([compare.turn(*pair) for pair in ((10, 15), (15, 10), (355, 5), (5, 355), (0, 180), (0, 185))],
                         [5, -5, 10, -10, 180, -175])

    def test_runs_of_two_lists_of_bands(self):
        """Steps of 5: 0 5 | 10 | 15 20 with levels (3, 3), (0, 3), (0, 1); then 25, which the second list has not."""
        one, other = [Band(0, 5, 3), Band(10, 25, 0)], [Band(0, 10, 3), Band(15, 20, 1)]
        self.assertEqual(list(compare.common_runs(one, other, 5)),
                         [(0, 5, (3, 3)), (10, 10, (0, 3)), (15, 20, (0, 1)), (25, 25, (0, None))])

    def test_standard_input_is_one_file(self):
        """Also where its name is left out; and a title may be as it is written."""
        for words in (("compare", "-", "-"), ("check", "-", "-"), ("check", "--advice", "-", "-"), ("reference", "-", "-"), ("reference", "-"),
                      ("draw", "--states", "-", "-"), ("draw", "--states", "-")):
            status, out, said = self.tool(*words, given=REPORT)
            self.assertEqual((status, out), (2, ""), words)
            self.assertIn("standard input is one file and not two\n", said)
        self.assertEqual(self.tool("draw", "--title", "-", given=REPORT)[0], 1)

    def test_compare_finds_no_difference_in_one_report(self):
        status, out, _ = self.tool("compare", self.report, self.report)
        self.assertEqual(status, 0)
        self.assertNotIn("moment 0", out)


class Pipes(unittest.TestCase):
    def test_a_reader_that_goes_away_is_no_trace(self):
        words = [os.path.join(TOP, "tools", "moments"), "--seed", "1", "--moments", "9999"]
        run = subprocess.Popen(words, stdout=subprocess.PIPE, stderr=subprocess.PIPE)
        run.stdout.close()
        said = run.stderr.read()
        run.stderr.close()
        self.assertEqual((run.wait(), said), (5, b""))

    def test_an_output_that_cannot_be_written_is_one_line(self):
        """A full disk, with much output and with little; and an output or an input that is closed."""
        moments = "tools/moments --seed 1 --moments"
        for words, status, said in ((f"{moments} 9999 >/dev/full", 5, "moments: the output: No space left on device\n"),
                                    (f"{moments} 1 >/dev/full", 5, "moments: the output: No space left on device\n"),
                                    (f"{moments} 1 >&-", 5, "moments: standard output is closed\n"),
                                    ("tools/summary <&-", 7, "summary: standard input is closed\n"),
                                    ("tools/check examples/three_levels.toml - <&-", 7, "check: standard input is closed\n"),
                                    ("tools/summary nothing 2>&-", 7, ""), ("tools/summary nothing 2>/dev/full", 7, "")):
            run = subprocess.run(["sh", "-c", words], cwd=TOP, capture_output=True, text=True)
            self.assertEqual((run.returncode, run.stdout, run.stderr), (status, "", said), words)

    def test_an_output_that_is_cut_short_is_an_error(self):
        """A file may have 1024 bytes here, and Python does not hold back what is written, as in many containers; then a write takes a
        part and says so, and what was left was lost without a word."""
        encounter, config = "examples/encounter.states", "examples/three_levels.toml"
        tools = (("draw REPORT", "table bands REPORT", "steady REPORT", f"volume {config}", "moments --seed 1 --moments 99",
                  "encounters --seed 1 --count 1", f"reference {config} {encounter}", "from_daa examples/recording.daa"))
        with tempfile.TemporaryDirectory() as folder:
            report, cut = os.path.join(folder, "a.report"), os.path.join(folder, "cut")
            with open(report, "w", encoding="utf-8") as file:
                file.write("".join(REPORT.replace("moment 0", f"moment {time}").replace("done 0", f"done {time}").split("refused")[0] for time in range(9)))
            for words in tools:
                run = subprocess.run(["bash", "-c", f"ulimit -f 1; exec tools/{words.replace('REPORT', report)} >{cut}"], cwd=TOP, capture_output=True, text=True,
                                     env={**os.environ, "PYTHONUNBUFFERED": "1", "PYTHONDONTWRITEBYTECODE": "1"})  # a cached module would be cut too
                self.assertEqual((run.returncode, os.path.getsize(cut)), (5, 1024), words)
                self.assertTrue(run.stderr.endswith(f"{words.split()[0]}: the output: File too large\n"), run.stderr)

    def test_progress_is_shown_on_a_terminal_alone(self):
        """Here after no second at all: the line is erased before the tool ends, and nothing of it is written to a pipe."""
        begin = f"import progress, runpy, sys; progress.AFTER = 0; sys.argv = ['summary', '{{}}']; runpy.run_path('{TOP}/tools/summary', run_name='__main__')"
        with tempfile.TemporaryDirectory() as folder:
            report = os.path.join(folder, "a.report")
            with open(report, "w", encoding="utf-8") as file:
                file.write(REPORT)
            words = [sys.executable, "-B", "-c", begin.format(report)]
            environment = {**os.environ, "PYTHONPATH": os.path.join(TOP, "tools")}
            above, below = os.openpty()
            run = subprocess.run(words, env=environment, stdin=subprocess.DEVNULL, stdout=subprocess.PIPE, stderr=below)
            os.close(below)
            said = os.read(above, 1 << 16).decode()
            os.close(above)
            self.assertEqual(run.returncode, 1)
            self.assertEqual(said, "\r\x1b[Ksummary: bytes of the report: 100 %\r\x1b[K")
            run = subprocess.run(words, env=environment, stdin=subprocess.DEVNULL, capture_output=True)
            self.assertEqual((run.returncode, run.stderr), (1, b""))

    def test_progress_goes_on_once_all_is_read(self):
        """Of tools that work long after that: here after no second at all, and each line is erased before the tool ends."""
        states = "format 2\n" + "".join(f"moment {time}\n# origin 52.0 4.0 0.0\nown 0 0 10000 0 3600 0\ntraffic A 0 5000 10300 0 0 0 0\nend\n" for time in (0, 10))
        works = {"draw": ["alerts of aircraft", "places in moments", "heights of aircraft", "ways of aircraft"],
                 "geojson": ["places in moments", "tracks", "closest approaches in moments"], "compare": ["moments compared"]}
        with tempfile.TemporaryDirectory() as folder:
            paths = [os.path.join(folder, name) for name in ("a.states", "a.report")]
            for path, text in zip(paths, (states, REPORT)):
                with open(path, "w", encoding="utf-8") as file:
                    file.write(text)
            for tool, wanted in works.items():
                words = [paths[1]] * 2 if tool == "compare" else ["--states", *paths]
                begin = f"import progress, runpy, sys; progress.AFTER = progress.EVERY = 0; sys.argv = [{tool!r}, *sys.argv[1:]]; runpy.run_path('{TOP}/tools/{tool}', run_name='__main__')"
                above, below = os.openpty()
                run = subprocess.run([sys.executable, "-B", "-c", begin, *words], env={**os.environ, "PYTHONPATH": os.path.join(TOP, "tools")},
                                     stdin=subprocess.DEVNULL, stdout=subprocess.PIPE, stderr=below)
                os.close(below)
                said = os.read(above, 1 << 16).decode()
                os.close(above)
                self.assertIn(run.returncode, (0, 1))
                self.assertTrue(said.endswith("\r\x1b[K"), said)
                shown = [line.split(": ")[1] for line in said.split("\r\x1b[K") if line]
                self.assertEqual([work for work in dict.fromkeys(shown) if work in wanted], wanted)

    def test_progress_waits_for_two_seconds_and_is_not_written_all_the_time(self):
        """By a clock that is set here: nothing at 1.9 s, a line at 2, none at 2.1, and the next at 2.3."""
        now, terminal = [0.0], io.StringIO()
        terminal.isatty = lambda: True
        self.addCleanup(setattr, progress.Shown, "due", None)
        with unittest.mock.patch.multiple(progress.time, monotonic=lambda: now[0]), unittest.mock.patch.object(sys, "stderr", terminal):
            progress.begin("draw")
            for second, part in ((1.9, 1), (2, 2), (2.1, 3), (2.3, 4)):
                now[0] = second
                progress.show("work", part, 10)
            progress.clear()
            progress.clear()
        self.assertEqual(terminal.getvalue(), "\r\x1b[Kdraw: work: 20 %\r\x1b[Kdraw: work: 40 %\r\x1b[K")

    def test_a_line_without_an_end_is_not_read_whole(self):
        """With little memory; the whole line would take all of it."""
        for words in ("tools/summary", "tools/steady", "tools/draw", "tools/table bands"):
            run = subprocess.run(["sh", "-c", f"ulimit -v 500000; {words} </dev/full"], cwd=TOP, capture_output=True, text=True)
            self.assertEqual((run.returncode, run.stdout), (4, ""), run.stderr)
            self.assertRegex(run.stderr, r"^\w+: standard input: line 1 is no line of a report there: '(\\x00){60}'\n$")

    def test_a_files_name_is_written_as_it_is(self):
        """One that is no UTF-8, to an output that is."""
        with tempfile.TemporaryDirectory() as folder:
            name = os.fsencode(folder) + b"/\xff.toml"
            with open(name, "wb") as file:
                file.write(b"x = 1\n")
            run = subprocess.run([os.path.join(TOP, "tools", "check"), name], capture_output=True, env={**os.environ, "PYTHONIOENCODING": "utf-8:strict"})
        self.assertEqual((run.returncode, run.stderr), (3, b""))
        self.assertTrue(run.stdout.startswith(name + b": config 3: x is no key"), run.stdout)

    def test_an_interrupt_ends_a_tool_by_its_signal(self):
        # (a shell that calls the gate in the background has the signal ignored)
        heard = {"preexec_fn": lambda: signal.signal(signal.SIGINT, signal.SIG_DFL)}
        pipes = {"stdin": subprocess.PIPE, "stdout": subprocess.PIPE, "stderr": subprocess.PIPE}
        run = subprocess.Popen([os.path.join(TOP, "tools", "steady")], **pipes, **heard)
        run.stdin.write(REPORT.split("refused")[0].encode())
        run.stdin.flush()
        self.assertEqual(run.stdout.readline(), b"moment 0\n")
        run.send_signal(signal.SIGINT)
        said = run.communicate()[1]
        self.assertEqual((run.returncode, said), (-signal.SIGINT, b""))

    def test_help_tells_the_statuses(self):
        for tool in TOOLS:
            out = subprocess.run([os.path.join(TOP, "tools", tool), "--help"], env={**os.environ, "COLUMNS": "80"}, capture_output=True, text=True)
            self.assertEqual((out.returncode, out.stderr), (0, ""))
            self.assertRegex(out.stdout, r"\nExit status: 0(.|\n)*\b5 nobody\s+reads", tool)
            self.assertRegex(out.stdout, rf"\n  (\./daidalus .*\| )?tools/{tool} ", tool)
            self.assertLessEqual(max(map(len, out.stdout.splitlines())), 128, tool)

    def test_the_list_of_tools_is_whole(self):
        self.assertEqual(tools_for_users(), {*TOOLS, *IN_NODE, *SERVERS, *OF_ARCHIVES})

    def test_the_program_is_there(self):
        self.assertTrue(os.access(program(), os.X_OK))


if __name__ == "__main__":
    unittest.main()
