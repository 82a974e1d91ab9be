"""What is not known is told: moments that lack a line or an aircraft, and times for which there is no moment."""
import csv
import re
import unittest
from xml.etree import ElementTree

from common import TOP, ToolTest, module  # noqa: F401 (TOP: the path of tools/ is set there)
from test_reports import KEEP, REPORT
from test_table import moment

draw = module("tools/draw")
SVG = "{http://www.w3.org/2000/svg}"
# A report whose second moment stands after a refused line, and its states: the third moment lacks B, and then there is none.
AFTER_REFUSED = moment(0, 1, 1) + "refused 6 5\n" + moment(1, 2) + moment(2, 1) + moment(3, 1, 1)
TRAFFIC = "own 0 0 10000 0 3600 0\ntraffic A 0 5000 10000 0 0 0\n"
LACKING = (f"moment 0\n{TRAFFIC}traffic B 0 3000 10000 0 0 0\nend\nmoment 1\n{TRAFFIC}traffic TOOLONGNAME 0 0 0 0 0 0\nend\n"
           f"moment 2\n# lacks B its report is 12 s old\n{TRAFFIC}end\n# no moment: the recording stops\n"
           f"moment 3\n{TRAFFIC}traffic B 0 3000 10000 0 0 0\nend\n# no moment: the receiver is off\n")


class Gaps(ToolTest):
    """tools/draw: a moment stands for the recording's own step at most."""

    def picture(self, text, *words):
        status, out, said = self.tool("draw", *words, self.write("a.report", text))
        self.assertEqual(said, "")
        return ElementTree.fromstring(out), status

    @staticmethod
    def boxes_of(root, colour):
        """From where to where boxes of a colour go, in each path of it."""
        paths = [path.get("d") for path in root.iter(f"{SVG}path") if path.get("fill") == colour]
        return [[(float(x), round(float(x) + float(width), 1)) for x, width in re.findall(r"M([\d.]+) [\d.]+h([\d.]+)", d)] for d in paths]

    def test_a_gap_is_not_painted_over(self):
        """Moments at 0, 1, 2 and 127, 128 s: from 3 to 127 s of 129 there is none. The alert bar and the bands end there, and it is grey."""
        text = "".join(moment(time, 1) for time in (0, 1, 2, 127, 128))
        root, _ = self.picture(text)
        begin, end = (round(150 + 820 * second / 129, 1) for second in (3, 127))
        for found in self.boxes_of(root, draw.UNKNOWN):
            self.assertEqual(found, [(begin, end)])
        self.assertEqual(len(self.boxes_of(root, draw.UNKNOWN)), 1 + 4)
        for colour in draw.COLOURS[:2]:
            for found in self.boxes_of(root, colour):
                self.assertEqual([*map(tuple, found)], [(150, begin), (end, 970)], colour)
        self.assertIn("no moment", [text.text for text in root.iter(f"{SVG}text")])
        self.assertNotIn("no moment", [text.text for text in self.picture(moment(0, 1) + moment(1, 1))[0].iter(f"{SVG}text")])

    def test_the_step_is_the_median_or_the_one_that_is_named(self):
        """Steps of 1, 1 and 4 s; named as 4 no gap is left, and the last moment stands for 4 s as well."""
        text = "".join(moment(time, 1) for time in (0, 1, 2, 6))
        self.assertEqual(self.boxes_of(self.picture(text)[0], draw.UNKNOWN)[0], [(round(150 + 820 * 3 / 7, 1), round(150 + 820 * 6 / 7, 1))])
        root, _ = self.picture(text, "--step", "4")
        self.assertEqual((self.boxes_of(root, draw.UNKNOWN), self.boxes_of(root, draw.COLOURS[1])[0]), ([], [(150, 970)]))

    def test_a_trace_and_a_line_are_broken_by_a_gap(self):
        """Two stretches of two moments each: of the present values, and of both traces in the heights and the plan view."""
        text = "".join(moment(time, 1) for time in (0, 1, 11, 12))
        states = "".join(f"moment {time}\nown 0 {time * 100} 10000 0 3600 0\ntraffic A 0 {5000 - 100 * time} 10000 0 -3600 0\nend\n"
                         for time in (0, 1, 11, 12))
        root, _ = self.picture(text, "--states", self.write("in.states", states))
        lines = [path.get("d") for path in root.iter(f"{SVG}path") if path.get("stroke-width") == "1.5"]
        self.assertEqual([d.count("M") for d in lines], [2] * 4)
        dashed = [path.get("d") for path in root.iter(f"{SVG}path") if path.get("stroke-dasharray")]
        self.assertEqual([d.count("M") for d in dashed], [2] * 4)

    def test_incomplete_moments_are_hatched_and_nothing_of_them_is_clear(self):
        """The second of four stands after a refused line: a quarter of each panel and bar is hatched, and not green."""
        root, status = self.picture(AFTER_REFUSED)
        self.assertEqual(status, 1)
        for found in self.boxes_of(root, "url(#incomplete)"):
            self.assertEqual(found, [(355, 560)])
        self.assertEqual(len(self.boxes_of(root, "url(#incomplete)")), 2 + 4)
        for found in self.boxes_of(root, draw.COLOURS[0]):
            self.assertNotIn(True, [begin < 560 and end > 355 for begin, end in found], found)
        root, _ = self.picture(AFTER_REFUSED, "--states", self.write("in.states", LACKING))
        self.assertEqual(self.boxes_of(root, "url(#incomplete)")[0], [(355, 765)])
        self.assertIn("incomplete, not known to be clear", [text.text for text in root.iter(f"{SVG}text")])


class Sums(ToolTest):
    def summary(self, *words):
        status, out, said = self.tool("summary", *words, self.write("a.report", AFTER_REFUSED))
        self.assertEqual((status, said), (1, ""))
        return out.splitlines()

    def test_an_incomplete_moment_is_told_first_and_no_keep_of_it_counts(self):
        out = self.summary()
        self.assertEqual(out[:2], ["incomplete: 1 moment, 1 s: what they lack is not known, so no answer of theirs counts that is open",
                                   "4 moments, 0 to 3 s; refused lines: 1"])
        self.assertLessEqual({"track: answer incomplete at 1 moment, 1 s", "track: answer keep at 3 moments, 0 to 3 s"}, set(out))

    def test_lacking_aircraft_and_silence_are_told_with_the_states(self):
        out = self.summary("--states", self.write("in.states", LACKING))
        self.assertTrue(out[0].startswith("incomplete: 2 moments, 1 to 2 s:"), out[0])
        self.assertLessEqual({"B: lacking at 1 moment, 2 s", "track: answer keep at 2 moments, 0 to 3 s", "track: answer incomplete at 2 moments, 1 to 2 s",
                              "no moment before 3 s: the recording stops", "no moment after the last: the receiver is off"}, set(out))
        rows = self.summary("--csv", "--states", self.write("in.states", LACKING))
        self.assertLessEqual({"moment,incomplete,refused,1,1,1,1", "moment,incomplete,lacking,1,2,2,1", "B,lacking,,1,2,2,1"}, set(rows))

    def test_an_answer_of_none_counts_also_where_lines_were_refused(self):
        """The second moment of the report is incomplete and has no track: more aircraft would open none."""
        out = self.tool("summary", self.write("b.report", REPORT))[1].splitlines()
        self.assertLessEqual({"track: answer none at 1 moment, 10 s", "gs: answer incomplete at 1 moment, 10 s"}, set(out))


class Columns(ToolTest):
    def rows(self, what, *words):
        status, out, said = self.tool("table", what, *words, self.write("a.report", AFTER_REFUSED))
        self.assertEqual(status, 1)
        self.assert_one_line(said, "1 refused line is in no row")
        return list(csv.DictReader(out.splitlines()))

    def test_a_column_says_what_a_moment_lacks(self):
        states = self.write("in.states", LACKING)
        for what in ("aircraft", "kinds", "bands"):
            for words, wanted in (((), ["", "refused 6 5", "", ""]), (("--states", states), ["", "refused 6 5", "lacks B its report is 12 s old", ""])):
                found = {(row["time"], row["incomplete"]) for row in self.rows(what, *words)}
                self.assertEqual(found, {*zip("0123", wanted)}, what)
        answers = {(row["time"], row["answer"]) for row in self.rows("kinds", "--states", states)}
        self.assertEqual(answers, {("0", "keep"), ("1", "incomplete"), ("2", "incomplete"), ("3", "keep")})

    def test_what_lacks_has_a_row(self):
        lacking = [row for row in self.rows("aircraft", "--states", self.write("in.states", LACKING)) if row["time"] == "2"]
        self.assertEqual([(row["aircraft"], row["now"], row["alert"]) for row in lacking], [("A", "0", "1"), ("B", "", "")])
        text = "refused 3 5\n" + moment(20)
        status, out, _ = self.tool("table", "aircraft", self.write("b.report", text))
        self.assertEqual((status, out.splitlines()[1]), (1, "1,20,,,,,,new,refused 3 5"))


class Comparisons(ToolTest):
    def test_incomplete_moments_are_told_first_and_no_keep_of_theirs_is_compared(self):
        """The same moments without the refused line: each of eight answers that is kept is another."""
        one, other = self.write("a.report", AFTER_REFUSED), self.write("b.report", AFTER_REFUSED.replace("refused 6 5\n", ""))
        status, out, _ = self.tool("compare", one, other)
        self.assertEqual((status, out.splitlines()[0]), (1, f"{one}: moment 1 is incomplete, since lines were refused: what is lacking is not known"))
        self.assertEqual(out.splitlines()[1], "moment 1 resolve track left: incomplete and keep")
        self.assertIn("\nresolve track: 2 of 8 differ, 25.0 % (2 by incomplete/keep)\n", out)


class SteadyAlerts(ToolTest):
    def added(self, text, *words):
        """The lines that are added, by moment; and what is said."""
        status, out, said = self.tool("steady", *words, self.write("a.report", text))
        self.assertEqual(status, int("refused" in text))
        return [[line for line in part.splitlines() if line.startswith("steady")] for part in out.split("moment ")[1:]], said

    def test_an_aircraft_that_vanishes_is_held_and_returns_at_its_level(self):
        """Two of four, held 5 s: 3 counts from 1 s on. A is absent from 2 to 4 s, and at 5 s goes on with 3 3 3."""
        text = moment(0, 3, 0) + moment(1, 3, 0) + "".join(moment(time, None, 0) for time in (2, 3, 4)) + moment(5, 3, 0)
        added, said = self.added(text)
        self.assertEqual([[line for line in lines if " A " in line] for lines in added],
                         [["steady A 0"], ["steady A 3"], *[["steady A 3 absent"]] * 3, ["steady A 3"]])
        self.assertEqual(said, "")

    def test_an_absent_one_is_held_for_the_seconds_and_then_begins_anew(self):
        """Held 2 s after 1 s; absent from 2 s on, it is not shown at 4 s, and at 5 s one 3 of two does not count yet."""
        text = moment(0, 3, 0) + moment(1, 3, 0) + "".join(moment(time, None, 0) for time in (2, 3, 4)) + moment(5, 3, 0)
        added, _ = self.added(text, "--hold", "2")
        self.assertEqual([[line for line in lines if " A " in line] for lines in added],
                         [["steady A 0"], ["steady A 3"], ["steady A 3 absent"], ["steady A 3 absent"], [], ["steady A 0"]])

    def test_a_report_with_absent_ones_is_read(self):
        text = moment(0, 3, 0) + moment(1, 3, 0) + moment(2, None, 0)
        path = self.write("b.report", self.tool("steady", self.write("a.report", text))[1])
        rows = self.tool("table", "aircraft", path)[1].splitlines()
        self.assertEqual([row for row in rows if row.startswith("1,2,")], ["1,2,B,0,0,,0,,", "1,2,A,,,,3,now alert,absent"])
        self.assertEqual([self.tool(*words, path)[0] for words in (["summary"], ["draw"], ["compare", path])], [0, 0, 0])
        for line, part in (("steady B 2 absent", "calls B absent, of which a line `now` stands before it"), ("steady A 3 absent", "occurs twice in its moment: steady A")):
            status, _, said = self.tool("summary", self.write("c.report", open(path).read().replace("steady A 3 absent\n", f"steady A 3 absent\n{line}\n")))
            self.assertEqual(status, 4)
            self.assert_one_line(said, part)

    def test_a_lower_level_after_a_refused_line_does_not_count(self):
        """One of one, not held: 3, then 0 after a refused line, then 0."""
        added, said = self.added(moment(0, 3) + "refused 5 4\n" + moment(1, 0) + moment(2, 0), "--m", "1", "--n", "1", "--hold", "1")
        self.assertEqual(added, [["steady A 3"], ["steady A 3"], ["steady A 0"]])
        self.assert_one_line(said, "moment 1 is incomplete, since line 5 was refused: what it lacks is not known")


class Names(unittest.TestCase):
    def test_a_kept_answer_is_in_these_reports(self):
        """Else the tests above show nothing."""
        self.assertEqual(AFTER_REFUSED.count(KEEP), 4)


if __name__ == "__main__":
    unittest.main()
