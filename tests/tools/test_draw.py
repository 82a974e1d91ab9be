"""tools/draw, on reports written by hand and on the example's."""
import os
import re
import subprocess
import sys
import unittest
from xml.etree import ElementTree

from common import CONFIG, ENCOUNTER, TOP, ToolTest, module, replayed
from daidalus_files import Band, read_moments, read_report
from svg import boxes, ticks
from test_reports import REPORT

draw = module("tools/draw")
STATES = ("moment 0\nown 0 0 10000 0 3600 0\ntraffic A 3000 8000 10000 -1350 0 0\nend\n"
          "moment 10\nown 0 1000 10000 0 3600 0\ntraffic A 2625 8000 11000 -1350 0 0\nend\n")


class Pictures(ToolTest):
    def picture(self, report, *words, is_refused=None):
        """A picture; the status says whether lines were refused."""
        status, out, said = self.tool("draw", *words, self.write("a.report", report))
        self.assertEqual((status, said), (int("refused" in report if is_refused is None else is_refused), ""))
        return ElementTree.fromstring(out), out

    @staticmethod
    def words(root):
        return [text.text for text in root.iter("{http://www.w3.org/2000/svg}text")]

    @staticmethod
    def drawn(root, form):
        """How often a mark of that form is drawn: the crosses have the two strokes, the diamonds four sides."""
        return sum(form in path.get("d") for path in root.iter("{http://www.w3.org/2000/svg}path"))

    def test_what_stands_in_the_picture(self):
        """In the legend stands each mark once, and then three sides with none, one answer and one recovery are drawn."""
        root, _ = self.picture(REPORT)
        self.assertEqual(self.drawn(root, "l6 6m0 -6l-6 6"), 1 + 3)
        self.assertEqual(self.drawn(root, "l4 5l-4 5"), 1 + 1)
        self.assertEqual((self.drawn(root, "h8l-4 -5z"), self.drawn(root, "h8l-4 5z")), (1 + 1, 1 + 0))
        self.assertEqual(self.words(root).count("!"), 2)
        wanted = {"clear", "level 1", "level 2", "level 3", "A: alert, now", "12", "270", "recovery, after s", "lines refused"}
        self.assertLessEqual(wanted, set(self.words(root)))
        self.assertFalse({"present value", "plan view", "level 4"} & set(self.words(root)))
        plain, _ = self.picture(REPORT.replace("recover track 12 40\n", "").replace("refused 9 6\n", ""))
        self.assertFalse({"recovery, after s", "lines refused", "!"} & set(self.words(plain)))

    def test_borders_half_way_between_candidates(self):
        bands = [Band(0, 5, 3), Band(10, 180, 0), Band(185, 355, 3)]
        self.assertEqual(draw.edges_of(bands, 5), [(-2.5, 7.5, 3), (7.5, 182.5, 0), (182.5, 357.5, 3)])

    def test_altitudes_are_cut_to_where_levels_change(self):
        """The borders lie at 9250 and 10750 ft; one step of 500 ft is kept on each side."""
        report = read_report(self.write("a.report", REPORT))
        picture = draw.Picture(report.moments, report.refused, [])
        self.assertEqual(picture.axis_of("alt"), (8750, 11250, True))
        self.assertEqual(picture.axis_of("track"), (-2.5, 357.5, False))

    def test_ticks_are_round(self):
        self.assertEqual(ticks(8750, 11250), [9000, 9500, 10000, 10500, 11000])
        self.assertEqual(ticks(-3, 3), [-3, -2, -1, 0, 1, 2, 3])

    def test_the_states_give_present_values_heights_and_a_plan_view(self):
        """Two traces, each with a ring at its beginning and a dot for each of its two moments."""
        states = self.write("in.states", STATES)
        root, out = self.picture(REPORT, "--states", states)
        self.assertLessEqual({"present value", "plan view", "heights", "ownship", "A", "Dots stand 1 s apart, at the same times for all."},
                             set(self.words(root)))
        self.assertEqual(len(list(root.iter("{http://www.w3.org/2000/svg}circle"))), 2 * (1 + 2))
        self.assertIn(f'stroke="{draw.COLOURS[2]}" fill="none" stroke-width="6"', out)
        self.assertEqual(self.words(self.picture(REPORT)[0]).count("heights"), 0)

    def test_a_recovery_stands_at_its_value(self):
        """40 degrees of the panel of tracks, which goes from -2.5 to 357.5 on 150 places; not the 12 of its seconds."""
        root, _ = self.picture(REPORT)
        top = next(float(box.get("y")) for box in root.iter("{http://www.w3.org/2000/svg}rect") if box.get("height") == "150")
        marks = [path.get("d") for path in root.iter("{http://www.w3.org/2000/svg}path") if "l4 5l-4 5" in path.get("d")]
        self.assertEqual(marks[1].split("l")[0], f"M765 {top + 150 * (1 - 42.5 / 360) - 5:.1f}")

    def test_refused_lines_are_marked_where_the_next_moment_begins(self):
        """After the first of two moments: at half of the width."""
        self.assertIn('d="M560 ', re.findall(r'<path d="[^"]*v-9"', self.picture(REPORT)[1])[-1])

    def test_refused_lines_after_the_last_moment_are_marked_at_the_end(self):
        marks = re.findall(r'<path d="(M\d+) [^"]*v-9"', self.picture(REPORT + "refused 30 7\n")[1])
        self.assertEqual(marks[1:], ["M560", "M970"])

    def test_no_two_levels_have_one_colour(self):
        self.assertEqual(len(set(draw.COLOURS)), 5)
        root, _ = self.picture(REPORT.replace("alert A 2 0", "alert A 4 0"))
        legend = [box.get("fill") for box in root.iter("{http://www.w3.org/2000/svg}rect") if (box.get("width"), box.get("height")) == ("14", "12")]
        self.assertEqual(legend, [*draw.COLOURS, "url(#incomplete)"])

    def test_an_old_report_is_flown_on(self):
        """36 s at -135 knots are 1.35 NM, and at 100 ft/min 60 ft."""
        text = "format 2\n" + STATES.replace("10000 -1350 0 0", "10000 -1350 0 100 36").replace("11000 -1350 0 0", "11000 -1350 0 0 0")
        report = read_report(self.write("a.report", REPORT))
        traces = draw.Picture(report.moments, report.refused, read_moments(self.write("in.states", text))).traces()
        trace = next(trace for trace in traces if trace.name == "A")
        self.assertEqual([*zip(trace.east, trace.north, trace.alt)], [(1.65, 8, 10060), (2.625, 8, 11000)])

    def test_discs_of_bounds(self):
        """0.5 and 0.25 NM, and 36 s at 10 knots are 0.1: 0.85 NM at the first moment. In 30 s from the last one on it widens by 20 knots."""
        text = "format 3\n" + re.sub(r"(?m)^(own .*)$", r"\1 500 0 100 0", STATES)
        text = text.replace("10000 -1350 0 0", "10000 -1350 0 100 36 250 0 100 0").replace("11000 -1350 0 0", "11000 -1350 0 0 0 250 0 100 0")
        root, _ = self.picture(REPORT, "--states", self.write("in.states", text))
        discs = [float(circle.get("r")) for circle in root.iter("{http://www.w3.org/2000/svg}circle") if circle.get("fill-opacity")]
        self.assertEqual(len(discs), 2)
        self.assertAlmostEqual(discs[0] / discs[1], 0.85 / 0.75, 2)
        dashed = [path.get("d") for path in root.iter("{http://www.w3.org/2000/svg}path") if path.get("stroke-dasharray") == "3 2"]
        self.assertEqual(len(dashed), 1)
        later = float(re.search(r"a([0-9.]+) ", dashed[0])[1])
        self.assertAlmostEqual(later / discs[1], (0.75 + 30 * 20 / 3600) / 0.75, 2)
        self.assertIn("A disc is as wide as the bounds of both reports.", self.words(root))

    def test_without_bounds_format_3_is_drawn_as_format_2(self):
        two = "format 2\n" + re.sub(r"(?m)^(traffic .*)$", r"\1 0", STATES)
        three = re.sub(r"(?m)^((?:own|traffic) .*)$", r"\1 0 0 0 0", two).replace("format 2", "format 3")
        self.assertEqual(*(self.picture(REPORT, "--states", self.write("in.states", text))[1] for text in (two, three)))

    def test_an_aircraft_may_be_named_ownship(self):
        """Its traces are drawn by themselves, as those of an aircraft of another name."""
        drawn = [self.picture(REPORT.replace(" A ", f" {name} "), "--states", self.write("in.states", STATES.replace(" A ", f" {name} ")))[1]
                 for name in ("A", "ownship")]
        self.assertEqual(drawn[0].replace(">A<", ">ownship<").replace(">A:", ">ownship:"), drawn[1])

    def test_other_states_are_refused(self):
        report = self.write("a.report", REPORT)
        first, second = STATES.split("moment 10")
        more = STATES + "moment 20\nown 0 0 0 0 0 0\nend\n"
        for states, part in ((first, "no moment 10, which the report has"), (STATES.replace("traffic A", "traffic B"), "at moment 0 the aircraft B"),
                             (STATES.replace("moment 10", "moment 11"), "no moment 10"), (more, "a moment 20, which the report does not have")):
            status, out, said = self.tool("draw", "--states", self.write("in.states", states), report)
            self.assertEqual((status, out), (4, ""), states)
            self.assert_one_line(said, part)
        self.assertEqual(self.tool("draw", "--states", self.write("in.states", more), self.write("b.report", REPORT + "moment 20\n"))[0], 1)

    def test_a_picture_has_one_encounter(self):
        """The second is of one moment, at which AMBER's level now is 0."""
        report = REPORT + REPORT.split("refused")[0].replace("now A", "now B").replace("alert A", "alert B")
        status, out, said = self.tool("draw", self.write("a.report", report))
        self.assertEqual((status, out), (4, ""))
        self.assert_one_line(said, f"has 2 encounters, the second from line {REPORT.count(chr(10)) + 1} on")
        for number, name, refused in (("1", "A", 1), ("2", "B", 0)):
            root, _ = self.picture(report, "--encounter", number, is_refused=refused)
            self.assertEqual([word for word in self.words(root) if word.endswith(": alert, now")], [f"{name}: alert, now"])
            self.assertEqual(self.words(root).count("lines refused"), refused)
        one, other = (self.picture(REPORT + REPORT, "--encounter", number)[1] for number in ("1", "2"))
        self.assertEqual(one, other)
        self.assertEqual(self.tool("draw", "--encounter", "3", self.write("a.report", report))[0], 4)
        self.assert_one_line(self.tool("draw", "--encounter", "2", self.write("a.report", REPORT))[2], "has 1 encounter and no number 2")
        self.assertEqual(len(self.words(self.picture(REPORT, "--encounter", "2", "--pause", "5", is_refused=True)[0])) > 10, True)

    def test_a_title(self):
        root, out = self.picture(REPORT, "--title", "a < b")
        self.assertEqual(self.words(root)[0], "a < b")
        self.assertIn("<title>a &lt; b</title>", out)
        report = self.write("a.report", REPORT)
        for title in ("\udcff", "a\x01", "\x1f", "\ufffe"):
            status, out, said = self.tool("draw", "--title", title, report)
            self.assertEqual((status, out), (2, ""))
            self.assertTrue(said.endswith(f"error: argument --title: {title!a} has a character that no SVG can hold\n"), said)
        for title in ("Übung\t3", "\U0001f469\u200d\u2708"):
            self.assertEqual(ElementTree.fromstring(self.picture(REPORT, "--title", title)[1])[0].text, title)

    def test_last_times_are_lines(self):
        """Track has 3 s at the second moment alone: its line stands at the top of its panel, from 10 s to the end."""
        text = REPORT.replace("recover track", "last track 3\nlast gs none\nrecover track")
        root, out = self.picture(text)
        self.assertIn("last times", self.words(root))
        lines = [path.get("d") for path in root.iter("{http://www.w3.org/2000/svg}path") if path.get("stroke-width") == "1.6"
                 and path.get("stroke") != "#222222"]
        self.assertEqual([re.sub(r" [\d.]+H", " YH", d) for d in lines], ["M560 YH970"])
        self.assertNotIn("last times", self.words(self.picture(REPORT)[0]))

    def test_a_line_of_last_times_ends_where_there_is_none(self):
        """Track has 3 s at the first moment, and none at the second."""
        text = REPORT.replace("done 0", "last track 3\ndone 0").replace("recover track", "last track none\nrecover track")
        lines = [path.get("d") for path in self.picture(text)[0].iter("{http://www.w3.org/2000/svg}path") if path.get("stroke") == draw.KIND_LINES["track"]]
        self.assertEqual([re.sub(r" [\d.]+H", " YH", d) for d in lines if "H" in d], ["M150 YH560"])

    def test_each_kind_has_a_line_of_its_last_times_in_the_colour_of_its_name(self):
        """Seconds 6, 4, 2 and 0 are at four heights, the least at the foot; the names stand in the order of the kinds."""
        text = REPORT.replace("recover track", "last track 6\nlast gs 4\nlast vs 2\nlast alt 0\nrecover track")
        root, _ = self.picture(text)
        names = [(text.text, text.get("fill")) for text in root.iter("{http://www.w3.org/2000/svg}text") if text.get("fill") in draw.KIND_LINES.values()]
        self.assertEqual(names, [(draw.LABELS[kind], draw.KIND_LINES[kind]) for kind in ("track", "gs", "vs", "alt")])
        self.assertEqual(len({colour for _, colour in names}), 4)
        lines = {path.get("stroke"): path.get("d") for path in root.iter("{http://www.w3.org/2000/svg}path") if path.get("stroke-width") == "1.6"}
        heights = [float(re.fullmatch(r"M560 ([\d.]+)H970", lines[colour])[1]) for _, colour in names]
        self.assertEqual(heights, sorted(heights))
        self.assertEqual(len(set(heights)), 4)

    def test_equal_neighbours_are_one_box(self):
        """A hundred moments of the same bands make as many boxes as one, and a picture little longer."""
        one = REPORT.split("refused")[0]
        many = "".join(one.replace("moment 0", f"moment {time}").replace("done 0", f"done {time}") for time in range(100))
        pictures = [self.picture(report)[1] for report in (one, many)]
        counts = [len(re.findall(r"M[\d.]+ [\d.]+h[\d.]+v[\d.]+h-[\d.]+z", out)) for out in pictures]
        self.assertEqual(counts[0], counts[1])
        self.assertLess(len(many) * 0.9, 100 * len(one))
        self.assertLess(len(pictures[1]), 3 * len(pictures[0]))

    def test_thousands_of_moments_share_columns(self):
        """Of 5000 moments one alone alerts at level 3 and has a closed track; its column shows it."""
        one = REPORT.split("refused")[0]
        calm = one.replace("alert A 2 43", "alert A 0 -").replace("track 0 5 3\ntrack 10 180 0\ntrack 185 355 3", "track 0 355 0")
        closed = one.replace("alert A 2 43", "alert A 4 0").replace("track 0 5 3\ntrack 10 180 0\ntrack 185 355 3", "track 0 355 4")
        many = "".join((closed if time == 3333 else calm).replace("moment 0", f"moment {time}").replace("done 0", f"done {time}")
                       for time in range(5000))
        root, out = self.picture(many)
        self.assertLess(len(out), 60000)
        found = [path.get("d") for path in root.iter("{http://www.w3.org/2000/svg}path") if path.get("fill") == draw.COLOURS[4]]
        self.assertEqual([d.split("h")[0].split(" ")[0] for d in found], ["M696.1", "M696.1"])

    def test_marks_are_thinned(self):
        """A cross for each moment of three; of three hundred, one at least each nine places, and a line along them."""
        one = REPORT.split("refused")[0]
        for count, crosses in ((3, 3), (300, 91)):
            many = "".join(one.replace("moment 0", f"moment {time}").replace("done 0", f"done {time}") for time in range(count))
            drawn = self.drawn(self.picture(many)[0], "l6 6m0 -6l-6 6") - 1
            self.assertLessEqual(drawn, crosses)
            self.assertGreaterEqual(drawn, min(count, 70))

    def test_the_greatest_level_of_each_value(self):
        self.assertEqual(draw.greatest([[(0, 10, 1)], [(0, 4, 3), (4, 10, 0)]]), [(0, 4, 3), (4, 10, 1)])
        self.assertEqual(draw.reaching([(0, 4, 3), (4, 6, 1), (6, 9, 0), (9, 10, 1)], 1), [(0, 6), (9, 10)])
        self.assertEqual(sorted(draw.runs_over_time([(0, 1, "ab"), (1, 2, "a"), (3, 4, "a")])), [(0, 1, "b"), (0, 2, "a"), (3, 4, "a")])

    def test_a_line_leaves_out_points_that_are_close(self):
        """Of points 0.4 apart each third is taken, since it is 1.2 from the one taken before, and the last."""
        self.assertEqual(draw.through([0.4 * place for place in range(9)], [0] * 9), "M0 0L1.2 0L2.4 0L3.2 0")
        self.assertEqual(draw.through([0, 0, 5], [0, 1, 1]), "M0 0L0 1L5 1")
        self.assertEqual(draw.through([7], [7]), "M7 7")

    def test_widths_come_of_rounded_ends(self):
        """0.04 to 1.06 and on to 2.08: rounded 0, 1.1 and 2.1, so the widths are 1.1 and 1, and no gap is between them."""
        self.assertIn("M0 0h1.1v5h-1.1zM1.1 0h1v5h-1z", boxes([(0.04, 0, 1.06, 5), (1.06, 0, 2.08, 5)], "red"))

    def test_a_title_is_escaped(self):
        _, out = self.picture(REPORT, "--title", "<&>")
        self.assertIn("&lt;&amp;&gt;", out)

    def test_a_picture_is_in_utf_8(self):
        """Whatever standard output has."""
        words = [os.path.join(TOP, "tools", "draw"), "--title", "\u00e9 \U0001f6e9".encode(), self.write("a.report", REPORT)]
        for encoding in ("latin-1", "ascii", "utf-8"):
            run = subprocess.run([sys.executable, "-B", "-X", "utf8", *words], env={**os.environ, "PYTHONIOENCODING": encoding},
                                 capture_output=True, timeout=120)
            self.assertEqual((run.returncode, run.stderr), (1, b""))
            self.assertIn("\u00e9 \U0001f6e9", self.words(ElementTree.fromstring(run.stdout)))

    def test_the_picture_of_the_documents(self):
        """docs/encounter.svg is what is drawn of the example's report today."""
        with open(ENCOUNTER, "rb") as file:
            report = replayed(CONFIG, file.read())[1]
        status, out, _ = self.tool("draw", "--states", ENCOUNTER, self.write("a.report", report))
        with open(os.path.join(TOP, "docs", "encounter.svg"), encoding="utf-8") as file:
            self.assertEqual((status, out), (0, file.read()))


if __name__ == "__main__":
    unittest.main()
