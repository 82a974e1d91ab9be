"""tools/check: its words on worked inputs, and its codes against the program's on random and hostile ones."""
import math
import os
import re
import unittest

from common import CONFIG, TOP, ToolTest, module, replayed
from daidalus_files import Moment, Reader, examine_config
from test_toml import LONGEST, ONLY_1_1

PLAIN = """resolve = 1
turn_rate = 3
track_step = 90
gs = { min = 3600, max = 3600, step = 1, rate = 10 }
vs = { min = 0, max = 0, step = 1, rate = 100 }
alt = { min = 1000, max = 1000, step = 1, rate = 1000 }
level = [ { dthr = 660, zthr = 450, tthr = 35, tcoa = 0, lookahead = 10, alert = 10 } ]
"""
# An edit of that text, and the faults that it has.
EDITS = (
    (("dthr = 660", "dthr = 0.66"), [(5, "level 1, dthr = 0.66 is no whole number (0.001 NM)")]),
    (("dthr = 660", "dthr = 0"), [(6, "level 1, dthr = 0 is outside 1 to 10000 (0.001 NM)")]),
    (("turn_rate", "turnrate"), [(3, "turnrate is no key; known are resolve, turn_rate, track_step, last_times, gs, vs, alt, level, "
                                     "recovery"),
                                 (4, "turn_rate is missing")]),
    (("rate = 10 }", "rate = true }"), [(5, "gs.rate = true is no whole number (0.1 kt per second)")]),
    (("track_step = 90", "track_step = 7"), [(6, "track_step = 7 does not divide 360")]),
    (("track_step = 90", "track_step = 120"), [(6, "track_step = 120 is outside 1 to 90 (degree, a divisor of 360)")]),
    (("resolve = 1", "resolve = 2"), [(7, "resolve = 2 is above the number of levels, 1")]),
    (("resolve = 1", "resolve = 5"), [(6, "resolve = 5 is outside 1 to 4 (a level)"), (7, "resolve = 5 is above the number of levels, 1")]),
    (("alt = { min = 1000, max = 1000", "alt = { min = 0, max = 512"), [(8, "alt has 513 candidates, and 512 are the most")]),
    (("alt = { min = 1000, max = 1000", "alt = { min = 0, max = 511"), []),
    (("gs = { min = 3600", "gs = { min = 3601"), [(6, "gs.min = 3601 is above gs.max = 3600")]),
    (("vs = { min = 0, max = 0, step = 1, rate = 100 }", "vs = 5"), [(5, "vs is 5 and no table")]),
    (("alert = 10 }", "alert = 10, tau = 1, tcpa = 0 }"), []),
    (("alert = 10 }", "alert = 10, tep = 1 }"), []),
    (("alert = 10 }", "alert = 10, tau = 1, tep = 1 }"), [(6, "level 1, tau and tep are 1, and at most one may be")]),
    (("alert = 10 }", "alert = 10, tep = 1, tcpa = 1 }"), [(6, "level 1, tcpa and tep are 1, and at most one may be")]),
    (("alert = 10 }", "alert = 10, tep = 1, tau = 1, tcpa = 1 }"), [(6, "level 1, tcpa and tau and tep are 1, and at most one may be")]),
    (("alert = 10 }", "alert = 10, tau = 2 }"), [(6, "level 1, tau = 2 is outside 0 to 1 (0 or 1)")]),
    (("alert = 10 }", "alert = 10, tep = -1, tau = 1 }"), [(6, "level 1, tep = -1 is outside 0 to 1 (0 or 1)")]),
    (("alert = 10 }", "alert = 10, tau = true, tep = 1 }"), [(5, "level 1, tau = true is no whole number (0 or 1)")]),
    (("alert = 10 }", "alert = 10, tep = 1.0, tau = 1 }"), [(5, "level 1, tep = 1.0 is no whole number (0 or 1)")]),
    (("alert = 10 }", "alert = 10, tau = 1, tep = 1, tcpa = 2 }"), [(6, "level 1, tcpa = 2 is outside 0 to 1 (0 or 1)"),
                                                                  (6, "level 1, tau and tep are 1, and at most one may be")]),
    (("alert = 10 } ]", "alert = 10, tau = 1, tep = 1 }, 3 ]"), [(5, "level 2 is 3 and no table"),
                                                               (6, "level 1, tau and tep are 1, and at most one may be")]),
    (("alert = 10 }", "alert = 10, wcv_tau = 1 }"),
     [(3, "level 1, wcv_tau is no key; known are dthr, zthr, tthr, tcoa, lookahead, alert, tcpa, tau, tep")]),
    (("level = [", "level = [ 1,"), [(5, "level 1 is 1 and no table")]),
    (("level = [", "level = [] #"), [(7, "there are 0 levels, and 1 to 4 may be")]),
    (("level = [", "level = 3 #"), [(5, "level is 3 and no list of tables")]),
    (("level = [", "level = true #"), [(5, "level is true and no list of tables")]),
    (("level = [", "level = 1.5 #"), [(5, "level is 1.5 and no list of tables")]),
    (("resolve = 1", "resolve = 1\nrecovery = { hdist = 0 }"), [(4, "recovery.vdist is missing"),
                                                             (6, "recovery.hdist = 0 is outside 1 to 10000 (0.001 NM)")]),
    (("resolve = 1", "resolve = 1\nrecovery = { hdist = 9, vdist = 9, nearest = 1 }"), []),
    (("resolve = 1", "resolve = 1\nrecovery = { hdist = 9, vdist = 9, nearest = 2 }"), [(6, "recovery.nearest = 2 is outside 0 to 1 (0 or 1)")]),
    (("resolve = 1", "resolve = 1\nrecovery = { hdist = 9, vdist = 9, nearest = true }"),
     [(5, "recovery.nearest = true is no whole number (0 or 1)")]),
    (("resolve = 1", "resolve = 1\nlast_times = 1"), []),
    (("resolve = 1", "resolve = 1\nlast_times = 0"), []),
    (("resolve = 1", "resolve = 1\nlast_times = 2"), [(6, "last_times = 2 is outside 0 to 1 (0 or 1)")]),
    (("resolve = 1", "resolve = 1\nlast_times = -1"), [(6, "last_times = -1 is outside 0 to 1 (0 or 1)")]),
    (("resolve = 1", "resolve = 1\nlast_times = true"), [(5, "last_times = true is no whole number (0 or 1)")]),
    (("resolve = 1", "resolve = 1\nlast_times = 1.0"), [(5, "last_times = 1.0 is no whole number (0 or 1)")]),
    (("resolve = 1", "resolve = 1\nlast_times = { a = 1 }"), [(5, "last_times = a table is no whole number (0 or 1)")]),
    (("alert = 10 }", "alert = 10, last_times = 1 }"),
     [(3, "level 1, last_times is no key; known are dthr, zthr, tthr, tcoa, lookahead, alert, tcpa, tau, tep")]),
    (("resolve = 1", "resolve ="), [(2, "line 1: no value where one is wanted")]),
    (("resolve = 1", f"resolve = {'9' * 5000}"), [(2, f"line 1: {'9' * 40}.. does not fit 64 bits")]),
)
# Lines that are refused, with their codes (the format's own list), in a moment that is open or not.
LINES_ALONE = {b"#" + b"c" * 255: 1, b"Own": 2, b"own 1 2": 3, b"own 0 0 1000 360 x 0": 6, b"own 0 0 1000 x 360 0": 4,
               b"traffic A_B-12345 0 0 0 0 0 0": 5, b"own +5 -0 0000001000 0 3600 0": 7, b"own 0 0 00000001000 0 3600 0": 4, b"end": 7,
               b"format 3": 0, b"format 4": 6, b"format": 3, b"format x": 4, b"traffic A 0 0 0 0 0 0 0": 3, b"#" + b"c" * 254: 0, b" \t": 0, b"": 0}


class Configurations(ToolTest):
    def test_tells_each_fault_by_its_key(self):
        for (old, new), wanted in EDITS:
            self.assertIn(old, PLAIN)
            found = examine_config(PLAIN.replace(old, new).encode())[1]
            self.assertEqual([(fault.code, fault.why) for fault in found], wanted)
        self.assertEqual([fault.code for fault in examine_config(b"#" * 65537)[1]], [1])

    def test_has_the_programs_code_on_these(self):
        for (old, new), wanted in EDITS:
            status, written = replayed(self.write("c.toml", PLAIN.replace(old, new)), b"")
            code = f"config {wanted[0][0]}\n".encode() if wanted else b""
            self.assertEqual((status, written), (3 if wanted else 0, code), new)

    def test_takes_what_only_toml_1_1_takes(self):
        """A table over several lines with a comma at its end is taken by the program and by check."""
        text = PLAIN.replace("rate = 10 }", "rate = 10, # and no more\n }")
        self.assertEqual(self.tool("check", self.write("c.toml", text)), (0, "", ""))
        self.assertEqual(replayed(self.write("c.toml", text), b"")[0], 0)
        for more in (*ONLY_1_1, *LONGEST):
            text = more if more.startswith("\ufeff") else PLAIN.replace("gs =", "_ =", 1) + "\n" + more
            status, written = replayed(self.write("c.toml", text), b"")
            self.assertEqual(written, f"config {examine_config(text.encode())[1][0].code}\n".encode(), text)
            self.assertEqual(status, 3)

    def test_has_the_programs_code_on_hostile_texts(self):
        draw, codes = module("bench/soak").Draw(22), {}
        for turn in range(1500):
            text = draw.configuration(draw.settings())
            text = draw.broken(text) if turn % 2 else draw.mutated(text).encode()
            faults = examine_config(text)[1]
            status, written = replayed(self.write("c.toml", text), b"")
            wanted = f"config {faults[0].code}\n".encode() if faults else b""
            self.assertEqual((status, written), (3 if faults else 0, wanted), (text, faults[:1]))
            codes[written] = codes.get(written, 0) + 1
        self.assertGreaterEqual(len(codes), 7, "some codes never came")


class States(ToolTest):
    def test_has_the_codes_of_the_format(self):
        for line, code in LINES_ALONE.items():
            self.assertEqual([event.code for event in Reader().read(line + b"\n")], [code] if code else [], line)

    def test_tells_what_refused_lines_mean(self):
        states = self.write("in.states", "moment 0\nown 0 0 10000 0 3600 0\ntraffic Intruder1 0 8000 10000 0 0 0\nend\n"
                                         "moment 10\nown 0 1000 10000 360 3600 0\ntraffic AMBER 0 8000 10000 0 0 0\nend\n"
                                         "moment 20\nown 0 2000 10000 0 3600 0\ntraffic AMBER 0 8000 10000 0 0 0\nend\n"
                                         "moment 20\nend\nmoment 9\nown 0 0 0 0 0 0\nmoment 30\n")
        status, out, said = self.tool("check", CONFIG, states)
        self.assertEqual((status, said), (1, ""))
        self.assertEqual(out.replace(states, "in.states").splitlines(), [
            "in.states:3: refused 5: traffic, 'Intruder1' is no identifier (1 to 8 letters, digits, _ and -)",
            "in.states:6: refused 6: own, TRK 360 is outside 0 to 359 (degree)",
            "in.states:8: refused 13: moment 10 has no ownship",
            "in.states:9: refused 8: moment 20 while moment 10 is open",
            "in.states:11: refused 11: moment 10 has an aircraft AMBER already",
            "in.states:14: refused 13: moment 20 has no ownship",
            "in.states:15: refused 8: moment 9 while moment 20 is open",
            "in.states:17: refused 8: moment 30 while moment 20 is open",
            "in.states:18: refused 14: the input ends while moment 20 is open",
            "in.states: moment 0 is reported without Intruder1",
            "in.states: moment 10 mixes lines 5 to 12; moment 20 is not reported by itself",
            "in.states: moment 10 keeps the first line of each aircraft that stands in it twice",
            "in.states: moment 20 is not reported: no line `end` of it is taken"])

    def test_tells_of_several_moments_in_one(self):
        own = "own 0 0 10000 0 3600 0\n"
        status, out, _ = self.tool("check", CONFIG, "-", given=f"moment 4\n{own}moment 5\n{own}moment 6\n{own}end\n")
        self.assertEqual(status, 1)
        self.assertIn(": moment 4 mixes lines 1 to 7; moments 5, 6 are not reported by themselves\n", out)

    def test_a_refused_end_alone_means_nothing_more(self):
        status, out, _ = self.tool("check", CONFIG, f"{TOP}/examples/lines.states")
        self.assertEqual((status, out.count("\n")), (1, 1))
        self.assertIn("lines.states:18: refused 13: moment 50 has no ownship", out)

    def test_tells_of_lines_outside_moments(self):
        states = self.write("in.states", "moment 5\nown 0 0 0 0 0 0\nend\nmoment 5\nown 0 0 0 0 0 0\nend\n")
        status, out, _ = self.tool("check", CONFIG, states)
        self.assertEqual(status, 1)
        self.assertEqual(out.replace(states, "in").splitlines(), [
            "in:4: refused 9: moment 5 is not later than moment 5", "in:5: refused 7: own while no moment is open",
            "in:6: refused 7: end while no moment is open", "in: lines 5 to 6 belong to no moment"])

    def test_tells_of_lines_between_moments(self):
        """One, two and one of them, each before the moment that comes next."""
        moments = [f"moment {time}\nown 0 0 0 0 0 0\nown 0 0 0 0 0 0\nend\n" for time in (1, 2)]
        out = self.tool("check", CONFIG, self.write("in.states", "end\n" + moments[0] + "end\nend\n" + moments[1] + "end\n"))[1]
        self.assertEqual([line.split(": ")[1] for line in out.splitlines() if ": refused " not in line], [
            "line 1 belongs to no moment", "moment 1 keeps its first ownship", "lines 6 to 7 belong to no moment",
            "moment 2 keeps its first ownship", "line 12 belongs to no moment"])

    def test_tells_of_what_a_moment_has_too_often(self):
        """A second ownship, and a sixty-fifth aircraft."""
        aircraft = "".join(f"traffic T{number} 0 {number} 0 0 0 0\n" for number in range(1, 66))
        states = self.write("in.states", "moment 5\nown 0 0 0 0 0 0\nown 1 0 0 0 0 0\n" + aircraft + "end\n")
        status, out, _ = self.tool("check", CONFIG, states)
        self.assertEqual((status, out.replace(states, "in").splitlines()), (1, [
            "in:3: refused 10: moment 5 has an ownship already", "in:68: refused 12: moment 5 has 64 aircraft already",
            "in: moment 5 is reported without T65", "in: moment 5 keeps its first ownship",
            "in: moment 5 is reported with its first 64 aircraft"]))

    def test_tells_of_lines_that_are_not_read(self):
        """A misspelt word, and a line that is too long: each may have been an aircraft."""
        long = "traffic A 0 0 0 0 0 0" + 240 * " " + "\n"
        for lines, told in ((["Traffic A 0 0 0 0 0 0\n"], "line 3"), (["x\n", long], "lines 3, 4"), (5 * ["x\n"], "lines 3, 4, 5 and 2 more")):
            states = self.write("in.states", "moment 5\nown 0 0 0 0 0 0\n" + "".join(lines) + "end\n")
            status, out, _ = self.tool("check", CONFIG, states)
            self.assertEqual((status, out.splitlines()[len(lines):]), (1, [f"{states}: moment 5 is reported without what stands on {told}"]))

    def test_statuses_and_errors(self):
        self.assertEqual(self.tool("check", CONFIG, f"{TOP}/examples/encounter.states"), (0, "", ""))
        status, out, said = self.tool("check", f"{self.folder}/nothing")
        self.assertEqual((status, out), (7, ""))
        self.assert_one_line(said, "nothing: No such file")
        self.assertEqual(self.tool("check", self.write("c.toml", ""))[0], 3)
        self.assertEqual(self.tool("check")[0], 2)

    def test_a_byte_order_mark_is_told(self):
        """Some editors write one before a text in UTF-8; the first line is refused then."""
        out = self.tool("check", CONFIG, self.write("in.states", b"\xef\xbb\xbfmoment 0\nown 0 0 0 0 0 0\n"))[1].splitlines()
        self.assertIn("refused 2: ", out[0])
        self.assertTrue(out[0].endswith("; a byte order mark stands before it: save the file without one"), out[0])
        self.assertNotIn("byte order mark", "".join(out[1:]))

    def test_a_text_in_utf_16_is_told(self):
        """Of either order of bytes; of the states in the first line alone."""
        hint = "the text is in UTF-16, as some editors and spreadsheets write it: save it in UTF-8"
        for mark, order in ((b"\xff\xfe", "utf-16-le"), (b"\xfe\xff", "utf-16-be")):
            path = self.write("in.txt", mark + "moment 0\nown 0 0 0 0 0 0\n".encode(order))
            out = self.tool("check", CONFIG, path)[1]
            self.assertRegex(out, rf"^.*:1: refused 2: .*; {hint}\n")
            self.assertEqual(out.count(hint), 1)
            self.assertEqual(self.tool("check", path)[:2], (3, f"{path}: config 2: {hint}\n"))
            for name in ("from_daa", "from_parameters"):
                self.assertEqual(self.tool(name, path), (3, "", f"{name}: {path}: {hint}\n"))

    def test_one_field_is_told_as_one(self):
        out = self.tool("check", CONFIG, self.write("in.states", "moment\nmoment 1 2\nend 1\n"))[1].splitlines()
        self.assertEqual([line.split(": ", 1)[1] for line in out[:3]], [
            "refused 3: moment has 0 fields after it and not 1 (T)", "refused 3: moment has 2 fields after it and not 1 (T)",
            "refused 3: end has 1 field after it and not 0"])

    def test_states_are_looked_at_also_under_a_refused_configuration(self):
        """The status is then that of the configuration."""
        status, out, _ = self.tool("check", self.write("c.toml", PLAIN.replace("dthr = 660", "dthr = 0")), f"{TOP}/examples/lines.states")
        self.assertEqual((status, out.count("\n")), (3, 2))
        self.assertIn("c.toml: config 6: level 1, dthr = 0 is outside", out)
        self.assertIn("lines.states:18: refused 13: moment 50 has no ownship", out)

    def test_each_fault_is_one_plain_line(self):
        """Whatever stands in a key, a value or a field, what is said of it is one line of ASCII."""
        for text in ('"\\n\u00e9" = 1', 'resolve = "\\n\u00e9"', '"\\n" = 1\n"\\n" = 1', "resolve = \u00e9", 'a = "\\\u00e9"', "[\u00e9]", '"\\n" = 1\n["\\n".b]'):
            out = self.tool("check", self.write("c.toml", text))[1]
            self.assertTrue(out.isascii(), text)
            self.assertTrue(all(": config " in line for line in out.splitlines()), text)
        for line in (b"\xff\x0b\xc3\xa9", b"moment \xff", b"moment 0\nown \x85 2 3 4 5 6\ntraffic \xff\x0c 1 2 3 4 5 6\nown 1 2 3 4 5 6\nend"):
            out = self.tool("check", CONFIG, self.write("in.states", line))[1]
            self.assertTrue(out.isascii(), line)
            self.assertTrue(all(re.search(r":\d+: refused|: moment 0 is reported", line) for line in out.splitlines()), out)

    def test_has_the_programs_codes_on_hostile_lines(self):
        draw, codes = module("bench/soak").Draw(33), set()
        config = self.write("c.toml", PLAIN)
        for size in [3, 40, 200] * 60:
            given = draw.stream(size)
            events = Reader().read(given)
            status, written = replayed(config, given)
            refused = [f"refused {event.line} {event.code}" for event in events if not isinstance(event, Moment)]
            said = written.decode().splitlines()
            self.assertEqual([line for line in said if line.startswith("refused")], refused)
            self.assertEqual([line for line in said if line.startswith("moment")],
                             [f"moment {event.time}" for event in events if isinstance(event, Moment)])
            self.assertEqual([line.split()[1] for line in said if line.startswith("now")],
                             [aircraft.id for event in events if isinstance(event, Moment) for aircraft in event.traffic])
            self.assertEqual(status, int(bool(refused)))
            codes.update(line.split()[2] for line in refused)
        self.assertEqual(codes, {str(code) for code in range(1, 15)})


# An edit of the example's configuration, and its advice.
ADVICE = (
    (("alert = 55", "alert = 80"), ["level 1 alerts 80 s ahead and looks 75 s ahead", "level 2 alerts 80 s ahead"]),
    (("zthr = 700", "zthr = 300"), ["level 2 reaches farther than level 1 (zthr 300 and 450)"]),
    (("lookahead = 55", "lookahead = 90"), ["level 3 reaches farther than level 2 (lookahead 75 and 90)"]),
    (("tcpa = 0", "tcpa = 1"), ["level 2 reaches farther than level 1 (WCV_TCPA and WCV_TAUMOD)"]),
    (("tcpa = 0", "tep = 1"), []),
    (("# last_times = 1", "last_times = 1"), []),
    (("dthr = 660", "dthr = 4000"), [f"level {number}, dthr = 4000 is 4 nautical miles; if 4000 feet are meant, write 658" for number in (1, 2, 3)]),
    (("dthr = 660", "dthr = 1"), [f"level {number}, dthr = 1 is 0.001 nautical miles; if miles are meant, write 1000" for number in (1, 2, 3)]),
    (("min = 500\nmax = 7000\nstep = 100\nrate = 20", "min = 50\nmax = 700\nstep = 10\nrate = 2"),
     ["gs goes up to 700, 70 knots; if 700 knots are meant, write ten times each number of gs", "gs.rate = 2 is 0.2 knots a second; if knots are meant, write 20"]),
    (("min = -5000\nmax = 5000", "min = -83\nmax = 83"), ["vs goes up to 17 feet a minute; if feet a second are meant, write 60 times each number of vs"]),
    (("max = 50000\nstep = 500", "max = 500\nstep = 5"), ["alt goes up to 500 feet; if flight levels are meant, write 100 times each number of alt"]),
    (("# [recovery]\n# hdist = 82\n# vdist = 100", "[recovery]\nhdist = 660\nvdist = 450"), ["recovery.hdist = 660 is as far as the level itself"]),
    (("tthr = 35", "tthr = 30"), ["level 2 reaches farther than level 1 (tthr 30 and 35)"]),
    (("tcoa = 0\nlookahead = 55", "tcoa = 5\nlookahead = 55"), ["level 3 reaches farther than level 2 (tcoa 0 and 5)"]),
)
SLOW = "the ownship's gs is outside the candidates of gs, 50 to 700 knots: it is 36 to 36, so each candidate is a change"
ALONE = "no moment has another aircraft: each report will say `keep`, because nothing is known and not because the way is clear"
FAR, NEAR = "traffic A 3000 8000 10000 -1350 0 0\n", "traffic A 3 8 10000 -1350 0 0\n"
# State lines, and their advice.
STATES_ADVICE = (
    ("moment 0\nown 0 0 10000 0 360 0\n" + FAR + "end\nmoment 10\nown 0 1000 10000 0 360 0\n" + FAR + "end\n",
     ["the ownship flies 10.0 times as far as its ground speed says", SLOW]),
    ("moment 0\nown 0 0 10000 0 360 0\ntraffic A 3000 8000 10000 -135 0 0\nend\n", ["no speed is above 36 knots", f"in 1 of 1 moments {SLOW}"]),
    ("moment 0\nown 0 0 10000 0 360 0\ntraffic A 3000 8000 0 0 0 0\nend\nmoment 10\nown 0 100 10000 0 360 0\nend\n", [SLOW]),
    ("moment 0\nown 0 0 10000 0 1 0\nend\n", ["so 1 knot would be 10", ALONE, "it is 0.1 to 0.1, so each"]),
    ("moment 0\nown 0 0 10000 0 3600 0\n" + NEAR + "end\n", ["no aircraft is farther than 0.008 nautical miles from the ownship"]),
    ("moment 0\nown 0 0 10000 0 3600 0\n" + NEAR.replace("3 8", "0 1") + "end\n", ["so 1 mile would be 1000"]),
    ("moment 0\nown 0 0 10000 0 3600 0\n" + NEAR + FAR.replace("A", "B") + "end\n", []),
    ("moment 0\nown 0 0 10000 0 3600 0\ntraffic A 0 0 10000 -1350 0 0\nend\n", []),
    ("moment 0\nown 0 0 10000 0 3600 0\n" + FAR.replace("0 0\n", "0 0 2\n") + "end\n", ["write the line `format 2` before the first moment"]),
    ("", ["there is no moment in it"]), ("# a comment\nformat 2\n", ["there is no moment in it"]),
    *((f"format 3\nmoment 0\nown 0 0 10000 0 3600 0 {own}\n" + FAR.replace("0 0\n", f"0 0 0 {aircraft}\n") + "end\n", parts) for own, aircraft, parts in (
        ("0 0 0 0", "50 75 58 200", []), ("0 0 0 0", "0 0 0 0", []), ("10 25 6 64", "500 150 195 500", []), ("499 0 6 0", "1000 0 6 0", []),
        ("0 0 0 0", "93 148 58 200", ["bounds of places are 93, which are metres of ADS-B's classes (NACp): P is in 0.001 nautical miles, so write 50"]),
        ("93 148 58 200", "556 148 58 200", ["bounds of places are 93 and 556, which are metres of ADS-B's classes (NACp): P is in 0.001 nautical miles, so write 50 and 300"]),
        ("33 0 6 0", "608 0 6 0", ["bounds of places are 608, which are feet of ADS-B's classes (NACp): P is in 0.001 nautical miles, so write 100"]),
        ("0 0 0 0", "1000 0 6 0", ["no bound of a place is below 1 nautical miles, P = 1000: if 1000 feet are meant, write 165, and if metres, 540"]),
        ("0 45 0 64", "50 150 6 64", ["bounds of heights are 45 and 150, which are metres of ADS-B's classes (GVA): V is in feet, so write 148 and 493"]),
        ("50 150 6 64", "50 150 6 64", []),
        ("0 0 1 0", "50 0 3 0", ["no bound of a velocity is above 0.3 knots, which no class of ADS-B promises: S is in 0.1 knot, so 3 knots would be 30, and 3 m/s 59"]),
        ("0 0 1 0", "50 0 1 0", ["so 1 knot would be 10, and 1 m/s 20"]),
        ("0 75 0 5", "0 0 0 8", ["no bound of a vertical speed is above 8 feet per minute, and reports round by more: W is in ft/min, so 8 feet per second would be 480"]),
        ("0 0 0 0", "50 0 0 0", ["places have bounds and no velocity has one"]), ("0 75 0 0", "0 0 0 0", ["heights have bounds and no vertical speed has one"]))),
    ("format 2\nmoment 0\nown 0 0 10000 0 3600 0 0 0 0 0\n" + FAR.replace("0 0\n", "0 0 0\n") + "end\n", ["write the line `format 3` before the first moment"]),
    ("moment 0\nown 0 0 10000 0 3600 0\n" + FAR.replace("0 0\n", "0 0 2 0 0 0 0\n") + "end\n", ["write the line `format 3` before the first moment"]),
)


# Files of another sort in the place of states, and what is said of them, in one line.
OTHER_FILES = (("NAME lat lon alt trk gs vs time\n[none] [deg] [deg] [ft] [deg] [knot] [fpm] [s]\n", "a recording: tools/from_daa"),
               ("time [s],name,sx,sy,alt\n1,2,3\n", "a recording"), ("timestamp,icao24,latitude,longitude,baro_altitude\n1,a,2,3,4\n", "a recording"),
               ("MSG,3,1,1,4B0001,1,2024/05/14,09:31:22.000,2024/05/14,09:31:22.000,,3000,,,47.4,8.6,,,0,0,0,0\n" * 9, "a recording"),
               ('{"now": 1, "aircraft": []}\n', "a recording"), ("resolve = 1\nturn_rate = 3\n", "a configuration"), ("moment 0\nnow A 0\nalert A 0 -\n", "a report"))


class Advice(ToolTest):
    def advised(self, *words):
        status, out, said = self.tool("check", "--advice", *words)
        self.assertEqual(said, "")
        return status, [line.split(": advice: ")[1] for line in out.splitlines() if ": advice: " in line], out

    def assert_advice(self, found, parts):
        self.assertEqual(len(found), len(parts), found)
        for words, part in zip(found, parts):
            self.assertTrue(words.startswith(part) or part in words, (words, part))

    def test_on_a_configuration(self):
        with open(CONFIG, encoding="utf-8") as file:
            text = file.read()
        for (old, new), parts in ADVICE:
            self.assertIn(old, text)
            path = self.write("c.toml", text.replace(old, new, 1 if old.startswith(("zthr", "tthr", "#", "min", "max")) else -1))
            status, found, out = self.advised(path)
            self.assertEqual(status, 0, out)
            self.assert_advice(found, parts)
            self.assertEqual("accepted" in out, not parts)
            self.assertEqual(self.tool("check", path), (0, "", ""))

    def test_on_state_lines(self):
        for text, parts in STATES_ADVICE:
            path = self.write("in.states", text)
            status, found, out = self.advised(CONFIG, path)
            self.assert_advice(found, parts)
            plain = "".join(line for line in out.splitlines(True) if ": advice: " not in line and not line.startswith("accepted: "))
            self.assertEqual((status, plain), self.tool("check", CONFIG, path)[:2])
            self.assertEqual("accepted" in out, not parts)

    def test_another_file_is_told_in_one_line(self):
        for text, part in OTHER_FILES:
            status, found, out = self.advised(CONFIG, self.write("in.states", text))
            self.assertEqual((status, len(out.splitlines())), (1, 1), out)
            self.assert_advice(found, [f"this looks like {part}"])

    def test_what_cannot_be_right_in_state_lines(self):
        """At 360 knots north 0.1 NM a second: here half of it. Two miles north of it B flies as fast, and flies eastward by its velocity.
        C is where the ownship is. Where the states were made of a recording, the turn of each moment's plane is taken back."""
        def states(own_step, comment="", turn=0.0):
            angle = math.radians(turn)
            x, y = round(-2000 * math.sin(angle)), round(2000 * math.cos(angle))
            return "".join(f"{comment}moment {time}\n" + (f"# origin 47 8 {turn * (time % 2)}\n" if turn else "") + f"own 0 {own_step * time} 10000 0 3600 0\n"
                           f"traffic B {x * (time % 2) if turn else 0} {own_step * time + (y if turn and time % 2 else 2000)} 10000 {0 if turn else 3600} "
                           f"{3600 if turn else 0} 0\ntraffic C 0 {own_step * time} 10000 0 3600 0\nend\n" for time in range(12))
        _, found, _ = self.advised(CONFIG, self.write("in.states", states(50)))
        self.assert_advice(found, ["the ownship, B and C: places move 0.50 times as fast as the speeds say", "B: places move 90 degrees off the tracks",
                                   "C: all along where the ownship is: its own transponder?"])
        self.assertEqual(self.advised(CONFIG, self.write("in.states", states(100).replace("traffic C", "# C").replace("3600 0 0\n", "0 3600 0\n")))[1], [])
        self.assertEqual(self.advised(CONFIG, self.write("in.states", "# ownship X\n" + states(100, turn=0.5).replace("traffic C", "# C")))[1], [])

    def test_moments_that_lack_an_aircraft(self):
        moment = "moment {}\n{}own 0 0 10000 0 3600 0\n" + FAR + "end\n"
        text = moment.format(0, "") + moment.format(10, "# lacks B no report for 12 s, 3.2 NM away\n") + moment.format(20, "# lacks B x\n") + moment.format(30, "")
        _, found, _ = self.advised(CONFIG, self.write("in.states", text))
        self.assert_advice(found, ["2 of 4 moments, from 10 to 20 s, lack an aircraft that was heard (comments `# lacks`): what is not known there is not clear"])

    def test_the_configurations_to_begin_from(self):
        """They are taken, and nothing of them is seldom meant; each tells where its numbers come from."""
        for name in ("do_365_phase_one", "non_cooperative", "small_aircraft"):
            path = os.path.join(TOP, "examples", f"{name}.toml")
            status, found, out = self.advised(path)
            self.assertEqual((status, found), (0, []), out)
            with open(path, encoding="utf-8") as file:
                text = file.read()
            self.assertRegex(text, "nobody's standard\\s+#?\\s*here")
            self.assertIn("# Where the numbers come from:", text)

    def test_the_least_distance_counts(self):
        """Of the levels from the corrective one on, level 3 has 300, and recoveries are at 400."""
        text = PLAIN.replace("level = [ ", "level = [ LEVEL, LEVEL, ").replace("LEVEL", "{ dthr = 660, zthr = 450, tthr = 35, tcoa = 0, lookahead = 10, alert = 10 }")
        text = "300".join(text.rsplit("660", 1)).replace("gs = { min = 3600, max = 3600", "gs = { min = 3600, max = 4000")
        text = text.replace("max = 0", "max = 200").replace("resolve = 1", "resolve = 1\nrecovery = { hdist = 400, vdist = 100 }")
        self.assert_advice(self.advised(self.write("c.toml", text))[1], ["recovery.hdist = 400 is as far as the level itself"])
        self.assert_advice(self.advised(self.write("c.toml", text.replace("hdist = 400", "hdist = 299")))[1], [])

    def test_the_distance_of_a_level_below_the_corrective_one_does_not_count(self):
        """Level 1 has 300, and recoveries are at 400; the corrective level has 660."""
        with open(f"{TOP}/examples/recovery.toml", encoding="utf-8") as file:
            text = file.read().replace("dthr = 660", "dthr = 300", 1).replace("hdist = 82", "hdist = 400")
        self.assert_advice(self.advised(self.write("c.toml", text))[1], ["level 2 reaches farther than level 1 (dthr 300 and 660)"])

    def test_another_file_in_the_configurations_place(self):
        self.assert_advice(self.advised(self.write("in.states", "moment 0\nend\n"))[1], ["these are state lines: the configuration comes first"])
        status, found, _ = self.advised(f"{TOP}/examples/parameters.conf")
        self.assertEqual(status, 3)
        self.assert_advice(found, ["this looks like NASA's parameters: tools/from_parameters"])
        self.assert_advice(self.advised(self.write("c.toml", PLAIN + "x = [ 1 ]\ny = 3\n[z]\n"))[1], [])

    def test_advice_stands_before_refused_lines(self):
        text = "moment 0\nown 0 0 10000 0 3600 0\n" + "".join(f"traffic A{number} 3000 8000 10000 0 0 0 3\n" for number in range(9)) + "end\n"
        out = self.advised(CONFIG, self.write("in.states", text))[2].splitlines()
        self.assertIn("advice: aircraft with an age, the eighth number, are of format 2", out[0])
        self.assertEqual(sum("refused 3" in line for line in out[1:]), 9)

    def test_what_was_accepted(self):
        """72 tracks, 66 ground speeds, 101 vertical speeds, 101 altitudes and the present flight are 341."""
        states = f"{TOP}/examples/encounter.states"
        self.assertEqual(self.advised(CONFIG, states)[2], "accepted: 3 levels, 341 candidates; 19 moments of up to 2 aircraft\n")
        self.assertEqual(self.advised(self.write("c.toml", PLAIN))[2], "accepted: 1 level, 8 candidates\n")
        self.assertEqual(self.advised(f"{TOP}/examples/recovery.toml", f"{TOP}/examples/closed.states")[2],
                         "accepted: 3 levels, 341 candidates; 1 moment of up to 2 aircraft\n")


class Borders(ToolTest):
    def test_from_which_distance_on_feet_are_asked_for(self):
        """1500 feet are 247 thousandths of a nautical mile of 6076 feet; 1499 thousandths are taken as they are, and so are 11."""
        for dthr, said in ((11, ""), (1499, ""), (10, "10 is 0.01 nautical miles; if miles are meant, write 10000"),
                           (1500, "1500 is 1.5 nautical miles; if 1500 feet are meant, write 247")):
            status, out, _ = self.tool("check", "--advice", self.write("c.toml", PLAIN.replace("dthr = 660", f"dthr = {dthr}")))
            advice = [line for line in out.splitlines() if "dthr" in line]
            self.assertEqual((status, [line.split("dthr = ")[1] for line in advice]), (0, [said] * bool(said)), dthr)


if __name__ == "__main__":
    unittest.main()
