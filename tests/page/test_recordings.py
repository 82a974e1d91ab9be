"""The reader of recordings in node, against tools/from_daa."""
import contextlib
import io
import os
import random
import re
import subprocess
import sys
import tempfile
import time
import unittest
from unittest import mock

from nodes import HOW, NODE, in_node
from shared import EXAMPLES, moments_in, text_of, tool

sys.path.append(os.path.join(os.path.dirname(EXAMPLES), "tests", "tools"))
import operators  # noqa: E402 (the folder is no package)
from common import module  # noqa: E402
from daidalus_files import status_of  # noqa: E402

TOOL = module("tools/from_daa")


# Recordings.

NONE = "no report of an aircraft can be read; "
HEADS = ["NAME lat lon alt trk gs vs time\n[none] [deg] [deg] [ft] [deg] [knot] [fpm] [s]\n",
         "NAME sx sy sz vx vy vz time\n[none] [nmi] [nmi] [ft] [knot] [knot] [fpm] [s]\n",
         "time [s],aircraft,sx [m],sy [m],sz [m],vx [m/s],vy [m/s],vz [m/s]\n",
         "# made\nconf = 1\nid; tm; x; y; z; trk (rad); gs (m/s); vs\n",
         "clock [hh:mm:ss];id;latitude [degrees];longitude [degree];altitude [feet];track;groundspeed [km/h];vz [knots]\n",
         "name st x y z vx vy verticalspeed\nnone hour meter foot meter nmi/h ft/min kn\n"]


def recording(draw):
    """A recording of some aircraft, with names that are too long, reports that come late, and numbers out of range."""
    form = draw.randrange(len(HEADS))
    names = draw.sample(["Ownship", "Intruder1", "Intruder2", "A", "B 7".replace(" ", "_"), "x" * 12, "x" * 13, "é1", "N123"], draw.randint(2, 5))
    lines = []
    for second in range(0, 60, 5):
        for name in names:
            late = draw.choice([0, 0, 0, 0.5, 2.5, 7, 30])
            wide = draw.choice([1, 1, 1, 1, 40])
            number = lambda low, high: round(draw.uniform(low, high) * wide, draw.choice([0, 1, 3, 6]))
            time = max(second - late, 0)
            if form == 0:
                cells = [name, number(33, 34) / wide, number(-97, -96) / wide, number(0, 9000), number(0, 360), number(0, 500), number(-900, 900), time]
            elif form == 1:
                cells = [name, number(-9, 9), number(-9, 9), number(0, 9000), number(-400, 400), number(-400, 400), number(-900, 900), time]
            elif form == 2:
                cells = [time, name, number(-9999, 9999), number(-9999, 9999), number(0, 3000), number(-200, 200), number(-200, 200), number(-5, 5)]
            elif form == 3:
                cells = [name, time, number(-9, 9), number(-9, 9), number(0, 9000), number(0, 6), number(0, 200), number(-900, 900)]
            elif form == 4:
                clock = 24 * 3600 - 30 + time
                cells = [f"{int(clock // 3600)}:{int(clock // 60 % 60):02}:{clock % 60:04.1f}", name, number(33, 34) / wide, number(-97, -96) / wide,
                         number(0, 9000), number(0, 360), number(0, 900), number(-9, 9)]
            else:
                cells = [name, time / 3600, number(-9999, 9999), number(-30000, 30000), number(0, 3000), number(-400, 400), number(-40000, 40000),
                         number(-9, 9)]
            lines.append(("  ", "\t", ",", "; ", ";", " ")[form].join(map(str, cells)))
    if draw.random() < 0.2:
        lines[draw.randrange(len(lines))] = draw.choice(["Ownship 1 2", "x,y,z", "A A A A A A A A"])
    return HEADS[form] + "\n".join(lines) + "\n", names


@unittest.skipUnless(NODE, HOW)
class Recordings(unittest.TestCase):
    maxDiff = 2000

    def from_daa(self, text, own):
        """What the tool writes, without a process of its own, or None where it refuses the text."""
        with tempfile.NamedTemporaryFile("w", suffix=".daa", encoding="utf-8") as file:
            file.write(text)
            file.flush()
            words, out = ["from_daa", file.name, *(["--own", own] if own else [])], io.StringIO()
            with mock.patch.object(sys, "argv", words), contextlib.redirect_stdout(out), contextlib.redirect_stderr(io.StringIO()):
                status = status_of("from_daa", TOOL.main)
            return None if status else out.getvalue()

    def test_the_example(self):
        text = text_of(os.path.join(EXAMPLES, "recording.daa"))
        for own in (None, "Intruder1"):
            self.assertEqual(in_node([["recording", text.encode(), own]])[0]["states"], self.from_daa(text, own))

    def refusal(self, text):
        return in_node([["recording", text.encode(), None]])[0].get("refused")

    def test_recordings_as_operators_have_them(self):
        """The tool and the page make the same states of each, tell the same faults and notes in the same words, or refuse it in the same."""
        names = sorted(operators.files())
        answers = in_node([["recording", operators.files()[name], None, 10, name] for name in names])
        with tempfile.TemporaryDirectory() as folder:
            for name, answer in zip(names, answers, strict=True):
                with self.subTest(name):
                    self.compare(name, answer, os.path.join(folder, name))

    def compare(self, name, answer, path):
        with open(path, "wb") as file:
            file.write(operators.files()[name])
        run = subprocess.run([os.path.join(os.path.dirname(EXAMPLES), "tools", "from_daa"), path], capture_output=True, text=True)
        said = [line.removeprefix("from_daa: ") for line in run.stderr.splitlines()]
        if run.returncode:
            why = answer.get("refused") or f"{answer['alone']} (--shift traffic=SECONDS)"
            self.assertEqual(f"{path}: {why}", said[-1])
            return
        if answer["alone"]:
            self.assertTrue(said.pop(0).startswith(f"{answer['alone']}. Each report will say `keep`, because nothing is known"), said)
        self.assertEqual(answer["states"], run.stdout)
        faults = answer["faults"] + answer["lacking"]
        self.assertEqual(faults, said[:len(faults)])
        self.assertTrue(said[len(faults)].startswith(f"the ownship is {answer['own']}"), said)
        self.assertEqual([note for note in answer["taken"] + answer["notes"] if note not in said], [])

    def test_decimal_commas_are_refused(self):
        """Under a header with semicolons a comma is one of a number; under one with commas there are too many fields."""
        for mark, told in ((";", "no number for sx: a decimal comma, or a mark of thousands? Write a point, and no mark: 'own;0;0,5;0;1000;0;100;0'"),
                           (",", "9 fields, and the header has 8: a decimal comma (write a point), or a comma in a name?: 'own,0,0,5,0,1000,0,100,0'")):
            head = mark.join("name time sx sy sz trk gs vs".split())
            self.assertEqual(self.refusal(f"{head}\n" + mark.join(["own", "0", "0,5", "0", "1000", "0", "100", "0"])), NONE + f"line 2: {told}")
        self.assertEqual(self.refusal("name time sx sy sz trk gs vs\nown 0 0 0 1000 0 100 0 7\n"),
                         NONE + "line 2: 9 fields, and the header has 8: 'own 0 0 0 1000 0 100 0 7'")

    def test_long_cells_are_read_at_once(self):
        """Digits that end in a letter, and blanks within a cell and within the name of a column: in time that grows with their number."""
        head, digits, blanks = "name,time,sx,sy,sz,trk,gs,vs", "1" * 50000 + "x", "a" + " " * 300000 + "b"
        begun = time.monotonic()
        self.assertEqual(self.refusal(f"{head}\nown,0,{digits},0,0,0,0,0"), NONE + f"line 2: no number for sx: 'own,0,{'1' * 54}'")
        self.assertEqual(self.refusal(f"{head}\nown,0,{blanks},0,0,0,0,0"), NONE + "line 2: no number for sx: 'own,0,a" + " " * 53 + "'")
        self.assertEqual(self.refusal(f"{head},{blanks}\n"), "no report of an aircraft")
        self.assertLess(time.monotonic() - begun, 20)

    def test_what_no_moment_can_be_made_of_is_refused(self):
        head, told = "name,time [h],sx,sy,sz [km],trk,gs,vs\n", NONE + "line 2: too large a number for {}: '{}'"
        for row, why in (("own,0,0,0,1e308,0,0,0", told.format("alt", "own,0,0,0,1e308,0,0,0")), ("own,1e308,0,0,0,0,0,0", told.format("time", "own,1e308,0,0,0,0,0,0")),
                         (",0,0,0,0,0,0,0", NONE + "line 2: no name: ',0,0,0,0,0,0,0'"), ("own,0:00,0,0,0,0,0,0", NONE + "line 2: no time: seconds are missing: 'own,0:00,0,0,0,0,0,0'"),
                         ("own,0,0,0,99,0,0,0", "no moment is left; left out: 1 moment whose ownship is out of range")):
            self.assertEqual(self.refusal(head + row), why)

    def test_what_is_told_of_a_recording(self):
        text = ("a = 1\nname,time,sx,sy,sz,trk,gs,vs,colour,vx,vy\nown,0,0,0,0,0,100,0,red,1,1\n"
                "Intruder12,0,0,0,70000,0,100,0,,,\nlate,0,0,0,0,0,100,0,,,\nown,20,0,0,0,0,100,0,,,\n")
        self.assertEqual(in_node([["recording", text.encode(), None]])[0]["notes"], [
            "left out: 1 line `KEY = VALUE`; a configuration says what they say", "not used: the columns colour, vx, vy",
            "Intruder12 is written Intrud12", "left out: 1 aircraft out of range, or more than there may be, in a moment",
            "left out: 2 aircraft whose report is older than 10 s, in a moment"])

    def test_who_is_missing_in_each_moment(self):
        """By its name in state lines; of moments alone that are made."""
        text = ("name,time,sx,sy,sz,trk,gs,vs\nHIGH,0,0,0,70000,0,100,0\nIntruder12,0,0,0,1000,0,100,0\nown,0,0,0,0,0,100,0\nown,5,0,0,99999,0,100,0\n"
                "own,9,0,0,0,0,100,0\nHIGH,20,0,0,1000,0,100,0\nown,20,0,0,0,0,100,0\n")
        far, old = "HIGH out of range, {} NM away", "Intrud12 no report for 20 s, 0.6 NM away"
        found = in_node([["recording", text.encode(), "own"]])[0]
        self.assertEqual([" ".join(pair) for _, moment in moments_in(found["states"].encode()) for pair in moment.lacks], [far.format("0.0"), far.format("0.2"), old])
        self.assertEqual([(moment.time, len(moment.lacks)) for _, moment in moments_in(found["states"].encode())], [(0, 1), (9, 1), (20, 1)])

    def test_latitudes_past_the_pole(self):
        head = "name,time,lat,lon,alt,trk,gs,vs\n"
        for lat in ("139.70", "-90.5"):
            self.assertEqual(self.refusal(f"{head}own,0,{lat},35.6,0,0,100,0\n"),
                             NONE + f"line 2: too large a number for lat: are lat and lon in each other's place, or in another unit?: 'own,0,{lat},35.6,0,0,100,0'")
        self.assertIsNone(self.refusal(f"{head}own,0,-80,0,0,0,100,0\n"))
        for lat in ("-90", "80.1"):  # a latitude, but past those of the plane
            self.assertEqual(self.refusal(f"{head}own,0,{lat},0,0,0,100,0\n"), "no moment is left; left out: 1 moment whose ownship is out of range")

    def test_what_is_made_and_told_as_the_tool_does(self):
        """Names that are identifiers are kept; a row may have an equals sign; 16.1 - 6.1 is a little more than 10 in floating point;
        and an ownship far from where it began."""
        text = ("a = 1\nname time sx sy sz trk gs vs\nown 6.1 0 0 1000 0 100 0\n@@ 6.1 1 0 1000 0 100 0\nA0 6.1 2 0 1000 0 100 0\n"
                "B=1 6.1 3 0 1000 0 100 0\nown 16.1 -101 0 1000 0 100 0\nown 17.1 -102 0 99999 0 100 0\n")
        states = self.from_daa(text, "own")
        self.assertEqual(re.findall("traffic (.*?) ", states), 2 * ["A1", "A0", "B1"])
        self.assertEqual(in_node([["recording", text.encode(), "own"]])[0], {"states": states, "names": ["own", "@@", "A0", "B=1"], "own": "own", "alone": "", "faults": [], "lacking": [],
            "taken": ["columns: time (seconds), sz (ft, assumed), sx (NM, assumed), sy (NM, assumed), trk (deg, assumed), gs (knots, assumed), name, "
                      "vs (ft/min, assumed)"], "notes": ["left out: 1 line `KEY = VALUE`; a configuration says what they say", "@@ is written A1", "B=1 is written B1",
            "left out: 1 moment whose ownship is out of range", "1 moment with the ownship at 0 0, more than 100 NM from where it began"]})

    def test_times_that_fall_are_told(self):
        """Of the ownship alone, as the tool does."""
        head, own = "name time sx sy sz trk gs vs\n", "own {} 0 0 1000 0 100 0\n"
        told = "the ownship's times fall, from 86399 to 1.5 s: the reports are taken in the order of their times"
        for text, notes in ((own.format("86399") + own.format("1.5"), [told]), (own.format("23:59:59") + own.format("00:00:01.5"), []),
                            (own.format(4) + "A 3 1 0 1000 0 100 0\n" + own.format(5) + "A 2 1 0 1000 0 100 0\n", [])):
            found = in_node([["recording", (head + text).encode(), None]])[0]["faults"]
            self.assertEqual([note for note in found if "fall" in note], notes)
            with tempfile.NamedTemporaryFile("w", suffix=".daa", encoding="utf-8") as file:
                file.write(head + text)
                file.flush()
                said = subprocess.run([os.path.join(os.path.dirname(EXAMPLES), "tools", "from_daa"), file.name], capture_output=True, text=True).stderr
            self.assertEqual([f"from_daa: {note}" for note in notes], [line for line in said.splitlines() if " fall, " in line])

    def test_a_column_without_a_name_and_a_time_that_is_none(self):
        self.assertIn("not used: the column without a name", in_node([["recording", b"name,time,sx,sy,sz,trk,gs,vs,\nown,0,0,0,1000,0,100,0,\n", None]])[0]["notes"])
        self.assertEqual(self.refusal("name,time,sx,sy,sz,trk,gs,vs\nown,n/a,0,0,1000,0,100,0\n"), NONE + "line 2: no time: 'own,n/a,0,0,1000,0,100,0'")
        self.assertTrue(self.refusal("name,time [x],sx,sy,sz,trk,gs,vs\nown,0,0,0,1000,0,100,0\n").startswith("x is no unit of time that is known; "))

    def test_where_the_ownship_stands_and_where_a_field_is_empty(self):
        """Its track is the one of the recording; between blanks no empty field is seen; of a speed that is not used the unit is not read."""
        head, short = "name time sx sy sz trk gs vs vx\n", NONE + "line 2: 8 fields, and the header has 9: between blanks no empty field is seen (write commas): 'A 0 5 5 1000 7 100 0'"
        for text in (head + "Ownship12 0 0 0 1000 170.4 0 0 1\nA 0 5 5 1000 7 0 0 1\n", "name time sx sy sz vx vy vs\nown 0 0 0 1000 0 -0 0\n",
                     head.replace("vx", "vx [mm/s]") + "own 0 0 0 1000 90 0 0 1\n"):
            states = self.from_daa(text, None)
            self.assertEqual(in_node([["recording", text.encode(), None]])[0]["states"], states)
            self.assertRegex(states, r"(?m)^own 0 0 1000 (170|0|90) 0 0$")
        self.assertEqual(in_node([["recording", (head + "Ownship12 0 0 0 1000 170.4 0 0 1\n").encode(), None]])[0]["notes"], ["not used: the column vx"])
        self.assertEqual(self.refusal(head + "A 0 5 5 1000 7 100 0\n"), short)

    def test_many_aircraft_two_at_one_place_and_times_before_the_first_second(self):
        head, own = "name time sx sy sz trk gs vs\n", "own {} 0 0 1000 0 100 0\n"
        for text in (head + "".join(f"T{number} 0 {number * 7 % 66} 0 1000 0 100 0\n" for number in range(66)) + own.format(0) + own.format(1),
                     head + "A 0 1 0 1000 0 100 0\nB 0 1 0 1000 0 100 0\n" + own.format(0),
                     head + "A -7 1 0 1000 0 100 0\n" + "".join(own.format(time) for time in (-5, -0.5, 0, 1))):
            states = self.from_daa(text, "own")
            self.assertIn(states.count("traffic"), (2 * 64, 2))
            self.assertEqual(in_node([["recording", text.encode(), "own"]])[0]["states"], states)

    def test_drawn_recordings(self):
        draw = random.Random(3)
        cases = [(text, draw.choice([None, names[-1]])) for text, names in (recording(draw) for _ in range(90))]
        left_out = 0
        for (text, own), got in zip(cases, in_node([["recording", text.encode(), own] for text, own in cases])):
            right = self.from_daa(text, own)
            self.assertEqual(got.get("states"), right, text[:300])
            left_out += any("left out: 1 row with " in fault for fault in got["faults"])
        self.assertGreater(left_out, 2)

    def test_two_aircraft_on_both_sides_of_the_180th_meridian_are_near(self):
        """From 179.99 degrees east to 179.99 west is a fiftieth of a degree, of which the equator has 60.1077 NM each, whoever is the ownship."""
        text = "name,time,lat,lon,alt,trk,gs,vs\nA,0,0,179.99,1000,0,100,0\nB,0,0,-179.99,1000,0,100,0\n"
        for own, east in (("A", 1202), ("B", -1202)):
            states = in_node([["recording", text.encode(), own]])[0]["states"]
            self.assertRegex(states, rf"(?m)^traffic [AB] {east} 0 1000 ")
            self.assertEqual(states, self.from_daa(text, own))
