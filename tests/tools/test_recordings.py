"""tools/from_daa on recordings as operators have them: what is right becomes the encounter that it is of, what cannot be right is told, what
can't be read is left out or refused in words that help; and its options, and a pipe."""
import contextlib
import io
import math
import os
import subprocess
import sys
import time
import unittest
from unittest import mock

import operators
from common import TOP, ToolTest, module
from daidalus_files import Moment, Reader, status_of
from operators import ALONE, BEGIN, CROSSING, HEAD_ON, HEX, IN_PART, OWN, PLAIN, REFUSED, RIGHT, SECONDS, SILENT, WRONG, flown, plain
from test_ellipsoid import geodesic

ADVICES = ("times as fast as", "degrees off", "stand still", "speeds are 0", "all along where", "never nearer", "another time zone", "in capitals alone",
           "no height is above")


class RecordingTest(ToolTest):
    def from_daa(self, *words):
        """Status, output and what is said of tools/from_daa, in this process."""
        tool, out, said = module("tools/from_daa"), io.StringIO(), io.StringIO()
        with mock.patch.object(sys, "argv", ["from_daa", *words]), contextlib.redirect_stdout(out), contextlib.redirect_stderr(said):
            status = status_of("from_daa", tool.main)
        return status, out.getvalue(), said.getvalue()

    def made(self, content, *words, name="in.csv"):
        status, out, said = self.from_daa(self.write(name, content), *words)
        self.assertEqual(status, 0, said)
        reader = Reader()
        self.assertTrue(all(isinstance(event, Moment) for event in reader.read(out.encode())), out)
        return reader, said


class Operators(RecordingTest):
    def check_encounter(self, reader, name):
        """The moments are those of the encounter: each place, height and speed within what rounding and the recording's digits cost, and
        who is lacking where traffic was silent."""
        moments = reader.events
        self.assertEqual(reader.clock, "utc", name)
        self.assertLessEqual({BEGIN + second for second in range(1, SECONDS)}, {moment.time for moment in moments}, name)
        ids = {HEX[HEAD_ON]: HEAD_ON, HEX[CROSSING]: CROSSING, HEAD_ON: HEAD_ON}
        for moment in moments:
            second = moment.time - BEGIN
            own = flown(OWN, second)
            self.assertLessEqual(abs(moment.own.alt - own["alt"]), 1, name)
            self.assertLessEqual(abs(moment.own.gs / 10 - own["gs"]), 0.5, name)
            self.assertEqual(moment.own.trk, 2, name)
            for aircraft in moment.traffic:
                self.check_aircraft(moment, aircraft, flown(ids[aircraft.id], second), own, name)
            if 1 < second < SILENT.start:
                self.assertEqual(len(moment.traffic), 2, (name, second))
            last = SILENT.start - 1
            lacking = 2 * (last + 10 < second < SILENT.stop)
            self.assertEqual(len(moment.lacks), lacking, (name, second, moment.lacks))

    def check_aircraft(self, moment, aircraft, there, own, name):
        """An aircraft where it is, flown on from its report, in the plane that is turned by the fraction of the ownship's track."""
        far, azimuth, _ = geodesic(*map(math.radians, (own["lat"], there["lat"], there["lon"] - own["lon"])))
        bearing = azimuth - math.radians(own["trk"] - round(own["trk"]))
        x, y = far * math.sin(bearing), far * math.cos(bearing)
        flown_on = [speed / 10 * aircraft.age / 3600 for speed in (aircraft.vx, aircraft.vy)]
        self.assertLess(math.dist((x, y), ((aircraft.x - moment.own.x) / 1000 + flown_on[0], (aircraft.y - moment.own.y) / 1000 + flown_on[1])), 0.004, name)
        self.assertLessEqual(abs(aircraft.alt + aircraft.vs * aircraft.age / 60 - there["alt"]), 6, name)
        self.assertLessEqual(abs(math.hypot(aircraft.vx, aircraft.vy) / 10 - there["gs"]), 0.5, name)
        self.assertLessEqual(abs(aircraft.vs - there["vs"]), 30, name)

    def test_what_is_right_becomes_its_encounter_and_nothing_is_called_wrong(self):
        for name, text in RIGHT.items():
            with self.subTest(name):
                words = ["--own", OWN] if name in ("backwards.csv", "base_station.txt") else []
                reader, said = self.made(text, *words, name=name)
                self.check_encounter(reader, name)
                self.assertFalse([advice for advice in ADVICES if advice in said], said)

    def test_one_aircraft_alone_and_one_moment(self):
        """Of the ownship's own log each second is a moment, and the first line says that no other aircraft is in it."""
        for name, text in ALONE.items():
            with self.subTest(name):
                reader, said = self.made(text, name=name)
                if name == "aircraft.json":
                    self.assertEqual([(moment.time, len(moment.traffic)) for moment in reader.events], [(BEGIN + 5, 2)])
                    continue
                self.check_encounter_alone(reader, name)
                self.assertTrue(said.startswith("from_daa: no other aircraft: the recording has reports of the ownship alone. Each report will say `keep`, because "), said)
                self.assertEqual(reader.ownship, OWN if name == "own_alone.csv" else name.split(".")[0])

    def check_encounter_alone(self, reader, name):
        self.assertEqual([moment.time - BEGIN for moment in reader.events], list(range(SECONDS)), name)
        for moment in reader.events:
            own = flown(OWN, moment.time - BEGIN)
            self.assertLess(abs(moment.origin.lat - own["lat"]) + abs(moment.origin.lon - own["lon"]), 1e-5, name)
            self.assertEqual((moment.own.alt, moment.own.trk, moment.own.vs), (3000, 2, 0), name)
            self.assertLessEqual(abs(moment.own.gs - 803), 1, name)

    def test_what_cannot_be_right_is_told(self):
        for name, (text, part) in WRONG.items():
            with self.subTest(name):
                status, _, said = self.from_daa(self.write(name, text))
                self.assertEqual(status, 0, said)
                self.assertIn(part, said)

    def test_what_cannot_be_read_is_left_out(self):
        for name, (text, part) in IN_PART.items():
            with self.subTest(name):
                reader, said = self.made(text, name=name)
                self.assertIn(f"from_daa: {part}", said)
                self.assertGreater(len(reader.events), 25)
        self.assertIn("is written HBCX", self.made(operators.files()["latin_1.csv"])[1])

    def test_what_is_refused(self):
        for name, (text, part) in {**REFUSED, "utf_16.csv": (operators.files()["utf_16.csv"], "the text is in UTF-16")}.items():
            with self.subTest(name):
                status, out, said = self.from_daa(self.write(name, text))
                self.assertEqual((status, out), (3, ""))
                self.assert_one_line(said, part)
                self.assertTrue(said.startswith("from_daa: /"), said)

    def test_strict_refuses_what_would_be_left_out(self):
        for name, (text, _) in IN_PART.items():
            status, out, said = self.from_daa("--strict", self.write(name, text))
            self.assertEqual(status, 0 if name == "on_the_ground.csv" else 3, name)


class Options(RecordingTest):
    def test_columns_and_units(self):
        text = plain(alt=lambda it: it["alt"] * 0.3048, gs=lambda it: it["gs"] * 1852 / 3600).replace(PLAIN, "when,who,lat,lon,high,fast,trk,vs")
        reader, said = self.made(text, "--columns", "time=when,name=who,alt=high,gs=fast", "--units", "alt=m,gs=m/s")
        self.assertEqual([moment.own for moment in reader.events], [moment.own for moment in self.made(plain())[0].events])
        self.assertIn("high (m), ", said)
        for words, part in ((("--columns", "when=time"), "when is no column; they are name, "), (("--columns", "time"), "time does not have the form NAME=VALUE"),
                            (("--units", "name=m"), "name is no column with a unit"), (("--columns", "time=nothing"), "the header has no column nothing; it has when"),
                            (("--shift", "A=x"), "A=x does not have the form WHAT=TIME"), (("--shift", "nobody=1h"), "--shift nobody: there is no such file or aircraft")):
            status, out, said = self.from_daa(self.write("in.csv", text if "nothing" in words[1] else plain()), *words)
            self.assertEqual((status, out), (2, ""), said)
            self.assertIn(part, said)

    def test_several_files_and_shifts(self):
        """The drone's own log, and a receiver whose clock is two hours behind."""
        own = "\n".join(row for row in plain().splitlines() if OWN in row or row == PLAIN) + "\n"
        others = operators.by_line("\n".join(row for row in plain().splitlines() if OWN not in row) + "\n",
                                   lambda cells, _: [str(int(cells[0]) - 7200), *cells[1:]])
        first, second = self.write("own.csv", own), self.write("traffic.csv", others)
        wanted = [(moment.own, moment.traffic) for moment in self.made(plain())[0].events]
        for shift in (f"{second}=2h", "traffic=7200s", "traffic=120min", f"{HEAD_ON}=2h,{CROSSING}=2h"):
            status, out, said = self.from_daa(first, second, "--shift", shift)
            self.assertEqual(status, 0, said)
            self.assertEqual([(moment.own, moment.traffic) for moment in Reader().read(out.encode())], wanted)
        status, _, said = self.from_daa(first, second)
        self.assertEqual(status, 3)
        self.assert_one_line(said, "and 7200 s more would bring them there (--shift traffic=SECONDS)")
        plane = self.write("plane.csv", "name,time,sx,sy,alt,vx,vy,vs\nA,1715679082,0,0,0,0,100,0\n")
        status, _, said = self.from_daa(first, plane)
        self.assertEqual(status, 3)
        self.assert_one_line(said, "are no one recording: one has latitudes and longitudes, the other places on a plane")

    def test_the_ownship_is_told(self):
        """The first aircraft that the recording names, or the one that is named, by its name or its call sign."""
        self.assertIn("the ownship is UAV01, the first aircraft of the recording; --own NAME takes another one", self.made(plain())[1])
        self.assertIn("the ownship is HBCXY, named by --own", self.made(plain(), "--own", HEAD_ON)[1])
        reader, said = self.made(RIGHT["base_station.txt"], "--own", HEAD_ON)
        self.assertIn("the ownship is 4B1234 (HBCXY), named by --own", said)
        self.assertEqual((reader.ownship, reader.names), ("4B1234", {"4B0001": OWN}))
        status, _, said = self.from_daa(self.write("in.csv", "\n".join([PLAIN, f"{BEGIN},X,1,1,x,1,1,1", *plain().splitlines()[1:]])))
        self.assertEqual(status, 3)
        self.assert_one_line(said, "no report of X, the first aircraft, can be read; --own NAME takes another one as the ownship")

    def test_an_aircraft_that_is_left_out(self):
        reader, said = self.made(WRONG["echo.csv"][0], "--leave-out", "4B0001")
        self.assertEqual([moment.traffic for moment in reader.events], [moment.traffic for moment in self.made(plain())[0].events])
        self.assertNotIn("transponder", said)

    def test_heights(self):
        """Barometric ones where a row has both; never one for the other."""
        head = "time,id,lat,lon,alt_baro,alt_geom,gs,trk,vs"
        text = "\n".join([head, *(f"{second},{name},47.{int(name == 'A')}1,8.6,{baro},3150,100,0,0" for second in range(3) for name, baro in (("own", 3000), ("A", "")))]) + "\n"
        reader, said = self.made(text)
        self.assertEqual([(moment.own.alt, len(moment.traffic), [id_ for id_, _ in moment.lacks]) for moment in reader.events], [(3000, 0, ["A"])] * 3)
        self.assertIn("left out: 3 rows with no number for alt_baro", said)
        reader, _ = self.made(text, "--altitude", "geom")
        self.assertEqual([(moment.own.alt, moment.traffic[0].alt) for moment in reader.events], [(3150, 3150)] * 3)
        status, _, said = self.from_daa(self.write("in.csv", plain()), "--altitude", "geom")
        self.assertEqual(status, 3)
        self.assert_one_line(said, "(--altitude geom takes only such ones)")
        first, second = self.write("own.csv", ALONE["qgroundcontrol.csv"]), self.write("t.json", RIGHT["aircraft_by_line.json"])
        status, _, said = self.from_daa(first, second, "--leave-out", "4B0001")
        self.assertEqual(status, 0, said)
        self.assertIn("heights are mixed: ", said)
        self.assertNotIn("heights are mixed", self.from_daa(first, second, "--leave-out", "4B0001", "--altitude", "geom")[2])

    def test_how_old_a_position_is(self):
        """By seen_pos in aircraft.json; a time in milliseconds and the list `ac`, as some of its kin write them, are the same."""
        one = '{{"hex":"{}","alt_baro":3000,"gs":100,"track":0,"baro_rate":0,"lat":{},"lon":8,"seen_pos":{}}}'
        held = f"[{one.format('4b0001', 47, 0)},{one.format('4b0002', 47.1, 3)}]"
        for text in (f'{{"now":1700000003,"aircraft":{held}}}', f'{{"now":1700000003000,"ac":{held}}}'):
            reader, said = self.made(text, name="aircraft.json")
            self.assertEqual([(moment.time, [(aircraft.id, aircraft.age) for aircraft in moment.traffic]) for moment in reader.events],
                             [(1700000003, [("4B0002", 3)])], said)

    def test_quiet(self):
        """Tells what is wrong or lacking, and nothing else."""
        said = self.made(IN_PART["no_number.csv"][0], "--quiet")[1]
        self.assertEqual([line.split(": ")[1] for line in said.splitlines()][:1], ["left out"])
        self.assertEqual([line.split(" is ")[1][:7] for line in said.splitlines()[1:]], ["lacking", "lacking"])
        self.assertEqual(len(said.splitlines()), 3)
        self.assertEqual(self.made(RIGHT["aircraft_by_line.json"], "--quiet", "--oldest", "20")[1], "")

    def test_a_report_that_lacks_something(self):
        """An aircraft of which only places come is lacking, and so is one whose whole reports have ended."""
        rows = [f"{second},own,47,8,3000,100,0,0\n{second},A,47.01,8,3000,,,0\n" + f"{second},B,47.02,8,3000,{100 if second < 2 else ''},0,0\n" for second in range(20)]
        reader, _ = self.made(PLAIN + "\n" + "".join(rows))
        lacks = {moment.time: dict(moment.lacks) for moment in reader.events}
        self.assertEqual(lacks[0], {"A": "no number for trk, 0.6 NM away"})
        self.assertEqual(lacks[11], {"A": "no number for trk, 0.6 NM away"})
        self.assertEqual(set(lacks[12]), {"A", "B"})
        self.assertTrue(lacks[12]["B"].startswith("no number for gs, "), lacks[12])


class Pipe(RecordingTest):
    """What comes by a pipe is read as it comes."""

    def opened(self, *words):
        run = subprocess.Popen([sys.executable, "-B", os.path.join(TOP, "tools", "from_daa"), *words, "-"], stdin=subprocess.PIPE, stdout=subprocess.PIPE,
                               stderr=subprocess.PIPE, text=True)
        self.addCleanup(lambda: (run.kill(), run.wait(), [stream.close() for stream in (run.stdin, run.stdout, run.stderr)]))
        return run

    def test_a_moment_is_written_within_a_second(self):
        """Without a later report: what is reported at the same second is still taken."""
        run, lines = self.opened(), plain().splitlines()
        run.stdin.write("\n".join(lines[:4]) + "\n")
        run.stdin.flush()
        out = []
        while not out or out[-1] != "end\n":
            out.append(run.stdout.readline())
        begun = time.monotonic()
        run.stdin.write("\n".join(lines[4:7]) + "\n")
        run.stdin.flush()
        while out.count("end\n") < 2:
            out.append(run.stdout.readline())
        self.assertLess(time.monotonic() - begun, 1)
        self.assertEqual([len(moment.traffic) for moment in Reader().read("".join(out).encode())], [2, 2])
        _, said = run.communicate()
        self.assertEqual(run.returncode, 0, said)

    def test_the_moments_are_those_of_the_file(self):
        """In format 2 in any case; with ages, comments and names."""
        for name, words in (("plain.csv", ()), ("base_station.txt", ("--own", "4B0001")), ("aircraft_by_line.json", ("--own", "4B0001"))):
            run = self.opened(*words)
            out, said = run.communicate(RIGHT[name])
            self.assertEqual(run.returncode, 0, said)
            wanted = self.from_daa(self.write(name, RIGHT[name]), *words)[1]
            self.assertEqual(out.splitlines()[0], "format 2")
            self.assertEqual([(moment.time, moment.own, moment.traffic, moment.lacks, moment.origin) for moment in Reader().read(out.encode())],
                             [(moment.time, moment.own, moment.traffic, moment.lacks, moment.origin) for moment in Reader().read(wanted.encode())])

    def test_what_is_no_recording(self):
        for text, part in (("", "no header line"), (PLAIN + "\n", "no report of an aircraft"), ("when,id\n1,2\n", "the header has no column for time")):
            run = self.opened()
            out, said = run.communicate(text)
            self.assertEqual((run.returncode, out), (3, ""), said)
            self.assert_one_line(said, part)


if __name__ == "__main__":
    unittest.main()
