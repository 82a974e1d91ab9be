"""The comments that tools read: what a recording lacks, where and when it was made, written by tools/from_daa and read by the reader
of state lines."""
import math
import re
import unittest

from common import ToolTest
from daidalus_files import MOST_LINE_BYTES, Moment, Reader, lacks_line, name_line, no_moment_line
from test_ellipsoid import geodesic

HEAD = "name,time,lat,lon,alt,trk,gs,vs\n"
PLANE = "name,time,sx,sy,alt,vx,vy,vs\n"


def reader_of(text):
    reader = Reader()
    reader.read(text.encode())
    return reader


class Read(unittest.TestCase):
    """The forms of docs/FORMATS.md, and what is none of them."""

    def test_what_a_moment_lacks(self):
        text = ("# lacks A no moment is open\nmoment 0\n#\tlacks\tB no report for 12 s, 3.1 NM away\r\nown 0 0 0 0 100 0\n# lacks * 3 more\n"
                "# lacks\n# lack C why\n#lacks C why\n## lacks C why\nend\nmoment 1\nown 0 0 0 0 100 0\nend\n")
        self.assertEqual([moment.lacks for moment in reader_of(text).events], [[("B", "no report for 12 s, 3.1 NM away"), ("*", "3 more")], []])

    def test_why_there_is_no_moment(self):
        text = ("moment 0\n# no moment: within one\nown 0 0 0 0 100 0\nend\n# no moment: first\n# no moment: again\nmoment 9\nown 0 0 0 0 100 0\nend\n"
                "# no moment: at the end\n")
        reader = reader_of(text)
        self.assertEqual(([moment.silence for moment in reader.events], reader.silence), (["", "first"], "at the end"))
        self.assertEqual(reader_of("# no moment:\n").silence, "no cause is given")

    def test_where_and_when(self):
        text = ("# clock utc\n# name A Flarm 7\n# name A another\n# origin 1 2 3\nmoment 0\n# origin -47.5 8.25 -0.5\n# origin 1 2 3\nown 0 0 0 0 100 0\nend\n"
                "# clock day\nmoment 1\n# origin 91.x 2 3\nown 0 0 0 0 100 0\nend\n")
        reader = reader_of(text)
        self.assertEqual([moment.origin for moment in reader.events], [(-47.5, 8.25, -0.5), None])
        self.assertEqual((reader.clock, reader.names), ("utc", {"A": "Flarm 7"}))
        self.assertIsNone(reader_of("moment 0\nown 0 0 0 0 100 0\nend\n").clock)

    def test_no_comment_is_a_long_line(self):
        """Which the program would refuse: of the longest causes and names."""
        for line in (lacks_line("12345678", "x" * 999), no_moment_line("x" * 999), name_line("12345678", "\U0001f600" * 999)):
            self.assertLessEqual(len(line.encode()), MOST_LINE_BYTES)


class Written(ToolTest):
    """By tools/from_daa."""

    def made(self, recording, *words):
        status, out, said = self.tool("from_daa", self.write("in.csv", recording), *words)
        self.assertEqual(status, 0, said)
        reader = Reader()
        self.assertTrue(all(isinstance(event, Moment) for event in reader.read(out.encode())), out)
        return reader, said, out

    def test_an_aircraft_that_is_silent_for_a_while(self):
        """A flies south at 360 knots, 0.1 NM a second, from 5 NM ahead; heard at 0 and at 15 s. At 11 s its report is older than 10 s."""
        rows = [f"own,{time},0,0,1000,0,0,0\n" for time in range(16)] + ["A,0,0,5,1000,0,-360,0\n", "A,15,0,3.5,1000,0,-360,0\n"]
        reader, said, _ = self.made(PLANE + "".join(rows))
        wanted = {11: "no report for 11 s, 3.9 NM away", 12: "no report for 12 s, 3.8 NM away", 13: "no report for 13 s, 3.7 NM away",
                  14: "no report for 14 s, 3.6 NM away"}
        self.assertEqual({moment.time: moment.lacks for moment in reader.events if moment.lacks}, {time: [("A", why)] for time, why in wanted.items()})
        self.assertIn("from_daa: A is lacking in 4 moments, from 11 to 14 s (its longest gap between reports is 15 s): what is not known there is not clear\n", said)
        reader, said, _ = self.made(PLANE + "".join(rows), "--oldest", "20")
        self.assertEqual([moment.time for moment in reader.events if moment.lacks], [])
        self.assertNotIn("lacking", said)

    def test_whom_no_moment_lacks(self):
        """Who is more than 40 NM away, and who was not heard for more than 300 s."""
        far = [f"own,{time},0,0,1000,0,0,0\n" for time in (0, 20)] + ["N,0,39.9,0,1000,0,0,0\n", "F,0,40.1,0,1000,0,0,0\n"]
        self.assertEqual([moment.lacks for moment in self.made(PLANE + "".join(far))[0].events], [[], [("N", "no report for 20 s, 39.9 NM away")]])
        old = [f"own,{time},0,0,1000,0,0,0\n" for time in (0, 300, 301)] + ["A,0,1,0,1000,0,0,0\n"]
        self.assertEqual([len(moment.lacks) for moment in self.made(PLANE + "".join(old))[0].events], [0, 1, 0])

    def test_many_that_a_moment_lacks(self):
        """The nearest 20 by name, the others by their number; also those for which a moment has no room."""
        rows = ["own,0,0,0,1000,0,0,0\n"] + [f"A{number},0,{number / 4},0,1000,0,0,0\n" for number in range(1, 88)]
        moment, = self.made(PLANE + "".join(rows))[0].events
        self.assertEqual(len(moment.traffic), 64)
        self.assertEqual(moment.lacks, [(f"A{number}", f"more than 64 aircraft, {away} NM away") for number, away in
                                        zip(range(65, 85), "16.2 16.5 16.8 17.0 17.2 17.5 17.8 18.0 18.2 18.5 18.8 19.0 19.2 19.5 19.8 20.0 20.2 20.5 20.8 21.0".split())]
                         + [("*", "3 more")])

    def test_an_ownship_that_is_silent_for_a_while(self):
        """The recording's step is a second, or ten. The longest silence is told."""
        gaps = {1: [(3, "5 to 8 s")], 10: [(21, "40 to 61 s")]}
        for step, times, wanted in ((1, (0, 1, 2, 3, 5, 8, 9), {8: "between 5 and 8 s"}), (10, (0, 10, 20, 40, 61, 70), {61: "between 40 and 61 s"})):
            reader, said, _ = self.made(PLANE + "".join(f"own,{time},0,0,{1000},0,100,0\n" for time in times))
            self.assertEqual(re.findall("no moment for .*", said), [f"no moment for {gap} s, from {between}, because no report of the ownship came"
                                                                    for gap, between in gaps[step]])
            self.assertEqual({moment.time: moment.silence for moment in reader.events if moment.silence},
                             {time: f"no report of the ownship {why}" for time, why in wanted.items()}, step)
        _, said, _ = self.made(PLANE + "".join(f"own,{time},0,0,1000,0,100,0\n" for time in (0, 1, 2, 3, 9, 10, 14)))
        self.assertIn("from_daa: no moment for 6 s, from 3 to 9 s: the longest of 2 gaps, because no report of the ownship came\n", said)
        reader, _, _ = self.made(PLANE + "".join(f"own,{time},0,0,{70000 * (time == 1)},0,100,0\n" for time in range(3)))
        self.assertEqual([moment.silence for moment in reader.events], ["", "the ownship is out of range"])

    def test_the_origin_leads_back_to_the_places(self):
        """By the rule of docs/FORMATS.md: of an ownship whose track is no whole number, also far from where it began."""
        places = [("47.40", "8.60", "47.52", "8.603"), ("47.41", "8.61", "47.2", "8.1"), ("50.1", "11.0", "50.2", "10.9")]
        rows = "".join(f"own,{time},{lat},{lon},3000,2.4,80.3,0\nA,{time},{there[0]},{there[1]},3200,181.7,112.6,0\n"
                       for time, (lat, lon, *there) in enumerate(places))
        for moment, (lat, lon, *there) in zip(self.made(HEAD + rows)[0].events, places, strict=True):
            self.assertEqual((moment.origin.lat, moment.origin.lon), (float(lat), float(lon)))
            east, north = ((there - own) / 1000 for there, own in zip(moment.traffic[0][1:3], moment.own[:2]))
            far, azimuth, _ = geodesic(*map(math.radians, (float(lat), float(there[0]), float(there[1]) - float(lon))))
            bearing = azimuth - math.radians(moment.origin.turn)
            self.assertLess(math.dist((east, north), (far * math.sin(bearing), far * math.cos(bearing))), 0.001)
        self.assertIsNone(self.made(PLANE + "own,0,0,0,0,0,100,0\n")[0].events[0].origin)

    def test_whole_names(self):
        """Once, before the first moment that has the aircraft."""
        text = PLANE + "own,0,0,0,0,0,100,0\nown,1,0,0,0,0,100,0\nFlarm:DD1234567,1,1,0,0,0,0,0\nown,2,0,0,0,0,100,0\n"
        reader, _, out = self.made(text)
        self.assertEqual((reader.names, out.count("# name")), ({"F1234567": "Flarm:DD1234567"}, 1))


if __name__ == "__main__":
    unittest.main()
