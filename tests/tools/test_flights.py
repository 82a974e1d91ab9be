"""Closest approaches, places on the globe and times by the clock, worked out by hand; and the GeoJSON of them."""
import csv
import json
import math
import unittest

from common import TOP, ToolTest  # noqa: F401 (TOP: the path of tools/ is set there)
from daidalus_files import Moment, Origin, Own, Traffic
from flights import Approaches, Clock, Relative, States, place_on_globe
from test_ellipsoid import geodesic
from test_table import moment

# The ownship goes north at 360 knots, 0.1 miles a second, from 52 N 4 E. A crosses ahead from the left, 300 feet above, at the
# same speed: it begins 1.05 miles west and 0.55 miles north. At second t it is -1.05 + 0.1 t east and 0.55 - 0.1 t north, so
# nearest at t = 8: 0.25 west, 0.25 south.
ROWS = [(0, -1050, 550), (5, -550, 550), (10, -50, 550), (15, 450, 550)]


def states(clock="", origin=True, lacking=""):
    text = clock
    for time, east, north in ROWS:
        text += f"moment {time}\n" + f"# origin {52 + time / 600:.7f} 4.0000000 0.0000\n" * origin
        text += lacking * (time == 10) + f"own 0 {100 * time} 10000 0 3600 0\ntraffic A {east} {north} 10300 3600 0 0\nend\n"
    return text


REPORT = moment(0, 2) + moment(5, 3) + moment(10, 3) + moment(15, 0)


class Geometry(unittest.TestCase):
    def test_the_nearest_place_lies_between_two_moments(self):
        approaches = Approaches(5)
        for time, x, y in ROWS:
            state = Moment(time, 1)
            state.own, state.traffic = Own(0, 100 * time, 10000, 0, 3600, 0), [Traffic("A", x, y, 10300, 3600, 0, 0)]
            approaches.add(state)
        found = approaches.found["A"]
        self.assertAlmostEqual(found.time, 8)
        self.assertAlmostEqual(found.horizontal, math.hypot(0.25, 0.25))
        self.assertEqual((found.above, found.place), (300, None))

    def test_across_a_gap_nothing_is_taken_to_fly(self):
        """With steps of at most 4 s the moments alone count: at 10 s it is 0.05 west and 0.45 south."""
        approaches = Approaches(4)
        for time, x, y in ROWS:
            state = Moment(time, 1)
            state.own, state.traffic = Own(0, 100 * time, 10000, 0, 3600, 0), [Traffic("A", x, y, 10300, 3600, 0, 0)]
            approaches.add(state)
        self.assertEqual(approaches.found["A"].time, 10)
        self.assertAlmostEqual(approaches.found["A"].horizontal, math.hypot(0.05, 0.45))

    def test_a_place_on_the_globe(self):
        """Its geodesic from the ownship has the length and, once the plane's turn is added, the direction that the plane has; and beyond
        180 degrees longitudes begin anew."""
        state = Moment(0, 1)
        for (lat, lon, turn), (east, north) in (((52, 4, 0), (0, 60)), ((60, 4, 90), (0, 30)), ((60, 4, 90), (30, 0)), ((60, 179.5, 0), (30, 0)),
                                                ((-45, -179.9, 0.25), (-60, 40)), ((70, 10, -0.5), (3, -99))):
            state.origin = Origin(lat, lon, turn)
            found = place_on_globe(state, Relative(east, north, 0))
            self.assertTrue(-180 <= found[1] < 180)
            apart = (found[1] - lon + 180) % 360 - 180 or 1e-12
            far, azimuth, _ = geodesic(math.radians(lat), math.radians(found[0]), math.radians(apart))
            self.assertAlmostEqual(far, math.hypot(east, north), places=6)
            off = math.degrees(azimuth - math.atan2(east, north)) - turn
            self.assertAlmostEqual((off + 180) % 360 - 180, 0, places=6)
        state.origin = Origin(52, 4, 0.3)
        for number, wanted in zip(place_on_globe(state, Relative(0, 0, 0)), (52, 4)):
            self.assertAlmostEqual(number, wanted, places=9)
        state.origin = None
        self.assertIsNone(place_on_globe(state, Relative(0, 0, 0)))


class Told(ToolTest):
    def run_on(self, tool, text, *words):
        status, out, said = self.tool(*tool, "--states", self.write("in.states", text), *words, self.write("a.report", REPORT))
        self.assertEqual(said, "")
        self.assertEqual(status, 0)
        return out

    def test_summary_and_table_tell_the_closest_approach(self):
        """0.25 west of 4 E at 52.01333 + .. : the ownship is at 52 + 0.8/60 = 52.01333 N then, the aircraft 0.25 miles south and west."""
        out = self.run_on(("summary",), states()).splitlines()
        lat, lon = 52 + (0.8 - 0.25) / 60, 4 - 0.25 / 60 / math.cos(math.radians(52))
        self.assertTrue(out[-1].startswith("A: closest 0.354 NM, 300 ft above, 8.0 s, at "), out[-1])
        for said, wanted in zip(out[-1].split()[-2:], (lat, lon)):
            self.assertAlmostEqual(float(said), wanted, delta=0.0001)
        self.assertEqual(self.run_on(("summary",), states(origin=False)).splitlines()[-1], "A: closest 0.354 NM, 300 ft above, 8.0 s")
        self.assertIn("A,closest horizontal,0.354,,8.0,8.0,", self.run_on(("summary",), states(), "--csv").splitlines())
        row = next(csv.DictReader(self.run_on(("table", "approaches"), states()).splitlines()))
        self.assertEqual((row["encounter"], row["time"], row["aircraft"], row["vertical"]), ("1", "8.0", "A", "300"))
        self.assertAlmostEqual(float(row["horizontal"]), 0.3536, delta=0.0001)
        self.assertAlmostEqual(float(row["latitude"]), lat, delta=0.0001)

    def test_a_table_tells_where_each_aircraft_is(self):
        rows = list(csv.DictReader(self.run_on(("table", "aircraft"), states()).splitlines()))
        self.assertEqual([(row["horizontal"], row["vertical"], row["altitude"]) for row in rows[1:3]], [("0.5523", "300", "10300"), ("0.4528", "300", "10300")])
        there, apart = (math.radians(float(rows[0][it])) for it in ("latitude", "longitude"))
        self.assertAlmostEqual(geodesic(math.radians(52), there, apart - math.radians(4))[0], math.hypot(1.05, 0.55), places=4)
        self.assertEqual({row["latitude"] for row in csv.DictReader(self.run_on(("table", "aircraft"), states(origin=False)).splitlines())}, {""})

    def test_times_by_the_clock(self):
        """1700000000 is 2023-11-14 22:13:20 UTC; 93600 s of the day are two in the morning of the next."""
        for clock, how, first, wanted in (("", "start", 0, "00:00:08.0"), ("# clock utc\n", "utc", 1700000000, "2023-11-14T22:13:28.0Z"),
                                          ("# clock day\n", "day", 93600, "02:00:08.0"), ("# clock utc\n", "start", 1700000000, "00:00:08.0")):
            text, report = states(clock), REPORT
            for time, _, _ in reversed(ROWS):
                text = text.replace(f"moment {time}\n", f"moment {first + time}\n")
                report = report.replace(f"moment {time}\n", f"moment {first + time}\n").replace(f"done {time}\n", f"done {first + time}\n")
            status, out, _ = self.tool("summary", "--states", self.write("in.states", text), "--clock", how, self.write("a.report", report))
            self.assertEqual(status, 0)
            self.assertIn(f"300 ft above, {wanted}, at", out)
        for words in (("--clock", "utc"), ("--clock", "day", "--states", self.write("in.states", states()))):
            status, out, said = self.tool("summary", *words, self.write("a.report", REPORT))
            self.assertEqual((status, out), (4, ""))
            self.assert_one_line(said, "needs --states with a comment `# clock utc`")

    def test_other_states_are_refused(self):
        for tool in (("summary",), ("table", "kinds"), ("table", "approaches"), ("geojson",)):
            status, _, said = self.tool(*tool, "--states", self.write("in.states", states().replace("moment 5\n", "moment 6\n")), self.write("a.report", REPORT))
            self.assertEqual(status, 4, tool)
            self.assert_one_line(said, "has no moment 5, which the report has")

    def test_geojson(self):
        """Two tracks; alerts of level 2 to 5 s and of 3 from there on; the closest approach; and where B is lacking."""
        out = json.loads(self.run_on(("geojson",), states(lacking="# lacks B old\n")))
        self.assertEqual(out["type"], "FeatureCollection")
        found = [(it["properties"], it["geometry"]) for it in out["features"]]
        tracks = {it["aircraft"]: at for it, at in found if it["what"] == "track"}
        self.assertEqual(tracks["ownship"]["coordinates"], [[4, round(52 + time / 600, 7), 3048] for time, _, _ in ROWS])
        self.assertEqual([at["type"] for at in tracks.values()], ["LineString"] * 2)
        alerts = [(it["level"], it["from"], it["upto"], len(at["coordinates"])) for it, at in found if it["what"] == "alert"]
        self.assertEqual(alerts, [(2, 0, 0, 2), (3, 5, 10, 3)])
        closest = [(it["time"], it["horizontal"], it["vertical"]) for it, _ in found if it["what"] == "closest"]
        self.assertEqual(closest, [("8.0", 0.3536, 300)])
        self.assertEqual([(it["why"], it["from"], it["upto"], at["type"]) for it, at in found if it["what"] == "lacking"],
                         [("lacks B old", 10, 10, "Point")])

    def test_geojson_needs_places_on_the_globe(self):
        status, out, said = self.tool("geojson", "--states", self.write("in.states", states(origin=False)), self.write("a.report", REPORT))
        self.assertEqual((status, out), (4, ""))
        self.assert_one_line(said, "has no comment `# origin`")
        self.assertEqual(self.tool("geojson", self.write("a.report", REPORT))[0], 2)

    def test_a_clock_of_states(self):
        found = States(self.write("in.states", states("# clock day\n")))
        self.assertEqual((found.clock, Clock("day", found).words(86400 + 3661), Clock("start", found).words(3661.25)), ("day", "01:01:01", "01:01:01.2"))


if __name__ == "__main__":
    unittest.main()
