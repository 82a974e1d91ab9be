"""tools/from_daa: both forms of position and speed, units, names, late reports, what is left out, what rounding costs."""
import math
import os
import re
import unittest

from common import CONFIG, TOP, ToolTest
from daidalus_files import EXACT, Bounds, Moment, Own, Reader, Traffic
from test_ellipsoid import geodesic

HEAD = "NAME lat lon alt trk gs vs time\n[none] [deg] [deg] [ft] [deg] [knot] [fpm] [s]\n"
PLANE = "NAME sx sy sz vx vy vz time\n[none] [nmi] [nmi] [ft] [knot] [knot] [fpm] [s]\n"


class FromDaa(ToolTest):
    def made(self, recording, *words):
        """The moments of a recording, and what is said."""
        status, out, said = self.tool("from_daa", self.write("in.daa", recording), *words)
        self.assertEqual(status, 0, said)
        events = Reader().read(out.encode())
        self.assertTrue(all(isinstance(event, Moment) for event in events), out)
        return events, said

    def test_bounds(self):
        """Those of the command words, in format 3; without them each byte is as before."""
        text = HEAD + "own 60 10 5000 90 150 -100 3\nA 60.1 10 5200 180 140 0 3\n"
        plain = self.tool("from_daa", self.write("in.daa", text))[1]
        for words, own, aircraft in ((("--bounds", "50,75,58,200"), EXACT, Bounds(50, 75, 58, 200)), (("--own-bounds", "10,25,6,64"), Bounds(10, 25, 6, 64), EXACT),
                                     (("--bounds", "0,0,0,0"), EXACT, EXACT), (("--own-bounds=1,2,3,4", "--bounds=10000,0,0,5"), Bounds(1, 2, 3, 4), Bounds(10000, 0, 0, 5))):
            status, out, _ = self.tool("from_daa", *words, self.write("in.daa", text))
            moment = Reader().read(out.encode())[0]
            self.assertEqual((status, out.split("\n")[0], moment.own.bounds, moment.traffic[0].bounds), (0, "format 3", own, aircraft))
            bare = [re.sub(r"(^own( \S+){6}|^traffic( \S+){7}).*", r"\1", line) for line in out.split("\n")[1:]]
            self.assertEqual("\n".join(bare), plain)
        for word in ("1,2,3", "1,2,3,4,5", "1,2,3,-4", "1,2,3,10001", "1,2,x,4", "1, 2,3,4", ""):
            self.assertEqual(self.tool("from_daa", f"--bounds={word}", self.write("in.daa", text))[:2], (2, ""), word)

    def test_latitudes_and_longitudes(self):
        """By Vincenty's formulas for WGS 84 0.1 degree of latitude is 6.0158 NM there, and 0.1 of longitude 3.0130, 0.0023 of them to the
        north; and B's west is 0.0866 degrees to the left of the ownship's."""
        moments, _ = self.made(HEAD + "own 60 10 5000 90 150 -100 3\nA 60.1 10 5200 180 140 0 3\nB 60 10.1 5000 270 100 20 3\n")
        self.assertEqual([(moment.time, moment.own) for moment in moments], [(3, Own(0, 0, 5000, 90, 1500, -100))])
        self.assertEqual(moments[0].traffic, [Traffic("A", 0, 6016, 5200, 0, -1400, 0), Traffic("B", 3013, 2, 5000, -1000, -2, 20)])

    def test_longitudes_over_the_date_line(self):
        """0.02 degrees of the equator, of which a degree is 60.1077 NM."""
        moments, _ = self.made(HEAD + "own 0 179.99 0 0 100 0 0\nA 0 -179.99 0 0 100 0 0\n")
        self.assertEqual(moments[0].traffic[0][1:3], (1202, 0))

    def test_latitudes_past_the_pole(self):
        """As one has where latitude and longitude are in each other's place. At the pole itself the rows are taken, but beyond 80 degrees no
        plane is made."""
        text = HEAD + "own 35.60 139.70 0 0 100 0 0\nA {} 139.70 0 0 100 0 0\n"
        for lat in ("139.70", "-90.5"):
            status, out, said = self.tool("from_daa", "--strict", self.write("in.daa", text.format(lat)))
            self.assertEqual((status, out), (3, ""))
            self.assert_one_line(said, "line 4: too large a number for lat: are lat and lon in each other's place, or in another unit?: 'A ")
        radians = HEAD.replace("[deg] [deg] [ft]", "[rad] [deg] [ft]")
        for recording in (HEAD + "own 90 0 0 0 100 0 0\n", radians + f"own -{math.pi / 2} 0 0 0 100 0 0\n"):
            status, out, said = self.tool("from_daa", "--strict", self.write("in.daa", recording))
            self.assertEqual((status, out), (3, ""))
            self.assertIn("left out: 1 moment whose ownship is out of range", said)

    def test_places_and_speeds_in_the_plane(self):
        moments, _ = self.made(PLANE + "own 1 2 5000 0 150 0 0\nA 3 1.5 4000 -30.04 40 -500 0\n")
        self.assertEqual(moments[0].own, Own(0, 0, 5000, 0, 1500, 0))
        self.assertEqual(moments[0].traffic, [Traffic("A", 2000, -500, 4000, -300, 400, -500)])

    def test_units_from_the_header_of_a_csv(self):
        """1852 m are a mile, 100 m/s 194.38 knots, 304.8 m 1000 ft, 1 m/s 196.85 ft/min; the columns in another order."""
        text = 'time [s],aircraft,sx [m],sy [m],sz [m],vx [m/s],vy [m/s],vz [m/s]\n0,"own",0,0,304.8,0,100,0\n0,A,1852,3704,609.6,0,-50,1\n'
        moments, said = self.made(text)
        self.assertEqual(moments[0].own, Own(0, 0, 1000, 0, 1944, 0))
        self.assertEqual(moments[0].traffic, [Traffic("A", 1000, 2000, 2000, 0, -972, 197)])
        self.assertEqual(self.made(text.replace(" [m/s]", "(m/s)"))[0][0].traffic, moments[0].traffic)

    def test_kilometres_an_hour(self):
        """185.2 km/h are 100 knots."""
        moments, _ = self.made("name,time,sx,sy,alt,vx [km/h],vy,vs\nown,0,0,0,0,0,100,0\nA,0,1,0,0,185.2,0,0\n")
        self.assertEqual(moments[0].traffic[0].vx, 1000)

    def test_semicolons_stand_between_columns_alone(self):
        """Where the header has one, a comma is no mark; a row with more fields than the header is refused."""
        text = "name;time;sx;sy;alt;vx;vy;vs\nown;0;0.5;0;1000;0;100;0\n"
        for given, part in ((text.replace("0.5", "0,5"), "line 2: no number for sx: a decimal comma, or a mark of thousands? Write a point, and no mark: "
                             "'own;0;0,5;0;1000;0;100;0'\n"),
                            (text.replace(";", ",").replace("0.5", "0,5"), "line 2: 9 fields, and the header has 8: a decimal comma (write a point), or a comma in a name?: "),
                            (PLANE + "Own Ship 0 0 0 0 100 0 0\n", "line 3: 9 fields, and the header has 8: 'Own Ship")):
            status, out, said = self.tool("from_daa", self.write("in.csv", given))
            self.assertEqual((status, out), (3, ""))
            self.assert_one_line(said, part)
        self.assertEqual(self.made(text.replace("own", "a, b"))[0][0].own, Own(0, 0, 1000, 0, 1000, 0))

    def test_says_where_times_fall(self):
        """Of the ownship alone; each aircraft by itself may rise."""
        moments, said = self.made(PLANE + "".join(f"own 0 0 0 0 100 0 {time}\n" for time in (86398, 86399, 0, 1)))
        self.assertEqual([moment.time for moment in moments], [0, 1, 86398, 86399])
        self.assertIn("from_daa: the ownship's times fall, from 86399 to 0 s: the reports are taken in the order of their times\n", said)
        text = "own 0 0 0 0 100 0 3\nown 0 0 0 0 100 0 4\nA 1 0 0 0 100 0 3\nA 1 0 0 0 100 0 4\n"
        self.assertNotIn("fall", self.made(PLANE + text)[1])

    def test_times_of_day_go_over_midnight(self):
        """Each aircraft's by itself; also where the hours go on past 24, and where the recording is sorted by aircraft."""
        rows = "".join(f"{name} {east} 0 0 0 100 0 {time}\n" for name, east in (("own", 0), ("A", 1))
                       for time in ("23:59:58", "23:59:59", "00:00:00", "00:00:01"))
        moments, said = self.made(PLANE + rows)
        self.assertEqual([(moment.time, len(moment.traffic)) for moment in moments], [(time, 1) for time in range(86398, 86402)])
        self.assertIn("from_daa: times of day go over midnight: from there on they count past 24:00:00\n", said)
        self.assertNotIn("fall", said)
        again, said = self.made(PLANE + rows.replace("00:00:0", "24:00:0"))
        self.assertEqual([moment.time for moment in again], [moment.time for moment in moments])
        self.assertNotIn("midnight", said)

    def test_a_byte_order_mark_is_skipped(self):
        self.assertEqual(len(self.made("\ufeff" + PLANE + "own 0 0 0 0 100 0 0\n")[0]), 1)

    def test_numbers_that_are_too_large(self):
        """Of the greatest that a float can have, and of that in another unit, which would be infinite."""
        row = "own 0 0 0 0 100 0 0\nA {} 1 0 {} 0 0 0\n"
        for text in (PLANE + row.format("1e308", 0), PLANE + row.format(0, "1e308"), PLANE.replace("[ft]", "[km]") + "own 0 0 1e308 0 100 0 0\n",
                     PLANE.replace("[s]", "[h]") + "own 0 0 0 0 100 0 1e308\n"):
            status, out, said = self.tool("from_daa", "--strict", self.write("in.daa", text))
            self.assertEqual((status, out), (3, ""))
            self.assert_one_line(said, "too large a number for ")
        text = PLANE + f"own 0 0 0 0 100 0 {'9' * 5000}:00:00\n"
        self.assertEqual(self.tool("from_daa", self.write("in.daa", text))[0], 3)

    def test_the_plane_is_that_of_the_ellipsoid(self):
        """By Vincenty's formulas, to the rounding: 3 degrees of longitude at 60 degrees north, and a degree of latitude from the equator on. 4
        degrees of longitude are 120.5 NM, which is too far."""
        for (lat, lon), (other, east) in (((60, 10), (60, 13)), ((0, 10), (1, 10))):
            far, azimuth, _ = geodesic(math.radians(lat), math.radians(other), math.radians(east - lon))
            aircraft = self.made(HEAD + f"own {lat} {lon} 0 0 100 0 0\nA {other} {east} 0 0 100 0 0\n")[0][0].traffic[0]
            self.assertLessEqual(abs(aircraft.x - 1000 * far * math.sin(azimuth)), 0.7)
            self.assertLessEqual(abs(aircraft.y - 1000 * far * math.cos(azimuth)), 0.7)
        moments, said = self.made(HEAD + "own 60 10 0 0 100 0 0\nA 60 14 0 0 100 0 0\n")
        self.assertEqual(moments[0].traffic, [])
        self.assertIn("left out: 1 aircraft out of range", said)

    def test_what_rounding_costs_of_a_climb(self):
        """100.4 and 200.6 become 100 and 201: their difference 101 is off by 0.8."""
        _, said = self.made(PLANE + "own 0 0 0 0 100 100.4 0\nA 1 0 0 0 0 200.6 0\n")
        self.assertIn("vertical speed 0.8 ft/min", said)

    def test_of_what_is_lost_the_greatest_counts(self):
        """0.8 at the first moment and 0.2 at the second."""
        rows = "".join(f"own 0 0 0 0 100 {own} {time}\nA 1 0 0 0 0 {other} {time}\n" for own, other, time in ((100.4, 200.6, 0), (100.4, 200.2, 1)))
        self.assertIn("vertical speed 0.8 ft/min", self.made(PLANE + rows)[1])

    def test_the_closest_approach_is_one_to_come(self):
        """Now, of an aircraft that flies away: 10 NM in both. Where it came by, a fifth of an hour ago, 3.04 knots make 0.608 NM and 3.0 0.6."""
        for north, lost in (("50", "0.0000"), ("-50", "0.0080")):
            _, said = self.made(PLANE + f"own 0 0 0 0 100 0 0\nA 0 10 0 3.04 {100 + float(north)} 0 0\n")
            self.assertIn(f"distance at the closest approach {lost} NM", said)

    def test_units_in_a_line_of_their_own(self):
        text = ("id,x,y,z,vx,vy,vz,time\n,km,km,ft,kt,kt,fpm,min\nown,0,0,0,0,60,0,0\nA,1.852,0,0,0,0,0,0\n"
                "own,0,0,0,0,60,0,1\nA,0,0,0,0,0,0,1\n")
        moments, _ = self.made(text)
        self.assertEqual([moment.time for moment in moments], [0, 60])
        self.assertEqual(moments[0].traffic[0].x, 1000)

    def test_turns_the_plane_by_the_fraction_of_the_track(self):
        """At 359.6 degrees the track becomes 0, and what was straight ahead stays straight ahead."""
        east, north = math.sin(math.radians(359.6)), math.cos(math.radians(359.6))
        moments, said = self.made(PLANE + f"own 0 0 0 {150 * east} {150 * north} 0 0\n"
                                          f"A {5 * east} {5 * north} 0 {-90 * east} {-90 * north} 0 0\n")
        self.assertEqual(moments[0].own, Own(0, 0, 0, 0, 1500, 0))
        self.assertEqual(moments[0].traffic, [Traffic("A", 0, 5000, 0, 0, -900, 0)])
        self.assertIn("at most: place 0.0000 NM", said)

    def test_an_ownship_that_stands_keeps_its_track(self):
        """Where there is one: the ground speeds that it may take are flown along it. At 170.4 the plane turns by 0.4: sin 0.4 is 0.00698."""
        row = "own 60 10 5000 {} 0 0 3\nA 60.1 10 5000 0 100 0 3\n"
        for track, whole, x in ((90, 90, 0), (170.4, 170, -42), (-10, 350, 0)):
            moment, = self.made(HEAD + row.format(track))[0]
            self.assertEqual((moment.own, moment.traffic[0].x), (Own(0, 0, 5000, whole, 0, 0), x))
        for speed in ("0 0", "0 -0", "-0 -0"):
            self.assertEqual(self.made(PLANE + f"own 0 0 0 {speed} 0 0\n")[0][0].own, Own(0, 0, 0, 0, 0, 0))

    def test_between_blanks_no_empty_field_is_seen(self):
        """A has no squawk: what follows it would be taken as another column's. With commas it is seen."""
        text = "name\ttime\tsquawk\tsx\tsy\tvx\tvy\tvs\talt\tn\nown\t0\t1200\t0\t0\t0\t100\t0\t5000\t1\nA\t0\t\t1\t2\t0\t-100\t0\t5000\t7\n"
        status, out, said = self.tool("from_daa", "--strict", self.write("in.daa", text))
        self.assertEqual((status, out), (3, ""))
        self.assert_one_line(said, "line 3: 9 fields, and the header has 10: between blanks no empty field is seen (write commas): 'A")
        for shown in (text.replace("\t", ","), text.replace("A\t0\t\t", "A\t0\t-\t")):
            self.assertEqual(self.made(shown)[0][0].traffic, [Traffic("A", 1000, 2000, 5000, 0, -1000, 0)])

    def test_late_reports_have_an_age(self):
        """A report 2.5 s old flies half a second on, and is then 2 s old: 360 knots are 0.1 NM a second."""
        moments, _ = self.made(PLANE + "own 0 0 0 0 100 0 0\nA 1 0 1000 0 360 -600 7.5\nown 0 0 0 0 100 0 10\n")
        self.assertEqual([moment.traffic for moment in moments], [[], [Traffic("A", 1000, 50, 995, 0, 3600, -600, 2)]])

    def test_an_old_report_is_left_out(self):
        recording = PLANE + "own 0 0 0 0 100 0 0\nA 1 0 0 0 0 0 0\nown 0 0 0 0 100 0 30\n"
        moments, said = self.made(recording)
        self.assertEqual([len(moment.traffic) for moment in moments], [1, 0])
        self.assertIn("left out: 1 aircraft whose report is older than 10 s", said)
        moments, _ = self.made(recording, "--oldest", "60")
        self.assertEqual(moments[1].traffic[0].age, 30)

    def test_a_report_that_is_just_as_old_as_it_may_be(self):
        """16.1 - 6.1 is a little more than 10 in floating point. A hundredth of a second later it is too old."""
        recording = PLANE + "own 0 0 0 0 100 0 6.1\nA 1 0 0 0 0 0 6.1\nown 0 0 0 0 100 0 {}\n"
        self.assertEqual([aircraft.age for aircraft in self.made(recording.format(16.1))[0][1].traffic], [10])
        moments, said = self.made(recording.format(16.11))
        self.assertEqual(moments[1].traffic, [])
        self.assertIn("left out: 1 aircraft whose report is older than 10 s", said)

    def test_an_ownship_far_from_where_it_began(self):
        """At 100 NM it is there; farther away it is at 0 0, and what is round it with it. A moment that is left out is not counted."""
        rows = "".join(f"own {east} 0 {alt} 0 100 0 {time}\nA {east} 1 0 0 0 0 {time}\n"
                       for time, (east, alt) in enumerate(((0, 0), (-100, 0), (101, 0), (102, 0), (103, 70000))))
        moments, said = self.made(PLANE + rows)
        self.assertEqual([(moment.own.x, moment.traffic[0].x) for moment in moments], [(0, 0), (-100000, -100000), (0, 0), (0, 0)])
        self.assertIn("from_daa: 2 moments with the ownship at 0 0, more than 100 NM from where it began\n", said)
        self.assertNotIn("where it began", self.made(PLANE + "own 0 0 0 0 100 0 0\nown 100 0 0 0 100 0 1\n")[1])

    def test_lines_with_an_equals_sign(self):
        """Before the header they are left out; after it they are rows like others."""
        text = "# made\na = 1\nb = 2\nname,time,sx,sy,alt,vx,vy,vs\nown,0,0,0,0,0,100,0\nA,0,1,0,0,0,0,0\n"
        moments, said = self.made(text.replace("A,", "B=1,"))
        self.assertEqual([aircraft.id for aircraft in moments[0].traffic], ["B1"])
        self.assertIn("left out: 2 lines `KEY = VALUE`", said)
        status, out, said = self.tool("from_daa", "--strict", self.write("in.csv", text + "c = 3\n"))
        self.assertEqual((status, out), (3, ""))
        self.assertIn("line 7: 3 fields, and the header has 8: ", said)

    def test_one_moment_a_second(self):
        moments, said = self.made(PLANE + "".join(f"own 0 0 0 0 100 0 {tenth / 10}\n" for tenth in range(25)))
        self.assertEqual([moment.time for moment in moments], [0, 1, 2])
        self.assertIn("left out: 22 moments in a second that has one already", said)

    def test_a_second_before_the_first_one_is_left_out(self):
        moments, said = self.made(PLANE + "".join(f"own 0 0 0 0 100 0 {time}\n" for time in (-5, -0.5, 0, 1)))
        self.assertEqual([moment.time for moment in moments], [0, 1])
        self.assertIn("left out: 2 moments in a second that has one already, or out of range", said)

    def test_times_in_other_units(self):
        """1.13 hours are 4068 s, though in floating point 1.13 * 3600 is a little less."""
        recording = PLANE.replace("[s]", "[h]") + "own 0 0 0 0 100 0 1.13\nown 0 0 0 0 100 0 2e6\n"
        moments, said = self.made(recording)
        self.assertEqual([moment.time for moment in moments], [4068])
        self.assertIn("left out: 1 moment in a second that has one already, or out of range", said)

    def test_names(self):
        moments, said = self.made(PLANE + "own 0 0 0 0 100 0 0\nIntruder1 1 0 0 0 0 0 0\nIntruder2 2 0 0 0 0 0 0\nüü 3 0 0 0 0 0 0\n")
        self.assertEqual([aircraft.id for aircraft in moments[0].traffic], ["Intrude1", "Intrude2", "A0"])
        self.assertIn("Intruder1 is written Intrude1", said)
        self.assertNotIn("is written", self.made(PLANE + "UAS_ownship 0 0 0 0 100 0 0\n")[1])
        moments, _ = self.made(PLANE + "own 0 0 0 0 100 0 0\nA123456789 1 0 0 0 0 0 0\n")
        self.assertEqual(moments[0].traffic[0].id, "A3456789")

    def test_a_name_that_is_an_identifier_is_kept(self):
        """Also where another one would become the same first."""
        rows = "".join(f"{name} {place} 0 0 0 0 0 0\n" for place, name in enumerate(("@@", "A-B", "A(0)", "A0", "A/B", "AB", "A1")))
        moments, said = self.made(PLANE + "own 0 0 0 0 100 0 0\n" + rows)
        self.assertEqual([aircraft.id for aircraft in moments[0].traffic], ["A2", "A-B", "A3", "A0", "A4", "AB", "A1"])
        self.assertEqual(re.findall("from_daa: (.*) is written (.*)", said), [("@@", "A2"), ("A(0)", "A3"), ("A/B", "A4")])

    def test_the_ownship_that_is_named(self):
        recording = PLANE + "A 1 0 0 0 50 0 0\nown 0 0 0 0 100 0 0\n"
        self.assertEqual(self.made(recording)[0][0].traffic[0].id, "own")
        moments, _ = self.made(recording, "--own", "own")
        self.assertEqual((moments[0].own.gs, moments[0].traffic[0].id), (1000, "A"))

    def test_what_is_out_of_range_is_left_out(self):
        moments, said = self.made(PLANE + "own 0 0 0 0 100 0 0\nA 201 0 0 0 0 0 0\nB 1 0 61000 0 0 0 0\nC 199 0 0 0 0 0 0\n")
        self.assertEqual([aircraft.id for aircraft in moments[0].traffic], ["C"])
        self.assertIn("left out: 2 aircraft out of range", said)

    def test_two_aircraft_at_one_place(self):
        moments, _ = self.made(PLANE + "own 0 0 0 0 100 0 0\nA 1 0 0 0 0 0 0\nB 1 0 0 0 0 0 0\n")
        self.assertEqual([aircraft.id for aircraft in moments[0].traffic], ["A", "B"])

    def test_of_more_than_64_aircraft_the_nearest_stay(self):
        """In the recording's order; T2 flies on for the 10 s since its report, at 900 knots 2.5 NM, and is then farther than T66."""
        rows = ["T0 70 0 0 0 0 0 20\nT1 69 0 0 0 0 0 20\nT2 64 0 0 900 0 0 10\n", *(f"T{number} {number} 0 0 0 0 0 20\n" for number in range(3, 67))]
        moments, said = self.made(PLANE + "".join(rows) + "own 0 0 0 0 100 0 20\n", "--own", "own")
        self.assertEqual([aircraft.id for aircraft in moments[0].traffic], [f"T{number}" for number in range(3, 67)])
        self.assertIn("left out: 3 aircraft out of range, or more than there may be, in a moment", said)

    def test_the_example(self):
        status, out, said = self.tool("from_daa", os.path.join(TOP, "examples", "recording.daa"))
        self.assertEqual(status, 0)
        self.assertEqual(self.tool("check", CONFIG, self.write("in.states", out))[0], 0)
        self.assertEqual(out.count("moment"), 13)
        numbers = re.findall(r" ([0-9.]+) (?:NM|ft|knots|ft/min)\b", said)
        lost = dict(zip(("place", "height", "speed", "climb", "closest"), map(float, numbers)))
        self.assertTrue(0 < lost["place"] <= 0.0015 and 0 < lost["height"] <= 1 and 0 < lost["speed"] <= 0.3, said)
        self.assertLess(lost["closest"], 0.01)

    def test_columns_that_are_not_used_are_told(self):
        """Of two forms of a speed one is taken."""
        text = "name,time,heading,sx,sy,alt,vx,vy,trk,gs,vs\nown,0,7,0,0,0,1,2,90,100,0\n"
        moments, said = self.made(text)
        self.assertIn("from_daa: not used: the columns heading, vx, vy\n", said)
        self.assertEqual((moments[0].own.trk, moments[0].own.gs), (90, 1000))
        self.assertEqual(self.made(text.replace("vx,vy", "vx [mm/s],vy [mm/s]"))[1], said)
        self.assertIn("not used: the column without a name\n", self.made("name,time,sx,sy,alt,vx,vy,vs,\nown,0,0,0,0,1,2,0,\n")[1])
        self.assertNotIn("not used", self.made(text.replace("heading,", "").replace(",7,", ",").replace("vx,vy,", "").replace(",1,2,", ","))[1])

    def test_reports_that_no_moment_has_are_told(self):
        """Of A's reports the first has a newer one at 10 s, the fourth comes after the last moment; B's is too old."""
        reports = "".join(f"A {second} 0 0 0 0 0 {second}\n" for second in (5, 6, 10, 11))
        moments, said = self.made(PLANE + "own 0 0 0 0 100 0 0\nB 9 0 0 0 0 0 0.5\n" + reports + "own 0 0 0 0 100 0 10\nown 0 0 0 0 100 0 10.9\n", "--oldest", "5")
        self.assertEqual([[aircraft.id for aircraft in moment.traffic] for moment in moments], [[], ["A"]])
        self.assertIn("left out: 3 reports of A that no moment has", said)
        self.assertIn("left out: 1 report of B that no moment has", said)
        self.assertNotIn("that no moment has", self.made(PLANE + "own 0 0 0 0 100 0 0\nA 1 0 0 0 0 0 0\n")[1])

    def test_feet_and_times_of_day(self):
        """1:02:03.5 are 3723.5 s; a report of half a second before flies on that long: 3600 ft/min make 30 ft of it."""
        text = "name,time [hh:mm:ss],sx,sy,alt [feet],vx,vy,vs\nown,1:02:03.5,0,0,1000,0,100,0\nA,01:02:03,1,0,2000,0,0,3600\n"
        for text in (text, text.replace(" [hh:mm:ss]", "")):
            moments, said = self.made(text)
            self.assertEqual([(moment.time, moment.own.alt, moment.traffic[0].alt) for moment in moments], [(3723, 1000, 2030)], said)
        plain = text.replace("time,", "time [hh:mm:ss],").replace("01:02:03", "7").replace("1:02:03.5", "7.5")
        self.assertEqual(self.made(plain)[0][0].time, 7)
        self.assertEqual(self.made(text.replace("1:02:03", "24:00:00"))[0][0].time, 86400)
        for time, why in (("1:62:03", "no time"), ("12:30", "no time: seconds are missing")):
            status, _, said = self.tool("from_daa", "--strict", self.write("in.csv", text.replace("1:02:03.5", time)))
            self.assertEqual(status, 3)
            self.assert_one_line(said, f"line 2: {why}: 'own,{time}")

    def test_says_what_is_no_recording(self):
        for text, part in (("", "no header line"), ("NAME time\n", "the header has no column for alt (an altitude), a place (lat lon, or sx sy), a speed (trk gs, or vx vy); it has NAME, time; if one of "
                            "these is it, tell tools/from_daa so: --columns alt=NAME\n"),
                           (HEAD, "no report of an aircraft"), (HEAD + "own 60 10 x 90 150 0 3\n", "line 3: no number for alt"),
                           (HEAD.replace("[ft]", "[furlong]") + "own 60 10 1 90 150 0 3\n", "line 2: furlong is no unit of alt"),
                           (HEAD + "own 60 10\n", "line 3: 3 fields, and the header has 8: between blanks no empty field is seen (write commas): 'own 60 10'\n"), (HEAD + "own 60 10 1 90 nan 0 3\n", "line 3: no number for gs"),
                           (HEAD.replace("NAME lat", "NAME lat lat"), "the header names lat twice"),
                           ("name,time,sx,sy,alt,vx,vy,vs\n,0,0,0,0,0,100,0\n", "line 2: no name")):
            status, out, said = self.tool("from_daa", self.write("in.daa", text))
            self.assertEqual((status, out), (3, ""), text)
            self.assert_one_line(said, part)
        self.assertEqual(self.tool("from_daa", "nothing")[0], 7)
        rows = HEAD + "".join(f"{name} 60 10 1 90 150 0 3\n" for name in ("own", "A", "own", "Intruder1"))
        status, out, said = self.tool("from_daa", self.write("in.daa", rows), "--own", "Intrude1")
        self.assertEqual((status, out), (3, ""))
        self.assert_one_line(said, "no report of Intrude1; it has reports of own, A, Intruder1\n")
        self.assertEqual(self.tool("from_daa", self.write("in.daa", rows), "--own", "")[:2], (3, ""))


if __name__ == "__main__":
    unittest.main()
