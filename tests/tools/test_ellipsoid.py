"""The plane round the ownship (tools/ellipsoid.py, by the definition of daa_plane) against the ellipsoid WGS 84: its sines, its radii of
curvature, its ways and its convergence of the meridians, at thousands of drawn places."""
import math
import os
import random
import re
import unittest
from decimal import Decimal, localcontext
from unittest import mock

from common import TOP
import ellipsoid  # (the path of tools/ is set by common)
from ellipsoid import ONE, Place, course_of, direction_of, nearest, seen_from, sine_of, way_of

EQUATOR, FLATTENING = 6378137, 1 / 298.257223563  # m
POLE = EQUATOR * (1 - FLATTENING)
MILE = 1852  # m


def reduced(lat):
    angle = math.atan((1 - FLATTENING) * math.tan(lat))
    return math.sin(angle), math.cos(angle)


def geodesic(lat, other, lon):
    """Distance in NM and azimuths at both ends, by Vincenty's inverse formula, of two latitudes and a difference of longitudes."""
    (sine, cosine), (sine_2, cosine_2), turned = reduced(lat), reduced(other), lon
    while True:
        east, north = cosine_2 * math.sin(turned), cosine * sine_2 - sine * cosine_2 * math.cos(turned)
        across, along = math.hypot(east, north), sine * sine_2 + cosine * cosine_2 * math.cos(turned)
        arc = math.atan2(across, along)
        alpha = cosine * cosine_2 * math.sin(turned) / across
        rest = 1 - alpha * alpha
        middle = along - 2 * sine * sine_2 / rest
        c = FLATTENING / 16 * rest * (4 + FLATTENING * (4 - 3 * rest))
        last, turned = turned, lon + (1 - c) * FLATTENING * alpha * (arc + c * across * (middle + c * along * (2 * middle ** 2 - 1)))
        if abs(turned - last) < 1e-14:
            break
    u = rest * (EQUATOR ** 2 - POLE ** 2) / POLE ** 2
    a, b = 1 + u / 16384 * (4096 + u * (-768 + u * (320 - 175 * u))), u / 1024 * (256 + u * (-128 + u * (74 - 47 * u)))
    less = b * across * (middle + b / 4 * (along * (2 * middle ** 2 - 1) - b / 6 * middle * (4 * across ** 2 - 3) * (4 * middle ** 2 - 3)))
    at_end = math.atan2(cosine * math.sin(turned), cosine * sine_2 * math.cos(turned) - sine * cosine_2)
    return POLE * a * (arc - less) / MILE, math.atan2(east, north), at_end


def drawn(random_numbers, most_miles):
    """An ownship's place, and another one at most about so far away."""
    lat, lon = random_numbers.randint(-80 * ONE, 80 * ONE), random_numbers.randint(-180 * ONE, 180 * ONE)
    angle, far = random_numbers.uniform(0, 2 * math.pi), random_numbers.uniform(0, most_miles / 60) * ONE
    other = lat + round(far * math.cos(angle))
    beside = round(far * math.sin(angle) / math.cos(math.radians(lat / ONE)))
    return (lat, lon), (max(min(other, 80 * ONE), -80 * ONE), (lon + beside + 180 * ONE) % (360 * ONE) - 180 * ONE)


class Numbers(unittest.TestCase):
    def test_sines(self):
        """Of whole degrees they are the nearest whole numbers; between them they are off by less than 0.0000003."""
        with open(os.path.join(TOP, "crates/daa_plane/specs/Sines.antt"), encoding="utf-8") as file:
            table = [int(number) for number in re.findall("[0-9]+", file.read().split("\nsines =")[1].split("[])")[0])]
        self.assertEqual(table, ellipsoid.SINES)
        self.assertEqual(table, [round(ONE * math.sin(math.radians(degree))) for degree in range(91)])
        worst = max(abs(sine_of(angle) - ONE * math.sin(math.radians(angle / ONE))) for angle in range(-90 * ONE, 90 * ONE + 1, 12347))
        self.assertLess(worst, 3)

    def test_radii_of_curvature(self):
        """In 0.00001 NM for a ten-millionth of a degree, times ten million: off by less than three ten-millionths."""
        with localcontext() as context:
            context.prec = 40
            flat = 1 / Decimal("298.257223563")
            square, pi = flat * (2 - flat), Decimal("3.14159265358979323846264338327950288420")
            scale = EQUATOR * pi / 180 / MILE * 100000
            for number in range(0, ONE + 1, 4999):
                s = Decimal(number) / ONE
                prime_vertical = scale / (1 - square * s).sqrt()
                meridian = scale * (1 - square) / (1 - square * s).sqrt() ** 3
                found = 6010772 + ellipsoid.part(20119 + ellipsoid.part(102, number), number), 5970533 + ellipsoid.part(59951 + ellipsoid.part(508, number), number)
                self.assertLess(abs(found[0] - prime_vertical), Decimal("1.8"))
                self.assertLess(abs(found[1] - meridian), Decimal("1.8"))

    def test_each_velocity_is_along_some_degree(self):
        """Half way between two degrees, by the table's own numbers, both take the velocity: so no direction is left out."""
        for degree in range(360):
            east, north = direction_of(degree)
            next_east, next_north = direction_of((degree + 1) % 360)
            between = east + next_east, north + next_north
            for d in (degree, (degree + 1) % 360):
                to_east, to_north = direction_of(d)
                along, across = between[0] * to_east + between[1] * to_north, between[0] * to_north - between[1] * to_east
                self.assertTrue(0 < along and 114 * abs(across) <= along, degree)


class Ways(unittest.TestCase):
    def test_ways_are_those_of_the_geodesic(self):
        """Up to 100 NM and 80 degrees: off by less than 0.0002 NM, before they are rounded to 0.001 NM, and the convergence of the
        meridians by less than 0.00001 degree."""
        numbers, worst, worst_turn, count = random.Random(62), 0.0, 0.0, 0
        while count < 4000:
            own, other = drawn(numbers, 100)
            lat, lon = other[0] - own[0], (other[1] - own[1] + 180 * ONE) % (360 * ONE) - 180 * ONE
            far, azimuth, at_end = geodesic(math.radians(own[0] / ONE), math.radians(other[0] / ONE), math.radians(lon / ONE))
            if not 0.01 < far <= 100:
                continue
            count += 1
            east, north, turn = way_of(lat, lon, (own[0] + other[0]) // 2)
            half = math.radians(turn / ONE / 2)
            x, y = east * math.cos(half) - north * math.sin(half), east * math.sin(half) + north * math.cos(half)
            worst = max(worst, math.hypot(x / 100000 - far * math.sin(azimuth), y / 100000 - far * math.cos(azimuth)))
            worst_turn = max(worst_turn, abs(turn / ONE - math.degrees((at_end - azimuth + math.pi) % (2 * math.pi) - math.pi)))
        self.assertLess(worst, 0.0002)
        self.assertLess(worst_turn, 0.00001)

    def test_numbers_stay_small(self):
        """Nothing that is rounded leaves the whole numbers that a double has."""
        greatest = 0

        def noted(a, b):
            nonlocal greatest
            greatest = max(greatest, abs(2 * a + b), abs(2 * a))
            return nearest(a, b)
        corners = [Place(lat, lon, vx, vy) for lat in (-80 * ONE, 0, 80 * ONE) for lon in (-180 * ONE, 0, 6 * ONE, 180 * ONE)
                   for vx, vy in ((0, 0), (10000, 0), (-6000, 8000), (0, -10000))]
        with mock.patch.object(ellipsoid, "nearest", noted):
            for own in corners:
                for lat in (-2 * ONE, 0, 2 * ONE):
                    for lon in (-12 * ONE, 0, 12 * ONE):
                        place = Place(max(min(own.lat + lat, 80 * ONE), -80 * ONE), (own.lon + lon + 180 * ONE) % (360 * ONE) - 180 * ONE, 10000, -10000)
                        seen_from(own, place)
        self.assertLess(greatest, 2 ** 53)

    def test_courses(self):
        """Speeds are the nearest whole roots; track and turn together are the velocity's direction, to 0.0001 degree."""
        numbers = random.Random(3)
        for _ in range(3000):
            size, angle = 10 ** numbers.uniform(0, 4), numbers.uniform(0, 360)
            own = Place(0, 0, int(size * math.sin(math.radians(angle))), int(size * math.cos(math.radians(angle))))
            course = course_of(own)
            self.assertEqual(course.gs, math.floor(math.hypot(own.vx, own.vy) + 0.5))
            if own.vx or own.vy:
                off = (math.degrees(math.atan2(own.vx, own.vy)) - course.trk - course.turn / 10000 + 180) % 360 - 180
                self.assertLess(abs(off), 0.0001)
                self.assertLessEqual(abs(course.turn), 5030)
        self.assertEqual(course_of(Place(0, 0, 0, 0)), (0, 0, 0))

    def test_what_is_refused(self):
        own = Place(0, 0, 0, 3600)
        for number, name in ((80 * ONE, "lat"), (180 * ONE, "lon"), (10000, "vx")):
            for sign in (1, -1):
                self.assertIsNotNone(course_of(own._replace(vy=0, **{name: sign * number})))
                self.assertIsNone(course_of(own._replace(vy=0, **{name: sign * (number + 1)})))
        self.assertIsNone(course_of(Place(0, 0, 8000, 6001)))
        # a degree of the equator is 60.10772 NM, so 100 NM are 1.66368 degrees, and 0.0005 NM are 0.0000083 degrees
        self.assertIsNotNone(seen_from(own, Place(0, 16636800, 0, 0)))
        self.assertIsNone(seen_from(own, Place(0, 16636900, 0, 0)))
        self.assertIsNone(seen_from(Place(0, 0, 5, 1000), Place(0, 0, 10000, -10000)))


if __name__ == "__main__":
    unittest.main()
