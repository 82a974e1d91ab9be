"""Places and velocities on the ellipsoid WGS 84 in the plane round the ownship, in whole numbers: the definition of the crate daa_plane
(specs/), whose archive gives the same. Latitudes and longitudes are in ten-millionths of a degree, velocities in tenths of a knot, the
plane in 0.001 NM and its turn in 0.0001 degree."""
import math
from typing import NamedTuple

ONE = 10 ** 7  # sines, radians and degrees are counted in parts of it
MOST_LAT, HALF_TURN, MOST_SPEED = 80 * ONE, 180 * ONE, 10000
MOST_LAT_APART, MOST_LON_APART, FARTHEST = 2 * ONE, 12 * ONE, 100000

# The sines of 0 to 90 degrees.
SINES = [0, 174524, 348995, 523360, 697565, 871557, 1045285, 1218693, 1391731, 1564345, 1736482, 1908090, 2079117, 2249511,
         2419219, 2588190, 2756374, 2923717, 3090170, 3255682, 3420201, 3583679, 3746066, 3907311, 4067366, 4226183, 4383711,
         4539905, 4694716, 4848096, 5000000, 5150381, 5299193, 5446390, 5591929, 5735764, 5877853, 6018150, 6156615, 6293204,
         6427876, 6560590, 6691306, 6819984, 6946584, 7071068, 7193398, 7313537, 7431448, 7547096, 7660444, 7771460, 7880108,
         7986355, 8090170, 8191520, 8290376, 8386706, 8480481, 8571673, 8660254, 8746197, 8829476, 8910065, 8987940, 9063078,
         9135455, 9205049, 9271839, 9335804, 9396926, 9455186, 9510565, 9563048, 9612617, 9659258, 9702957, 9743701, 9781476,
         9816272, 9848078, 9876883, 9902681, 9925462, 9945219, 9961947, 9975641, 9986295, 9993908, 9998477, 10000000]


class Place(NamedTuple):
    """Latitude, longitude, and the velocity east and north."""

    lat: int
    lon: int
    vx: int
    vy: int


class Course(NamedTuple):
    trk: int
    gs: int
    turn: int


class Seen(NamedTuple):
    x: int
    y: int
    vx: int
    vy: int


def nearest(a, b):
    """The whole number nearest to a / b; of two as near, the greater one."""
    return (2 * a + b) // (2 * b)


def part(a, b):
    return nearest(a * b, ONE)


def upper_sine(angle):
    degree = nearest(angle, ONE)
    arc = part(angle - ONE * degree, 174533)
    return SINES[degree] + part(SINES[90 - degree], arc) - part(SINES[degree], nearest(part(arc, arc), 2))


def sine_of(angle):
    return -upper_sine(-angle) if angle < 0 else upper_sine(angle)


def cosine_of(angle):
    return upper_sine(90 * ONE - abs(angle))


def direction_of(degree):
    """The eastward and northward parts of a whole degree's direction."""
    if degree <= 90:
        return SINES[degree], SINES[90 - degree]
    if degree <= 180:
        return SINES[180 - degree], -SINES[degree - 90]
    if degree <= 270:
        return -SINES[degree - 180], -SINES[270 - degree]
    return -SINES[360 - degree], SINES[degree - 270]


def is_place(place):
    return abs(place.lat) <= MOST_LAT and abs(place.lon) <= HALF_TURN and abs(place.vx) <= MOST_SPEED and abs(place.vy) <= MOST_SPEED


def is_own_place(own):
    return is_place(own) and own.vx ** 2 + own.vy ** 2 <= MOST_SPEED ** 2


def track_of(own):
    """The ownship's track, and the plane's turn."""
    for degree in range(360):
        east, north = direction_of(degree)
        along, across = own.vx * east + own.vy * north, own.vx * north - own.vy * east
        if 0 < along and 114 * abs(across) <= along:
            return degree, nearest(572958 * across, along)
    return 0, 0


def course_of(own):
    """The ownship's course, or None where it is out of range."""
    if not is_own_place(own):
        return None
    track, turn = track_of(own)
    return Course(track, (math.isqrt(4 * (own.vx ** 2 + own.vy ** 2)) + 1) // 2, turn)


def half_square(angle):
    half = part(angle, 87266)
    return part(half, half)


def stretched(number, by):
    return number + part(number, by)


def way_of(lat, lon, middle):
    """The way east and north in 0.00001 NM, and the convergence, from the differences of latitude and longitude and the latitude in
    the middle."""
    sine, cosine = sine_of(middle), cosine_of(middle)
    s, p, q = part(sine, sine), half_square(lon), half_square(lat)
    both = part(s, p)
    prime_vertical = 6010772 + part(20119 + part(102, s), s)
    meridian = 5970533 + part(59951 + part(508, s), s)
    return (stretched(part(part(lon, cosine), prime_vertical), nearest(q - both, 6)),
            stretched(part(lat, meridian), nearest(-2 * p - both, 6)),
            stretched(part(lon, sine), nearest(3 * q + 2 * (p - both), 6)))


def turned(east, north, angle, by):
    sine, cosine = sine_of(angle), cosine_of(angle)
    return nearest(east * cosine - north * sine, by), nearest(east * sine + north * cosine, by)


def way_between(own, aircraft):
    """The way from place to place and the convergence, as way_of has them, or None where they are out of range or far."""
    if not (is_own_place(own) and is_place(aircraft)):
        return None
    lat, lon = aircraft.lat - own.lat, (aircraft.lon - own.lon + HALF_TURN) % (2 * HALF_TURN) - HALF_TURN
    if abs(lat) > MOST_LAT_APART or abs(lon) > MOST_LON_APART:
        return None
    return way_of(lat, lon, (own.lat + aircraft.lat) // 2)


def seen_from(own, aircraft, turn=None):
    """An aircraft in the plane, or None where it is out of range or far. The plane's turn is the ownship's where none is given."""
    way = way_between(own, aircraft)
    return way and seen_along(way, track_of(own)[1] if turn is None else turn, aircraft)


def seen_along(way, turn, aircraft):
    """An aircraft at the end of a way, or None where it is far, or too fast on an axis of the plane."""
    east, north, convergence = way
    seen = Seen(*turned(east, north, nearest(convergence, 2) + 1000 * turn, 100 * ONE),
                *turned(aircraft.vx, aircraft.vy, convergence + 1000 * turn, ONE))
    is_slow = abs(seen.vx) <= MOST_SPEED and abs(seen.vy) <= MOST_SPEED
    return seen if seen.x ** 2 + seen.y ** 2 <= FARTHEST ** 2 and is_slow else None


# Floating point, for what is drawn.

EQUATOR, FLATTENING, MILE = 6378137, 1 / 298.257223563, 1852  # m


def destination(place, azimuth, miles):
    """Where a flight along the ellipsoid ends, by Vincenty's direct formula: latitude and longitude in degrees, from such a place, so many
    nautical miles along an azimuth in radians."""
    pole = EQUATOR * (1 - FLATTENING)
    tangent = (1 - FLATTENING) * math.tan(math.radians(place[0]))
    cosine = 1 / math.hypot(1, tangent)
    sine, first = tangent * cosine, math.atan2(tangent, math.cos(azimuth))
    alpha = cosine * math.sin(azimuth)
    rest = 1 - alpha * alpha
    u = rest * (EQUATOR ** 2 - pole ** 2) / pole ** 2
    a, b = 1 + u / 16384 * (4096 + u * (-768 + u * (320 - 175 * u))), u / 1024 * (256 + u * (-128 + u * (74 - 47 * u)))
    arc = straight = miles * MILE / (pole * a)
    for _ in range(4):
        middle, across, along = math.cos(2 * first + arc), math.sin(arc), math.cos(arc)
        arc = straight + b * across * (middle + b / 4 * (along * (2 * middle ** 2 - 1)
                                                         - b / 6 * middle * (4 * across ** 2 - 3) * (4 * middle ** 2 - 3)))
    middle, across, along = math.cos(2 * first + arc), math.sin(arc), math.cos(arc)
    lat = math.atan2(sine * along + cosine * across * math.cos(azimuth),
                     (1 - FLATTENING) * math.hypot(alpha, sine * across - cosine * along * math.cos(azimuth)))
    turned_by = math.atan2(across * math.sin(azimuth), cosine * along - sine * across * math.cos(azimuth))
    c = FLATTENING / 16 * rest * (4 + FLATTENING * (4 - 3 * rest))
    lon = place[1] + math.degrees(turned_by - (1 - c) * FLATTENING * alpha * (arc + c * across * (middle + c * along * (2 * middle ** 2 - 1))))
    return math.degrees(lat), (lon + 180) % 360 - 180
