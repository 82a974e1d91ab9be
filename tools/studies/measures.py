"""What is measured on each leg of the truth: loss of well clear at every fraction of it, near collisions, and severity. The
numbers are whole; only the severity is in floating point, by operations that IEEE 754 rounds in one way."""
from fractions import Fraction
from math import sqrt

from well_clear import Leg, Volume, heights_near, meets

from .whole import FOOT, MIL

NEAR_FEET, NEAR_HEIGHT = 500, 100  # a near mid-air collision: at most so far away, and so far above or below, in feet
METRES_IN_MILE, TENTHS_OF_MM_IN_FOOT = 1852, 3048


def volume_of(level, steps, less=0):
    """A level's volume where a second has so many legs and places are in units / steps. `less` makes it smaller, in 0.001 NM, and
    then by a foot."""
    return Volume((level.dthr - less) * MIL * steps, (level.zthr - (less > 0)) * FOOT * steps, level.tthr * steps, level.tcoa * steps, level.model)


def lost(place, velocity, volume):
    """Whether a leg of one step violates the volume at some time of it: `meets`, which a few comparisons spare on most legs. What
    violates is near in height, and within dthr at most tthr later."""
    east, north, up = place
    v_east, v_north, v_up = velocity
    v_up = abs(v_up)
    if abs(up) - v_up > max(volume.zthr, volume.tcoa * v_up):
        return False
    steps = volume.tthr + 1
    if abs(east) > volume.dthr + steps * abs(v_east) or abs(north) > volume.dthr + steps * abs(v_north):
        return False
    return meets(Leg(0, 1, place, velocity), volume)


def nearest_square(place, velocity, height):
    """The square of the least distance on the leg while the height is at most so great, as numerator and denominator, or None."""
    (east, north, _), (v_east, v_north, _) = place, velocity
    near = heights_near(Leg(0, 1, place, velocity), Volume(0, height, 0, 0, None))
    if near is None:
        return None
    speed = v_east * v_east + v_north * v_north
    closest = Fraction(-(east * v_east + north * v_north), speed) if speed else Fraction(0)
    time = min(max(closest, near[0]), near[1])
    n, d = time.numerator, time.denominator
    return (d * east + n * v_east) ** 2 + (d * north + n * v_north) ** 2, d * d


def collides(place, velocity, steps):
    """Whether at some time of the leg the aircraft are at most 500 feet apart and at most 100 feet in height, exactly."""
    far, height = 3000 * steps, NEAR_HEIGHT * FOOT * steps  # (500 feet are 2962.2 units)
    if abs(place[2]) > height + abs(velocity[2]) or abs(place[0]) > far + abs(velocity[0]) or abs(place[1]) > far + abs(velocity[1]):
        return False
    found = nearest_square(place, velocity, height)
    if found is None:
        return False
    square, denominator = found  # in the square of a unit, which is a mile / 36000 / steps
    return square * (METRES_IN_MILE * 10000) ** 2 <= denominator * (NEAR_FEET * TENTHS_OF_MM_IN_FOOT * 1000 * MIL * steps) ** 2


def severity(place, velocity, volume):
    """How deep a loss is at the leg's beginning, 0 to 1: the norm of Fernandez and Gonzalez over the penetrations in range, in
    horizontal miss distance and in height."""
    (east, north, up), (v_east, v_north, _) = place, velocity
    distance, speed = sqrt(east * east + north * north), sqrt(v_east * v_east + v_north * v_north)
    closing = -(east * v_east + north * v_north) / distance if distance else 0.0
    ahead = max(closing, 0.0) * volume.tthr
    size = max(volume.dthr, (sqrt(ahead * ahead + 4.0 * volume.dthr * volume.dthr) + ahead) / 2)
    miss = abs(east * v_north - north * v_east) / speed if closing > 0 and speed else distance
    parts = min(distance / size, 1.0), min(miss / volume.dthr, 1.0), min(abs(up) / volume.zthr, 1.0) if volume.zthr else 1.0
    total = parts[0]
    for part in parts[1:]:
        total = sqrt(total * total + (1 - total * total) * part * part)
    return 1 - total
