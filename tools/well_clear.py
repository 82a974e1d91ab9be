"""The well-clear volume, exactly: whether a relative leg violates it at a fraction n/d of a second, and whether at some time; and the
same of what it may be in truth, where the reports have bounds. tools/reference and tools/study decide by this; read it with
docs/FORMULAS.md. All numbers are whole."""
import math
from fractions import Fraction
from typing import NamedTuple


class Volume(NamedTuple):
    """Thresholds in units and seconds; the model has the name of its key, and WCV_TAUMOD has none."""

    dthr: int
    zthr: int
    tthr: int
    tcoa: int
    model: str | None


class Errors(NamedTuple):
    """What a relative leg may err by at its beginning: over ground the place and the velocity, and the height and its speed."""

    place: int
    speed: int
    height: int
    climb: int

    def after(self, time):
        """What it may err by so many seconds later."""
        return Errors(self.place + time * self.speed, self.speed, self.height + time * self.climb, self.climb)


class Leg(NamedTuple):
    """A straight flight of so many seconds, from second `begin` on: place and velocity, (east, north, up), and what they may err by,
    or None where the reports are exact."""

    begin: int
    secs: int
    place: tuple
    velocity: tuple
    errors: Errors | None = None

    def second(self, k):
        """The one second of it that begins k seconds after its beginning."""
        place = tuple(at + k * speed for at, speed in zip(self.place, self.velocity))
        return Leg(self.begin + k, 1, place, self.velocity, self.errors and self.errors.after(k))


def violates(leg, volume, n, d):
    """Whether a relative leg violates the volume n/d seconds after its beginning."""
    east, north, up = (d * place + n * speed for place, speed in zip(leg.place, leg.velocity))
    v_east, v_north, v_up = leg.velocity
    reach = (volume.dthr * d) ** 2
    distance, rate = east * east + north * north, east * v_east + north * v_north
    speed, cross = v_east * v_east + v_north * v_north, east * v_north - north * v_east
    ahead = volume.tthr * d
    if volume.model == "tau":
        soon = distance + ahead * rate <= 0
    elif volume.model == "tcpa":
        soon = -rate <= ahead * speed
    elif volume.model == "tep":  # tthr seconds later the distance falls no more, or is at most dthr
        soon = rate + ahead * speed >= 0 or (east + ahead * v_east) ** 2 + (north + ahead * v_north) ** 2 <= reach
    else:
        soon = distance + ahead * rate <= reach
    horizontal = distance <= reach or (rate < 0 and soon and cross * cross <= reach * speed)
    vertical = abs(up) <= volume.zthr * d or (up * v_up < 0 and abs(up) <= volume.tcoa * d * abs(v_up))
    return horizontal and vertical


def heights_near(leg, volume):
    """The first and the last time of the leg at which the vertical part holds, or None."""
    up, v_up = leg.place[2], leg.velocity[2]
    if v_up == 0:
        return (Fraction(0), Fraction(leg.secs)) if abs(up) <= volume.zthr else None
    if v_up < 0:
        up, v_up = -up, -v_up
    first = max(Fraction(-max(volume.zthr, volume.tcoa * v_up) - up, v_up), Fraction(0))
    last = min(Fraction(volume.zthr - up, v_up), Fraction(leg.secs))
    return (first, last) if first <= last else None


def meets(leg, volume):
    """Whether a relative leg violates the volume at some time of it.

    The times at which the horizontal part holds are a stretch with the closest approach in it, or none. So of the times at
    which the vertical part holds, the one nearest to the closest approach violates, or none does. Only with WCV_TAU they are
    two stretches, that within dthr, and that with tau at most tthr, whose middle is tthr / 2 before the closest approach; of
    each the nearest time is looked at. Where reports may err, `may_meet` decides.
    """
    if leg.errors:
        return may_meet(leg, volume)
    (east, north, _), (v_east, v_north, _) = leg.place, leg.velocity
    speed, cross = v_east * v_east + v_north * v_north, east * v_north - north * v_east
    if speed and cross * cross > volume.dthr ** 2 * speed:
        return False  # the whole line stays outside dthr
    near = heights_near(leg, volume)
    if near is None:
        return False
    closest = Fraction(-(east * v_east + north * v_north), speed) if speed else Fraction(0)
    middles = (closest, closest - Fraction(volume.tthr, 2)) if volume.model == "tau" else (closest,)
    times = (min(max(middle, near[0]), near[1]) for middle in middles)
    return any(violates(leg, volume, time.numerator, time.denominator) for time in times)


# Where reports may err.

def root_above(square):
    """The least whole number whose square is at least this one."""
    root = math.isqrt(square)
    return root + (root * root < square)


def excess(leg, volume, time):
    """The square of the distance less that of dthr and the error together; it is at most 0 where the distance may be at most dthr. With
    a time n/d this is d * d times the difference, so that it is whole."""
    n, d = time.numerator, time.denominator
    (east, north, _), (v_east, v_north, _) = leg.place, leg.velocity
    reach = d * (volume.dthr + leg.errors.place) + n * leg.errors.speed
    return (d * east + n * v_east) ** 2 + (d * north + n * v_north) ** 2 - reach * reach


def least_excess(leg, volume, first, last):
    """A time from first to last, flown straight on, at which the distance may be at most dthr if it may be at any of them. The excess
    is a quadratic of the time: if it opens upward the one at which it is least, else one of the two ends."""
    (east, north, _), (v_east, v_north, _), grows = leg.place, leg.velocity, leg.errors.speed
    bend = v_east * v_east + v_north * v_north - grows * grows
    if bend <= 0:
        return first if excess(leg, volume, first) <= 0 else last
    lowest = Fraction((volume.dthr + leg.errors.place) * grows - east * v_east - north * v_north, bend)
    return min(max(lowest, first), last)


def may_be_soon(leg, volume, time):
    """Whether modified tau may be at most tthr: the place in the middle of the next tthr seconds is near enough. With a time n/d each
    length is taken 2 * d times."""
    n, d = time.numerator, time.denominator
    (east, north, _), (v_east, v_north, _), errors = leg.place, leg.velocity, leg.errors
    middle = 2 * n + volume.tthr * d
    distance = (2 * d * east + middle * v_east) ** 2 + (2 * d * north + middle * v_north) ** 2
    error = 2 * d * errors.place + middle * errors.speed
    speed = v_east * v_east + v_north * v_north
    most = 4 * volume.dthr ** 2 + volume.tthr ** 2 * (speed + 2 * root_above(speed) * errors.speed + errors.speed ** 2)
    return distance <= d * d * most + 2 * error * d * root_above(most) + error * error


def may_be_near_in_height(leg, volume, time):
    """Whether the heights may be at most zthr apart, or the same at some time of the next tcoa seconds."""
    up, v_up = leg.place[2] + time * leg.velocity[2], leg.velocity[2]
    if up < 0:
        up, v_up = -up, -v_up
    error, later = leg.errors.after(time).height, leg.errors.after(time + volume.tcoa).height
    return up <= volume.zthr + error or up + volume.tcoa * v_up <= later


def may_violate(leg, volume, time):
    """Whether the truth may violate the volume so many seconds after the leg's beginning, at this one time: the heights, and the
    distance, or that it is at most dthr within tthr seconds and modified tau is at most tthr. With WCV_TEP that within is enough."""
    if not may_be_near_in_height(leg, volume, time):
        return False
    if excess(leg, volume, time) <= 0:
        return True
    enters = excess(leg, volume, least_excess(leg, volume, time, time + volume.tthr)) <= 0
    return enters and (volume.model == "tep" or may_be_soon(leg, volume, time))


def heights_may_be_near(leg, volume):
    """The first and the last time of the leg at which the heights may be near, or None."""
    (*_, up), (*_, v_up), errors = leg.place, leg.velocity, leg.errors
    if up < 0:
        up, v_up = -up, -v_up
    first, last, high = Fraction(0), Fraction(leg.secs), volume.zthr + errors.height
    if up > high:  # they near by at most this speed
        nears = errors.climb - v_up
        if nears <= 0:
            return None
        first = max(first, Fraction(up - errors.height - max(volume.zthr, volume.tcoa * nears), nears))
    if v_up > errors.climb:  # in any case they part upward
        last = min(last, Fraction(high - up, v_up - errors.climb))
    elif -v_up > errors.climb:  # in any case one passes the other, and they part
        last = min(last, Fraction(high + up, -v_up - errors.climb))
    return (first, last) if first <= last else None


def may_meet(leg, volume):
    """Whether the truth may violate the volume at some time of the leg.

    Of the times at which the heights may be near, two are looked at: one at which the distance may be at most dthr, if it may be
    at any of them, and the last one. If it may be at none of them, but within tthr seconds of one, then it comes to be so after
    the last one. When it does, modified tau may be at most tthr too, and the times at which that may be are one stretch. So if any
    of these times violates, then the last one does.
    """
    near = heights_may_be_near(leg, volume)
    return near is not None and any(may_violate(leg, volume, time) for time in (least_excess(leg, volume, *near), near[1]))
