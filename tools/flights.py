"""What the tools find of a report's states: its moments, places, closest approaches, places on the globe, and times by the clock."""
import datetime
import math
import statistics
from typing import NamedTuple

from daidalus_files import Moment, Problem, Reader, read_bytes
from ellipsoid import destination

DAY = 86400


class Relative(NamedTuple):
    """Where an aircraft is, seen from the ownship, once it has flown on from its report until the moment: nautical miles, feet."""

    east: float
    north: float
    above: float

    @property
    def horizontal(self):
        return math.hypot(self.east, self.north)


class Approach(NamedTuple):
    """Where an aircraft is nearest to the ownship horizontally: when, how far and how far above; and the places of both on the
    globe, or None."""

    time: float
    horizontal: float
    above: float
    place: tuple | None
    own: tuple | None


def flown_on(traffic):
    """The place of an aircraft at its moment, in the units of state lines, as fractions."""
    if not traffic.age:
        return traffic.x, traffic.y, traffic.alt
    return (traffic.x + traffic.age * traffic.vx / 36, traffic.y + traffic.age * traffic.vy / 36,
            traffic.alt + traffic.age * traffic.vs / 60)


def relative(own, traffic):
    x, y, alt = flown_on(traffic)
    return Relative((x - own.x) / 1000, (y - own.y) / 1000, alt - own.alt)


def place_on_globe(moment, at):
    """Latitude and longitude of what is seen from the ownship there, or None where no comment tells where the ownship is."""
    if moment.origin is None:
        return None
    lat, lon, turn = moment.origin
    return destination((lat, lon), math.atan2(at.east, at.north) + math.radians(turn), at.horizontal)


def within_half_turn(lon):
    return (lon + 180) % 360 - 180


class States:
    """The states of a report: its moments by their times."""

    def __init__(self, path):
        self.path, reader = path, Reader()
        self.moments = {event.time: event for event in reader.read(read_bytes(path)) if isinstance(event, Moment)}
        self.clock, self.names, self.silence = reader.clock, reader.names, reader.silence

    def of(self, report):
        """The moment of a moment's report; it is a problem if it is not that one."""
        state = self.moments.get(report.time)
        if state is None:
            raise Problem(f"{self.path} has no moment {report.time}, which the report has: give the states that the report was made of", 4)
        names = [aircraft.id for aircraft in state.traffic]
        if names != list(report.alerts):
            raise Problem(f"{self.path} has at moment {report.time} the aircraft {', '.join(names) or 'none'}, and the report has "
                          f"{', '.join(report.alerts) or 'none'}: give the states that the report was made of", 4)
        return state


def usual_step(times):
    """The median of the steps from time to time, of two the lesser; 1 where there is none."""
    return statistics.median_low([after - before for before, after in zip(times, times[1:]) if after > before] or [1])


class Approaches:
    """The closest approach of each aircraft. Between two moments that are no more than a step apart both are taken to fly evenly
    from place to place; across a longer gap nothing is known."""

    def __init__(self, step):
        self.step, self.before, self.found = step, {}, {}

    def add(self, state):
        """Takes the next moment."""
        own = place_on_globe(state, THERE)
        for traffic in state.traffic:
            at = relative(state.own, traffic)
            here = state.time, at, place_on_globe(state, at), own
            before = self.before.get(traffic.id)
            is_near = before is not None and 0 < state.time - before[0] <= self.step
            self.note(traffic.id, *(nearest_between(before, here) if is_near else here))
            self.before[traffic.id] = here

    def note(self, name, time, at, place, own):
        found = self.found.get(name)
        if found is None or at.horizontal < found.horizontal:
            self.found[name] = Approach(time, at.horizontal, at.above, place, own)


THERE = Relative(0, 0, 0)  # where the ownship is


def nearest_between(before, after):
    """Time, relative place and places on the globe of the least distance on an even way from one moment to another."""
    one, other = before[1], after[1]
    east, north = other.east - one.east, other.north - one.north
    square = east ** 2 + north ** 2
    part = min(max(-(one.east * east + one.north * north) / square, 0), 1) if square else 0
    at = Relative(*(first + part * (last - first) for first, last in zip(one, other)))
    return before[0] + part * (after[0] - before[0]), at, *(place_between(*places, part) for places in zip(before[2:], after[2:]))


def place_between(one, other, part):
    if one is None or other is None:
        return None
    return one[0] + part * (other[0] - one[0]), within_half_turn(one[1] + part * within_half_turn(other[1] - one[1]))


def side_of(above):
    """A height in words."""
    feet = round(abs(above))
    return f"{feet} ft {'above' if above > 0 else 'below'}" if feet else "at the same height"


def degrees(place):
    """A place on the globe in words, with five digits: about a metre."""
    return f"{place[0]:.5f} {place[1]:.5f}"


# Times.

CLOCKS = ("seconds", "start", "day", "utc")


class Clock:
    """Tells times as a recording's seconds, as hours, minutes and seconds from its first moment or of the day, or as UTC."""

    def __init__(self, how="seconds", states=None):
        self.how, self.first = how, min(states.moments, default=0) if states else 0
        if how in ("day", "utc") and (states is None or states.clock not in (("utc",) if how == "utc" else ("utc", "day"))):
            raise Problem(f"--clock {how} needs --states with a comment `# clock utc`" + " or `# clock day`" * (how == "day")
                          + ", which tools/from_daa writes where the recording tells it; --clock start counts from the first moment", 4)

    def words(self, time):
        """A time, without its unit."""
        if self.how == "seconds":
            return f"{time}" if isinstance(time, int) else f"{time:.1f}"
        tenths = round(10 * (time - self.first if self.how == "start" else time))
        part = f".{tenths % 10}" if not isinstance(time, int) else ""
        if self.how == "utc":
            return f"{datetime.datetime.fromtimestamp(tenths // 10, datetime.timezone.utc):%Y-%m-%dT%H:%M:%S}{part}Z"
        seconds = tenths // 10 if self.how == "start" else tenths // 10 % DAY
        return f"{seconds // 3600:02}:{seconds // 60 % 60:02}:{seconds % 60:02}{part}"

    @property
    def unit(self):
        return " s" if self.how == "seconds" else ""


def add_states(parser):
    """The options that name the states and the clock."""
    parser.add_argument("--states", metavar="FILE", help="the state lines of the report")
    parser.add_argument("--clock", choices=CLOCKS, default="seconds",
                        help="times as the recording's seconds, from its first moment on, of the day, or as UTC (seconds)")
