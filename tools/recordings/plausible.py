"""Names what cannot be right in a recording: places against speeds, tracks and climbs, and aircraft that are no others. What it says is an
advice and decides nothing."""
import collections
import math
import statistics
from operator import attrgetter

from .plane import offset

APART = 30  # s: two reports that are farther apart say nothing about a speed
LEAST_STEPS = 5
MOST_STEPS = 200  # of an aircraft, evenly over its reports
STANDS, MOVES = 5, 20  # knots
TURNED = 20  # degrees
LEAST_CLIMB = 100  # ft
FARTHEST = 200  # NM: what is always farther away can't be in a moment
LOW, LOW_SPEED = 500, 60  # ft, knots: so low and so fast nobody flies all along
ECHO, ECHO_HEIGHT, LEAST_ECHO = 0.05, 200, 10  # NM, ft, reports
# What a factor between places and speeds is likely to come from.
SPEEDS = ((3600 / 1852, "speeds in m/s, taken as knots"), (1 / 1.852, "speeds in km/h, taken as knots"), (1852 / 3600, "speeds in knots, taken as m/s"),
          (1.852, "speeds in knots, taken as km/h"))
RADIANS = (0.007, 0.03)  # where places in radians are taken as degrees, at middle latitudes also eastward
CLIMBS = ((-1, "vertical speeds that are positive downward"), (60 / 0.3048, "vertical speeds in m/s, taken as ft/min"),
          (60, "heights in m and vertical speeds in m/s, or vertical speeds in ft/s"), (0.3048, "heights in m, taken as ft"),
          (1 / 0.3048, "heights in ft, taken as m"), (0.01, "heights in flight levels, taken as ft"))


def likely(ratio, causes):
    """What such a factor is likely to come from, in words after a colon; or nothing."""
    found = min(causes, key=lambda cause: abs(ratio / cause[0] - 1))
    return f": {found[1]}?" if abs(ratio / found[0] - 1) < 0.04 else ""


def each_of(rows):
    """Each so-manieth of some reports is looked at."""
    return -(-len(rows) // MOST_STEPS)


class Steps:
    """What an aircraft did from report to report: speeds by places and by its own word in knots, the angle between them, climbs."""

    def __init__(self, rows, on_earth):
        self.moved, self.ratios, self.turns, self.stated = [], [], [], []
        self.climbed = self.said_climb = 0.0
        for at in range(1, len(rows), each_of(rows)):
            before, after = rows[at - 1], rows[at]
            apart = after.time - before.time
            if 0 < apart <= APART:
                self.add(before, after, apart, offset(before.place, after.place, on_earth))

    def add(self, before, after, apart, way):
        moved, stated = math.hypot(*way) * 3600 / apart, math.hypot((before.east + after.east) / 2, (before.north + after.north) / 2)
        self.moved.append(moved)
        self.stated.append(stated)
        if stated > STANDS:
            self.ratios.append(moved / stated)
        if moved > MOVES and stated > STANDS:
            turn = math.degrees(math.atan2(*way) - math.atan2(before.east, before.north))
            self.turns.append(abs((turn + 180) % 360 - 180))
        climb = (before.vs + after.vs) / 2 * apart / 60
        self.said_climb += abs(climb)
        self.climbed += math.copysign(after.alt - before.alt, climb * (after.alt - before.alt)) if climb else 0


def on_steps(rows, on_earth):
    """What the steps of one aircraft show: a kind of fault and its number."""
    steps = Steps(rows, on_earth)
    if len(steps.moved) < LEAST_STEPS:
        return
    moved, stated = statistics.median(steps.moved), statistics.median(steps.stated)
    ratio = statistics.median(steps.ratios) if len(steps.ratios) >= LEAST_STEPS else None
    if ratio is not None and moved < 1:
        yield "stands", stated
    elif ratio is not None and not 0.8 < ratio < 1.25:
        is_radians = on_earth and RADIANS[0] < ratio < RADIANS[1]
        yield "speed" + (": places in radians, taken as degrees?" if is_radians else likely(ratio, SPEEDS)), ratio
    elif ratio is None and moved > MOVES:
        yield "no speed", moved
    if len(steps.turns) >= LEAST_STEPS and (turn := statistics.median(steps.turns)) > TURNED:
        yield "turned", turn
    if steps.said_climb and max(abs(steps.climbed), steps.said_climb) >= LEAST_CLIMB:
        climb = steps.climbed / steps.said_climb
        if abs(climb) > 2.5 or climb < 0.4 and steps.said_climb >= LEAST_CLIMB:
            yield "climb" + likely(climb, CLIMBS), climb


WORDS = {"stands": "places stand still, and speeds are {:.0f} knots: are positions stale?",
         "speed": "places move {:.2f} times as fast as the speeds say{}", "no speed": "speeds are 0, and places move at {:.0f} knots: is there no velocity?",
         "turned": "places move {:.0f} degrees off the tracks: are columns in each other's place?",
         "climb": "heights change {:.2f} times as fast as the vertical speeds say{}",
         "echo": "all along where the ownship is: its own transponder? --leave-out takes it out",
         "far": "never nearer than {:.0f} NM to the ownship: is the sign of a latitude or longitude wrong?"}


def between(name, rows, own, on_earth):
    """What the places of an aircraft against the ownship's show."""
    near, nearest = [], math.inf
    for row in rows[::each_of(rows)]:
        there = own.get(round(row.time))
        if there:
            far = math.hypot(*offset(there.place, row.place, on_earth))
            nearest = min(nearest, far)
            if abs(there.alt - row.alt) < ECHO_HEIGHT:
                near.append(far)
    if len(near) >= LEAST_ECHO and sum(far < ECHO for far in near) > 0.9 * len(near):
        yield "echo", 0
    if FARTHEST < nearest < math.inf:
        yield "far", nearest


def by_name(rows):
    """The reports of each aircraft in the order of their times."""
    found = collections.defaultdict(list)
    for row in rows:
        if not row.lack:
            found[row.name].append(row)
    for some in found.values():
        some.sort(key=attrgetter("time"))
    return found


def names_of(names):
    """Some names in words."""
    shown = names[:3] if len(names) > 4 else names[:-1]
    return f"{', '.join(shown)} and {len(names) - 3} more" if len(names) > 4 else f"{', '.join(shown)} and {names[-1]}" if shown else names[0]


def implausible(rows, own_name, on_earth):
    """What cannot be right, one sentence for each kind of fault."""
    aircraft = by_name(rows)
    own = {round(row.time): row for row in aircraft.get(own_name, [])}
    faults = {}
    for name, some in aircraft.items():
        for kind, number in on_steps(some, on_earth):
            faults.setdefault(kind, []).append((name, number))
        if name != own_name:
            for kind, number in between(name, some, own, on_earth):
                faults.setdefault(kind, []).append((name, number))
    for kind, found in faults.items():
        word, _, cause = kind.partition(":")
        number = statistics.median([number for _, number in found])
        yield f"{names_of([name for name, _ in found])}: {WORDS[word].format(number, ':' + cause if cause else '')}"
    yield from on_times(aircraft, own_name)
    yield from on_names(aircraft)
    yield from on_heights(aircraft)


def on_times(aircraft, own_name):
    """Aircraft whose times never meet the ownship's."""
    own = aircraft.get(own_name)
    for name, rows in aircraft.items():
        if own and name != own_name and (rows[-1].time < own[0].time - APART or rows[0].time > own[-1].time + APART):
            yield f"{name}: times never meet the ownship's, and begin {shown_shift(rows[0].time - own[0].time)}: another time zone?"


def shown_shift(seconds):
    """A difference of times in words."""
    size = abs(seconds)
    quarters = round(size / 900)
    words = f"{quarters / 4:g} h" if quarters and abs(size - quarters * 900) < 60 else f"{size:.0f} s"
    return f"{words} {'later' if seconds > 0 else 'earlier'}"


def on_names(aircraft):
    """Names that differ in capitals alone."""
    seen = {}
    for name in aircraft:
        if name.lower() in seen:
            yield f"{seen[name.lower()]} and {name}: names that differ in capitals alone: one aircraft?"
        seen.setdefault(name.lower(), name)


def on_heights(aircraft):
    """Heights that are so low that they are likely in another unit."""
    rows = [row for some in aircraft.values() for row in some[::each_of(some)]]
    highest = max((abs(row.alt) for row in rows), default=0)
    if rows and 0 < highest < LOW and all(statistics.median([math.hypot(row.east, row.north) for row in some[::each_of(some)]]) > LOW_SPEED for some in aircraft.values()):
        yield f"no height is above {highest:.0f} ft: heights in flight levels, taken as ft?"
