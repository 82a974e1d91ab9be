"""What the truth may violate where reports have bounds: tools/well_clear.py against true states within the bounds, against the definition
at many times, and against a search in floating point that decides no quadratic."""
import math
import os
import random
import unittest
from fractions import Fraction

from common import CONFIG, ENCOUNTER, TOP, module
from daidalus_files import EXACT, MODELS, Bounds, Config, Level, Moment, Own, Reader, Traffic, moment_lines, read_config, read_moments
from well_clear import Errors, Leg, Volume, may_meet, may_violate, meets, root_above, violates

reference, moments = module("tools/reference"), module("tools/moments")
SURE = 1e-5  # what is nearer to a border is not decided in floating point


def drawn_volume(draw, model):
    """Thresholds: half the time those of one kind of aircraft, else any."""
    if draw.random() < .5:
        return Volume(23760, 27000, 35, draw.choice((0, 20)), model)
    return Volume(draw.choice((3600, draw.randint(36, 100000))), draw.choice((0, 6000, draw.randint(0, 60000))),
                  draw.choice((0, 5, 60, draw.randint(0, 120))), draw.choice((0, 10, 35)), model)


def drawn_errors(draw, volume):
    return Errors(draw.choice((0, draw.randint(0, 8000), draw.randint(0, 2 * volume.dthr))), draw.choice((0, 50, draw.randint(0, 600), draw.randint(0, 3000))),
                  draw.choice((0, draw.randint(0, 20000))), draw.choice((0, draw.randint(0, 2000))))


def drawn_leg(draw, volume, errors):
    """A leg that passes near the border of the volume, and of the region in which modified tau is small."""
    secs, speed, angle = draw.choice((1, draw.randint(1, 20), draw.randint(1, 120))), draw.choice((0, draw.randint(0, 1000), draw.randint(500, 9000))), draw.random() * 2 * math.pi
    velocity = round(speed * math.cos(angle)), round(speed * math.sin(angle))
    when = draw.uniform(-10, secs + volume.tthr + 15)
    miss = draw.choice((-1, 1)) * draw.choice((0, draw.uniform(0, 1.3), draw.uniform(.97, 1.03))) * (volume.dthr + errors.place + errors.speed * max(0, when))
    if draw.random() < .4 and speed:  # where modified tau comes to be tthr
        half = volume.tthr * speed / 2
        when = draw.uniform(0, secs) + (half + math.hypot(half, volume.dthr) + errors.place + errors.speed * secs) / speed
        miss = draw.choice((0, draw.uniform(-1, 1), draw.uniform(.8, 1.3))) * volume.dthr
    size = math.hypot(*velocity)
    aside = (-velocity[1] / size, velocity[0] / size) if size else (math.cos(angle), math.sin(angle))
    climb = draw.choice((0, draw.randint(-6000, 6000), draw.randint(-300, 300)))
    high = volume.zthr + errors.height + draw.uniform(0, secs) * errors.climb
    up = round(draw.choice((draw.uniform(-1.4, 1.4), draw.uniform(.95, 1.05), -draw.uniform(.95, 1.05))) * high - draw.uniform(0, secs + volume.tcoa) * climb)
    place = (*(round(miss * side - when * way) for side, way in zip(aside, velocity)), up)
    return Leg(0, secs, place, (*velocity, climb), errors)


def drawn(seed, count):
    """Legs with bounds and volumes, of each model by turns."""
    draw = random.Random(seed)
    for number in range(count):
        volume = drawn_volume(draw, list(MODELS)[number % len(MODELS)])
        errors = drawn_errors(draw, volume)
        if any(errors):
            yield draw, drawn_leg(draw, volume, errors), volume


class Stretches:
    """The times from low to high at which a convex function is at most 0, found by numbers of double precision; `least` is how near
    to a border any of it came."""

    def __init__(self):
        self.least = math.inf

    def note(self, margin):
        self.least = min(self.least, abs(margin))

    def of(self, function, low, high):
        first, last = low, high
        for _ in range(120):
            a, b = first + (last - first) / 3, last - (last - first) / 3
            first, last = (first, b) if function(a) <= function(b) else (a, last)
        lowest = min((low, high, (first + last) / 2), key=function)
        self.note(function(lowest))
        return (self.end(function, lowest, low), self.end(function, lowest, high)) if function(lowest) <= 0 else None

    @staticmethod
    def end(function, inside, outside):
        if function(outside) <= 0:
            return outside
        for _ in range(60):
            middle = (inside + outside) / 2
            inside, outside = (middle, outside) if function(middle) <= 0 else (inside, middle)
        return inside

    def overlap(self, one, other):
        if one is None or other is None:
            return None
        first, last = max(one[0], other[0]), min(one[1], other[1])
        self.note(last - first)
        return (first, last) if first <= last else None


def searched(leg, volume):
    """Whether the truth may violate the volume on the leg, by the stretches of time of each condition, and how sure that is."""
    (x, y, up), (v_x, v_y, v_up), errors, found = leg.place, leg.velocity, leg.errors, Stretches()

    def aside(time):
        return math.hypot(x + time * v_x, y + time * v_y) - time * errors.speed - errors.place - volume.dthr

    near = found.of(lambda time: abs(up + time * v_up) - time * errors.climb - errors.height - volume.zthr, 0.0, float(leg.secs))
    level = found.of(lambda time: abs(up + time * v_up) - time * errors.climb - errors.height, 0.0, float(leg.secs + volume.tcoa))
    parts = [part for part in (near, level and (max(0.0, level[0] - volume.tcoa), min(float(leg.secs), level[1]))) if part and part[0] <= part[1]]
    if not parts:
        return False, found.least
    heights = min(part[0] for part in parts), max(part[1] for part in parts)
    within = found.of(aside, 0.0, float(leg.secs + volume.tthr))
    if found.overlap(heights, within):
        return True, found.least
    ahead = found.overlap(heights, within and (within[0] - volume.tthr, within[1]))
    if ahead is None or volume.model == "tep":
        return ahead is not None, found.least
    speed = v_x * v_x + v_y * v_y
    most = 4 * volume.dthr ** 2 + volume.tthr ** 2 * (speed + 2 * errors.speed * math.ceil(math.sqrt(speed)) + errors.speed ** 2)
    reach = math.ceil(math.sqrt(most))

    def soon(time):
        middle = 2 * time + volume.tthr
        return math.hypot(2 * x + middle * v_x, 2 * y + middle * v_y, math.sqrt(max(0.0, reach * reach - most))) - reach - 2 * errors.place - middle * errors.speed

    return found.overlap(ahead, found.of(soon, 0.0, float(leg.secs))) is not None, found.least


def in_disc(radius, angle):
    """A whole point in a disc, near its border at that angle."""
    return tuple(math.trunc(radius * part * .999999) for part in (math.cos(angle), math.sin(angle)))


def truths(draw, leg, volume):
    """True legs within the bounds of a leg: most of those drawn point at the aircraft at some time."""
    for _ in range(10):
        time = draw.choice((0, leg.secs, draw.uniform(0, leg.secs + volume.tthr)))
        x, y = (leg.place[axis] + time * leg.velocity[axis] for axis in (0, 1))
        toward = math.atan2(-y, -x)
        place = in_disc(leg.errors.place, toward + draw.choice((0, draw.uniform(-1, 1))))
        speed = in_disc(leg.errors.speed, draw.choice((toward, math.atan2(leg.velocity[1], leg.velocity[0]), draw.uniform(0, 7))))
        up = -1 if leg.place[2] + time * leg.velocity[2] > 0 else 1
        off = *place, draw.choice((0, up, up)) * leg.errors.height
        faster = *speed, draw.choice((-up, 0, up, up)) * leg.errors.climb
        yield Leg(0, leg.secs, tuple(map(sum, zip(leg.place, off))), tuple(map(sum, zip(leg.velocity, faster))))


class AtATime(unittest.TestCase):
    """The definition at one time."""

    def test_roots_above(self):
        self.assertEqual([root_above(square) for square in (0, 1, 2, 4, 5, 9, 10, 10**24, 10**24 + 1)], [0, 1, 2, 2, 3, 3, 4, 10**12, 10**12 + 1])

    def test_without_errors_it_is_the_volume(self):
        """Of modified tau and the time to the entry point. The volumes of the other two lie within that of modified tau, which decides them."""
        seen = {}
        for draw, leg, volume in drawn(1, 6000):
            leg, time = leg._replace(errors=Errors(0, 0, 0, 0)), draw.randint(0, leg.secs)
            decided = volume._replace(model=None) if volume.model in ("tau", "tcpa") else volume
            found = may_violate(leg, volume, time)
            self.assertEqual(found, violates(leg, decided, time, 1), (leg, volume, time))
            seen[volume.model, found] = seen.get((volume.model, found), 0) + 1
        self.assertGreater(min(seen.values()), 100)
        self.assertEqual(len(seen), 8)

    def test_it_grows_with_each_error(self):
        grown = 0
        for draw, leg, volume in drawn(2, 6000):
            time, more = draw.randint(0, leg.secs), Errors(*(it + draw.choice((0, 1, draw.randint(0, 3000))) for it in leg.errors))
            before, after = may_violate(leg, volume, time), may_violate(leg._replace(errors=more), volume, time)
            self.assertLessEqual(before, after, (leg, volume, time, more))
            grown += before != after
        self.assertGreater(grown, 100)


class OnALeg(unittest.TestCase):
    def test_a_time_that_violates_is_found(self):
        counts = {False: 0, True: 0}
        for draw, leg, volume in drawn(3, 4000):
            found = may_meet(leg, volume)
            times = {0, leg.secs, *(Fraction(draw.randint(0, 12 * leg.secs), 12) for _ in range(6))}
            self.assertTrue(found or not any(may_violate(leg, volume, time) for time in times), (leg, volume))
            counts[found] += 1
        self.assertGreater(min(counts.values()), 1000)

    def test_the_parts_of_a_leg_violate_where_it_does(self):
        for _, leg, volume in drawn(4, 1500):
            seconds = [leg.second(k) for k in range(leg.secs)]
            self.assertEqual(may_meet(leg, volume), any(may_meet(one, volume) for one in seconds), (leg, volume))

    def test_a_search_in_floating_point_finds_the_same(self):
        sure = {False: 0, True: 0}
        for _, leg, volume in drawn(5, 2500):
            found, least = searched(leg, volume)
            if least > SURE:
                self.assertEqual(may_meet(leg, volume), found, (leg, volume))
                sure[found] += 1
        self.assertGreater(min(sure.values()), 700)

    def test_what_no_truth_may_violate_none_violates(self):
        """Of four hundred legs and more that may violate, a true one was drawn that does."""
        seen = clear = 0
        for draw, leg, volume in drawn(6, 4000):
            found, violated = may_meet(leg, volume), any(meets(truth, volume) for truth in truths(draw, leg, volume))
            self.assertTrue(found or not violated, (leg, volume))
            seen += violated and not meets(leg._replace(errors=None), volume)
            clear += not found
        self.assertGreater(seen, 400)
        self.assertGreater(clear, 1000)


class OfAMoment(unittest.TestCase):
    LEVEL = Level(dthr=660, zthr=450, tthr=35, tcoa=0, lookahead=60, alert=60)
    CONFIG = Config(1, 3, {"gs": 20, "vs": 500, "alt": 2000}, {"track": list(range(0, 360, 45)), "gs": [2000, 4000], "vs": [-1000, 1000], "alt": [9000, 11000]},
                    [LEVEL], (150, 100), last_times=1)

    def test_what_reports_of_a_moment_may_err_by(self):
        moment = Moment(0, 1)
        moment.own = Own(0, 0, 10000, 0, 3600, 0, Bounds(1, 2, 3, 4))
        old = Traffic("A", 5000, 0, 10000, 0, 0, 0, 10, Bounds(50, 60, 70, 80))
        at = reference.Situation(self.CONFIG, moment)
        self.assertEqual(at.errors_at(0, old), Errors(36 * 51 + 700, 73, 60 * 62 + 800, 84))
        self.assertEqual(at.errors_at(7, old), Errors(36 * 51 + 700 + 7 * 73, 73, 60 * 62 + 800 + 7 * 84, 84))
        self.assertEqual(at.errors_at(7, old._replace(bounds=EXACT)), Errors(36 + 21, 3, 120 + 28, 4))
        moment.own = moment.own._replace(bounds=EXACT)
        at = reference.Situation(self.CONFIG, moment)
        self.assertEqual(at.errors_at(7, old), Errors(36 * 50 + 17 * 70, 70, 60 * 60 + 17 * 80, 80))
        self.assertIsNone(at.errors_at(7, old._replace(bounds=EXACT)))

    def test_without_bounds_a_report_says_the_same_in_each_format(self):
        """Under each model."""
        draw = moments.Generator.of_seed(44)
        for model in MODELS:
            config = self.CONFIG._replace(levels=[self.LEVEL._replace(**{model: 1} if model else {})])
            for _ in range(8):
                drawn_moment = moments.aimed_moment(draw)
                texts = ["\n".join([f"format {form}", *moment_lines(0, *drawn_moment, form)]).encode() for form in (2, 3)]
                one, other = (reference.report_of(config, Reader().read(text)[0]) for text in texts)
                self.assertEqual(one, other)

    def test_the_example(self):
        """The same picture three times: as in encounter.states, and with bounds."""
        config = read_config(CONFIG)
        exact, some, many = (reference.report_of(config, moment) for moment in read_moments(os.path.join(TOP, "examples", "bounded.states")))
        plain = next(moment for moment in read_moments(ENCOUNTER) if moment.time == 30)
        self.assertEqual(exact, reference.report_of(config, plain))
        self.assertIn("resolve vs down -2500 up 2500", exact)
        self.assertIn("resolve vs down none up none", some)
        self.assertIn("resolve track left none right 15", some)
        self.assertEqual([line.split()[3::2] for line in many if line.startswith("resolve")], [["none", "none"]] * 4)

    def test_no_candidate_that_is_open_with_bounds_is_closed_without(self):
        """Taking bounds away, or making them smaller, opens candidates and closes none; alerts come no earlier."""
        draw, opened = moments.Generator.of_seed(45), 0
        for _ in range(40):
            own, traffic = moments.with_bounds(draw, *moments.aimed_moment(draw))
            halved = own._replace(bounds=Bounds(*(it // 2 for it in own.bounds))), [it._replace(bounds=Bounds(*(n // 2 for n in it.bounds))) for it in traffic]
            closed = []
            for it in ((own, traffic), halved, (own._replace(bounds=EXACT), [it._replace(bounds=EXACT) for it in traffic])):
                moment = Moment(0, 1)
                moment.own, moment.traffic = it
                at = reference.Situation(self.CONFIG, moment)
                closed.append({(kind, value) for kind, values in self.CONFIG.values.items() for value in values if at.covered((kind, value))})
            self.assertTrue(closed[0] >= closed[1] >= closed[2], (own, traffic))
            opened += len(closed[0]) - len(closed[2])
        self.assertGreater(opened, 20)


if __name__ == "__main__":
    unittest.main()
