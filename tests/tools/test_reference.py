"""tools/reference: worked moments, and the program on aimed moments in every kind of configuration."""
import itertools
import os
import pty
import random
import select
import subprocess
import sys
import unittest
from fractions import Fraction
from unittest import mock

from common import CONFIG, ENCOUNTER, TOP, ToolTest, module, replayed
from daidalus_files import MODEL_KEYS, MODELS, Config, Level, Moment, Own, Reader, Traffic, config_of, examine_config, moment_lines, own_line, traffic_line
from headings import SINES, sine, velocity

import well_clear

reference, moments = module("tools/reference"), module("tools/moments")


def small(levels, resolve=1, recovery=None, **values):
    """The configuration of the worked moments, or another one near it."""
    plain = {"track": [0, 90, 180, 270], "gs": [3600], "vs": [0], "alt": [1000]}
    return Config(resolve, 3, {"gs": 10, "vs": 100, "alt": 1000}, {**plain, **values}, levels, recovery)


LEVEL = Level(dthr=660, zthr=450, tthr=35, tcoa=0, lookahead=10, alert=10)
OWN = Own(0, 0, 1000, 0, 3600, 0)


def report(config, own, *traffic):
    moment = Moment(0, 1)
    moment.own, moment.traffic = own, list(traffic)
    return reference.report_of(config, moment)


# The answers where every candidate is closed, and where the present flight is open.
def answers(word):
    return [f"resolve {kind} {lower} {word} {upper} {word}" for kind, lower, upper in
            (("track", "left", "right"), ("gs", "down", "up"), ("vs", "down", "up"), ("alt", "down", "up"))]


def all_at(level):
    return [f"track 0 270 {level}", f"gs 3600 3600 {level}", f"vs 0 0 {level}", f"alt 1000 1000 {level}"]


class Worked(unittest.TestCase):
    """Moments whose reports were worked out by hand."""

    def test_no_aircraft(self):
        self.assertEqual(report(small([LEVEL]), OWN), ["moment 0", *all_at(0), *answers("keep"), "done 0"])

    def test_at_the_same_place(self):
        self.assertEqual(report(small([LEVEL]), OWN, Traffic("A", 0, 0, 1000, 0, 3600, 0)),
                         ["moment 0", "now A 1", "alert A 1 0", *all_at(1), *answers("none"), "done 0"])

    def test_a_touch_exactly_at_the_border(self):
        """The aircraft is 0.66 miles to the right when the ownship has flown a mile, after 10 seconds."""
        level, aircraft = LEVEL._replace(tthr=0), Traffic("A", 660, 1000, 1000, 0, 0, 0)
        found = report(small([level]), OWN, aircraft)
        self.assertEqual(found[1:8], ["now A 0", "alert A 1 9", "track 0 180 1", "track 270 270 0", *all_at(1)[1:]])
        self.assertEqual(found[8], "resolve track left 270 right none")
        self.assertEqual(report(small([level._replace(alert=9)]), OWN, aircraft)[2], "alert A 0 -")
        found = report(small([level._replace(dthr=659)]), OWN, aircraft)
        self.assertEqual(found[2:6], ["alert A 0 -", "track 0 0 0", "track 90 180 1", "track 270 270 0"])

    def test_a_touch_between_two_seconds(self):
        level = LEVEL._replace(tthr=0, lookahead=11, alert=11)
        self.assertEqual(report(small([level]), OWN, Traffic("A", 660, 1050, 1000, 0, 0, 0))[2], "alert A 1 10")

    def test_both_parts_at_different_fractions_of_a_second(self):
        """Near in place until 6.6 s, near in height from 6.8 s on."""
        level = LEVEL._replace(zthr=100, tthr=0, lookahead=15, alert=15)
        found = report(small([level]), OWN._replace(vs=3000), Traffic("A", 0, 0, 1440, 0, 0, 0))
        self.assertEqual(found[1:7], ["now A 0", "alert A 0 -", *all_at(0)])

    def test_the_time_to_the_closest_approach(self):
        """It is 10 s at the beginning and 8 s at second 2."""
        level, aircraft = LEVEL._replace(tthr=8), Traffic("A", 330, 1000, 1000, 0, 0, 0)
        self.assertEqual(report(small([level]), OWN, aircraft)[1:3], ["now A 1", "alert A 1 0"])
        self.assertEqual(report(small([level._replace(tcpa=1)]), OWN, aircraft)[1:3], ["now A 0", "alert A 1 1"])

    def test_each_model(self):
        """330 mils aside and 1000 ahead. After 2 s the closest approach is 8 s away, and tau is 8 s after 3.7."""
        level, aircraft = LEVEL._replace(tthr=8), Traffic("A", 330, 1000, 1000, 0, 0, 0)
        for models, lines in (({}, ["now A 1", "alert A 1 0"]), ({"tcpa": 1}, ["now A 0", "alert A 1 1"]),
                              ({"tau": 1}, ["now A 0", "alert A 1 3"]), ({"tep": 1}, ["now A 1", "alert A 1 0"])):
            self.assertEqual(report(small([level._replace(**models)]), OWN, aircraft)[1:3], lines, models)

    def test_the_time_to_the_entry_point(self):
        """1660 mils ahead the distance is 660 after exactly 10 s; so 9 s are left at the end of the first second."""
        for north, tthr, lines in ((1660, 9, ["now A 0", "alert A 1 0"]), (1660, 10, ["now A 1", "alert A 1 0"]),
                                   (1661, 9, ["now A 0", "alert A 0 -"]), (1661, 10, ["now A 0", "alert A 1 0"])):
            level = LEVEL._replace(tthr=tthr, lookahead=1, alert=1, tep=1)
            self.assertEqual(report(small([level]), OWN, Traffic("A", 0, north, 1000, 0, 0, 0))[1:3], lines, (north, tthr))

    def test_tau(self):
        """Straight ahead tau is the distance over the speed: 900 mils are 9 s, and 8 at the end of the first second."""
        level = LEVEL._replace(dthr=100, tthr=8, lookahead=1, alert=1, tau=1)
        for north, line in ((1000, "alert A 0 -"), (900, "alert A 1 0")):
            self.assertEqual(report(small([level]), OWN, Traffic("A", 0, north, 1000, 0, 0, 0))[2], line)

    def test_tau_may_end_before_dthr(self):
        """450 mils aside, with a dthr of 500: tau is at most 10 s from 717 mils ahead to 283, and the distance at most dthr from 217
        on. One that has the ownship's height after just a second, since it sinks by 100 ft in it, is too near by these alone."""
        level = LEVEL._replace(dthr=500, zthr=0, tthr=10, lookahead=5, alert=5, tau=1)
        self.assertEqual(report(small([level]), OWN, Traffic("A", 450, 1000, 1000, 0, 0, 0))[1:3], ["now A 0", "alert A 1 2"])
        for ahead, line in ((718, "alert A 0 -"), (717, "alert A 1 0"), (283, "alert A 1 0"), (282, "alert A 0 -"), (218, "alert A 0 -"),
                            (217, "alert A 1 0")):
            self.assertEqual(report(small([level]), OWN, Traffic("A", 450, 100 + ahead, 1100, 0, 0, -6000))[2], line, ahead)

    def test_times_exactly_at_their_threshold(self):
        """At 400 mils and 360 knots, modified tau to 200 mils is 3 s: 14400 (14400 - 3 * 3600) is 7200 squared. Tau is 3 s at 300
        mils, as is the time to the closest approach; 200 mils are reached from 500 in 3 s."""
        level = LEVEL._replace(dthr=200, tthr=3)
        for model, mils in ((level, 400), (level._replace(tcpa=1), 300), (level._replace(tau=1), 300), (level._replace(tep=1), 500)):
            for further, now in ((0, 1), (1, 0)):
                found = report(small([model]), OWN, Traffic("A", 0, mils + further, 1000, 0, 0, 0))
                self.assertEqual(found[1], f"now A {now}")

    def test_heights_exactly_at_their_threshold(self):
        """450 ft above; or 600 ft above, where 3000 ft/min take 12 s."""
        for level, own, alt in ((LEVEL, OWN, 1450), (LEVEL._replace(tcoa=12), OWN._replace(vs=3000), 1600)):
            for further, now in ((0, 1), (1, 0)):
                found = report(small([level]), own, Traffic("A", 0, 0, alt + further, 0, 3600, 0))
                self.assertEqual(found[1], f"now A {now}")

    def test_four_levels(self):
        levels = [LEVEL._replace(tthr=0, dthr=dthr) for dthr in (700, 690, 680, 660)]
        found = report(small(levels, resolve=4), OWN, Traffic("A", 660, 1000, 1000, 0, 0, 0))
        self.assertEqual(found[2:5], ["alert A 4 9", "track 0 180 4", "track 270 270 0"])

    def test_an_old_report(self):
        self.assertEqual(report(small([LEVEL]), OWN, Traffic("A", 0, -1000, 1000, 0, 3600, 0, 10)),
                         report(small([LEVEL]), OWN, Traffic("A", 0, 0, 1000, 0, 3600, 0)))

    def test_recovery(self):
        level, aircraft = LEVEL._replace(tthr=0), Traffic("A", 400, 100, 1000, 0, 0, 0)
        found = report(small([level], recovery=(300, 100)), OWN, aircraft)
        self.assertEqual(found[-5:], ["recover track 6 270", "recover gs 7 3600", "recover vs 7 0", "recover alt 7 1000", "done 0"])
        found = report(small([level], recovery=(410, 100)), OWN, aircraft)
        self.assertEqual(found[-5:-1], [f"recover {kind} none" for kind in ("track", "gs", "vs", "alt")])

    def test_nearest_recovery(self):
        """Beside an aircraft on the right, tracks 210 to 330 are clear after 6 s, and beside one on the left 30 to 150."""
        level, tracks = LEVEL._replace(tthr=0), list(range(0, 360, 30))
        for east, nearest, track in ((400, 0, 210), (400, 1, 330), (-400, 0, 30), (-400, 1, 30)):
            config = small([level], recovery=(300, 100), track=tracks)._replace(nearest=nearest)
            self.assertIn(f"recover track 6 {track}", report(config, OWN, Traffic("A", east, 100, 1000, 0, 0, 0)))

    def test_order_of_nearest_values(self):
        config = small([LEVEL], recovery=(300, 100))._replace(nearest=1)
        at = reference.Situation(config, _picture(OWN._replace(trk=350)))
        self.assertEqual(sorted((350, 170, 80, 260, 0, 340), key=lambda value: at.order("track", value)), [350, 0, 340, 80, 260, 170])
        self.assertEqual(sorted((1500, 900, 1000, 1100), key=lambda value: at.order("alt", value)), [1000, 1100, 900, 1500])

    def test_recovery_and_a_cylinder_at_the_last_instant(self):
        """A is 0.2 miles behind after 2 s, and 300 ft above; B is 0.7 miles ahead after exactly 10 s, or a mil more."""
        level = LEVEL._replace(dthr=200, tthr=0)
        for north, line in ((1700, "recover gs none"), (1701, "recover gs 3 3600")):
            others = Traffic("A", 0, 0, 1300, 0, 0, 0), Traffic("B", 0, north, 1000, 0, 0, 0)
            found = report(small([level], recovery=(700, 100)), OWN, *others)
            self.assertIn(line, found)

    def test_last_times(self):
        """An aircraft that comes on from ahead leaves 3 seconds for a turn. One that is too near leaves none."""
        level, tracks = LEVEL._replace(tthr=0, lookahead=60, alert=60), list(range(0, 360, 30))
        config = small([level], track=tracks)._replace(last_times=1)
        found = report(config, OWN, Traffic("A", 0, 4000, 1000, 0, -3600, 0))
        self.assertEqual([found[2], *found[-9:]], [
            "alert A 1 16", "resolve track left 330 right 30", "resolve gs down none up none", "resolve vs down none up none",
            "resolve alt down none up none", "last track 3", "last gs none", "last vs none", "last alt none", "done 0"])
        found = report(config, OWN, Traffic("A", 400, 100, 1000, 0, 0, 0))
        self.assertEqual(found[-5:], [*(f"last {kind} none" for kind in ("track", "gs", "vs", "alt")), "done 0"])
        found = report(config._replace(recovery=(300, 100)), OWN, Traffic("A", 400, 100, 1000, 0, 0, 0))
        self.assertEqual([line.split()[0] for line in found[-10:]], ["resolve", *["last"] * 4, *["recover"] * 4, "done"])

    def test_a_last_time_may_be_the_last_second(self):
        """The aircraft sinks a foot a second and is 450 ft above after exactly 10 seconds. An altitude is flown to at once, so one
        that begins 9 seconds from now is in time."""
        config = small([LEVEL._replace(tthr=0)], alt=[500, 1000])._replace(last_times=1)
        found = report(config, OWN, Traffic("A", 0, 0, 1460, 0, 3600, -60))
        self.assertEqual(found[-5:-1], ["last track none", "last gs none", "last vs none", "last alt 9"])

    def test_last_times_go_by_the_levels_that_close(self):
        """The aircraft is 0.66 miles to the right after 10 seconds, and a mile away after 3. Which of both counts is told by `resolve`."""
        levels = [LEVEL._replace(dthr=1000, tthr=0), LEVEL._replace(tthr=0)]
        config, aircraft = small(levels, resolve=2, gs=[3000, 3600])._replace(last_times=1), Traffic("A", 660, 1000, 1000, 0, 0, 0)
        self.assertEqual(report(config, OWN, aircraft)[-5:-1], ["last track 8", "last gs 8", "last vs none", "last alt none"])
        self.assertIn("last gs none", report(config._replace(resolve=1), OWN, aircraft))

    def test_no_last_times_without_their_key_or_where_the_present_flight_is_open(self):
        """The aircraft is 0.66 miles to the right after 10 seconds: after the lookahead, or just within it."""
        level, aircraft = LEVEL._replace(tthr=0), Traffic("A", 660, 1000, 1000, 0, 0, 0)
        for last_times, lookahead, lines in ((1, 9, 0), (1, 10, 4), (0, 10, 0)):
            found = report(small([level._replace(lookahead=lookahead)])._replace(last_times=last_times), OWN, aircraft)
            self.assertEqual(sum(line.startswith("last ") for line in found), lines)

    def test_the_last_time_of_an_altitude_goes_by_where_the_present_flight_is_then(self):
        """The ownship climbs 50 ft a second toward an aircraft 1000 ft higher: after 11 s it is 450 ft below, and levels off."""
        config = small([LEVEL._replace(tthr=0, lookahead=60, alert=60)], track=list(range(0, 360, 30)))._replace(last_times=1)
        found = report(config, OWN._replace(vs=3000), Traffic("A", 0, 2000, 2000, 0, 0, 0))
        self.assertEqual(found[-5:-1], ["last track 2", "last gs none", "last vs none", "last alt 11"])

    def test_last_times_are_those_of_the_flights_second_by_second(self):
        """Against each delay and candidate, flown by the present flight's velocities and then the candidate's from there."""
        draw, seen = moments.Generator.of_seed(31), {}
        levels = [LEVEL._replace(tthr=10, lookahead=25), LEVEL._replace(dthr=500, lookahead=40),
                  LEVEL._replace(dthr=700, zthr=900, lookahead=12, tau=1)]
        config = small(levels, resolve=2, track=[0, 90, 180, 270], gs=[1000, 4500], vs=[-2000, 2000], alt=[8000, 12000])
        for _ in range(60):
            own, traffic = moments.aimed_moment(draw)
            at = reference.Situation(config, _picture(own, *traffic))
            if at.is_open(at.covered(reference.HOLD)):
                continue
            for kind in config.values:
                late = [delay for delay in range(40) if any(is_open_late(at, (kind, value), delay) for value in config.values[kind])]
                found = at.last_time(kind)
                self.assertEqual(found, max(late, default=None), (own, traffic, kind))
                seen[found] = seen.get(found, 0) + 1
        self.assertGreater(len(seen), 5)
        self.assertGreater(seen[None], 8)

    def test_nearest_on_each_side(self):
        covered = {0: {1}, 60: set(), 120: set(), 180: set(), 240: set(), 300: set()}
        at = reference.Situation(small([LEVEL]), _picture(OWN, Traffic("A", 0, 0, 1000, 0, 3600, 0)))
        self.assertEqual(at.answers("track", covered), (300, 60))
        covered = {3000: set(), 3300: set(), 3600: {1}, 3900: set()}
        self.assertEqual(at.answers("gs", covered), (3300, 3900))

    def test_headings_and_flights(self):
        self.assertEqual([velocity(3600, 30), velocity(3600, 225), velocity(10000, 180), velocity(1, 45)],
                         [(1800, 3117), (-2545, -2545), (0, -10000), (0, 0)])
        self.assertEqual(len(SINES), 91)
        self.assertTrue(all(abs(sine(angle) ** 2 + sine(90 - angle) ** 2 - 10 ** 8) <= 15000 for angle in range(360)))
        tracks = [reference.turned(0, target, 3 * second) for second in (1, 60) for target in (179, 180, 181)]
        self.assertEqual(tracks, [3, 3, 357, 179, 180, 181])
        at = reference.Situation(small([LEVEL]), _picture(OWN))
        self.assertEqual([at.velocity_on(("alt", 1040), second)[2] for second in range(4)], [1000, 1000, 400, 0])


def is_open_late(at, candidate, delay):
    """Whether a candidate is open whose flight begins after a delay, by the definition: leg after leg, aircraft after aircraft."""
    own = at.own
    place, height = (36 * own.x, 36 * own.y, 60 * own.alt), 60 * own.alt + delay * own.vs
    for leg in range(at.seconds):
        speed = at.velocity_on(reference.HOLD if leg < delay else candidate, leg - delay)
        if leg >= delay and candidate[0] == "alt":
            step = at.config.rates["alt"]
            heights = [reference.toward(height, 60 * candidate[1], seconds * step) for seconds in (leg - delay, leg - delay + 1)]
            speed = (*speed[:2], heights[1] - heights[0])
        for aircraft in at.traffic:
            flown = aircraft.age + leg
            other = (36 * aircraft.x + flown * aircraft.vx, 36 * aircraft.y + flown * aircraft.vy, 60 * aircraft.alt + flown * aircraft.vs)
            relative = reference.Leg(leg, 1, tuple(a - b for a, b in zip(place, other)),
                                     tuple(a - b for a, b in zip(speed, (aircraft.vx, aircraft.vy, aircraft.vs))))
            for volume, level in list(zip(at.volumes, at.config.levels))[at.config.resolve - 1:]:
                if leg < level.lookahead and reference.meets(relative, volume):
                    return False
        place = tuple(a + b for a, b in zip(place, speed))
    return True


def _picture(own, *traffic):
    moment = Moment(0, 1)
    moment.own, moment.traffic = own, list(traffic)
    return moment


def drawn_leg(draw, model):
    """A leg and a volume of small numbers, so that borders are often met; its line passes near."""
    place, secs = [draw.randint(-60, 60) for _ in range(3)], draw.randint(3, 20)
    velocity = [draw.randint(-1, 1) - at // secs for at in place]
    volume = reference.Volume(draw.randint(1, 20), draw.randint(0, 20), draw.randint(0, 12), draw.randint(0, 12), model)
    return reference.Leg(0, draw.randint(1, 12), tuple(place), tuple(velocity)), volume


def meets_at_one_time(leg, volume):
    """Of a leg that meets the volume, whether it violates at the time of the vertical part nearest to the closest approach."""
    (first, last), (east, north, _), (v_east, v_north, _) = well_clear.heights_near(leg, volume), leg.place, leg.velocity
    speed = v_east * v_east + v_north * v_north
    closest = Fraction(-(east * v_east + north * v_north), speed) if speed else first
    time = min(max(closest, first), last)
    return reference.violates(leg, volume, time.numerator, time.denominator)


class Definitions(unittest.TestCase):
    """How a leg is decided, and the order of the models, against the definition at many times."""

    def test_a_leg_that_violates_at_some_time_is_found(self):
        """Of each model, at all fractions of small denominators."""
        for model in MODELS:
            draw, counts = random.Random(7), {False: 0, True: 0}
            for _ in range(1500):
                leg, volume = drawn_leg(draw, model)
                found = reference.meets(leg, volume)
                times = {Fraction(n, d) for d in (1, 2, 3, 5) for n in range(leg.secs * d + 1)}
                seen = any(reference.violates(leg, volume, time.numerator, time.denominator) for time in times)
                self.assertTrue(found or not seen, (leg, volume))
                counts[found] += 1
            self.assertGreater(min(counts.values()), 200, model)

    def test_one_time_decides_all_but_tau(self):
        """Lines graze dthr, where tau may end before it."""
        for model in MODELS:
            draw, missed = random.Random(9), 0
            for _ in range(6000):
                leg, volume = drawn_leg(draw, model)
                leg = leg._replace(place=(volume.dthr - draw.randint(0, 2), *leg.place[1:]), velocity=(0, *leg.velocity[1:]))
                missed += reference.meets(leg, volume) and not meets_at_one_time(leg, volume)
            self.assertTrue(missed >= 20 if model == "tau" else missed == 0, (model, missed))

    def test_the_volumes_lie_one_within_the_next(self):
        draw, counts = random.Random(8), dict.fromkeys(MODELS, 0)
        for _ in range(20000):
            leg, volume = drawn_leg(draw, None)
            time = draw.randrange(60), draw.randint(1, 5)
            found = [reference.violates(leg, volume._replace(model=model), *time) for model in MODELS]
            self.assertEqual(found, sorted(found), (leg, volume, time))
            for model, violated in zip(MODELS, found):
                counts[model] += violated
        self.assertEqual(list(counts.values()), sorted(set(counts.values())), "some model is never alone")


# Configurations: each sort of levels, of candidates and of lookaheads, by turns.

NESTED = {1: [{}], 2: [{}, {"zthr": 300, "alert": 20}], 3: [{}, {"tthr": 20}, {"dthr": 500, "tthr": 10, "alert": 10}],
          4: [{"dthr": 900}, {}, {"tthr": 25}, {"tthr": 10, "zthr": 200}]}
CROSSED = {2: [{"dthr": 300, "zthr": 900}, {"dthr": 900, "zthr": 100}], 3: [{"tthr": 0}, {"tthr": 60, "tcpa": 1}, {"dthr": 200, "tcoa": 30}],
           4: [{"tcpa": 1}, {}, {"zthr": 0, "tcoa": 60}, {"dthr": 1200, "zthr": 50, "tthr": 5}]}
MIXED = {3: [{"tau": 1}, {"tcpa": 1}, {"tep": 1}], 4: [{"tep": 1}, {"tcpa": 0}, {"tcpa": 1, "zthr": 300}, {"tau": 1}]}
CHOSEN = ({}, {"tcpa": 1}, {"tcoa": 25}, {"tau": 1}, {"tep": 1, "tcoa": 10})
GRIDS = {
    "single": ("gs = { min = 3600, max = 3600, step = 1, rate = 10 }\nvs = { min = 0, max = 0, step = 1, rate = 100 }\n"
               "alt = { min = 9000, max = 9000, step = 1, rate = 1000 }\n", 90),
    "coarse": ("gs = { min = 500, max = 7000, step = 1300, rate = 50 }\nvs = { min = -4000, max = 4000, step = 1000, rate = 300 }\n"
               "alt = { min = 0, max = 20000, step = 2500, rate = 2000 }\n", 45),
    "fast": ("gs = { min = 0, max = 10000, step = 2500, rate = 10000 }\nvs = { min = -10000, max = 10000, step = 4000, rate = 10000 }\n"
             "alt = { min = -2000, max = 60000, step = 15500, rate = 10000 }\n", 60)}
LOOKAHEADS = (1, 30, 75, 180)


def texts():
    """Configurations, as texts, each with a name."""
    sorts = (("nested", NESTED), ("crossed", CROSSED), ("mixed", MIXED))
    levels = [(sort, count, made) for sort, lists in sorts for count, made in lists.items()]
    turns = itertools.cycle(LOOKAHEADS)
    for place, ((sort, count, made), (grid, (kinds, step))) in enumerate(itertools.product(levels, GRIDS.items())):
        seconds, model = next(turns) if grid != "single" else 180, CHOSEN[place % len(CHOSEN)]
        base = {"dthr": 660, "zthr": 450, "tthr": 35, "tcoa": 0, "lookahead": seconds, "alert": max(1, seconds * 2 // 3), **model}
        text = f"resolve = {1 + place % count}\nturn_rate = {(1, 3, 30)[place % 3]}\ntrack_step = {step}\n{kinds}"
        text += ("", "last_times = 1\n", "last_times = 1\n", "last_times = 0\n")[place % 4 if seconds < 180 else 0]
        text += f"recovery = {{ hdist = {(150, 500)[place % 2]}, vdist = {(0, 150, 400)[place % 3]}{(', nearest = 1', '')[place % 2]} }}\n" if place % 4 else ""
        for level in made:
            kept = {key: value for key, value in base.items() if key not in MODEL_KEYS or not level.keys() & set(MODEL_KEYS)}
            text += "[[level]]\n" + "".join(f"{key} = {value}\n" for key, value in {**kept, **level}.items())
        yield f"{sort} {count} {grid} {seconds}", text


def aimed(draw, number, form):
    """State lines of so many aimed moments in a format; in format 1 no report is old, and in format 3 reports have bounds."""
    lines = [f"format {form}"]
    for time in range(number):
        own, traffic = moments.aimed_moment(draw)
        if form == 1:
            traffic = [aircraft._replace(age=0) for aircraft in traffic]
        elif form == 3:
            own, traffic = moments.with_bounds(draw, own, traffic)
        lines += moment_lines(time, own, traffic, form)
    return "\n".join(lines).encode() + b"\n"


def grazing(draw, number):
    """State lines of so many moments: an aircraft that stands still, about dthr aside of the ownship's way, and climbs or sinks
    through its height when it is 50 to 900 mils ahead."""
    lines = []
    for time in range(number):
        gs, second, climb = draw.randint(2500, 4500), draw.randint(0, 20), draw.choice((-1, 1)) * draw.randint(1500, 6000)
        place = draw.choice((-1, 1)) * draw.randint(630, 660), draw.randint(50, 900) + gs * second // 36
        aircraft = Traffic("A", *place, 10000 - climb * second // 60, 0, 0, climb)
        own = Own(0, 0, 10000, draw.choice((0, 0, 0, 1)), gs, 0)
        lines += [f"moment {time}", own_line(own), traffic_line(aircraft, 1), "end"]
    return "\n".join(lines).encode() + b"\n"


class AgainstTheProgram(ToolTest):
    def agree(self, seed, number, form_at):
        """The program and the reference on so many aimed moments of each kind of configuration, in the format for the configuration at a
        place of the list."""
        draw, seen, compared = moments.Generator.of_seed(seed), set(), 0
        for place, (name, text) in enumerate(texts()):
            document, faults = examine_config(text.encode())
            self.assertEqual(faults, [], name)
            config, states = config_of(document), aimed(draw, number, form_at(place))
            wanted = [line for moment in Reader().read(states) for line in reference.report_of(config, moment)]
            status, written = replayed(self.write("c.toml", text), states)
            self.assertEqual(status, 0)
            self.assertEqual(written.decode().splitlines(), wanted, name)
            seen.update(line.split()[0] + (" none" if line.endswith(" none") else "") for line in wanted)
            compared += number
        self.assertLessEqual({"recover", "recover none", "resolve", "resolve none", "last", "last none"}, seen)
        return compared

    def test_every_kind_of_configuration(self):
        self.assertGreaterEqual(self.agree(20, 12, lambda place: 1 + (place % 2 == 0)), 250)

    def test_every_kind_of_configuration_with_bounds(self):
        self.assertGreaterEqual(self.agree(21, 4, lambda place: 3), 100)

    def test_each_model_on_grazing_lines(self):
        """In the gap that tau leaves, before it and after it. Some of these moments tell a detector that looks at one time alone."""
        levels = [LEVEL._replace(zthr=60, tthr=15, lookahead=40, alert=40, **{key: 1} if key else {}) for key in MODELS]
        draw, whole = random.Random(4), reference.meets
        for level, states in zip(levels, (grazing(draw, 100) for _ in levels)):
            config = small([level], track=list(range(0, 360, 45)), alt=[10000])
            text = "resolve = 1\nturn_rate = 3\ntrack_step = 45\ngs = { min = 3600, max = 3600, step = 1, rate = 10 }\n"
            text += "vs = { min = 0, max = 0, step = 1, rate = 100 }\nalt = { min = 10000, max = 10000, step = 1, rate = 1000 }\n"
            text += "[[level]]\n" + "".join(f"{key} = {value}\n" for key, value in level._asdict().items())
            self.assertEqual(config_of(examine_config(text.encode())[0]), config)
            reports = [reference.report_of(config, moment) for moment in Reader().read(states)]
            written = replayed(self.write("c.toml", text), states)[1].decode().splitlines()
            self.assertEqual(written, [line for lines in reports for line in lines], level)
            self.assertGreater(sum(lines[2] != "alert A 0 -" for lines in reports), 10)
            with mock.patch.object(reference, "meets", lambda leg, volume: whole(leg, volume) and meets_at_one_time(leg, volume)):
                told = sum(reference.report_of(config, moment) != lines for moment, lines in zip(Reader().read(states), reports))
            self.assertTrue(told >= 10 if level.tau else told == 0, (level, told))

    def test_the_example(self):
        with open(ENCOUNTER, "rb") as file:
            states = b"end\n".join(file.read().split(b"end\n")[:2]) + b"end\n"
        status, out, said = self.tool("reference", CONFIG, self.write("in.states", states))
        self.assertEqual((status, said, out.count("done")), (0, "", 2))
        self.assertEqual(replayed(CONFIG, states)[1].decode(), out)

    def test_a_terminal_shows_how_many_moments_are_done(self):
        """Here after no second at all, of two refused lines. The terminal is left as it was, and the report is the same."""
        states = self.write("in.states", b"end\nend\n")
        begin = "import progress, runpy, sys; progress.AFTER = progress.EVERY = 0; sys.argv = ['reference', *sys.argv[1:]]; runpy.run_path({!r}, run_name='__main__')"
        words = [sys.executable, "-B", "-c", begin.format(os.path.join(TOP, "tools", "reference")), CONFIG, states]
        ours, theirs = pty.openpty()
        run = subprocess.run(words, env={**os.environ, "PYTHONPATH": os.path.join(TOP, "tools")}, stdout=subprocess.PIPE, stderr=theirs, timeout=120)
        erase = b"\r\x1b[K"
        wanted = erase + b"reference: moments: 0 %" + erase + erase + b"reference: moments: 50 %" + erase
        said = b""
        while len(said) < len(wanted) and select.select([ours], [], [], 10)[0]:
            said += os.read(ours, 4096)
        os.close(theirs)
        os.close(ours)
        self.assertEqual(said, wanted)
        self.assertEqual((run.returncode, run.stdout.decode()), self.tool("reference", CONFIG, states)[:2])

    def test_refused_lines_and_errors(self):
        states = b"moment 0\nown 1 2\nown 0 0 1000 0 3600 0\nend\nend\n"
        status, out, _ = self.tool("reference", CONFIG, self.write("in.states", states))
        self.assertEqual((status, out.encode()), replayed(CONFIG, states))
        self.assertEqual(status, 1)
        status, out, said = self.tool("reference", self.write("c.toml", "a = "))
        self.assertEqual((status, out), (3, ""))
        self.assert_one_line(said, "config 2")


if __name__ == "__main__":
    unittest.main()
