"""tools/study: what is flown and measured, the pilot model, sensors; and that a fault of the guidance shows in the statistics."""
import os
import random
import subprocess
import unittest
from unittest import mock

from common import TOP, ToolTest, module, program
from daidalus_files import MODELS, Level
from headings import velocity
from studies import flight, measures, rows
from studies.drawing import Draw, Stratum
from studies.encounters import Aircraft, Encounter, Event, Way
from studies.flying import Flying, World
from studies.guidance import Guidance, Own, change
from studies.pilot import Following, Pilot
from studies.ratios import ratios_of
from studies.sensors import Sensed, Sensors, bell
from studies.study_file import read_study
from studies.tracing import Traced

reference = module("tools/reference")
STUDY, RECOVERY = os.path.join(TOP, "examples", "study.toml"), os.path.join(TOP, "examples", "recovery.toml")
SECONDS, TENTHS = World("seconds"), World("tenths")
# Both aircraft fly northward beside each other, so heights alone tell a loss. The ownship's vertical speeds are -10, 0, 10 and 20 ft/s.
BESIDE = """resolve = 1
turn_rate = 3
track_step = 90
gs = { min = 1000, max = 1000, step = 100, rate = 20 }
vs = { min = -600, max = 1200, step = 600, rate = 2000 }
alt = { min = 5000, max = 5000, step = 500, rate = 2000 }
recovery = { hdist = 82, vdist = 100, nearest = 1 }
level = [{ dthr = 1000, zthr = 100, tthr = 0, tcoa = 0, lookahead = 40, alert = 30 }]
"""
OVERTAKEN = """encounter 0 30 1 all
own 0 0 5000 0 1000 0
intruder A 500 0 4880 0 1000 600
at 1 A vs 1740 3000
at 6 A vs 600 3000
end
"""
OVERTAKING = """config = "beside.toml"
encounters = "overtaken.encounters"
well_clear = { dthr = 1000, zthr = 10, tthr = 0 }
pilot = { kinds = ["vs"], reaction = [0, 0], warned = [0, 0], update = [8, 8], clear = 30, sides = 1 }
"""
STRAIGHT = {"own_flights": (1, 0, 0, 0, 0), "intruder_flights": (1, 0, 0, 0, 0), "intruders": (1,)}


def study_with(pilot=None, sensors=None, world=None, config=None, **draw):
    found = read_study(STUDY, config)
    found.pilot, found.sensors, found.world = pilot or found.pilot, sensors or found.sensors, world or found.world
    found.draw = Draw(**draw) if draw else found.draw
    return found


class Losses(unittest.TestCase):
    def test_on_random_legs_as_the_reference_says(self):
        """Of each model about a third of the legs near the border are lost, and in every way of being near."""
        draw = random.Random(1)
        for key in MODELS:
            level = Level(660, 450, 35, 20, 1, 1, **{key: 1} if key else {})
            volume, hits = measures.volume_of(level, 1), 0
            for _ in range(6000):
                speed = draw.choice((300, 3000, 6000))
                velocity = draw.randint(-speed, speed), draw.randint(-speed, speed), draw.choice((0, draw.randint(-3000, 3000)))
                ahead, up = draw.choice((0, 0, draw.randint(0, 40))), draw.randint(-30000, 30000)
                place = *(draw.randint(-25000, 25000) - ahead * it for it in velocity[:2]), up - draw.choice((0, draw.randint(0, 25))) * velocity[2]
                got = measures.lost(place, velocity, volume)
                self.assertEqual(got, reference.meets(reference.Leg(0, 1, place, velocity), volume), (key, place, velocity))
                hits += got
            self.assertTrue(1000 < hits < 4500, hits)

    def test_near_collisions(self):
        """500 feet are 2962.2 units, 100 feet 6000; the closest approach is within the leg, at its begin or where heights are near."""
        for place, velocity, hit in (((2962, 0, 6000), (0, 0, 0), True), ((2963, 0, 0), (0, 0, 0), False), ((0, 0, 6001), (0, 0, 0), False),
                                     ((0, 0, 6001), (0, 0, -1), True), ((-3000, 2962, 0), (6000, 0, 0), True), ((-3000, 2963, 0), (6000, 0, 0), False),
                                     ((-9000, 0, 0), (6000, 0, 0), False), ((-8000, 0, 0), (6000, 0, 0), True), ((0, 0, 9000), (6000, 0, -3000), False),
                                     ((0, 0, 7000), (6000, 0, -3000), True)):
            self.assertEqual(measures.collides(place, velocity, 1), hit, (place, velocity))
            if velocity == (0, 0, 0):
                self.assertEqual(measures.collides(tuple(10 * it for it in place), velocity, 10), hit)

    def test_severity(self):
        volume = measures.volume_of(Level(660, 450, 35, 0, 1, 1), 1)
        self.assertEqual(measures.severity((0, 0, 0), (100, 0, 0), volume), 1)
        self.assertEqual(measures.severity((23760, 0, 0), (0, 0, 0), volume), 0)
        self.assertAlmostEqual(measures.severity((11880, 0, 0), (0, 0, 0), volume), 1 - (7 / 16) ** 0.5)  # halves: 1/4 + 3/4 * 1/4
        self.assertEqual(measures.severity((0, 0, 27000), (100, 0, 0), volume), 0)

    def test_the_volume_of_ten_legs_a_second_is_the_same_volume(self):
        one, ten = (measures.volume_of(Level(660, 450, 35, 0, 1, 1), steps) for steps in (1, 10))
        for place, v, lost in (((23760, 0, 27000), (0, 0, 0), (True, True)), ((23761, 0, 0), (0, 0, 0), (False, False)), ((0, 0, 27001), (0, 0, 0), (False, False)),
                               ((100000, 0, 0), (-3000, 0, 0), (True, True)), ((112000, 0, 0), (-3000, 0, 0), (True, False)), ((114000, 0, 0), (-3000, 0, 0), (False, False))):
            found = measures.lost(place, v, one), measures.lost(tuple(10 * it for it in place), v, ten)
            self.assertEqual(found, lost, (place, v))  # the leg of one of ten is the first tenth of the other's


class Moments(ToolTest):
    def test_judge_takes_what_the_pilot_followed(self):
        """Of encounters with one and with two intruders, without and with errors of the sensors; and a wrong byte is told."""
        errors = Sensors(seed=3, place=20, height=30, speed=15, climb=60, lost=100, late=(0, 3), whole_degrees=True)
        for number, sensors in ((0, None), (1, None), (7, errors)):
            study = study_with(sensors=sensors)
            traced = Traced(study.draw.encounter(7, number), study, True)
            self.assertGreater(traced.run.advices, 0)
            self.assertEqual("format 2\n" in traced.text(), sensors is not None)
            states, said = self.write("in.states", traced.text()), [traced.report(), traced.report().replace(b"resolve track left", b"resolve track leff", 1)]
            for report, written in zip(said, (b"same\n", b"differs ")):
                ran = subprocess.run([program(), "judge", "--config", RECOVERY, "--states", states], input=report, capture_output=True, timeout=60)
                self.assertTrue(ran.stdout.startswith(written), ran.stdout)

    def test_judge_takes_what_a_pilot_followed_who_stays_on_a_side(self):
        for sides in (0, 1):
            study = read_study(write_overtaking(self, sides))
            traced = Traced(study.encounter(0), study, True)
            self.assertIn(b"\nrecover vs 7 -600\n", traced.reports[8])
            ran = subprocess.run([program(), "judge", "--config", study.config, "--states", self.write("in.states", traced.text())], input=traced.report(),
                                 capture_output=True, timeout=60)
            self.assertEqual(ran.stdout, b"same\n")

    def test_a_loss_is_where_the_programs_report_has_a_violated_level(self):
        """But for the rounding of places: the report's moments are the beginnings of the seconds on which losses are looked for."""
        study, lost = study_with(), 0
        for number in (0, 2, 4, 9):
            traced = Traced(study.draw.encounter(7, number), study, False)
            levels = [max(int(line.split()[2]) for line in report.decode().splitlines() if line.startswith("now ")) for report in traced.reports]
            first = next((second for second, level in enumerate(levels) if level >= 2), None)
            self.assertEqual(first is None, traced.run.loss is None)
            if first is not None:
                lost += 1
                self.assertTrue(0 <= first - traced.run.loss <= 1, (number, first, traced.run.loss))
        self.assertEqual(lost, 3)


class Sides(ToolTest):
    def test_who_stays_on_a_side_where_both_recover(self):
        """The ownship is level, 120 ft above A, which climbs by 10 ft/s. A new vertical speed begins after a second. So a climb by 10 ft/s
        is open, as it stays 110 ft above A, and is flown. From second 2 to 7 A climbs by 29 ft/s, and then by 10 again: on second 8 it is
        15 ft below. An ownship that then descends by 10 ft/s is more than 100 ft below A after 7 s (15 - 6 * 20 = -105), and one that
        climbs by 20 ft/s is as far above A after 10 s (15 + 9 * 10 = 105). So the soonest recovery leads through A's height, and comes
        within 10 ft on second 9. A pilot who climbs on is 85 ft above A on second 16, and holds that climb, which is clear after 2 s
        (85 + 2 * 10 = 105). Mirrored, where A is above and descends, all this holds for the other side."""
        for mirror in (1, -1):
            for sides in (0, 1):
                study = read_study(write_overtaking(self, sides, mirror))
                traced, row = Traced(study.encounter(0), study, True), rows.row_of(study.encounter(0), study)
                own, other = zip(*((own.alt - 5000, it.alt - own.alt) for own, (it,) in traced.told))
                self.assertEqual([mirror * it for it in own[:9]], [0, 0, 10, 20, 30, 40, 50, 60, 70])
                self.assertEqual([mirror * it for it in other[:9]], [-120, -110, -110, -91, -72, -53, -34, -15, -15])
                study.guidance.see(8, *traced.told[8])
                found = [(7, mirror * -600), (10, mirror * 1200)]
                self.assertEqual((study.guidance.recovery("vs"), study.guidance.recoveries("vs")), (found[0], tuple(found[::mirror])))
                self.assertEqual([mirror * it for it in own[9:12]], [80, 100, 120] if sides else [80, 70, 60])
                flown, back = ("up", "down")[::mirror]
                self.assertEqual([it for it in traced.run.log if " no " in it or "vs " in it],
                                 [f"0 vs {flown} {mirror * 600}", *((f"8 no answer; vs {mirror * 1200} recovers after 10 s", f"8 vs {flown} {mirror * 1200}",
                                                                    f"16 no answer; vs {mirror * 1200} recovers after 2 s") if sides else
                                                                   (f"8 no answer; vs {mirror * -600} recovers after 7 s", f"8 vs {back} {mirror * -600}"))])
                keys = "loss", "g_loss", "g_alert", "advice", "advices", "reversals", "nones", "cause"
                self.assertEqual([row[key] for key in keys], [5, None, 0, 0, 2, 0, 2, ""] if sides else [5, 9, 0, 0, 2, 1, 1, "none-open"])

    def test_shards_end_to_end_are_the_whole(self):
        """By processes too; and with the key 0 the rows are those without the key."""
        made = lambda *words: self.tool("study", "run", self.path, *words)[1:]
        found = {}
        for sides in (None, 0, 1):
            self.path = write_overtaking(self, sides, many=5)
            found[sides], said = made()
            self.assertEqual((found[sides].count("\n"), said), (6, ""))
            self.assertEqual("".join(made("--shard", f"{k}/3")[0] for k in range(3)), found[sides])
            self.assertEqual(made("--jobs", "2"), (found[sides], ""))
        self.assertEqual(found[None], found[0])
        self.assertNotEqual(found[0], found[1])


def write_overtaking(test, sides, mirror=1, many=1):
    """Writes the study in a test's folder, with or without the key `sides`, as it is or with up and down exchanged, and with so many
    encounters, which differ by how far to the side A is. Its path."""
    beside, text, study = BESIDE, OVERTAKEN, OVERTAKING.replace(", sides = 1", "" if sides is None else f", sides = {sides}")
    if mirror < 0:
        beside = BESIDE.replace("min = -600, max = 1200", "min = -1200, max = 600")
        text = OVERTAKEN.replace("4880 0 1000 600", "5120 0 1000 -600").replace("vs ", "vs -")
    test.write("beside.toml", beside)
    test.write("overtaken.encounters", "".join(text.replace("encounter 0", f"encounter {it}").replace("A 500", f"A {500 - it}") for it in range(many)))
    return test.write("study.toml", study)


class Flights(unittest.TestCase):
    def test_without_an_alert_the_guided_flight_is_the_other_one(self):
        study, quiet, told = study_with(intruders=(1,)), 0, 0
        for number in (3, 4, 5, 9, 18, 19):
            encounter = study.draw.encounter(7, number)
            bare, guided = (flight.fly(encounter, study, it) for it in (False, True))
            if 2 in bare.alerts:
                told += 1
                self.assertGreaterEqual(guided.first_advice, guided.alerts[2] + study.pilot.warned[0])  # no advice before an alert
                self.assertEqual(guided.alerts[2], bare.alerts[2])
            else:
                quiet += 1
                self.assertEqual((guided.advices, guided.off, guided.first_advice), (0, 0, None))
                self.assertEqual((guided.loss, guided.nearest, guided.severity, guided.nmac), (bare.loss, bare.nearest, bare.severity, bare.nmac))
        self.assertGreaterEqual(min(quiet, told), 2)

    def test_a_perfect_pilot_loses_nothing_to_straight_traffic(self):
        """Who turns at once, looks each second and goes back late. Without guidance each of these is lost, on the second that the
        first alert told."""
        study = study_with(Pilot(reaction=(0, 0), warned=(0, 0), update=(1, 1), clear=10), **STRAIGHT)
        numbers = [number for number in range(24) if number % 10 < 5]
        found = [rows.row_of(study.draw.encounter(11, number), study) for number in numbers]
        lost = [it for it in found if it["loss"] is not None]
        self.assertGreaterEqual(len(lost), 10)
        self.assertEqual({it["loss"] - it["alert"] for it in lost} - {54}, set())
        self.assertEqual([it for it in found if it["g_loss"] is not None], [])
        self.assertEqual({it["steady"] for it in found}, {1})

    def test_an_answer_that_is_flown_keeps_what_it_promises(self):
        """Each answer of each kind, flown as the engine says from what it was told, meets no level that closes within its lookahead;
        what lies between it and the present value does."""
        study = study_with(intruders=(1,))
        guidance, config = study.guidance, study.guidance.config
        closing = [(measures.volume_of(it, 1), it.lookahead) for it in study_levels(config)]
        kept = broken = 0
        for number in (0, 3, 13, 14):
            for own, traffic in alerted_moments(study, number):
                guidance.see(0, own, traffic)
                for kind in ("track", "gs", "vs", "alt"):
                    answer = guidance.answer(kind)
                    for value in (() if answer == "keep" else [it for it in answer if it is not None]):
                        self.assertFalse(is_broken(own, traffic, kind, value, guidance, closing), (own, traffic, kind, value))
                        kept += 1
                        nearer = nearer_candidate(config, kind, own, value)
                        if nearer is not None:
                            self.assertTrue(is_broken(own, traffic, kind, nearer, guidance, closing), (own, traffic, kind, nearer))
                            broken += 1
        self.assertGreater(kept, 20)
        self.assertGreater(broken, 15)

    def test_a_turn_in_both_worlds(self):
        """3 degrees a second from the first second's end on, or from its first tenth's end on."""
        it = Aircraft("own", 0, 0, 5000, 358, 1000, 0, [Event(2, "track", 8, 3)], planned=True)
        for world, tracks in ((SECONDS, [3580, 3580, 3580, 10, 40, 70, 80, 80]), (TENTHS, [3580, 3580, 3580, 10, 40, 70, 80, 80])):
            flying, seen = Flying(it, world), []
            for second in range(8):
                seen.append(flying.trk)
                for _ in range(world.steps):
                    flying.go(flying.velocity(), flying.plan(second))
            self.assertEqual(seen, tracks)
        self.assertEqual(Flying(it, TENTHS, off=5).velocity(), (round(1000 * -0.0261769), round(1000 * 0.9996573), 0))  # 358.5 degrees

    def test_changes_of_a_second_are_whole_in_both_worlds(self):
        """Also those that ten legs do not divide; half a turn goes to the right."""
        it = Aircraft("own", 0, 0, 5000, 10, 1000, 0, [Event(0, "gs", 1500, 7), Event(0, "vs", -900, 301), Event(0, "track", 190, 13)], planned=True)
        for world in (SECONDS, TENTHS):
            flying = Flying(it, world)
            for second in range(2):
                for _ in range(world.steps):
                    flying.go(flying.velocity(), flying.plan(second))
            self.assertEqual((flying.gs, flying.vs, flying.trk), (1014, -602, 360))

    def test_ways_are_flown_and_left_at_an_advice(self):
        """By ways the places are those that the ways say, and the plan wants their track and speeds."""
        it = Aircraft("own", ways=[Way(0, 0, 0, 1000), Way(10, 0, 500, 1100), Way(20, 500, 500, 1100)])
        flying = Flying(it, SECONDS)
        self.assertEqual((flying.trk, flying.gs, flying.vs), (0, 1800, 600))
        self.assertEqual(flying.plan(12), {"track": (90, 3), "gs": (1800, 20), "vs": (0, 300)})
        for second in range(25):
            flying.go(flying.velocity(), flying.plan(second))
        self.assertEqual(flying.place, (25 * 1800 - 18000, 18000, 66000))  # straight on after the last one
        flying.leave_ways()
        flying.go(flying.velocity(), {"track": (93, 3), "gs": (1800, 20), "vs": (0, 300)})
        self.assertEqual(flying.trk, 930)

    def test_an_altitude_is_flown_at_its_rate_and_held(self):
        flying = Flying(Aircraft("own", 0, 0, 5000, 0, 1000, 600, planned=True), SECONDS)
        flying.level = 5050, 1500
        climbs = []
        for second in range(4):
            climbs.append(flying.velocity()[2])
            flying.go(flying.velocity(), flying.plan(second))
        self.assertEqual(climbs, [1500, 1500, 0, 0])

    def test_the_plans_own_rates_hold_until_the_first_manoeuvre(self):
        """Then those of the configuration: here the plan gets faster by half a knot a second when the alert comes, and then by two."""
        own = Aircraft("own", 0, 0, 5000, 0, 1500, 0, [Event(2, "gs", 2500, 5)], planned=True)
        other, speeds = Aircraft("A", 0, 8000, 5000, 180, 1500, 0, planned=True), []
        run = flight.fly(Encounter(0, 40, 1, "all", own, [other]), study_with(Pilot(reaction=(9, 9), warned=(9, 9))), True, lambda second, own, _: speeds.append(own.gs))
        self.assertEqual(run.first_advice, run.alerts[2] + 9)
        self.assertTrue(5 < run.first_advice < 30)
        steps = [b - a for a, b in zip(speeds, speeds[1:])]
        self.assertEqual(steps, [0] * 2 + [5] * (run.first_advice - 1) + [20] * (38 - run.first_advice))

    def test_a_graze(self):
        """Both fly north beside each other: 0.658 NM apart it is a graze, 0.657 NM apart it is none; and 449 and 448 feet."""
        for x, up, grazes in ((658, 0, False), (659, 0, True), (660, 0, True), (0, 449, False), (0, 450, True)):
            own, other = Aircraft("own", 0, 0, 5000, 0, 1000, 0, planned=True), Aircraft("A", x, 0, 5000 + up, 0, 1000, 0, planned=True)
            run = flight.fly(Encounter(0, 3, 1, "all", own, [other]), study_with(), False)
            self.assertEqual((run.loss, run.grazes), (0, grazes), (x, up))

    def test_a_value_between_two_candidates_is_open_where_both_are(self):
        """And the present one by itself; over north the last candidate of track is beside the first."""
        guidance = Guidance(RECOVERY)
        guidance.own, first = flight_own(), {kind: it[0] for kind, it in guidance.lists.items()}
        for closed, opened, shut in (((first["track"] + 2,), [("track", 5), ("track", 12), ("track", 17)][:1], [("track", 10), ("track", 7), ("track", 12)]),
                                     ((first["track"] + 71, first["track"]), [("track", 6), ("track", 350)], [("track", 358), ("track", 352), ("track", 2)]),
                                     ((0,), [("track", 5), ("gs", 900)], [("track", 33), ("gs", 1050), ("vs", 7)]),
                                     ((first["vs"],), [("vs", -4900), ("gs", 500)], [("vs", -5000), ("vs", -4950), ("vs", -6000)])):
            guidance.board = [2 if place in closed else 0 for place in range(400)]
            self.assertEqual([it for it in opened + shut if guidance.is_open(*it)], opened, closed)

    def test_steady_flights(self):
        """A change counts from a minute before the alert, or else before the loss, up to the loss."""
        for alerts, loss, changes, steady in (({2: 100}, 150, [39, 151], True), ({2: 100}, 150, [40], False), ({2: 100}, 150, [150], False), ({2: 100}, None, [151], False),
                                              ({}, 150, [89], True), ({1: 9}, 150, [90], False), ({}, None, [5], True)):
            self.assertEqual(flight.Run(loss=loss, alerts=alerts, changes=changes).is_steady(2), steady, (alerts, loss, changes))
        study, it = study_with(), Aircraft("A", 20000, 0, 5000, 270, 1000, 0, [Event(5, "track", 300, 3)], planned=True)
        run = flight.fly(Encounter(0, 20, 1, "all", Aircraft("own", 0, 0, 5000, 0, 1000, 0, planned=True), [it]), study, False)
        self.assertEqual(run.changes, list(range(6, 16)))  # 30 degrees by 3 a second, from the end of second 5 on

    def test_what_the_engine_refuses_ends_the_flight(self):
        """The ownship descends through 2000 feet below sea level."""
        own = Aircraft("own", 0, 0, -1900, 0, 1000, -6000, planned=True)
        found = rows.row_of(Encounter(0, 10, 1, "all", own, [Aircraft("A", 9000, 0, 0, 0, 1000, 0, planned=True)]), study_with())
        self.assertEqual((found["refused"], found["cause"]), (2, "refused"))


def flight_own():
    return Own(0, 0, 5000, 33, 1050, 7)


def study_levels(config):
    return [Level(*(getattr(it, name) for name in Level._fields)) for it in config.levels[config.resolve - 1:]]


def alerted_moments(study, number):
    """What the engine is told on every seventh second with a corrective alert, before any loss."""
    found = []

    def note(second, own, traffic):
        alerts = study.guidance.alerts()
        if second % 7 == 0 and max(it.level for it in alerts) >= 2 > max(it.now for it in alerts):
            found.append((own, traffic))

    flight.fly(study.draw.encounter(7, number), study, False, note)
    return found[:4]


def is_broken(own, traffic, kind, value, guidance, closing):
    """Whether an answer, flown from there, meets a level that closes within its lookahead; the aircraft flies straight on."""
    it = traffic[0]
    flying, place = Flying(Aircraft("own", *own, planned=True), SECONDS), [it.x * 36, it.y * 36, it.alt * 60]
    flying.level = (value, guidance.rate(kind)) if kind == "alt" else None
    targets = {"track": (own.trk, 3), "gs": (own.gs, 20), "vs": (own.vs, 500), kind: (value, guidance.rate(kind))}
    for second in range(max(seconds for _, seconds in closing)):
        mine = flying.velocity()
        relative = tuple(a - b for a, b in zip(flying.place, place)), tuple(a - b for a, b in zip(mine, (it.vx, it.vy, it.vs)))
        if any(second < seconds and measures.lost(*relative, volume) for volume, seconds in closing):
            return True
        flying.go(mine, targets)
        place = [at + speed for at, speed in zip(place, (it.vx, it.vy, it.vs))]
    return False


def nearer_candidate(config, kind, own, value):
    """The candidate next to a value on the present value's side, or None where that is not beyond the present one."""
    now = {"track": own.trk, "gs": own.gs, "vs": own.vs, "alt": own.alt}[kind]
    step = config.track_step if kind == "track" else getattr(config, kind).step
    off = change(kind, now, value)
    nearer = value - step * (1 if off > 0 else -1)
    nearer = nearer % 360 if kind == "track" else nearer
    return nearer if change(kind, now, nearer) * off > 0 else None


class Answers:
    """In place of a guidance: alerts and answers by the second."""

    def __init__(self, answers, is_open=True, recovery=None):
        self.answers, self.open, self.found, self.second, self.own = answers, is_open, recovery, 0, None
        self.config = Guidance(RECOVERY).config

    def answer(self, kind):
        return self.answers[kind] if isinstance(self.answers, dict) else self.answers

    def is_open(self, kind, value):
        return self.open if isinstance(self.open, bool) else value in self.open

    def recovery(self, kind):
        return self.found

    def recoveries(self, kind):
        return self.found[kind] if isinstance(self.found, dict) else self.found

    def present(self, kind):
        return {"track": 0, "gs": 1000, "vs": 0, "alt": 5000}[kind]

    rate, grids = Guidance.rate, Guidance.grids


PLAN = {"track": (0, 3), "gs": (1000, 20), "vs": (0, 300)}


class Pilots(unittest.TestCase):
    def flown(self, guidance, levels, **pilot):
        """The targets of a pilot of fixed times, second by second, and the run."""
        run = flight.Run()
        words = {"reaction": (4, 4), "warned": (2, 2), "update": (3, 3), "clear": 2, **pilot}
        following = Following(guidance, Pilot(**words), 0, run)
        return [following.step(second, PLAN, level) for second, level in enumerate(levels)], run

    def tracks(self, *words, **pilot):
        found, run = self.flown(*words, **pilot)
        return [targets["track"][0] for targets, _ in found], run

    def test_reaction_warning_and_the_way_back(self):
        """An alert at second 1 is answered at 5, a warning at 3; and where it is over before, by nothing."""
        self.assertEqual(self.tracks(Answers((None, 40)), [0, 2, 2, 2, 2, 2, 2, 0, 0, 0])[0], [0] * 5 + [40] * 3 + [0] * 2)
        self.assertEqual(self.tracks(Answers((None, 40)), [0, 3, 3, 3, 3])[0], [0] * 3 + [40] * 2)
        tracks, run = self.tracks(Answers((None, 40)), [0, 2, 2, 2, 0, 0, 0])
        self.assertEqual((tracks, run.advices, run.first_advice), ([0] * 7, 0, None))

    def test_the_way_back_waits_until_it_is_open(self):
        """Without the alert, and for `clear` seconds in a row; who does not heed bands looks at the alert alone."""
        levels = [2] * 5 + [0] * 6
        self.assertEqual(self.tracks(Answers((None, 40), is_open=[40]), levels)[0], [0] * 4 + [40] * 7)
        self.assertEqual(self.tracks(Answers((None, 40), is_open=[40]), levels, heed_back=False)[0], [0] * 4 + [40] * 2 + [0] * 5)
        self.assertEqual(self.tracks(Answers((None, 40)), [2] * 5 + [0, 2, 0, 2, 0, 0])[0], [0] * 4 + [40] * 6 + [0])

    def test_the_nearer_side_and_then_the_same_side(self):
        """Of two as near the right one; a closed target is left for the same side's answer at the next look."""
        self.assertEqual(self.tracks(Answers((330, 40)), [2] * 5)[0][4], 330)
        self.assertEqual(self.tracks(Answers((320, 40)), [2] * 5)[0][4], 40)
        guidance = Answers((320, 40), is_open=[320])
        found, run = [], flight.Run()
        following = Following(guidance, Pilot(reaction=(0, 0), update=(3, 3)), 0, run)
        for second in range(6):
            guidance.answers = (320, 40) if second < 3 else (350, 60)
            found.append(following.step(second, PLAN, 2)[0]["track"][0])
        self.assertEqual((found, run.advices, run.reversals), ([40] * 3 + [60] * 3, 2, 0))

    def test_a_reversal_is_counted(self):
        guidance, run = Answers((320, 40), is_open=[]), flight.Run()
        following = Following(guidance, Pilot(reaction=(0, 0), update=(1, 1)), 0, run)
        following.step(0, PLAN, 2)
        guidance.answers = (320, None)
        self.assertEqual(following.step(1, PLAN, 2)[0]["track"][0], 320)
        self.assertEqual((run.advices, run.reversals), (2, 1))
        guidance.answers = "keep"
        self.assertEqual(following.step(2, PLAN, 2)[0]["track"][0], 0)  # the present flight is open again: it is held

    def test_a_margin_is_flown_where_it_is_open(self):
        self.assertEqual(self.tracks(Answers((None, 40)), [2] * 5, margin={"track": 10})[0][4], 50)
        self.assertEqual(self.tracks(Answers((355, None)), [2] * 5, margin={"track": 10})[0][4], 345)
        self.assertEqual(self.tracks(Answers((None, 40), is_open=[40]), [2] * 5, margin={"track": 10})[0][4], 40)
        found, _ = self.flown(Answers({"vs": (None, 4990)}), [2] * 5, kinds=("vs",), margin={"vs": 100})
        self.assertEqual(found[4][0]["vs"], (5000, 500))  # no farther than the greatest candidate

    def test_several_kinds_and_an_altitude(self):
        """The first kind that has an answer, and then the one that is flown already."""
        answers = {"track": (None, None), "vs": (-500, 900), "alt": (4500, None)}
        found, run = self.flown(Answers(answers), [2] * 5, kinds=("track", "vs"))
        self.assertEqual((found[4][0]["vs"], run.nones), ((-500, 500), 0))
        found, _ = self.flown(Answers(answers), [2] * 5, kinds=("alt",))
        self.assertEqual(found[4], (PLAN, (4500, 2000)))

    def test_recoveries(self):
        """Where no kind has an answer the soonest recovery is flown; it may be kept until there is an answer."""
        for keep, second in ((False, 200), (True, 100)):
            guidance, run, found = Answers((None, None), is_open=[], recovery=(9, 100)), flight.Run(), []
            following = Following(guidance, Pilot(reaction=(0, 0), update=(1, 1), keep_recovery=keep), 0, run)
            for guidance.found in ((9, 100), (5, 200)):
                found.append(following.step(len(found), PLAN, 2)[0]["track"][0])
            self.assertEqual((found, run.nones), ([100, second], 2))
        tracks, run = self.tracks(Answers((None, None)), [2] * 7)
        self.assertEqual((tracks, run.advices, run.nones), ([0] * 7, 0, 3))

    def test_recoveries_on_both_sides(self):
        """Before a side is flown the sooner one is taken, then the smaller turn, then the right one."""
        for found, track in ((((9, 300), (5, 100)), 100), (((5, 300), (9, 100)), 300), (((5, 300), (5, 100)), 300), (((5, 260), (5, 80)), 80),
                             (((5, 300), (5, 60)), 60), (((9, 300), None), 300), ((None, (9, 100)), 100), ((None, None), 0)):
            self.assertEqual(self.tracks(Answers((None, None), recovery=found), [2] * 5, sides=1)[0][4], track, found)

    def after_an_answer(self, answer, found, **pilot):
        """What a pilot flies who takes this answer, and at the next look has these recoveries alone; and the run."""
        guidance, run = Answers(answer, is_open=[], recovery=found), flight.Run()
        following = Following(guidance, Pilot(reaction=(0, 0), update=(1, 1), sides=1, **pilot), 0, run)
        following.step(0, PLAN, 2)
        guidance.answers = (None, None)
        return following.step(1, PLAN, 2)[0], run

    def test_a_recovery_on_the_side_that_is_flown_comes_first(self):
        """However soon the other one is; the present track, here 0, is on no other side than the one that is flown."""
        right, left = (None, 40), (320, None)
        for answer, found, track, reversals in ((right, ((2, 300), (30, 100)), 100, 0), (left, ((30, 200), (2, 10)), 200, 0), (right, ((2, 300), None), 300, 1),
                                                (left, (None, (2, 100)), 100, 1), (right, ((3, 0), None), 0, 0), (right, ((3, 0), (9, 100)), 0, 0),
                                                (right, ((3, 0), (2, 100)), 100, 0), (right, ((3, 0), (3, 100)), 0, 0), (left, ((3, 0), (2, 100)), 0, 0)):
            targets, run = self.after_an_answer(answer, found)
            self.assertEqual((targets["track"][0], run.reversals, run.nones), (track, reversals, 1), (answer, found))

    def test_recoveries_of_several_kinds_on_both_sides(self):
        """That on the side of the kind that is flown; else the soonest, of several that of the first kind."""
        kinds = ("track", "vs")
        for found, track, vs in (({"track": ((9, 300), (9, 60)), "vs": ((5, -500), None)}, 0, -500), ({"track": ((9, 300), (9, 60)), "vs": ((9, -10), None)}, 60, 0)):
            targets, _ = self.flown(Answers((None, None), recovery=found), [2] * 5, kinds=kinds, sides=1)
            self.assertEqual((targets[4][0]["track"][0], targets[4][0]["vs"][0]), (track, vs))
        answers = {"track": (None, None), "vs": (None, 500)}
        for found, track, vs in (({"track": ((2, 300), (2, 60)), "vs": ((2, -500), (30, 900))}, 0, 900), ({"track": (None, (2, 60)), "vs": ((3, -500), None)}, 60, 0)):
            targets, _ = self.after_an_answer(answers, found, kinds=kinds)
            self.assertEqual((targets["track"][0], targets["vs"][0]), (track, vs))
        _, run = self.after_an_answer({"track": (None, 40), "vs": (None, None)}, {"track": (None, None), "vs": ((3, 0), None)}, kinds=kinds)
        self.assertEqual(run.log[-1], "1 vs down 0")  # of a kind that is not flown the present value is on the lower side

    def test_a_manoeuvre_of_the_plan_waits_for_its_way(self):
        plan, run = {**PLAN, "track": (90, 3)}, flight.Run()
        for opened, wanted in ((True, 90), (False, 0)):
            following = Following(Answers("keep", is_open=opened), Pilot(heed_plan=True), 0, run)
            self.assertEqual([following.step(0, it, 0)[0]["track"][0] for it in (PLAN, plan)], [0, wanted])

    def test_each_encounter_draws_its_own_times(self):
        found = {(it.reaction, it.warned, it.update) for number in range(40) for it in [Following(Answers("keep"), Pilot(), number, None)]}
        self.assertGreater(len(found), 20)
        self.assertTrue(all(5 <= reaction <= 12 and 2 <= warned <= 5 and 4 <= update <= 8 for reaction, warned, update in found))


class Sensing(unittest.TestCase):
    def told(self, seconds=60, **errors):
        study = study_with(sensors=Sensors(**errors), **STRAIGHT)
        return Traced(study.draw.encounter(5, 0), study, False).told[:seconds]

    def test_without_errors_all_is_the_truth(self):
        """An aircraft that flies straight is where its velocity leads, but for rounding, and has the age 0."""
        told = self.told()
        for (_, (before,)), (own, (after,)) in zip(told, told[1:]):
            self.assertLessEqual(abs(after.x - before.x - (before.vx - own_velocity(own)[0]) / 36), 1)
            self.assertEqual((after.age, after[4:7]), (0, before[4:7]))

    def test_noise_has_its_deviation_and_its_seed(self):
        draw = random.Random(2)
        drawn = [bell(type("Draw", (), {"pick": staticmethod(draw.randint)}), 100) for _ in range(3000)]
        self.assertAlmostEqual(sum(drawn) / 3000, 0, delta=6)
        self.assertAlmostEqual((sum(it * it for it in drawn) / 3000) ** 0.5, 100, delta=5)
        true, one, same, other = (self.told(place=40, seed=seed) if seed else self.told() for seed in (0, 1, 1, 2))
        self.assertEqual(one, same)
        self.assertNotEqual(one, other)
        off = [a.x - b.x for (_, (a,)), (_, (b,)) in zip(one, true)]
        self.assertTrue(25 < (sum(it * it for it in off) / 60) ** 0.5 < 55, off)
        kept = self.told(place=40, every=20, seed=1)
        off = [a.x - b.x for (_, (a,)), (_, (b,)) in zip(kept, true)]
        self.assertEqual(len(set(off)), 3)

    def test_each_error_is_drawn_by_itself(self):
        """Gaps and delays change nothing of the noise; and each has a seed of its own."""
        noise = lambda **more: [it.x for _, traffic in self.told(place=40, seed=1, **more) for it in traffic if it.age == 0]
        alone, beside = noise(), self.told(place=40, seed=1, lost=300, gap=1)
        kept = [(second, it.x) for second, (_, traffic) in enumerate(beside) for it in traffic if it.age == 0]
        self.assertTrue(20 < len(kept) < 60)
        self.assertEqual([x for _, x in kept], [alone[second] for second, _ in kept])
        self.assertEqual(noise(noise_seed=1, late_seed=5), alone)
        self.assertNotEqual(noise(noise_seed=2), alone)
        ages = lambda **more: [it.age for _, traffic in self.told(lost=300, **more) for it in traffic]
        self.assertNotEqual(ages(seed=1), ages(seed=1, lost_seed=2))
        self.assertEqual(ages(seed=1), ages(seed=1, noise_seed=2))

    def test_late_and_lost_reports_have_their_age(self):
        """What is flown on from an old report of a straight flight is where the aircraft is, but for rounding."""
        true = self.told()
        for errors in ({"late": (3, 3)}, {"lost": 300, "gap": 4, "seed": 4}):
            ages = set()
            for (_, (real,)), (_, found) in list(zip(true, self.told(**errors)))[8:]:
                for it in found:
                    ages.add(it.age)
                    self.assertLessEqual(abs(it.x + it.age * it.vx / 36 - real.x), 1.01)
                    self.assertLessEqual(abs(it.y + it.age * it.vy / 36 - real.y), 1.01)
            self.assertTrue(ages == {3} if "late" in errors else {0, 1, 2, 3} <= ages, ages)

    def test_a_report_that_is_too_old_is_left_out(self):
        found = self.told(lost=500, gap=20, oldest=3, seed=4)
        self.assertEqual({len(traffic) for _, traffic in found}, {0, 1})
        self.assertLessEqual(max(it.age for _, traffic in found for it in traffic), 3)

    def test_whole_degrees(self):
        """Velocities then lie on a whole degree's ray of the table."""
        study = study_with(sensors=Sensors(whole_degrees=True), world=TENTHS)
        it, = study.draw.encounter(7, 4).others
        it.events = [Event(0, "track", (it.trk + 90) % 360, 1)]
        flying, sensed = Flying(it, TENTHS), Sensed(study.sensors, 1, 0)
        sensed.noise = [0] * 6
        for _ in range(15):
            flying.go(flying.velocity(), flying.plan(0))
        self.assertEqual(flying.trk % 10, 5)
        seen = sensed.seen_velocity(flying.velocity())
        self.assertIn(seen[:2], [velocity(gs, trk) for gs in range(it.gs - 1, it.gs + 2) for trk in range(360)])
        self.assertNotEqual(seen, flying.velocity())

    def test_the_ownship_is_told_off_its_track(self):
        study = study_with(sensors=Sensors(own_track=5), world=TENTHS, **STRAIGHT)
        encounter = study.draw.encounter(5, 0)
        own = Flying(encounter.own, TENTHS, 5)
        traced = Traced(encounter, study, False)
        self.assertEqual(traced.told[0][0].trk, encounter.own.trk)
        self.assertEqual(own.velocity(), TENTHS.velocity(encounter.own.gs, encounter.own.trk * 10 + 5) + (encounter.own.vs,))


def own_velocity(own):
    return SECONDS.velocity(own.gs, own.trk * 10)


class Faults(unittest.TestCase):
    def test_answers_on_the_wrong_side_are_noticed(self):
        """Each answer is mirrored at the present track. The loss ratio then lies above the interval of the right answers."""
        near = {**STRAIGHT, "strata": (Stratum("near", 300, 200, 1),)}
        right, wrong = study_with(**near), study_with(**near)
        answer = wrong.guidance.answer

        def mirrored(kind):
            found, now = answer(kind), wrong.guidance.present(kind)
            return found if found == "keep" else tuple(None if it is None else (2 * now - it) % 360 for it in reversed(found))

        with mock.patch.object(wrong.guidance, "answer", mirrored):
            found = [[rows.row_of(study.draw.encounter(11, number), study) for number in range(16)] for study in (right, wrong)]
        self.assertEqual([it["loss"] for it in found[0]], [it["loss"] for it in found[1]])
        good, bad = (ratios_of(it)[0] for it in found)
        self.assertGreater(bad.low, good.high)
        self.assertGreater(bad.value, 0.2)


if __name__ == "__main__":
    unittest.main()
