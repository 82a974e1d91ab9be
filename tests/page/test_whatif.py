"""What if an answer is flown: the candidate's flight, the recording that it makes, what came of it, and the encounters for teaching."""
import math
import os
import random
import re
import subprocess
import sys
import tempfile
import unittest

from nodes import HOW, NODE, OPEN, on_page
from shared import ENCOUNTER, RECOVERY, THREE_LEVELS, TOP, bytes_of, levels_of, moments_in, moments_of, program, replayed, text_of

sys.path[:0] = [os.path.join(TOP, "tools"), os.path.join(TOP, "tests", "tools")]
import ellipsoid  # noqa: E402 (tools/ is no package)
import headings  # noqa: E402
from daidalus_files import Origin  # noqa: E402
from test_ellipsoid import drawn, geodesic  # noqa: E402

FLY = OPEN + """
    const decided = async () => {
      for (let frames = 0; frames < 5000 && page.surveys[0].decided < page.moments.length; frames++) await frame();
      daa.ui.changed();
      await settle();
    };
    const fly = async (answer) => {
      $("whatif").open = true;
      daa.ui.changed();
      await settle();
      if (answer) $("answer").value = answer;
      const chosen = $("answer").value;
      await fire($("fly"), "click");
      await settle();
      await decided();
      return chosen;
    };
    const save = async (what) => {
      const before = saved.length;
      await fire($(what), "click");
      for (let frames = 0; frames < 2000 && saved.length === before; frames++) await frame();
      return saved.at(-1)[1].text();
    };
    const rows = () => [...$("outcome").tBodies[0].daaHtml.matchAll(/<tr>.*?<.tr>/g)].map(([row]) => [...row.matchAll(/<td>(.*?)<.td>/g)].map(([, cell]) => cell));"""


def toward(value, to, by):
    return min(value + by, to) if to >= value else max(value - by, to)


def turned(track, to, most):
    right = (to - track) % 360
    return (track + min(most, right)) % 360 if right <= 180 else (track - min(most, 360 - right)) % 360


def flight(own, rates, kind, value, seconds):
    """Each second of a candidate's flight by its definition: place in thousandths of a mile and feet, track, ground speed, vertical speed."""
    x, y, trk, gs, alt, vs = own["x"], own["y"], own["trk"], own["gs"], own["alt"], own["vs"]
    place, found = [36 * x, 36 * y, 60 * alt], []
    for k in range(seconds + 1):
        track = turned(trk, value, k * rates["track"]) if kind == "track" else trk
        speed = toward(gs, value, k * rates["gs"]) if kind == "gs" else gs
        climb = toward(vs, value, k * rates["vs"]) if kind == "vs" else vs
        if kind == "alt":
            climb = toward(60 * alt, 60 * value, (k + 1) * rates["alt"]) - toward(60 * alt, 60 * value, k * rates["alt"])
        found.append((place[0] / 36, place[1] / 36, place[2] / 60, track, speed, climb))
        east, north = headings.velocity(speed, track)
        place = [place[0] + east, place[1] + north, place[2] + climb]
    return found


@unittest.skipUnless(NODE, HOW)
class Flown(unittest.TestCase):
    RATES = {"track": 3, "gs": 20, "vs": 500, "alt": 2000}

    def test_a_flight_is_that_of_the_definition(self):
        """Of 60 candidates, of which some turn through north, and some are reached within the second."""
        lottery = random.Random(7)
        cases = []
        for _ in range(60):
            own = {"x": lottery.randint(-9000, 9000), "y": lottery.randint(-9000, 9000), "alt": lottery.randint(0, 20000), "trk": lottery.randint(0, 359),
                   "gs": lottery.randint(0, 7000), "vs": lottery.randint(-3000, 3000)}
            kind = lottery.choice(("track", "gs", "vs", "alt"))
            value = {"track": lottery.randint(0, 359), "gs": lottery.randint(500, 7000), "vs": lottery.randint(-5000, 5000), "alt": own["alt"] + lottery.randint(-3000, 3000)}[kind]
            cases.append([own, kind, value])
        found = on_page("""const grids = Object.fromEntries(Object.entries(given[0]).map(([kind, rate]) => [kind, { rate }]));
            return given[1].map(([own, kind, value]) => {
              const flight = new daa.Flight(own, grids, kind, value);
              return Array.from({ length: 101 }, (_, k) => flight.at(k));
            });""", self.RATES, cases)
        for (own, kind, value), seconds in zip(cases, found, strict=True):
            for now, (x, y, alt, trk, gs, vs) in zip(seconds, flight(own, self.RATES, kind, value, 100), strict=True):
                self.assertEqual((now["trk"], now["gs"], now["vs"]), (trk, gs, vs), (own, kind, value))
                self.assertTrue(abs(now["x"] - x) <= 0.5 and abs(now["y"] - y) <= 0.5 and abs(now["alt"] - alt) <= 0.5, (own, kind, value))

    def test_the_ownship_flies_the_answer_and_the_traffic_goes_on(self):
        """From the moment that is shown, as it was changed by hand; the program takes the states that are saved, and `judge` the report."""
        before, answer, states, report, name, back = on_page(FLY + """
            await open(["three.toml", given[0]], ["encounter.states", given[1]]);
            daa.ui.goTo(2);
            await settle();
            await press("p:", "PageUp");
            await decided();
            const before = daa.stateLines(page.moments);
            const answer = await fly();
            const [states, report, name] = [await save("save-states"), await save("save-report"), saved.at(-1)[0]];
            await fire($("unfly"), "click");
            await settle();
            return [before, answer, states, report, name, [page.name, page.index, page.moments.length, page.flown, page.current.own.alt]];""",
            text_of(THREE_LEVELS).replace("alert = 55", "alert = 30"), text_of(ENCOUNTER))
        recorded, made = (moments_in(text.encode()) for text in (before, states))
        own = made[2][1].own._asdict()
        self.assertEqual(own["alt"], recorded[2][1].own.alt + 100)
        kind, value = answer.split()
        self.assertNotEqual(kind, "keep")
        flown = flight(own, self.RATES, kind, int(value), 160)
        for place, ((_, one), (_, other)) in enumerate(zip(recorded, made, strict=True)):
            self.assertEqual(list(one.traffic), list(other.traffic))
            if place < 2:
                self.assertEqual(one.own, other.own)
            else:
                x, y, alt, trk, gs, vs = flown[one.time - recorded[2][1].time]
                self.assertEqual((other.own.trk, other.own.gs, other.own.vs), (trk, gs, vs))
                self.assertTrue(max(abs(other.own.x - x), abs(other.own.y - y), abs(other.own.alt - alt)) <= 0.5)
        with tempfile.TemporaryDirectory() as folder:
            paths = [os.path.join(folder, end) for end in ("a.toml", "a.states")]
            for path, text in zip(paths, (text_of(THREE_LEVELS).replace("alert = 55", "alert = 30"), states), strict=True):
                with open(path, "w", encoding="utf-8") as file:
                    file.write(text)
            self.assertEqual(report, replayed(paths[0], states.encode()))
            judged = subprocess.run([program(), "judge", "--config", paths[0], "--states", paths[1]], input=report.encode(), capture_output=True, timeout=300)
        self.assertEqual(judged.returncode, 0, judged.stderr)
        self.assertEqual(name, "encounter-flown.report")
        self.assertEqual(back, ["encounter.states", 2, 19, None, 10100])

    def test_what_may_be_flown_are_the_answers(self):
        """Each that the report names, and the present flight."""
        found = on_page(FLY + """
            await open(["recovery.toml", given[0]], ["encounter.states", given[1]]);
            $("whatif").open = true;
            const found = [];
            for (let index = 0; index < page.moments.length; index++) {
              daa.ui.goTo(index);
              daa.ui.changed();
              await settle();
              found.push([...$("answer").daaHtml.matchAll(/value="([^"]+)"/g)].map(([, value]) => value));
            }
            return found;""", text_of(RECOVERY), text_of(ENCOUNTER))
        for moment, offered in zip(moments_of(replayed(RECOVERY, bytes_of(ENCOUNTER))), found, strict=True):
            wanted = [(kind, value) for kind, *values in re.findall(r"(?m)^resolve (\w+) \w+ (\S+) \w+ (\S+)", moment) for value in values if value not in ("keep", "none")]
            wanted += re.findall(r"(?m)^recover (\w+) [0-9]+ (\S+)", moment)
            self.assertEqual(sorted(offered), sorted({"keep", *(f"{kind} {value}" for kind, value in wanted)}))

    def test_what_came_of_it_stands_beside_what_was_recorded(self):
        """The closest approach, the greatest level and how many moments alert, from there on, by the program on the states of both."""
        before, states, outcome = on_page(FLY + """
            daa.ui.goTo(2);
            await settle();
            await decided();
            const before = daa.stateLines(page.moments);
            await fly();
            return [before, await save("save-states"), rows()];""")
        for text, row in zip((before, states), outcome, strict=True):
            moments, reports = moments_in(text.encode())[2:], moments_of(replayed(THREE_LEVELS, text.encode()))[2:]
            levels = [max(levels_of(report).values()) for report in reports]
            self.assertEqual([int(row[4]), int(row[5])], [max(levels), sum(level > 0 for level in levels)])
            least = min(self.apart(moment, one, tenth / 10) for _, moment in moments for one in moment.traffic for tenth in range(100 if moment.time < 180 else 1))
            self.assertAlmostEqual(float(row[0]), least, delta=0.02)
        self.assertNotEqual(outcome[0], outcome[1])

    @staticmethod
    def apart(moment, one, seconds):
        own = moment.own
        east, north = headings.velocity(own.gs, own.trk)
        return math.hypot(one.x - own.x + (one.vx * (seconds + one.age) - east * seconds) / 36, one.y - own.y + (one.vy * (seconds + one.age) - north * seconds) / 36) / 1000

    def test_in_a_turned_plane_the_present_flight_is_as_recorded(self):
        """A recording on the globe, whose plane is turned at each moment so that the track is whole: who flew straight meets the same if that is flown."""
        rows = "time,id,lat,lon,alt,gs,trk,vs\n"
        for second in range(0, 200, 4):
            for name, start, speed, track in (("OWN", (0.0, 0.0), 300, 33.4), ("ONE", (0.30, 0.05), 250, 200.7)):
                lat, lon = ellipsoid.destination(start, math.radians(track), speed * second / 3600)
                rows += f"{second},{name},{lat:.7f},{lon:.7f},10000,{speed},{track},0\n"
        (recorded, flown), comments = on_page(FLY + """
            await open(["turned.csv", given[0]]);
            await decided();
            const comments = page.moments.comments(0);
            await fly("keep");
            return [rows(), comments];""", rows)
        self.assertRegex(comments[0], r"^# origin .* 0\.4000$")
        self.assertAlmostEqual(float(recorded[0]), float(flown[0]), delta=0.02)
        self.assertEqual(recorded[3:], flown[3:])

    @staticmethod
    def seen(own, other):
        """East and north of a place from another one, in NM along the geodesic, and how far the meridians converge, by Vincenty's formulas."""
        far, azimuth, at_end = geodesic(math.radians(own[0]), math.radians(other[0]), math.radians(other[1] - own[1]))
        return far * math.sin(azimuth), far * math.cos(azimuth), at_end - azimuth, at_end

    def test_on_the_globe_the_traffic_is_round_the_ownship_that_flies(self):
        """Of a recording at 60 degrees north, along whose 45 NM to the east the meridians converge by more than a degree: the ownship, which was put
        2 NM beside its place and then turns, is where the first plane has it, and each aircraft is from it as far and in the direction that the
        recording has."""
        flights = {"OWN": ((60.0, 5.0), 80.3, 450), "ONE": ((60.6, 7.0), 200.6, 300), "TWO": ((60.1, 5.2), 81.7, 430)}
        places, text = {}, "time,id,lat,lon,alt,gs,trk,vs\n"
        for second in range(0, 361, 10):
            for name, (start, azimuth, knots) in flights.items():
                lat, lon = ellipsoid.destination(start, math.radians(azimuth), knots * second / 3600)
                track = math.degrees(self.seen(start, (lat, lon))[3]) if second else azimuth
                places[second, name] = (lat, lon), math.radians(track), knots
                text += f"{second},{name},{lat:.7f},{lon:.7f},10000,{knots},{track % 360:.5f},0\n"
        states = on_page(FLY + """
            await open(["globe.csv", given[0]]);
            const moments = Array.from({ length: page.moments.length - 3 }, (_, i) => page.moments.at(3 + i));
            const [first, ...list] = moments.map((it) => ({ ...it, recorded: it.own }));
            const moved = { ...first, own: { ...first.own, x: first.own.x + 2000 } };
            return daa.stateLines([first, ...daa.flownFrom([moved, ...list], page.views[0].config.grids, "track", 170)]);""", text)
        recorded, *moments = (moment for _, moment in moments_in(states.encode().replace(b"moment 30\n", b"moment 29\n", 1)))
        self.assertEqual([moment.time for moment in moments], list(range(30, 361, 10)))
        self.assert_seen(recorded.origin, moments[-1].origin, (moments[-1].own.x - recorded.own.x, moments[-1].own.y - recorded.own.y), 0.001)
        for moment in moments:
            for one in moment.traffic:
                place, track, knots = places[moment.time, one.id]
                self.assert_seen(moment.origin, place, (one.x - moment.own.x, one.y - moment.own.y), 0.002)
                course = track - self.seen(moment.origin, place)[2] - math.radians(moment.origin.turn)
                self.assertLess(math.dist((one.vx / 10, one.vy / 10), (knots * math.sin(course), knots * math.cos(course))), 0.2)
            self.assertEqual(len(moment.traffic), 2)
        self.assertGreater(abs(moments[-1].origin.turn), 0.6)

    def assert_seen(self, origin, place, at, most):
        """A place is there in the plane of an origin, in 0.001 NM, but for so many NM."""
        east, north = self.seen(origin, place)[:2]
        turn = math.radians(origin.turn)
        wanted = east * math.cos(turn) - north * math.sin(turn), east * math.sin(turn) + north * math.cos(turn)
        self.assertLess(math.dist(wanted, (at[0] / 1000, at[1] / 1000)), most)

    def test_the_numbers_of_the_plane_are_those_of_the_tools(self):
        """At drawn places, of which some are out of range; and the way back leads to the place, by Vincenty's formulas."""
        lottery, cases = random.Random(62), []
        for most in (1, 10, 100, 130) * 200:
            own, other = drawn(lottery, most)
            cases.append([*own, *other, lottery.randint(-7200, 7200), lottery.randint(-7200, 7200), lottery.randint(-5030, 5030)])
        found = on_page("""const { seenFrom, placeSeen } = daa.ellipsoid;
            return given[0].map(([lat, lon, otherLat, otherLon, vx, vy, turn]) => {
              const own = { lat, lon, vx: 0, vy: 0 };
              const seen = seenFrom(own, { lat: otherLat, lon: otherLon, vx, vy }, turn);
              return [seen, seen && placeSeen(own, seen, turn)];
            });""", cases)
        taken = 0
        for (lat, lon, other_lat, other_lon, vx, vy, turn), (seen, back) in zip(cases, found, strict=True):
            wanted = ellipsoid.seen_from(ellipsoid.Place(lat, lon, 0, 0), ellipsoid.Place(other_lat, other_lon, vx, vy), turn)
            self.assertEqual(seen and tuple(seen.values()), wanted)
            if back and wanted.x ** 2 + wanted.y ** 2 > 100:
                taken += 1
                origin = Origin(lat / 1e7, lon / 1e7, turn / 10000)
                self.assert_seen(origin, (back["place"]["lat"] / 1e7, back["place"]["lon"] / 1e7), wanted[:2], 0.0003)
                self.assertLess(math.dist((back["place"]["vx"], back["place"]["vy"]), (vx, vy)), 2)
        self.assertGreater(taken, 500)


@unittest.skipUnless(NODE, HOW)
class Lessons(unittest.TestCase):
    """What a lesson says is so, by the program on the states of the lesson and on those that are flown."""

    # The config; at the moment of the question: some lines of its report, and aircraft that alert or not; after how many seconds all alerts are over for
    # good, or None; the least distance when it is followed; in which seconds after it the volume of level 2 is violated.
    CLAIMS = {
        "head-on": (THREE_LEVELS, ["resolve track left 355 right 10"], {"HEAD": True}, 2, 0.68, []),
        "overtaking": (THREE_LEVELS, ["resolve gs down 2200 up none"], {"SLOW": True}, None, 0.10, list(range(90, 161))),
        "crossing": (THREE_LEVELS, ["resolve track left 345 right 15"], {"CROSS": True}, 5, 0.75, []),
        "climbing through": (THREE_LEVELS, ["resolve alt down none up 11000"], {"CLIMB": True}, 1, 0.0, []),
        "a late turn": (THREE_LEVELS, ["resolve track left 350 right none", "resolve gs down none up none", "resolve vs down none up none", "resolve alt down none up none"],
                        {"LATE": True}, 3, 0.78, []),
        "two aircraft": (THREE_LEVELS, ["resolve track left 350 right 20"], {"HEAD": True, "RIGHT": False}, 2, 1.14, []),
        "recovery": (RECOVERY, [f"resolve {kind} {low} none {high} none" for kind, low, high in (("track", "left", "right"), ("gs", "down", "up"))] + ["recover track 3 350"],
                     {"NEAR": True}, 3, 0.79, [1, 2]),
    }

    def test_each_lesson_says_what_is_so(self):
        found = on_page(FLY + """
            const found = {};
            for (const [name, lesson] of Object.entries(daa.lessons)) {
              $("example").value = name;
              await fire($("example"), "change");
              await settle();
              const before = daa.stateLines(page.moments), said = ["question", "meaning", "followed"].map((part) => $(`lesson-${part}`).textContent);
              await fly();
              found[name.replace("lesson: ", "")] = [lesson.at, page.index, before, daa.stateLines(page.moments), said];
            }
            return found;""")
        self.assertEqual(list(found), list(self.CLAIMS))
        for name, (config, lines, alerts, over, least, violated) in self.CLAIMS.items():
            at, index, before, after, said = found[name]
            with self.subTest(name):
                self.assertEqual(index, at)
                self.assertTrue(all(len(words) > 40 for words in said))
                report = moments_of(replayed(config, before.encode()))[at]
                for line in lines:
                    self.assertIn(f"\n{line}\n", report)
                self.assertEqual({one: level > 0 for one, level in levels_of(report).items()}, alerts)
                reports = moments_of(replayed(config, after.encode()))[at:]
                loud = [second for second, it in enumerate(reports) if max(levels_of(it).values())]
                self.assertEqual(loud[-1] + 1, over if over is not None else len(reports))
                moments = moments_in(after.encode())[at:]
                near = min((math.hypot(one.x - it.own.x, one.y - it.own.y) / 1000, it.own.alt - one.alt) for _, it in moments for one in it.traffic)
                self.assertAlmostEqual(near[0], least, delta=0.015)
                if name == "climbing through":
                    self.assertGreater(near[1], 450)
                self.assertEqual([second for second, it in enumerate(reports) if re.search(r"(?m)^now \S+ [23]$", it)], violated)

    def test_before_the_late_turn_there_is_no_alert_and_without_a_recovery_it_takes_forty_seconds(self):
        late, recovery = on_page("""return ["a late turn", "recovery"].map((name) => daa.stateLines(daa.momentsOfLesson(daa.lessons[`lesson: ${name}`])));""")
        self.assertTrue(all(set(levels_of(it).values()) == {0} for it in moments_of(replayed(THREE_LEVELS, late.encode()))[:41]))
        violated = [second for second, it in enumerate(moments_of(replayed(RECOVERY, recovery.encode()))) if re.search(r"(?m)^now \S+ [23]$", it)]
        self.assertEqual((violated[0], violated[-1]), (61, 99))
