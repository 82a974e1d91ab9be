"""Where aircraft will be: the closest approach, its paths on the plan, aircraft beside the altitude tape, and the picture from the side."""
import math
import unittest

from nodes import HOW, NODE, OPEN, numbers_in, on_page, xml_of
from shared import THREE_LEVELS, moments_in, text_of, tool

# One head on that climbs, one that passes on the left at a report of 12 seconds ago, one that flies away.
STATES = """format 2
moment 0
own 0 0 10000 0 3600 0
traffic HEAD 500 8000 9400 0 -3600 300 0
traffic SIDE -4000 3000 12500 2400 1200 -600 12
traffic AWAY 2000 -3000 10000 0 -3600 0 0
end
"""


def track(state, seconds):
    """Where a state is after some seconds, in NM and ft."""
    if hasattr(state, "trk"):
        east, north = state.gs * math.sin(math.radians(state.trk)), state.gs * math.cos(math.radians(state.trk))
    else:
        east, north = state.vx, state.vy
    return state.x / 1000 + east * seconds / 36000, state.y / 1000 + north * seconds / 36000, state.alt + state.vs * seconds / 60


def closest(own, one):
    """The closest approach from now on by trying each tenth of a second of twenty minutes."""
    def apart(tenths):
        a, b = track(own, tenths / 10), track(one, tenths / 10 + one.age)
        return math.hypot(a[0] - b[0], a[1] - b[1]), tenths / 10, b[2] - a[2]
    return min(map(apart, range(12000)))


@unittest.skipUnless(NODE, HOW)
class Profile(unittest.TestCase):
    def test_the_closest_approach_is_the_least_distance_of_straight_flight(self):
        states = tool("moments", "--seed", "5", "--moments", "20", "--aimed")
        found = on_page("""return page.engine.readStates(daa.bytesOf(given[0])).map(({ moment: { own, traffic } }) => traffic.map((one) => daa.closest(own, one)));""", states.decode())
        compared = 0
        for (_, moment), answers in zip(moments_in(states), found, strict=True):
            for one, answer in zip(moment.traffic, answers, strict=True):
                if answer["seconds"] > 1190:
                    continue
                miles, seconds, above = closest(moment.own, one)
                self.assertAlmostEqual(answer["miles"], miles, delta=0.02)
                if answer["speed"] > 0.005:
                    self.assertAlmostEqual(answer["seconds"], seconds, delta=0.2)
                    self.assertAlmostEqual(answer["above"], above, delta=40)
                compared += 1
        self.assertGreater(compared, 30)

    def shown(self, *before):
        """The layer of paths, that of tapes, what is where, and the picture from the side."""
        return on_page(OPEN + f"""
            await open(["three.toml", given[1]], ["a.states", given[0]]);
            {"".join(before)}
            Object.assign(page.views[0].look, {{ auto: false, range: 12, heights: 3000 }});
            $("profile").open = true;
            daa.ui.changed();
            await settle();
            const {{ paths, tapes }} = display().daa.layers, [view] = page.views;
            return [paths, tapes, view.drawn.g, $("side").daaHtml, $("approaches").daaHtml];""", STATES, text_of(THREE_LEVELS))

    def test_paths_are_drawn_on_request(self):
        """Of those that alert, to where both are then, with the distance between; and of the one that is chosen."""
        self.assertEqual(self.shown()[0], "")
        press = 'await fire(caption, "click", { target: { dataset: { do: "paths" } } });'
        moment = moments_in(STATES.encode())[0][1]
        for chosen, named in (("p:", ["HEAD"]), ("p:SIDE", ["HEAD", "SIDE"]), ("p:AWAY", ["HEAD"])):
            paths, _, g, *_ = self.shown(press, f'daa.ui.choose("{chosen}");')
            groups = {group.get("data-path"): group for group in xml_of(paths)}
            self.assertEqual(sorted(groups), named)
            for one in moment.traffic:
                if one.id not in groups:
                    continue
                miles, seconds, above = closest(moment.own, one)
                circles = [(float(it.get("cx")), float(it.get("cy"))) for it in groups[one.id].iter("circle")]
                for (x, y), state, after in zip(circles, (moment.own, one), (seconds, seconds + one.age), strict=True):
                    east, north, _ = track(state, after)
                    self.assertAlmostEqual(x, g["centre"]["x"] + east / 12 * g["radius"], delta=2)
                    self.assertAlmostEqual(y, g["centre"]["y"] - north / 12 * g["radius"], delta=2)
                sign = "+" if above > 0 else "−"
                self.assertRegex(groups[one.id].find("text").text, rf"^{miles:.2f} NM, \{sign}[0-9]+ ft in {round(seconds)} s$")

    def test_aircraft_stand_beside_the_altitude_tape_at_their_heights(self):
        """Now, not when they reported; with a line to where each is in a minute."""
        _, tapes, g, *_ = self.shown()
        tape = g["tapes"]["alt"]
        y = lambda height: tape["bottom"] - (height - 7000) / 6000 * (tape["bottom"] - tape["top"])
        groups = {group.get("data-aloft"): group for group in xml_of(tapes).iter("g") if group.get("data-aloft")}
        self.assertEqual(sorted(groups), ["AWAY", "HEAD", "SIDE"])
        for name, now, later in (("HEAD", 9400, 9700), ("SIDE", 12380, 11780), ("AWAY", 10000, None)):
            *line, symbol = groups[name].findall("path")
            self.assertAlmostEqual(numbers_in(symbol.get("d"))[1] + 7, y(now), delta=0.2)
            self.assertEqual([round(numbers_in(it.get("d"))[2] - y(later)) for it in line], [0] * (later is not None))

    def test_the_side_shows_heights_over_the_distance_to_the_closest_approach(self):
        """How far each still has to go along its way past the ownship, and its height then; the volume is as wide as the first one passes through it."""
        *_, side, told = self.shown()
        svg = xml_of(side)
        groups = {group.get("data-side"): group for group in svg.iter("g") if group.get("data-side")}
        moment = moments_in(STATES.encode())[0][1]
        ground = svg.find("rect")
        left, wide, top, tall = (float(ground.get(name)) for name in ("x", "width", "y", "height"))
        at = lambda group: numbers_in(group.findall("path")[-1].get("d"))[:2]
        found = {}
        for one in moment.traffic:
            a, b, seconds = track(moment.own, 0), track(one, one.age), closest(moment.own, one)[1]
            then = track(moment.own, seconds), track(one, one.age + seconds)
            ahead = math.hypot((b[0] - a[0]) - (then[1][0] - then[0][0]), (b[1] - a[1]) - (then[1][1] - then[0][1]))
            found[one.id] = ahead, b[2] - a[2], then[1][2] - then[0][2], seconds
        each = (at(groups["HEAD"])[0] - (left + wide / 2)) / found["HEAD"][0]
        per_foot = (top + tall / 2 - (at(groups["HEAD"])[1] + 6)) / found["HEAD"][1]
        self.assertTrue(each > 0 and per_foot > 0)
        for name in ("HEAD", "SIDE"):
            ahead, above, then, _ = found[name]
            x, y = at(groups[name])
            self.assertAlmostEqual(x, left + wide / 2 + ahead * each, delta=0.5)
            self.assertAlmostEqual(y + 6, top + tall / 2 - above * per_foot, delta=0.5)
            way = numbers_in(groups[name].findall("path")[0].get("d"))
            self.assertAlmostEqual(way[2], left + wide / 2, delta=0.5)
            self.assertAlmostEqual(way[3], top + tall / 2 - then * per_foot, delta=0.5)
        self.assertEqual(len(groups["AWAY"].findall("path")), 1)
        self.assertLess(at(groups["AWAY"])[0], left + wide / 2)
        volume, = [it for it in svg.iter("rect") if it.get("class") == "volume"]
        self.assertAlmostEqual(float(volume.get("width")), 2 * math.sqrt(0.66 ** 2 - 0.5 ** 2) * each, delta=0.5)
        self.assertAlmostEqual(float(volume.get("height")), 900 * per_foot, delta=0.5)
        self.assertIn("HEAD: closest 0.50 NM, −400 ft in 40 s", told)
