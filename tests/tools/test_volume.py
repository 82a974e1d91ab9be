"""tools/volume against the definition: what it takes as near is what tools/reference takes as the horizontal part."""
import math
import os
import random
import re
import unittest

from common import CONFIG, TOP, ToolTest, module
from daidalus_files import MODEL_KEYS, Bounds, Level, Moment, Own, Traffic, read_config

volume = module("tools/volume")
reference = module("tools/reference")


def level_of(**values):
    return Level(**{**dict.fromkeys(Level._fields, 0), **values})


# The keys that name a model, each 1 by itself, and none.
MODELS = [{}, *({key: 1} for key in MODEL_KEYS)]
EXAMPLE = {"dthr": 660, "zthr": 450, "tthr": 35, "lookahead": 75, "alert": 55}


class Volumes(ToolTest):
    def test_is_near_is_the_horizontal_part(self):
        """At random places, for each model: an aircraft ahead that comes at a whole speed, heights being equal."""
        draw, config = random.Random(5), read_config(CONFIG)
        counts = {False: 0, True: 0}
        for model in MODELS:
            for _ in range(3000):
                dthr, tthr, speed = draw.randint(100, 2000), draw.randint(0, 60), draw.randint(100, 6000)
                level = level_of(dthr=dthr, zthr=450, tthr=tthr, lookahead=60, alert=60, **model)
                east, ahead = draw.randint(-dthr - 200, dthr + 200), draw.randint(-dthr - 200, 2 * dthr + tthr * speed // 36)
                moment = Moment(0, 1)
                moment.own = Own(0, 0, 5000, 0, 0, 0)
                moment.traffic = [Traffic("A", east, ahead, 5000, 0, -speed, 0)]
                situation = reference.Situation(config._replace(resolve=1, levels=[level]), moment)
                wanted = situation.now_level(moment.traffic[0]) == 1
                self.assertEqual(volume.is_near(level, speed / 36000, east / 1000, ahead / 1000), wanted, (level, east, ahead, speed))
                counts[wanted] += 1
        self.assertGreater(min(counts.values()), 1000)

    def test_how_far_ahead_it_reaches(self):
        """r^2 - D^2 = T V r for r on the middle line: with 0.66 NM, 35 s and 240 knots r is 7/6 + sqrt(0.4356 + 49/36) = 2.507. By
        tau and by the time to the closest approach r is T V, by the time to the entry point T V + D."""
        behind, ahead = volume.stretch_ahead(level_of(**EXAMPLE), 240 / 3600, 0, 0.001)
        self.assertAlmostEqual(ahead, 2.507, delta=0.001)
        self.assertAlmostEqual(behind, -0.66, delta=0.001)
        for model, reach in (({"tcpa": 1}, 35 * 240 / 3600), ({"tau": 1}, 35 * 240 / 3600), ({"tep": 1}, 0.66 + 35 * 240 / 3600)):
            self.assertAlmostEqual(volume.stretch_ahead(level_of(**EXAMPLE, **model), 240 / 3600, 0, 0.001)[1], reach, delta=0.001)
        self.assertIsNone(volume.stretch_ahead(level_of(**EXAMPLE), 240 / 3600, 0.7))

    def test_tau_may_leave_a_gap(self):
        """0.65 miles aside: within dthr up to sqrt(0.66^2 - 0.65^2) = 0.114 miles ahead; tau is at most 35 s where r (7/3 - r) is at
        least 0.65^2, from 7/6 - sqrt(49/36 - 0.4225) = 0.198 to 2.136. Modified tau has one stretch."""
        near, soon = volume.stretches_ahead(level_of(**EXAMPLE, tau=1), 240 / 3600, 0.65, 0.001)
        for found, wanted in zip((*near, *soon), (-0.114, 0.114, 0.198, 2.136)):
            self.assertAlmostEqual(found, wanted, delta=0.0015)
        self.assertEqual(len(volume.stretches_ahead(level_of(**EXAMPLE), 240 / 3600, 0.65, 0.001)), 1)

    def test_the_pictures_of_the_guide(self):
        """docs/volume.svg and docs/bounds.svg are what is drawn today."""
        for name, words in (("volume", ()), ("bounds", ("--bounds", "100,100,100,200"))):
            status, out, said = self.tool("volume", CONFIG, "--level", "2", *words)
            with open(os.path.join(TOP, "docs", f"{name}.svg"), encoding="utf-8") as file:
                self.assertEqual((status, out, said), (0, file.read(), ""))

    def test_with_bounds(self):
        """Straight ahead an aircraft that comes at 240 knots may be 0.1 miles nearer, and its place in 17.5 s off by 10 knots more. With bounds
        of 0 it is the volume itself; by the time to the entry point it reaches as far as place and velocity may be off in 35 s."""
        level = level_of(**EXAMPLE)
        none, some = (volume.stretch_perhaps(level, 240, Bounds(place, 0, speed, 0), 0, 0.001) for place, speed in ((0, 0), (100, 100)))
        self.assertAlmostEqual(none[1], 2.507, delta=0.001)
        self.assertTrue(2.507 + 0.1 + 35 / 2 * 10 / 3600 < some[1] < 2.507 + 0.1 + 35 * 10 / 3600 + 0.05, some)
        self.assertAlmostEqual(some[0], -0.76, delta=0.001)
        entry = volume.stretch_perhaps(level._replace(tep=1), 240, Bounds(100, 0, 100, 0), 0, 0.001)
        self.assertAlmostEqual(entry[1], 0.66 + 0.1 + 35 * 250 / 3600, delta=0.001)

    def test_a_small_volume_is_round_and_on_the_frame(self):
        """Where 0 s are left, it reaches dthr to all sides; its ticks are fractions where whole miles are too far apart."""
        with open(CONFIG, encoding="utf-8") as file:
            text = file.read().replace("tthr = 35", "tthr = 0")
        for dthr, wanted in ((82, {"-0.1", "0.1", "dthr 0.082 NM", "modified tau 0 s: 0.082 NM"}), (1, {"-0.001", "0.002", "dthr 0.001 NM"}), (660, {"-1", "1", "2"})):
            status, out, _ = self.tool("volume", self.write("c.toml", text.replace("dthr = 660", f"dthr = {dthr}")))
            self.assertEqual(status, 0)
            self.assertLessEqual(wanted, set(re.findall(">([^<]*)</text>", out)))
            x, y, radius = (float(value) for value in re.search(r'<circle cx="([^"]*)" cy="([^"]*)" r="([^"]*)"', out).groups())
            self.assertTrue(60 <= radius <= 120 and volume.LEFT <= x - radius and x + radius <= volume.LEFT + volume.PLAN, (x, radius))
            columns = [tuple(map(float, found)) for found in re.findall(r"M([\d.]+) ([\d.]+)h([\d.]+)v([\d.]+)h-", re.search(r'd="([^"]*)"', out)[1])]
            self.assertEqual(len(columns), 120)
            for begin, top, width, height in columns:
                half = math.sqrt(max(radius ** 2 - (begin + width / 2 - x) ** 2, 0))
                self.assertTrue(abs(top - (y - half)) < 2.5 and abs(top + height - (y + half)) < 2.5, (dthr, begin, top, height, half))

    def test_each_model_is_named_with_its_time(self):
        with open(CONFIG, encoding="utf-8") as file:
            text = file.read()
        for key, model, time in (("tau", "WCV_TAU", "tau"), ("tcpa", "WCV_TCPA", "time to the closest approach"),
                                 ("tep", "WCV_TEP", "time to the entry point"), (None, "WCV_TAUMOD", "modified tau")):
            out = self.tool("volume", self.write("c.toml", text.replace("tcpa = 0", f"{key} = 1") if key else text))[1]
            self.assertIn(f">{model}: both parts at one instant violate.<", out)
            self.assertIn(f">{time} 35 s: ", out)
            self.assertIn(f">and {time} is at most 35 s.<", out)

    def test_the_gap_of_tau_is_drawn(self):
        """Of the 120 columns those near the sides have two boxes by tau, and one each otherwise."""
        for model, least, most in (({}, 120, 120), ({"tcpa": 1}, 120, 120), ({"tep": 1}, 120, 120), ({"tau": 1}, 122, 140)):
            drawn = volume.plan(level_of(**EXAMPLE, **model), 240 / 3600, lambda east: 100 * east, lambda ahead: -100 * ahead)[0]
            self.assertTrue(least <= drawn.count("M") <= most, (model, drawn.count("M")))

    def test_the_time_to_co_altitude(self):
        """20 s at 2000 ft/min are 667 ft, more than 450; at 1000 ft/min 333 ft, less. The box is as high: 280 places are 3.2 times so much."""
        with open(CONFIG, encoding="utf-8") as file:
            path = self.write("c.toml", file.read().replace("tcoa = 0", "tcoa = 20"))
        out = self.tool("volume", path, "--level", "3", "--climb", "2000")[1]
        self.assertIn("tcoa 20 s at 2000 ft/min: 667 ft", out)
        self.assertRegex(out, rf'd="M[0-9.]+ {volume.TOP + 140 - 87.5:g}h[0-9.]+v{280 / 1.6:g}h-[0-9.]+z" fill="{volume.COLOUR}"')
        self.assertNotIn("tcoa", self.tool("volume", path, "--level", "3")[1])

    def test_refusals(self):
        status, out, said = self.tool("volume", CONFIG, "--level", "4")
        self.assertEqual((status, out), (3, ""))
        self.assert_one_line(said, "has 3 levels and no level 4")
        self.assertEqual(self.tool("volume", self.write("c.toml", ""))[0], 3)
        self.assertEqual(self.tool("volume", "nothing")[0], 7)
        for words in (("--closing", "0"), ("--closing", "2001"), ("--climb", "20001")):
            self.assertEqual(self.tool("volume", CONFIG, *words)[0], 2)


if __name__ == "__main__":
    unittest.main()
