"""tools/from_parameters: a parameter file of NASA's form, its configuration worked out by hand, and each refusal."""
import os
import tomllib
import unittest

import common
from common import ToolTest
from daidalus_files import read_config

EXAMPLES = os.path.join(common.TOP, "examples")

TOP = """# a comment
lookahead_time = 180 [s]
left_hdir = 180 [deg]
min_hs = 10 [knot]
max_hs = 700 [knot]
step_hs = 10 [knot]
horizontal_accel = 2 [m/s^2]
min_vs = -6000 [fpm]
max_vs = 6000 [fpm]
step_vs = 100 [fpm]
vertical_accel = 0.25 [G]
min_alt = 100 [ft]
max_alt = 50000 [ft]
step_alt = 500 [ft]
vertical_rate = 500 [fpm]
step_hdir = 5 [deg]
turn_rate = 3 [deg/s]
bank_angle = 0 [deg]
corrective_region = MID
alerters = one, two
"""
RECOVERY = """min_horizontal_recovery = 0.66 [nmi]
min_vertical_recovery = 450 [ft]
recovery_hdir = true
recovery_hs = true
recovery_vs = true
recovery_alt = true
ca_bands = true
"""


def level(number, region, zthr, early, alert, name="one", model="WCV_TAUMOD"):
    begin, det = f"{name}_alert_{number}_", f"{name}_det_{number}_WCV_"
    return (f"{begin}region = {region}\n{begin}detector = det_{number}\n{begin}alerting_time = {alert} [s]\n"
            f"{begin}early_alerting_time = {early} [s]\n{begin}spread_hdir = 0 [deg]\n"
            f"{det}DTHR = 0.66 [nmi]\n{det}ZTHR = {zthr} [ft]\n{det}TTHR = 35 [s]\n{det}TCOA = 0 [s]\n"
            f"{name}_load_core_detection_det_{number} = gov.nasa.larcfm.ACCoRD.{model}\n")


LEVELS = level(1, "FAR", 700, 75, 55) + level(2, "MID", 450, 75, 55) + level(3, "NEAR", 450, 55, 25)
# 2 m/s^2 are 2 * 3600 / 1852 = 3.8877 knots a second; a quarter of 9.80665 m/s^2 is 0.25 * 9.80665 * 60 / 0.3048 = 482.61 ft/min a second.
WANTED = {
    "resolve": 2, "turn_rate": 3, "track_step": 5, "gs": {"min": 100, "max": 7000, "step": 100, "rate": 39},
    "vs": {"min": -6000, "max": 6000, "step": 100, "rate": 483}, "alt": {"min": 100, "max": 50000, "step": 500, "rate": 500},
    "level": [{"dthr": 660, "zthr": zthr, "tthr": 35, "tcoa": 0, "alert": alert, "lookahead": lookahead}
              for zthr, alert, lookahead in ((700, 55, 75), (450, 55, 75), (450, 25, 55))]}


class FromParameters(ToolTest):
    def made(self, text, *words):
        path = self.write("nasa.conf", text)
        status, out, said = self.tool("from_parameters", path, *words)
        self.assertEqual(status, 0, said)
        self.assertEqual(self.tool("check", self.write("c.toml", out)), (0, "", ""))
        return tomllib.loads(out), said.splitlines()

    def refused(self, text, *parts, words=()):
        status, out, said = self.tool("from_parameters", self.write("nasa.conf", text), *words)
        self.assertEqual((status, out), (3, ""), said)
        for part in parts:
            self.assert_one_line(said, part)

    def test_the_configuration(self):
        made, said = self.made(TOP + LEVELS)
        self.assertEqual(made, WANTED)
        self.assertEqual(said, [
            "from_parameters: the alerter two is left out: there is one list of levels here, that of one",
            "from_parameters: no recovery is asked for (recovery_hdir and its kin), so there is no table [recovery]",
            "from_parameters: horizontal_accel = 2 [m/s^2] is rounded: 38.8769 to gs.rate = 39 (0.1 kt per second)",
            "from_parameters: vertical_accel = 0.25 [G] is rounded: 482.611 to vs.rate = 483 (ft/min per second)",
            "from_parameters: left out, and at a value at which nothing is missed: left_hdir, bank_angle, one_alert_1_spread_hdir, "
            "one_alert_2_spread_hdir, one_alert_3_spread_hdir"])

    def test_the_example(self):
        """examples/parameters.conf has the numbers of examples/recovery.toml in NASA's units."""
        status, out, _ = self.tool("from_parameters", os.path.join(EXAMPLES, "parameters.conf"))
        self.assertEqual(status, 0)
        self.assertEqual(read_config(self.write("c.toml", out)), read_config(os.path.join(EXAMPLES, "recovery.toml")))

    def test_units(self):
        """4010 ft are 4010 * 0.3048 / 1852 = 0.65996 NM; 0.05 rad a second are 2.8648 degrees; 5 m/s are 9.719 knots."""
        made, said = self.made(TOP.replace("step_hs = 10 [knot]", "step_hs = 5 [m/s]").replace("min_alt = 100 [ft]", "min_alt = 30.48 [m]")
                               .replace("lookahead_time = 180 [s]", "lookahead_time = 1 [min]") + LEVELS.replace("0.66 [nmi]", "4010 [ft]"))
        self.assertEqual((made["gs"]["step"], made["gs"]["min"], made["alt"]["min"]), (97, 100, 100))
        self.assertEqual([each["dthr"] for each in made["level"]], [660] * 3)
        self.assertEqual([each["lookahead"] for each in made["level"]], [60, 60, 55])
        self.assertLessEqual({"from_parameters: lookahead_time cuts the lookahead of level 1 from 75 to 60 s",
                              "from_parameters: one_det_1_WCV_DTHR = 4010 [ft] is rounded: 659.961 to dthr = 660 (0.001 NM)",
                              "from_parameters: step_hs = 5 [m/s] is rounded: 97.1922 to gs.step = 97 (0.1 kt)"}, set(said))
        self.refused(TOP.replace("turn_rate = 3 [deg/s]", "turn_rate = 0.05 [rad/s]") + LEVELS, "that is 2.86479 of turn_rate")

    def test_accelerations_in_the_other_units(self):
        """A tenth of 9.80665 m/s^2 is 0.980665 * 3600 / 1852 = 1.9063 knots a second; 2 m/s^2 are 2 * 60 / 0.3048 = 393.70 ft/min a second."""
        text = TOP.replace("horizontal_accel = 2 [m/s^2]", "horizontal_accel = 0.1 [G]").replace("vertical_accel = 0.25 [G]", "vertical_accel = 2 [m/s^2]")
        made, _ = self.made(text + LEVELS)
        self.assertEqual((made["gs"]["rate"], made["vs"]["rate"]), (19, 394))

    def test_no_level_looks_farther_ahead_than_the_lookahead_time(self):
        """2.05 minutes are 123 seconds, and a little less in floating point."""
        for time, wanted in (("60.9 [s]", [60, 60, 55]), ("2.05 [min]", [123, 123, 55])):
            made, _ = self.made(TOP.replace("180 [s]", time) + level(1, "FAR", 700, 123, 55) + level(2, "MID", 450, 124, 55) + level(3, "NEAR", 450, 55, 25))
            self.assertEqual([each["lookahead"] for each in made["level"]], wanted)

    def test_thresholds_are_rounded_upward(self):
        """500 ft are 500 * 0.3048 / 1852 = 0.08229 NM, 4000 ft 0.65831 NM; 100.2 ft are no more than 101."""
        text = LEVELS.replace("0.66 [nmi]", "4000 [ft]").replace("ZTHR = 450 [ft]", "ZTHR = 450.2 [ft]")
        made, said = self.made(TOP + RECOVERY.replace("0.66 [nmi]", "500 [ft]") + text)
        self.assertEqual([(each["dthr"], each["zthr"]) for each in made["level"]], [(659, 700), (659, 451), (659, 451)])
        self.assertEqual(made["recovery"]["hdist"], 83)
        self.assertIn("from_parameters: one_det_1_WCV_DTHR = 4000 [ft] is rounded: 658.315 to dthr = 659 (0.001 NM)", said)

    def test_recoveries(self):
        """The distance is taken as it stands, with the warning; or the one that is given."""
        made, said = self.made(TOP + RECOVERY + LEVELS)
        self.assertLessEqual({"hdist": 660, "vdist": 450}.items(), made["recovery"].items())
        self.assertTrue(any("so that fewer recoveries are found" in line for line in said), said)
        self.assertTrue(any("ca_bands = true is left out" in line for line in said), said)
        made, said = self.made(TOP + RECOVERY + LEVELS, "--hdist", "82", "--vdist", "0")
        self.assertLessEqual({"hdist": 82, "vdist": 0}.items(), made["recovery"].items())
        self.assertFalse(any("fewer recoveries" in line for line in said), said)
        made, _ = self.made(TOP + RECOVERY.split("recovery_hdir")[0] + LEVELS)
        self.assertEqual(made["recovery"]["hdist"], 660)
        made, said = self.made(TOP + LEVELS, "--hdist", "82", "--vdist", "100")
        self.assertLessEqual({"hdist": 82, "vdist": 100}.items(), made["recovery"].items())
        self.assertFalse(any("recover" in line for line in said), said)
        self.refused(TOP + LEVELS, "the parameter min_vertical_recovery is missing", words=("--hdist", "82"))
        for words in (("--hdist", "82"), ("--vdist", "0")):
            self.refused(TOP + RECOVERY.replace("true", "false") + LEVELS, "line 23: recovery_hdir = false: the file asks for no recovery, "
                         "so --hdist and --vdist have no place", words=words)
        for word, is_there in (("T", True), ("1", True), ("False", False), ("f", False), ("0", False)):
            self.assertEqual("recovery" in self.made(TOP + RECOVERY.replace("true", word) + LEVELS)[0], is_there, word)
        self.refused(TOP + "recovery_hdir = yes\n" + LEVELS, "line 21: recovery_hdir = yes: this is none of true, t, 1, false, f, 0")
        made, said = self.made(TOP + RECOVERY.replace("recovery_vs = true", "recovery_vs = false") + LEVELS)
        self.assertIn("recovery", made)
        self.assertTrue(any("of some kinds alone" in line for line in said), said)

    def test_a_turn_rate_of_the_bank(self):
        """30 degrees at 80 knots: 9.80665 * 0.57735 / 41.1556 m/s are 0.13757 rad, 7.882 degrees a second; at 300 knots 2.102."""
        bank = TOP.replace("bank_angle = 0 [deg]", "bank_angle = 30 [deg]")
        for text in (bank.replace("turn_rate = 3 [deg/s]", "turn_rate = 0 [deg/s]"), bank.replace("turn_rate = 3 [deg/s]\n", "")):
            self.assertNotEqual(text, TOP)
            for speed, rate, shown in (("80", 7, "7.88"), ("300", 2, "2.1")):
                made, said = self.made(text + LEVELS, "--speed", speed)
                self.assertEqual(made, {**WANTED, "turn_rate": rate})
                self.assertEqual(said[1], f"from_parameters: bank_angle = 30 [deg] at {speed} knots is {shown} degrees a second: turn_rate = {rate}, the whole "
                                          "number below; a faster ownship turns slower than that")
            self.refused(text + LEVELS, "bank_angle = 30 [deg]: there is no turn_rate, so NASA turns by the bank", "as in --speed 80 (knots)")
            self.refused(text + LEVELS, "at 900 knots that is 0.701 degrees a second, and the least turn rate here is 1: name a lower speed", words=("--speed", "900"))
            self.refused(text.replace("30 [deg]", "90 [deg]") + LEVELS, "this is no bank between 0 and 90 degrees", words=("--speed", "80"))
            self.assertEqual(self.made(text.replace("30 [deg]", "89 [deg]") + LEVELS, "--speed", "10")[0]["turn_rate"], 30)
        self.refused(TOP + LEVELS, "the file has a turn_rate or no bank_angle, so --speed has no place", words=("--speed", "80"))
        self.refused(TOP.replace("turn_rate = 3 [deg/s]\n", "").replace("bank_angle = 0 [deg]\n", "") + LEVELS, "the parameter turn_rate is missing")

    def test_what_is_lost_is_told_first(self):
        _, said = self.made(TOP.replace("step_hs = 10 [knot]", "step_hs = 5 [m/s]") + "h_pos_z_score = 0.5\n" + LEVELS)
        weights = [("left out: " in line and "at a value" not in line or "no recovery" in line, "is rounded" in line) for line in said]
        self.assertEqual(weights, sorted(weights, reverse=True))
        self.assertTrue(any("h_pos_z_score = 0.5 is left out" in line for line in said[:3]), said)
        self.assertIn("at a value at which nothing is missed", said[-1])

    def test_regions_give_the_corrective_level(self):
        for regions, corrective, wanted in ((("FAR", "MID", "NEAR"), "FAR", 1), (("NONE", "MID", "NEAR"), "FAR", 2),
                                            (("NONE", "FAR", "NEAR"), "MID", 3), (("FAR", "MID", "NEAR"), "NEAR", 3)):
            text = TOP.replace("= MID", f"= {corrective}") + "".join(level(number, region, 450, 75, 55) for number, region in enumerate(regions, 1))
            made, said = self.made(text)
            self.assertEqual(made["resolve"], wanted, regions)
            self.assertEqual(any("alert_1_region = NONE: NASA shows no bands of level 1" in line for line in said), regions[0] == "NONE")
        self.refused(TOP + level(1, "FAR", 450, 75, 55), "no level has the region MID or a nearer one")
        self.assertEqual(self.made(TOP.replace("= MID", "= far") + level(1, "Mid", 450, 75, 55))[0]["resolve"], 1)
        self.refused(TOP + level(1, "FAR", 450, 75, 55) + level(2, "MIDDLE", 450, 75, 55) + level(3, "NEAR", 450, 55, 25),
                     "nasa.conf: line 31: one_alert_2_region = MIDDLE: this is none of NONE, FAR, MID, NEAR")
        self.refused(TOP.replace("= MID", "= NONE") + LEVELS, "line 19: corrective_region = NONE: this is none of FAR, MID, NEAR")

    def test_detectors(self):
        plain, _ = self.made(TOP + level(1, "MID", 450, 75, 55))
        for key in ("tcpa", "tau", "tep"):
            made, said = self.made(TOP + level(1, "MID", 450, 75, 55, model=f"WCV_{key.upper()}"))
            self.assertEqual(made["level"][0], {**plain["level"][0], key: 1})
            self.assertFalse(any("WCV_" in line for line in said), said)
        made, said = self.made(TOP + level(1, "MID", 450, 75, 55, model="WCV_TAUMOD_SUM"))
        self.assertEqual(made["level"], plain["level"])
        self.assertTrue(any("level 1: WCV_TAUMOD_SUM becomes WCV_TAUMOD" in line for line in said))
        cylinder = level(1, "MID", 450, 75, 55, model="CDCylinder") + "one_det_1_D = 500 [ft]\none_det_1_H = 100 [ft]\n"
        made, _ = self.made(TOP + cylinder)
        self.assertEqual(made["level"][0], {"dthr": 83, "zthr": 100, "tthr": 0, "tcoa": 0, "alert": 55, "lookahead": 75})
        self.refused(TOP + level(1, "MID", 450, 75, 55, model="CD3D"),
                     "there is no such volume here; known are WCV_TAU, WCV_TCPA, WCV_TAUMOD, WCV_TEP, WCV_TAUMOD_SUM, CDCylinder")

    def test_the_lookahead_without_an_early_time(self):
        made, said = self.made("".join(line for line in (TOP + LEVELS).splitlines(True) if "alert_2_early" not in line))
        self.assertEqual([each["lookahead"] for each in made["level"]], [75, 55, 55])
        self.assertIn("from_parameters: one_alert_2_early_alerting_time is missing: lookahead is the alerting time, 55 s", said)

    def test_alerters(self):
        other = level(1, "MID", 900, 60, 50, name="two")
        self.assertEqual(len(self.made(TOP + LEVELS + other)[0]["level"]), 3)
        made, said = self.made(TOP + LEVELS + other, "--alerter", "two")
        self.assertEqual([each["zthr"] for each in made["level"]], [900])
        self.assertFalse(any("one_alert" in line for line in said))
        made, _ = self.made(TOP.replace("alerters = one, two\n", "") + LEVELS.replace("one_", ""))
        self.assertEqual(made, WANTED)
        text = TOP.replace("one, two", "one, one_b") + LEVELS + level(1, "MID", 900, 60, 50, name="one_b").replace("spread_hdir = 0", "spread_hdir = 5")
        for name, zthr, is_told in (("one", 700, False), ("one_b", 900, True)):
            made, said = self.made(text, "--alerter", name)
            self.assertEqual(made["level"][0]["zthr"], zthr)
            self.assertEqual(any("one_b_alert_1_spread_hdir = 5 [deg] is left out" in line for line in said), is_told, said)
            self.assertEqual(any("one_alert_1_spread_hdir" in line for line in said), not is_told, said)
        status, _, said = self.tool("from_parameters", self.write("nasa.conf", TOP + LEVELS), "--alerter", "three")
        self.assertEqual(status, 3)
        self.assert_one_line(said, "no alerter three; there are one, two")

    def test_what_has_no_place_is_told(self):
        more = "left_hdir = 90 [deg]\nhysteresis_time = 5 [s]\nh_pos_z_score = 0.5\nbelow_relative_hs = 0 [knot]\nmy_own = 3\n"
        _, said = self.made(TOP.replace("left_hdir = 180 [deg]\n", "") + more + LEVELS)
        for line in ("left_hdir = 90 [deg] is left out: all tracks are candidates here", "h_pos_z_score = 0.5 is left out: bounds of errors belong to reports here",
                     "hysteresis_time = 5 [s] is left out: nothing is kept between moments here", "my_own = 3 is left out: no such parameter"):
            self.assertTrue(any(line in each for each in said), line)
        self.assertIn("below_relative_hs", said[-1])

    def test_what_is_refused(self):
        text = TOP + LEVELS
        self.refused(text.replace("turn_rate = 3", "turn_rate = 1.5"), "nasa.conf: line 17: turn_rate = 1.5 [deg/s]: that is 1.5 of turn_rate",
                     "write 1 or 2 [deg/s] in its place; the slower one closes more tracks")
        for rate, advice in (("2.6", "write 2 or 3 [deg/s] in its place"), ("45", "1 to 30: write 30 [deg/s] in its place"),
                             ("0", "write 1 [deg/s] in its place"), ("-4.5", "write 1 [deg/s] in its place"), ("30.5", "write 30 [deg/s] in")):
            self.refused(text.replace("turn_rate = 3", f"turn_rate = {rate}"), advice)
        self.refused(text.replace("step_alt = 500", "step_alt = 50"),
                     "that gives 999 candidates of alt, and 512 are the most: write a step of 98 [ft] or more, or narrow min and max")
        self.refused(text.replace("step_hs = 10", "step_hs = 1"), "write a step of 1.4 [knot] or more")
        self.refused(text.replace("step_hdir = 5", "step_hdir = 7"), "write a divisor of 360 from 1 to 90 [deg]")
        self.refused(text.replace("early_alerting_time = 75", "early_alerting_time = 300"), "write a time of 1 to 180 [s]")
        self.refused(text.replace("TTHR = 35 [s]", "TTHR = 150 [s]"), "which takes whole numbers from 0 to 120")
        self.refused(text.replace("step_vs = 100 [fpm]", "step_vs = 100 [furlong]"), "furlong is no unit of it that is known")
        for word in ("many", "100", "1.2.3 [fpm]", ". [fpm]", "100 fpm"):
            self.refused(text.replace("step_vs = 100 [fpm]", f"step_vs = {word}"),
                         f"line 10: step_vs = {word}: this is no number with a unit in brackets, such as 1 [ft/min]")
        self.refused(text.replace("= 2 [m/s^2]", "= 2"), "line 7: horizontal_accel = 2: this is no number with a unit in brackets")
        self.refused(text.replace("step_hs = 10", "step_hs = 0.26"), "that is 2.6 of gs.step")
        for key, value in (("turn_rate", "3 [deg/s]"), ("lookahead_time", "180 [s]"), ("min_hs", "10 [knot]")):
            for large in ("1e999", "1e308"):
                self.refused(text.replace(f"{key} = {value}", f"{key} = {large} [{'rad/s' if key == 'turn_rate' else 'h' if key[0] == 'l' else 'knot'}]"),
                             "this number is too large")
        self.assertEqual(self.made("\ufeff" + text)[0], WANTED)
        self.assertTrue(any("left_hdir = 1.2.3 is left out" in line for line in self.made(text.replace("left_hdir = 180 [deg]", "left_hdir = 1.2.3"))[1]))
        self.refused(text.replace("step_vs = 100 [fpm]\n", ""), "the parameter step_vs is missing")
        self.refused(text.replace("min_vs = -6000", "min_vs = 7000"), "line 8: min_vs = 7000 [fpm]: that is above max_vs = 6000 [fpm]")
        self.refused(TOP, "no alert level in it")
        self.refused("", "no parameter in it")
        self.refused("hello\n", "line 1 is no `key = value`: 'hello'")
        self.refused(text + "turn_rate = 2\n", "turn_rate occurs twice")
        self.assertEqual(self.tool("from_parameters", "nothing")[0], 7)

    def test_the_smallest_step_is_taken(self):
        """From 100 to 50000 ft a step of 98 gives 510 candidates, one of 97 gives 515."""
        made, _ = self.made(TOP.replace("step_alt = 500", "step_alt = 98") + LEVELS)
        self.assertEqual(made["alt"]["step"], 98)
        self.refused(TOP.replace("step_alt = 500", "step_alt = 97") + LEVELS, "that gives 515 candidates of alt")

    def test_a_range_of_so_many_steps_has_one_candidate_more(self):
        """0 to 512 times 97 has 513 candidates with a step of 97: a step of 98 is the least."""
        text = TOP.replace("min_alt = 100", "min_alt = 0").replace("max_alt = 50000", "max_alt = 49664") + LEVELS
        self.refused(text.replace("step_alt = 500", "step_alt = 97"), "that gives 513 candidates of alt", "write a step of 98 [ft] or more")


if __name__ == "__main__":
    unittest.main()
