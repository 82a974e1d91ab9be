"""tools/study: its files and words, shards, rows and their sums. What is flown and measured is in test_study_flights."""
import csv
import os
import random
import re
import unittest

from common import TOP, ToolTest
from studies import drawing, encounters, rows, waypoints
from studies.drawing import Draw, Stratum
from studies.ratios import Ratio, quantiles, ratios_of, shown
from studies.study_file import read_study
from daidalus_files import Problem

STUDY = os.path.join(TOP, "examples", "study.toml")
CONFIG = os.path.join(TOP, "examples", "recovery.toml")
ROW = {key: 0 for key in rows.COLUMNS} | {"weight": 1, "stratum": "all", "cause": ""} | {
    key: None for key in ("loss", "g_loss", "alert", "g_alert", "warning", "g_warning", "nearest", "g_nearest", "advice", "back", "refused")}


def row(number, **more):
    return {**ROW, "encounter": number, **more}


class Studies(ToolTest):
    def study(self, text, name="s.toml"):
        return self.write(name, f'config = "{CONFIG}"\n{text}')

    def made(self, *words):
        status, out, said = self.tool("study", *words)
        self.assertEqual((status, said), (0, ""))
        return out

    def refused(self, status, part, *words):
        ended, out, said = self.tool("study", *words)
        self.assertEqual((ended, out), (status, ""), said)
        self.assert_one_line(said, part)


class Shards(Studies):
    def test_shards_end_to_end_are_the_whole_by_processes_and_of_a_file_too(self):
        whole = self.made("run", STUDY, "--from", "3", "--count", "5")
        self.assertEqual(len(whole.splitlines()), 6)
        parts = [self.made("run", STUDY, "--from", "3", "--count", "5", "--shard", f"{k}/3") for k in range(3)]
        self.assertEqual("".join(parts), whole)
        self.assertEqual([it.count("\n") for it in parts], [2, 2, 2])
        self.assertEqual(self.made("run", STUDY, "--from", "3", "--count", "5", "--jobs", "2"), whole)
        text = self.write("e.encounters", self.made("draw", STUDY, "--from", "3", "--count", "5"))
        self.assertEqual(self.made("run", STUDY, "--encounters", text, "--jobs", "2"), whole)
        self.assertEqual(self.made("run", STUDY, "--encounters", text, "--shard", "1/3"), parts[1])

    def test_each_encounter_is_in_one_shard_of_any_number_of_shards(self):
        study = read_study(STUDY)
        study.draw = type("Numbers", (), {"encounter": staticmethod(lambda seed, number: number)})
        for many in (1, 2, 7, 40):
            found = [it for k in range(many) for it in study.chosen(5, 23, (k, many))]
            self.assertEqual(found, list(range(5, 28)))

    def test_what_a_row_depends_on(self):
        """Another seed and another configuration make other rows, and another pilot changes nothing of a flight without guidance."""
        base = list(csv.DictReader(self.made("run", STUDY, "--count", "3").splitlines()))
        with open(STUDY, encoding="utf-8") as file:
            text = file.read().replace('"recovery.toml"', f'"{CONFIG}"')
        slow = self.write("slow.toml", text.replace("reaction = [5, 12]", "reaction = [30, 40]").replace("warned = [2, 5]", "warned = [30, 40]"))
        found = list(csv.DictReader(self.made("run", slow, "--count", "3").splitlines()))
        own = [it for it in rows.COLUMNS if it in ("loss", "nmac", "severity", "nearest", "alert", "warning")]
        self.assertEqual([[it[key] for key in own] for it in found], [[it[key] for key in own] for it in base])
        self.assertGreaterEqual(int(found[0]["advice"]), int(base[0]["g_alert"]) + 30)
        self.assertNotEqual(found, base)
        self.assertNotEqual(self.made("draw", self.write("other.toml", text.replace("seed = 7", "seed = 8")), "--count", "1"),
                            self.made("draw", STUDY, "--count", "1"))


class Words(Studies):
    def test_words_that_are_not_taken(self):
        for words in ([], ["fly"], ["run", STUDY, "--shard", "3/3"], ["run", STUDY, "--shard", "1"], ["run", STUDY, "--from", "-1"], ["sum"]):
            self.assertEqual(self.tool("study", *words)[:2], (2, ""), words)
        self.refused(2, "encounters have the numbers 0 to 8388607", "run", STUDY, "--from", "8388607", "--count", "2")
        self.refused(7, "none.toml", "run", "none.toml")
        self.refused(3, "config 4", "run", STUDY, "--config", self.write("c.toml", "resolve = 2"))

    def test_keys_that_are_not_taken(self):
        for text, part in (("seed = -1", "seed: -1 is no whole number in 0..4294967295"), ("sed = 1", "sed is no key; known are config"),
                           ("world = \"arcs\"", "world = 'arcs' is none of seconds, tenths"), ("well_clear = 4", "well_clear: 4 is no whole number in 1..3"),
                           ("[well_clear]\ndthr = 660\nzthr = 450", "well_clear.tthr: None"), ("[pilot]\nreaction = [5]", "pilot.reaction = [5] is no range"),
                           ("[pilot]\nreaction = [5, 4]", "pilot.reaction = [5, 4] is no range"), ("[pilot]\nkinds = [\"up\"]", "pilot.kinds = ['up'] is no list"),
                           ("[pilot]\nkinds = []", "pilot.kinds"), ("[pilot]\nmargin = { up = 3 }", "pilot.margin.up is no key"), ("[pilot]\nrespond = 4", "above the number of levels"),
                           ("[pilot]\nheed_back = 1", "pilot.heed_back = 1 is no true or false"), ("[pilot]\nsides = 2", "pilot.sides: 2 is no whole number in 0..1"),
                           ("[pilot]\nsides = -1", "pilot.sides: -1 is no whole number in 0..1"), ("[pilot]\nsides = true", "pilot.sides = True is no whole number"),
                           ("[sensors]\nlost = 1001", "sensors.lost: 1001"),
                           ("[draw]\nintruders = []", "draw.intruders has no parts"), ("[draw]\nown_flights = { loop = 1 }", "'loop' is none of straight"),
                           ("[draw]\nclosest = [150, 300]", "draw.closest is past draw.seconds"), ("[draw]\nstratum = []", "there is none"),
                           ("[[draw.stratum]]\nname = \"a b\"", "draw.stratum.name = 'a b'"), ("seed = ", "Invalid value"),
                           ("[[draw.stratum]]\nname = \"a\"\nacross = 9\nup = 9\nparts = 1\n[[draw.stratum]]\nname = \"b\"\nacross = 9\nup = 9\nparts = 1", "b does not lie round a")):
            with self.assertRaises(Problem) as fault:
                read_study(self.study(text))
            self.assertIn(part, str(fault.exception))
            self.assertEqual(fault.exception.status, 3)
        with self.assertRaisesRegex(Problem, "config is missing"):
            read_study(self.write("s.toml", "seed = 1"))

    def test_what_well_clear_is(self):
        """A level of the configuration, by default the corrective one, or thresholds of its own."""
        self.assertEqual(read_study(self.study("")).well_clear[:4], (660, 450, 35, 0))
        self.assertEqual(read_study(self.study("well_clear = 1")).well_clear.zthr, 700)
        found = read_study(self.study("[well_clear]\ndthr = 500\nzthr = 100\ntthr = 9\ntau = 1")).well_clear
        self.assertEqual((found.dthr, found.zthr, found.tthr, found.tcoa, found.model), (500, 100, 9, 0, "tau"))


class Texts(Studies):
    GOOD = "encounter 4 10 3 near\nown 0 0 5000 90 1000 0\nat 3 own track 100 2\nintruder A 500 0 5000 270 1000 0\nway B 0 0 900 5500\nway B 10 1000 900 5400\nend\n"

    def test_encounters_as_text(self):
        path = self.write("e", "# a comment\n\n" + self.GOOD)
        found, = encounters.read_encounters(path)
        self.assertEqual("\n".join([*found.lines(), ""]), self.GOOD)
        self.assertEqual((found.number, found.seconds, found.weight, found.stratum, len(found.others)), (4, 10, 3, "near", 2))
        unnamed, = encounters.read_encounters(self.write("e", self.GOOD.replace(" near", "")))
        self.assertEqual(unnamed.stratum, "all")

    def test_lines_that_are_not_taken(self):
        for old, new, part in (("own 0", "me 0", "line 2: no line begins with 'me'"), (" 1000 0\nat", " 1000\nat", "line 2: the form is: own X Y"),
                               ("90 1000", "360 1000", "line 2: 360 is not in 0..359"), ("at 3 own", "at 3 C", "line 3: 'C' has no line"),
                               ("track 100", "alt 100", "line 3: 'alt' is none of track, gs, vs"), ("intruder A", "intruder own", "line 4: own is the ownship's name"), ("intruder A", "intruder a b", "line 4: the form is"),
                               ("way B 0 0 900 5500", "intruder A 0 0 0 0 0 0", "line 5: A occurs twice"),
                               ("way B 10", "way B 0", "line 6: the seconds of an aircraft's ways do not rise"), ("way B 10", "way A 10", "line 6: A has a line"),
                               ("way B 10 1000 900 5400\n", "", "line 6: an aircraft has one `way` alone"), ("encounter 4 10", "encounter 4 0", "line 1: 0 is not in 1..3600"),
                               ("end\n", "", "has no line `end`"), ("end\n", f"end\n{self.GOOD}", "line 8: encounter 4 occurs twice"), ("3 near", "3 n/r", "'n/r' is no name"),
                               ("own 0 0 5000 90 1000 0\nat 3 own track 100 2\n", "", "has no ownship"), ("end\n", "end\nend\n", "line 8: it stands in no encounter")):
            text = self.GOOD.replace(old, new, 1)
            self.assertNotEqual(text, self.GOOD)
            with self.assertRaises(Problem, msg=part) as fault:
                list(encounters.read_encounters(self.write("e", text)))
            self.assertIn(part, str(fault.exception))

    def test_waypoints_become_ways(self):
        """Feet and metres; a waypoint between two seconds gives the places at both; all begin when the last one is there."""
        one = ("Encounter ID,Aircraft ID,time_s,x_ft,y_ft,z_ft,weight\n7,own,0,0,0,1000,0.5\n7,own,20,12152,0,1000,0.5\n"
               "7,2,2,0,6076,1100,0.5\n7,2,6.5,0,4557,1100,0.5\n7,2,12,0,0,1000,0.5\n")
        text = self.made("waypoints", self.write("t.csv", one))
        # second 4 is before the waypoint of second 4.5: (6076 - 1519 * 4 / 4.5) / 6.0761 = 778; second 5 after it: 4557 * 5 / 5.5 / 6.0761 = 682
        self.assertEqual(text, "encounter 0 10 500000 all\nway own 0 200 0 1000\nway own 18 2000 0 1000\nway A1 0 0 1000 1100\nway A1 4 0 778 1100\n"
                               "way A1 5 0 682 1091\nway A1 10 0 0 1000\nend\n")
        metres = one.replace("x_ft", "x [m]").replace("own,20,12152", "own,20,3704")
        self.assertEqual(self.made("waypoints", self.write("m.csv", metres)), text)
        self.assertIn("way own 0 0 1000 1100", self.made("waypoints", "--own", "2", "--seconds", "5", self.write("t.csv", one)))

    def test_the_encounter_of_waypoints_is_flown(self):
        one = ("aircraft,time_s,x_ft,y_ft,z_ft\n1,0,0,0,5000\n1,200,60000,0,5000\n2,0,60000,100,5000\n2,200,0,100,5000\n")
        path = self.write("e", self.made("waypoints", self.write("t.csv", one)))
        found, = csv.DictReader(self.made("run", STUDY, "--encounters", path).splitlines())
        # they fly towards each other at 300 ft/s each and meet after 100 s, 100 ft apart
        self.assertEqual((found["nmac"], found["nearest"], found["g_loss"], found["g_nmac"]), ("1", "16", "", "0"))
        self.assertGreater(int(found["off"]), 500)

    def test_tables_that_are_no_waypoints(self):
        def fault_of(text, own=None):
            with self.assertRaises(Problem) as fault:
                list(waypoints.imported([self.write("t.csv", text)], own, None))
            self.assertEqual(fault.exception.status, 4)
            return str(fault.exception)

        for text, part in (("a,b\n", "its first line names no column, or several, for time, x, y, z"), ("t,x,y,z\n0,0,0,no\n", "line 2 is no row of numbers"),
                           ("t,x,y,z\n0,0,0,0\n1,0,0,0\n", "has only one aircraft"), ("ac,t,x,y,z\n1,0,0,0,0\n1,0,0,0,0\n", "line 3: the times of an aircraft do not rise"),
                           ("ac,t,x,y,z\n1,0,0,0,0\n1,9,0,0,0\n2,0,0,0,0\n", "aircraft 2 has only one waypoint"),
                           ("ac,t,x,y,z\n1,0,0,0,0\n1,9,0,0,0\n2,9,0,0,0\n2,19,0,0,0\n", "not there at the same time for a whole second")):
            self.assertIn(part, fault_of(text))
        self.assertIn("has no aircraft 3", fault_of("ac,t,x,y,z\n1,0,0,0,0\n1,9,0,0,0\n2,0,0,0,0\n2,9,0,0,0\n", "3"))


class Draws(unittest.TestCase):
    def test_weights_are_those_of_even_miss_distances(self):
        """Weight times parts of a stratum is as its share of all pairs of miss distances."""
        draw = Draw(strata=(Stratum("a", 1, 1, 3), Stratum("b", 2, 3, 2)))
        self.assertEqual([draw.cells(0), draw.cells(1)], [9, 35 - 9])
        self.assertEqual([weight * it.parts for weight, it in zip(draw.weights(), draw.strata)], [9 * 6, 26 * 6])

    def test_miss_distances_are_those_of_the_stratum(self):
        """None of those within the stratum before, and both signs of both."""
        draw, source = Draw(strata=(Stratum("a", 5, 5, 1), Stratum("b", 9, 7, 1))), random.Random(3)
        numbers = type("Numbers", (), {"pick": staticmethod(source.randint)})
        found = {draw.miss(numbers, 1) for _ in range(3000)}
        self.assertEqual(found, {(x, y) for x in range(-9, 10) for y in range(-7, 8) if abs(x) > 5 or abs(y) > 5})

    def test_an_aircraft_is_put_where_it_passes_so_far_away(self):
        """Across its way relative to the ownship, to the left of it where positive, so that this is the least distance; and above."""
        for trk, across, up in ((90, 500, 300), (170, -500, -300), (300, 80, 0)):
            own, it = (encounters.Aircraft(name, trk=track, gs=gs, planned=True) for name, track, gs in (("own", 20, 1000), ("A", trk, 2000)))
            self.assertTrue(drawing.put(it, own, 100, across, up))
            mine, its = (drawing.flown(one, 200)[0] for one in (own, it))
            distances = [((a[0] - b[0]) ** 2 + (a[1] - b[1]) ** 2) ** 0.5 / 36 for a, b in zip(mine, its)]
            self.assertAlmostEqual(min(distances), abs(across), delta=1)
            self.assertEqual(distances.index(min(distances)), 100)
            self.assertEqual((its[100][2] - mine[100][2]) // 60, up)
            before, off = ([its[second][k] - mine[second][k] for k in range(2)] for second in (99, 100))
            way = [after - it for it, after in zip(before, off)]
            self.assertEqual(way[0] * off[1] - way[1] * off[0] > 0, across > 0)
        alike = encounters.Aircraft("B", trk=20, gs=1100, planned=True)
        self.assertFalse(drawing.put(alike, own, 100, 0, 0))

    def test_encounters_are_of_their_stratum(self):
        """By their least distance within 100 ft of height and by heights, where nobody manoeuvres: 82 and 100 of the first stratum."""
        draw = Draw(own_flights=(1, 0, 0, 0, 0), intruder_flights=(1, 0, 0, 0, 0), intruders=(1,))
        names = [draw.encounter(3, number).stratum for number in range(10)]
        self.assertEqual(names, ["collision"] * 3 + ["well-clear"] * 5 + ["beyond"] * 2)
        study = read_study(STUDY)
        study.draw = draw
        found = {name: [rows.row_of(study.draw.encounter(3, number), study)["nmac"] for number in numbers] for name, numbers in (("in", range(3)), ("out", range(8, 10)))}
        self.assertEqual((set(found["in"]), set(found["out"])), ({1}, {0}))


class Sums(Studies):
    def rows(self, *numbers):
        return rows.HEAD + "".join(rows.text_of(row(number, weight=2)) for number in numbers)

    def test_gaps_doubles_and_what_was_cut_are_refused(self):
        self.assertEqual([it["encounter"] for it in rows.read_rows(self.write("r.csv", self.rows(4, 5, 6)))], [4, 5, 6])
        whole = self.rows(4, 5, 6)
        for text, part in ((self.rows(4, 6), "encounter 5 is missing: did a shard fail?"), (self.rows(4, 5, 5, 6), "line 4: encounter 5 occurs twice"),
                           (whole.replace(rows.HEAD, ""), "is the first shard missing?"), (whole[:-3], "ends within a line"), (rows.HEAD, "there is no row"),
                           (whole + rows.HEAD + self.rows(7), "is no row"), (whole.replace("5,all", "x,all"), "line 3 is no row"), (whole.replace(",2,", ",2,2,", 1), "line 2 is no row")):
            with self.assertRaises(Problem) as fault:
                rows.read_rows(self.write("r.csv", text))
            self.assertIn(part, str(fault.exception))
        self.refused(4, "encounter 5 is missing", "sum", self.write("r.csv", self.rows(4, 6)))
        self.refused(4, "there are 3 encounters instead of 4: did the last shard fail?", "sum", "--count", "4", self.write("r.csv", whole))

    def test_a_table_with_a_column_for_each_file(self):
        one, two = self.write("one.csv", self.rows(0, 1)), self.write("two.csv", self.rows(0, 1, 2))
        text = self.made("sum", one, two)
        self.assertEqual([it.strip() for it in text.splitlines()[0].split("|")], ["", "", "one", "two", ""])
        self.assertRegex(text, r"\| encounters +\| 2 +\| 3 +\|")
        self.assertEqual(len({len(line) for line in text.splitlines()}), 1)

    def test_the_cause_of_a_loss(self):
        lost = row(0, loss=100, g_loss=90, g_alert=50, advice=60)
        for more, cause in (({}, "other"), ({"reversals": 1}, "reversal"), ({"reversals": 1, "nones": 2}, "none-open"), ({"nones": 2, "back": 89}, "after-return"),
                            ({"back": 90}, "other"), ({"loss": None, "back": 80}, "induced"), ({"advice": 91}, "no-advice"), ({"advice": None, "loss": None}, "no-advice"),
                            ({"g_alert": 90}, "no-alert"), ({"g_alert": None}, "no-alert"), ({"g_graze": 1, "g_alert": None}, "graze"), ({"refused": 3}, "refused"), ({"g_loss": None}, "")):
            self.assertEqual(rows.cause_of({**lost, **more}), cause)
            self.assertIn(cause, rows.CAUSES)


class Ratios(unittest.TestCase):
    def test_a_ratio_is_weighted(self):
        found = ratios_of([row(0, loss=5, g_loss=5, weight=3), row(1, loss=5, weight=1), row(2, weight=7)])[0]
        self.assertEqual((found.value, found.many, found.heaviest, found.share), (0.75, 1, 0, 1.0))

    def test_an_interval_has_the_width_of_its_count(self):
        """Of 400 alike, half lost: sqrt(0.25 / 400) is 0.025, so 1.96 of these to both sides."""
        rows_ = [row(number, loss=1, g_loss=1 if number % 2 else None) for number in range(400)]
        found = ratios_of(rows_)[0]
        self.assertEqual(found.value, 0.5)
        self.assertAlmostEqual(found.low, 0.451, delta=0.008)
        self.assertAlmostEqual(found.high, 0.549, delta=0.008)
        self.assertEqual(ratios_of(rows_), ratios_of(rows_))

    def test_encounters_are_drawn_within_their_stratum(self):
        """Where all of a stratum are lost and none of the other one, nothing is uncertain; as one stratum it is."""
        rows_ = [row(number, loss=1, g_loss=1 if number < 50 else None, stratum="a" if number < 50 else "b") for number in range(100)]
        found = ratios_of(rows_)[0]
        self.assertEqual((found.low, found.value, found.high), (0.5, 0.5, 0.5))
        found = ratios_of([{**it, "stratum": "a"} for it in rows_])[0]
        self.assertLess(found.low, 0.45)

    def test_an_encounter_that_weighs_most_is_named(self):
        rows_ = [row(number, loss=1, g_loss=1, weight=1) for number in range(9)] + [row(9, loss=1, g_loss=1, weight=6)]
        self.assertEqual(shown(ratios_of(rows_)[0]).partition(", 9 is ")[2], "40 %")
        self.assertNotIn("is", shown(ratios_of(rows_[:9])[0]))
        self.assertEqual(shown(Ratio(0.0, 0.0, 0.0, 0, None, 0.0)), "0, none seen")
        self.assertEqual(shown(ratios_of([row(0)])[0]), "nothing to divide by")

    def test_quantiles_are_weighted(self):
        self.assertEqual(quantiles([(1, 1), (2, 1), (3, 98)]), [3, 3, 3])
        self.assertEqual(quantiles([(3, 1), (1, 50), (2, 49)]), [1, 1, 2])
        self.assertIsNone(quantiles([]))


if __name__ == "__main__":
    unittest.main()
