"""tools/encounters: parts are the whole, all is accepted, aircraft fly as they say, and they meet."""
import math
import unittest

from common import CONFIG, ToolTest, module
from daidalus_files import Moment, Reader
from headings import velocity

encounters = module("tools/encounters")


class WholeEncounters(ToolTest):
    def made(self, *words):
        status, out, said = self.tool("encounters", *words)
        self.assertEqual((status, said), (0, ""))
        return out

    def test_parts_end_to_end_are_the_whole(self):
        whole = self.made("--seed", "7", "--count", "5", "--seconds", "20")
        parts = [self.made("--seed", "7", "--from", first, "--count", count, "--seconds", "20") for first, count in (("0", "2"), ("2", "3"))]
        self.assertEqual("".join(parts), whole)
        self.assertNotEqual(self.made("--seed", "8", "--count", "5", "--seconds", "20"), whole)

    def test_no_encounter_of_a_seed_is_one_of_the_next_seed(self):
        """Encounter 1 of seed 7 and encounter 0 of seed 8 begin otherwise."""
        one, other = (list(encounters.encounter(seed, number, 5)) for seed, number in ((7, 1), (8, 0)))
        self.assertNotEqual(one, other)

    def test_a_long_descent_stays_above_2000_feet(self):
        """In encounter 391 of seed 3 the ownship descends by more than 12000 feet in ten minutes."""
        alts = [(own.alt, [it.alt for it in traffic]) for own, traffic in encounters.encounter(3, 391, 600)]
        self.assertGreater(alts[0][0] - alts[-1][0], 12000)
        self.assertGreaterEqual(min(min(own, *others) for own, others in alts), 2000)

    def test_the_line_that_makes_an_encounter_again(self):
        whole = self.made("--seed", "7", "--count", "3", "--seconds", "9")
        begin = whole.index("# encounter 2:")
        words = whole[begin:].splitlines()[0].split(": ")[1].split()
        self.assertEqual(words[0], "tools/encounters")
        self.assertEqual(self.made(*words[1:]), whole[begin:])

    def test_moments_are_a_second_apart_and_all_are_accepted(self):
        text = self.made("--seed", "3", "--from", "4", "--count", "20", "--seconds", "300")
        events = Reader().read(text.encode())
        self.assertEqual([event.time for event in events if isinstance(event, Moment)],
                         [1000 * number + second for number in range(4, 24) for second in range(300)])
        self.assertTrue(all(isinstance(event, Moment) for event in events))
        counts = {1 + len(event.traffic) for event in events}
        self.assertEqual((min(counts), max(counts)), (2, 9))
        self.assertEqual(self.tool("check", "--advice", CONFIG, self.write("e.states", text))[1],
                         "accepted: 3 levels, 341 candidates; 6000 moments of up to 8 aircraft\n")

    def test_aircraft_fly_as_they_say(self):
        """From second to second each goes as far as its speed says, but for rounding."""
        moments = Reader().read(self.made("--seed", "5", "--count", "1", "--seconds", "120").encode())
        for before, after in zip(moments, moments[1:]):
            own = before.own
            self.fly((own.x, own.y, own.alt), (*velocity(own.gs, own.trk), own.vs), after.own[:3])
            for one, other in zip(before.traffic, after.traffic, strict=True):
                self.assertEqual(one.id, other.id)
                self.fly(one[1:4], one[4:7], other[1:4])

    def test_each_aircraft_is_near_at_a_second_of_the_middle_half(self):
        """Within 0.7 NM to each side and 800 feet, but for rounding."""
        for number in range(12):
            moments, met = list(encounters.encounter(5, number, 120)), set()
            for own, traffic in moments[30:90]:
                met |= {it.id for it in traffic if max(abs(it.x - own.x), abs(it.y - own.y)) <= 701 and abs(it.alt - own.alt) <= 801}
            self.assertEqual(met, {it.id for it in moments[0][1]}, number)

    def fly(self, place, speed, then):
        for at, rate, after, size in zip(place, speed, then, (36, 36, 60)):
            self.assertLessEqual(abs(after - at - rate / size), 1)

    def test_a_manoeuvre_changes_one_value_at_its_rate(self):
        flight = encounters.Flight.__new__(encounters.Flight)
        flight.trk, flight.gs, flight.vs, flight.begin = 350, 3000, 0, 10
        for kind, target, wanted in (("straight", 0, (350, 3000, 0)), ("track", 20, (356, 3000, 0)), ("track", -90, (344, 3000, 0)),
                                     ("gs", 600, (350, 2960, 0)), ("vs", 500, (350, 3000, 500)), ("vs", -1500, (350, 3000, -600))):
            flight.kind, flight.target = kind, target
            self.assertEqual(flight.state_at(10), (350, 3000, 0))
            self.assertEqual(flight.state_at(12), wanted)
        flight.kind, flight.target = "track", 20
        self.assertEqual(flight.state_at(60)[0], 10)

    def test_most_flights_have_a_manoeuvre(self):
        """Of 200 some are straight throughout, and some turn, climb and change their speed."""
        kinds = [encounters.Flight(encounters.Generator.of_seed(seed), 60).kind for seed in range(200)]
        counts = {kind: kinds.count(kind) for kind in set(kinds)}
        self.assertEqual(set(counts), {"straight", "track", "gs", "vs"})
        self.assertGreater(200 - counts["straight"], 100)
        self.assertTrue(all(math.isclose(counts[kind], 40, abs_tol=25) for kind in ("track", "gs", "vs")), counts)

    def test_speeds_are_60_to_400_knots_and_climbs_up_to_1500_feet_a_minute(self):
        """At the beginning and where a manoeuvre leads to."""
        flights = [encounters.Flight(encounters.Generator.of_seed(seed), 60) for seed in range(2000)]
        for kind, low, high in (("gs", 600, 4000), ("vs", -1500, 1500)):
            found = [getattr(it, kind) for it in flights], [it.target for it in flights if it.kind == kind]
            for values in found:
                self.assertTrue(low <= min(values) < low + 100 and high - 100 < max(values) <= high, (kind, min(values), max(values)))

    def test_words_that_are_not_taken(self):
        for words in (["--seed", "1"], ["--seed", "-1", "--count", "1"], ["--seed", "1", "--count", "0"],
                      ["--seed", "1", "--count", "1", "--seconds", "601"], ["--seed", "1", "--count", "1", "--from", "-1"],
                      ["--seed", "1", "--count", "2", "--from", "4294966"]):
            self.assertEqual(self.tool("encounters", *words)[:2], (2, ""), words)
        self.assertIn("moment 4294966000", self.made("--seed", "1", "--count", "1", "--from", "4294966", "--seconds", "1"))


if __name__ == "__main__":
    unittest.main()
