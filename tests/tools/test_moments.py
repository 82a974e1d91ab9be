"""tools/moments: the generator against its authors' published outputs, an exercise's moments, and how aimed ones alert."""
import subprocess
import unittest

from common import CONFIG, ToolTest, module, program, replayed
from daidalus_files import EXACT, Moment, Reader, read_config
from headings import velocity

moments = module("tools/moments")

# The first outputs of pcg32 with the state 42 and the stream 54, as its authors' demonstration prints them.
PUBLISHED = [0xA15C02B7, 0x7B47F409, 0xBA1D3330, 0x83D2F293, 0xBFA4784B, 0xCBED606E]


class Generator(unittest.TestCase):
    def test_has_the_published_outputs(self):
        draw = moments.Generator(42, 54 << 1)
        self.assertEqual([draw.next() for _ in PUBLISHED], PUBLISHED)

    def test_picks_both_ends(self):
        draw = moments.Generator.of_seed(1)
        self.assertEqual({draw.pick(-1, 1) for _ in range(100)}, {-1, 0, 1})


class Lines(ToolTest):
    def test_an_exercises_summary_counts_these_moments(self):
        """The program counts the alerts of the moments that it draws; those of the drawn lines add up to the same."""
        words = ["exercise", "--config", CONFIG, "--seed", "7", "--moments", "100"]
        summary = subprocess.run([program(), *words], stdin=subprocess.DEVNULL, capture_output=True, text=True).stdout.splitlines()
        status, out, said = self.tool("moments", "--seed", "7", "--moments", "100")
        self.assertEqual((status, said), (0, ""))
        report = replayed(CONFIG, out.encode())[1].decode().splitlines()
        alerts = [int(line.split()[2]) for line in report if line.startswith("alert")]
        self.assertEqual(summary[1:3], [f"aircraft {len(alerts)}", f"alert {' '.join(str(alerts.count(level)) for level in range(4))}"])
        values = read_config(CONFIG).values
        for kind, row in zip(values, summary[3:7]):
            counts = [0] * 4
            for line in (line.split() for line in report if line.startswith(f"{kind} ")):
                counts[int(line[3])] += values[kind].index(int(line[2])) - values[kind].index(int(line[1])) + 1
            self.assertEqual(row, f"{kind} {' '.join(map(str, counts))}")

    def test_aimed_aircraft_alert(self):
        status, out, _ = self.tool("moments", "--seed", "3", "--moments", "60", "--aimed")
        self.assertEqual(status, 0)
        events = Reader().read(out.encode())
        self.assertTrue(all(isinstance(event, Moment) for event in events))
        self.assertEqual(len(events), 60)
        ages = [aircraft.age for event in events for aircraft in event.traffic]
        self.assertTrue(0 < sum(age > 0 for age in ages) < len(ages) / 2)
        self.assertTrue(15 <= max(ages) <= 20)
        report = replayed(CONFIG, out.encode())[1].decode().splitlines()
        alerts = [line.split()[2] for line in report if line.startswith("alert")]
        self.assertEqual(len(alerts), len(ages))
        self.assertLess(alerts.count("0"), len(alerts) / 4)

    def test_aimed_aircraft_pass_near_the_ownship(self):
        """At a second from 0 to 70 each is within 0.6 NM to each side, which is 0.85 NM, and 600 feet of the present flight, but for rounding."""
        draw = moments.Generator.of_seed(5)
        ages = []
        for _ in range(200):
            own, traffic = moments.aimed_moment(draw)
            speed = (*velocity(own.gs, own.trk), own.vs)
            for it in traffic:
                off = [[abs(there + rate * (second + it.age) / size - here - way * second / size)
                        for here, way, there, rate, size in zip(own[:3], speed, it[1:4], it[4:7], (36, 36, 60))] for second in range(71)]
                self.assertTrue(any(max(each) <= 602 for each in off), (own, it))
                ages.append(it.age)
        self.assertEqual((min(ages), max(ages)), (0, 20))
        self.assertGreater(sum(age > 10 for age in ages), 20)

    def test_the_same_seed_gives_the_same_lines(self):
        one, other = (self.tool("moments", "--seed", "5", "--moments", "4", "--aimed") for _ in range(2))
        self.assertEqual(one, other)
        self.assertNotEqual(one, self.tool("moments", "--seed", "6", "--moments", "4", "--aimed"))

    def test_bounds_are_added_to_the_same_moments(self):
        for words in ((), ("--aimed",)):
            (_, plain, _), (status, bounded, _) = (self.tool("moments", "--seed", "5", "--moments", "40", *words, *more) for more in ((), ("--bounds",)))
            self.assertEqual((status, bounded.split("\n")[0]), (0, "format 3"))
            one, other = (Reader().read(text.encode()) for text in (plain, bounded))
            bounds = [it.bounds for moment in other for it in (moment.own, *moment.traffic)]
            for moment in other:
                moment.own, moment.traffic = moment.own._replace(bounds=EXACT), [it._replace(bounds=EXACT) for it in moment.traffic]
            self.assertEqual([(it.time, it.own, it.traffic) for it in one], [(it.time, it.own, it.traffic) for it in other])
            for numbers, most in zip(zip(*bounds), (200, 150, 300, 500)):
                self.assertTrue(0.4 < sum(it == 0 for it in numbers) / len(numbers) < 0.7 and 0.8 * most < max(numbers) <= most, numbers)

    def test_refuses_words(self):
        for words in ((), ("--seed", "-1", "--moments", "1"), ("--seed", "4294967296", "--moments", "1"), ("--seed", "1", "--moments", "0")):
            self.assertEqual(self.tool("moments", *words)[0], 2)


if __name__ == "__main__":
    unittest.main()
