"""bench/exact, bench/float and tools/agree: both programs are built, and compared with the program on some hundred moments."""
import glob
import os
import re
import subprocess
import sys
import tempfile
import unittest

from common import CONFIG, ENCOUNTER, TOP, ToolTest, module, program, replayed
from daidalus_files import read_config
import counting  # (in a folder that common names)

compare = module("bench/compare")
moments = module("tools/moments")
agree = module("tools/agree")
CONFIGS = (CONFIG, *(os.path.join(TOP, *names) for names in (("examples", "recovery.toml"), ("bench", "small.toml"), ("bench", "slow.toml"))))
DIFFERENCES = os.path.join(TOP, "examples", "differences{}.states")


def aimed(seed, count):
    """State lines of drawn moments in which most aircraft alert."""
    draw, lines = moments.Generator.of_seed(seed), ["format 2"]
    for time in range(count):
        lines += moments.moment_lines(time, *moments.aimed_moment(draw), 2)
    return ("\n".join(lines) + "\n").encode()


def setUpModule():
    counting.need("c++")
    global folder, exact, floating
    folder = tempfile.TemporaryDirectory()
    exact, floating = (compare.built(folder.name, name) for name in ("exact", "float"))


def tearDownModule():
    folder.cleanup()


def written(command, states):
    run = subprocess.run(command, input=states, capture_output=True, timeout=120, check=True)
    return run.stdout


class Exact(unittest.TestCase):
    def test_writes_the_programs_bytes(self):
        """Of aimed moments under configurations with recoveries, last times, WCV_TEP and none of them; and of an exercise."""
        for seed, config in enumerate(CONFIGS):
            states = aimed(seed, 100)
            status, report = replayed(config, states)
            self.assertEqual(status, 0)
            self.assertEqual(written([exact, "replay", "--config", config], states), report, config)
        words = ["exercise", "--config", CONFIG, "--seed", "7", "--moments", "100"]
        self.assertEqual(written([exact, *words], b""), subprocess.run([program(), *words], stdin=subprocess.DEVNULL, stdout=subprocess.PIPE, check=True).stdout)

    def test_the_longest_moments(self):
        """Those of bench/worst_moments, of 64 aircraft and the most candidates, with recoveries and last times."""
        paths = glob.glob(os.path.join(TOP, "bench", "worst_moments", "*", "worst.toml"))
        self.assertGreaterEqual(len(paths), 7)
        for path in paths:
            with open(path.replace(".toml", ".states"), "rb") as file:
                states = file.read()
            self.assertEqual(written([exact, "replay", "--config", path], states), replayed(path, states)[1], path)

    def test_a_leg_that_ends_as_heights_come_near(self):
        """After 55 s, the whole lookahead of level 3, the heights are 450 feet apart for the first time, on a turn's last leg."""
        states = b"format 2\nmoment 0\nown -2206 -353 4233 118 745 0\ntraffic A1 -2539 -4238 3060 578 2206 723 5\nend\n"
        report = replayed(CONFIG, states)[1]
        self.assertIn(b"\ntrack 300 355 3\n", report)
        self.assertEqual(written([exact, "replay", "--config", CONFIG], states), report)

    def test_each_model_of_the_volume(self):
        """A level by each of the four, on moments drawn anew."""
        with open(CONFIG, encoding="utf-8") as file:
            text = re.sub(r"(?m)^(tau|tcpa|tep) = 0.*\n", "", file.read())
        for seed, key in enumerate(("tau", "tcpa", "tep")):
            path = os.path.join(folder.name, f"{key}.toml")
            with open(path, "w", encoding="utf-8") as file:
                file.write(re.sub(r"(?m)^(tcoa = .*)$", rf"\1\n{key} = 1", text))
            self.assertEqual({level.model for level in read_config(path).levels}, {key})
            states = aimed(40 + seed, 100)
            self.assertEqual(written([exact, "replay", "--config", path], states), replayed(path, states)[1], key)


class Floating(ToolTest):
    def agreed(self, config, states, *words):
        report = self.write("a.report", replayed(config, states)[1])
        return self.tool("agree", "--float", floating, *words, config, self.write("in.states", states), report)

    def test_as_the_formats_say_it_writes_nearly_the_same(self):
        """Only what touches a threshold may be otherwise in floating point: of 400 moments, at most two."""
        for seed, config in enumerate(CONFIGS):
            states = aimed(10 + seed, 100)
            one, other = (agree.chunks_of(report, "") for report in (replayed(config, states)[1], written([floating, "replay", "--config", config, "--formats"], states)))
            self.assertEqual(list(one), list(other))
            differ = [time for time in one if one[time] != other[time]]
            self.assertLessEqual(len(differ), 2, (config, differ))

    def test_each_difference_has_a_cause(self):
        """The example differs in nothing but 4 of its 19 moments: in a ground speed, vertical speeds and altitudes."""
        with open(ENCOUNTER, "rb") as file:
            states = file.read()
        status, out, said = self.agreed(CONFIG, states, "--worst", os.path.join(self.folder, "worst"))
        self.assertEqual((status, said), (0, ""))
        self.assertLessEqual({"19 moments", "a band differs in 4 moments, 21.1 %", "track: 0 of 1368 differ", "alt: 100 of 1919 differ, 5.2 %: no ramps 100"},
                             set(out.splitlines()))
        self.assertIn("\nfirst second: moment 20 vs -1200: 3 and 1\n", out)
        with open(os.path.join(self.folder, "worst"), encoding="utf-8") as file:
            worst = file.read()
        self.assertIn("# no ramps: moment 30 alt 0: 1 and 3 (the report, and floating point)\n", worst)
        self.assertIn("\nmoment 30\nown 0 3000 10000 0 3600 0\n", worst)

    def test_several_processes_say_the_same(self):
        """Moments that are told of in parts are told of as at once."""
        states = aimed(68, 90)
        report = agree.chunks_of(replayed(CONFIG, states)[1], "")
        lines = {int(text.split()[0]): b"moment " + text for text in states.split(b"moment ")[1:]}
        moments = [(time, lines[time], report[time]) for time in report]
        whole, sum_of_parts = agree.tally_of((floating, CONFIG, moments)), agree.Tally()
        for first in (0, 10, 50):
            sum_of_parts.add(agree.tally_of((floating, CONFIG, moments[first:{0: 10, 10: 50}.get(first, 90)])))
        self.assertGreater(len(whole.worst), 3)
        told = [[*tally.lines(), *(each.words() for each in tally.worst_ones())] for tally in (whole, sum_of_parts)]
        self.assertEqual(*told)
        with open(ENCOUNTER, "rb") as file:
            states = file.read()
        self.assertEqual(self.agreed(CONFIG, states, "--jobs", "2"), self.agreed(CONFIG, states))

    def test_what_a_process_cant_do_is_told_in_one_line(self):
        with open(ENCOUNTER, "rb") as file:
            states = file.read()
        status, out, said = self.tool("agree", "--float", "/bin/false", CONFIG, self.write("in.states", states), self.write("a.report", replayed(CONFIG, states)[1]))
        self.assertEqual((status, out), (4, ""))
        self.assert_one_line(said, "bench/float ends with status 1")

    def test_a_difference_without_a_cause_is_a_finding(self):
        """Here the report has a level that no flight has."""
        with open(ENCOUNTER, "rb") as file:
            states = file.read()
        report = replayed(CONFIG, states)[1].replace(b"track 0 5 3\ntrack 10 180 0\n", b"track 0 10 3\ntrack 15 180 0\n", 1)
        status, out, _ = self.tool("agree", "--float", floating, CONFIG, self.write("in.states", states), self.write("a.report", report))
        self.assertEqual(status, 1)
        self.assertIn("\nnone: moment 0 track 10: 3 and 0\n", out)

    def test_a_time_that_touches_its_threshold_is_a_cause(self):
        """The heights are 914 feet apart and come nearer by 914 feet a minute: 20 s, the tcoa of level 2, are left after 40 s, at the end
        of its lookahead."""
        config = os.path.join(TOP, "bench", "small.toml")
        self.assertEqual((read_config(config).levels[1].tcoa, read_config(config).levels[1].lookahead), (20, 40))
        states = b"format 2\nmoment 7\nown 693 -1353 3345 307 978 0\ntraffic A2 314 -1074 4259 -649 155 -914 0\nend\n"
        status, out, _ = self.agreed(config, states)
        self.assertEqual(status, 0, out)
        self.assertRegex(out, r"(?m)^vs: 1 of 21 differ, 4.8 %: touching 1$")
        self.assertIn("touching: moment 7 vs 0: 2 and 1\n", out)

    def test_what_is_not_of_these_states(self):
        with open(ENCOUNTER, "rb") as file:
            states = file.read()
        report = replayed(CONFIG, states)[1]
        for text, part in ((report.replace(b"moment 10\n", b"moment 11\n").replace(b"done 10\n", b"done 11\n"), "does not have the moments of"),
                           (b"refused 1 2\n" + report, "a line was refused")):
            status, out, said = self.tool("agree", "--float", floating, CONFIG, self.write("in.states", states), self.write("a.report", text))
            self.assertEqual((status, out), (4, ""))
            self.assert_one_line(said, part)

    def test_reports_with_bounds_are_not_compared(self):
        states = os.path.join(TOP, "examples", "bounded.states")
        status, out, said = self.tool("agree", "--float", floating, CONFIG, states, self.write("a.report", ""))
        self.assertEqual((status, out), (4, ""))
        self.assert_one_line(said, "reports of moment 31 have bounds")

    def test_the_greatest_differences_are_as_their_comments_say(self):
        """In each of examples/differences*.states: what the report and the floating-point program say, and the cause. A table [recovery] changes
        none of the first."""
        first, small = (DIFFERENCES.format(word) for word in ("", "_small"))
        self.assertEqual({first, small}, set(glob.glob(DIFFERENCES.format("*"))))
        for path, config in zip((first, first, small), CONFIGS):
            with open(path, "rb") as file:
                text = file.read()
            told = re.findall(r"(?m)^# (.*: moment .*) \(the report, and floating point\)$", text.decode())
            self.assertGreaterEqual(len(told), 10)
            maker = agree.Float(floating, config)
            states = {int(lines.split()[1]): lines for lines in re.findall(rb"(?ms)^moment .*?^end\n", text)}
            found = list(agree.differences(agree.chunks_of(replayed(config, text)[1], ""), maker.report(text), read_config(config)))
            agree.find_causes(found, maker, states)
            self.assertEqual(set(told) - {f"{each.cause}: {each.words()}" for each in found}, set(), path)


class Compared(ToolTest):
    def test_compare_ends_well_on_little(self):
        """It builds by a stand-in for the compiler, which hands out what is built already: bench/compare's own call of one has made that."""
        compiler = self.write("compiler", f"#!/bin/sh\nexec cp '{folder.name}'/\"$(basename \"$4\")\" \"$4\"\n")
        os.chmod(compiler, 0o755)
        environment = {**os.environ, "CXX": compiler}
        words = [sys.executable, "-B", os.path.join(TOP, "bench", "compare"), "--moments", "20", "--runs", "1", "--config", CONFIG, "--program"]
        ran = subprocess.run([*words, program()], env=environment, capture_output=True, text=True, timeout=120)
        self.assertEqual((ran.returncode, ran.stderr), (0, ""), ran.stdout)
        self.assertTrue(ran.stdout.endswith("the exact program writes the program's text\n"), ran.stdout)
        self.assertRegex(ran.stdout, r"(?m)^\| drawn, `.*` \|(?: \S+ to \S+ (?:µs|ms) \|){3}(?: [0-9.]+ to [0-9.]+ \|){2}$")
        ran = subprocess.run([*words, "/bin/false"], env=environment, capture_output=True, text=True, timeout=120)
        self.assertEqual(ran.returncode, 1)
        self.assertIn("FAILED", ran.stdout + ran.stderr)


if __name__ == "__main__":
    unittest.main()
