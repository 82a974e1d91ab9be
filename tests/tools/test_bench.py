"""bench/: each script ends well on little, and tells where the program does not."""
import os
import signal
import subprocess
import sys
import time
import unittest

from common import CONFIG, ENCOUNTER, TOP, ToolTest, module, program
from daidalus_files import MODELS, Moment, Own, config_of, examine_config, read_config, read_moments

soak = module("bench/soak")

WORST = os.path.join(TOP, "bench", "worst_moments", "decide")
# words that a script does not take, and what it says of them
NOT_TAKEN = (("worst", ["--calls"], "--calls goes with --measure"),
             *(("worst", ["--measure", WORST, *words], "--measure searches nothing, so --recovery, --last-times and --write have no place beside it")
               for words in (["--recovery"], ["--last-times"], ["--write", "x"])),
             ("worst", [], "there is no valgrind, which counts the instructions (apt-get install valgrind); --by time needs none"),
             *((script, [f"--{name}", "0"], f"argument --{name}: 0 is no whole number from 1 to 9999999999")
               for script, names in (("run", ("moments", "megabytes", "runs")), ("reading", ("megabytes", "runs")), ("worst", ("tries",)),
                                     ("refuse_memory", ("from", "past", "jobs")), ("soak", ("inputs",))) for name in names))
# the words that make each script do little, and the end of what it then says
SCRIPTS = {
    "run": (["--moments", "20", "--megabytes", "1", "--runs", "1"], "the same bytes for every number of workers, and no moment too slow\n"),
    "reading": (["--megabytes", "1", "--runs", "1"], "the same bytes each time\n"),
    "worst": (["--measure", WORST], " KiB\n"),
    "refuse_memory": (["--built", "--upto", "40"],
                      "each run ended with status 6 and nothing written, or with status 0 and the whole text\n"),
    "soak": (["--inputs", "300"], "nothing failed\n"),
}


class LastTimes(ToolTest):
    """What bench/soak says of the lines of last times, on a report that the reference wrote."""

    def check(self, text, moment, config, **more):
        settings = {kind.encode(): values for kind, values in config.values.items()}
        settings.update(levels=3, resolve=2, horizon=75, recovery=False, last_times=1, **more)
        soak.Report(text.encode(), settings).check([moment])

    def test_right_and_wrong_lines(self):
        config = read_config(CONFIG)._replace(last_times=1)
        moment = next(it for it in read_moments(ENCOUNTER) if it.time == 30)
        text = "\n".join(module("tools/reference").report_of(config, moment)) + "\n"
        self.assertTrue(soak.is_of_the_forms(text.encode()))
        self.check(text, moment, config)
        for old, new in (("last track 8", "last track none"), ("last track 8", "last track 75"), ("last track 8\n", ""),
                         ("last track 8\nlast gs none\n", "last gs none\nlast track 8\n"), ("last alt 0\n", "last alt 0\nlast alt 0\n")):
            self.assertIn(old, text)
            with self.assertRaises(soak.Wrong, msg=new):
                self.check(text.replace(old, new), moment, config)
        for old, new in (("last track 8", "last track 08"), ("last track 8", "last track -1"), ("last gs", "last hs")):
            self.assertFalse(soak.is_of_the_forms(text.replace(old, new).encode()))


    def test_none_where_the_present_flight_is_open(self):
        config = read_config(CONFIG)._replace(last_times=1)
        moment = next(it for it in read_moments(ENCOUNTER) if it.time == 180)
        text = "\n".join(module("tools/reference").report_of(config, moment)) + "\n"
        self.assertIn("resolve track left keep right keep\n", text)
        self.check(text, moment, config)
        with self.assertRaises(soak.Wrong):
            self.check(text.replace("done", "last track 8\nlast gs 8\nlast vs 8\nlast alt 8\ndone"), moment, config)


class Checker(ToolTest):
    """What bench/soak says of lines that a hurried program might write."""

    def check(self, text, moment, config, horizon):
        settings = {kind.encode(): values for kind, values in config.values.items()}
        settings.update(levels=len(config.levels), resolve=config.resolve, horizon=horizon, recovery=config.recovery is not None, last_times=0)
        soak.Report(text.encode(), settings).check([moment])

    def refuse(self, text, *more):
        with self.assertRaises(soak.Wrong, msg=text):
            self.check(text, *more)

    def test_seconds_of_recoveries(self):
        """From 1 to one less than the greatest lookahead of levels 2 and 3, which is 75."""
        config = read_config(os.path.join(TOP, "examples", "recovery.toml"))
        moment = read_moments(os.path.join(TOP, "examples", "closed.states"))[0]
        text = "\n".join(module("tools/reference").report_of(config, moment)) + "\n"
        self.assertIn("recover track 18 140\n", text)
        for second in (1, 18, 74):
            self.check(text.replace("recover track 18 ", f"recover track {second} "), moment, config, 75)
        for second in (0, 75, 76):
            self.refuse(text.replace("recover track 18 ", f"recover track {second} "), moment, config, 75)
        self.refuse(text.replace("recover track 18 140", "recover track 18 141"), moment, config, 75)

    def test_runs_and_the_answer_half_a_turn_away(self):
        """The only open track of an ownship that flies north is 180, which is half a turn to the right and none to the left."""
        config, moment = read_config(CONFIG), Moment(0, 1)
        moment.own, moment.traffic = Own(0, 0, 10000, 0, 3600, 0), []
        text = ("moment 0\ntrack 0 175 3\ntrack 180 180 0\ntrack 185 355 3\ngs 500 7000 3\nvs -5000 5000 3\nalt 0 50000 3\n"
                "resolve track left none right 180\nresolve gs down none up none\nresolve vs down none up none\nresolve alt down none up none\ndone 0\n")
        self.check(text, moment, config, 75)
        for old, new in (("left none right 180", "left none right none"), ("left none right 180", "left 180 right none"),
                         ("left none right 180", "left 180 right 180"), ("track 0 175 3\n", "track 0 90 3\ntrack 95 175 3\n"),
                         ("track 0 175 3\n", "track 0 90 3\ntrack 95 175 4\n"), ("track 0 175 3\n", "track 0 170 3\n")):
            self.assertIn(old, text)
            self.refuse(text.replace(old, new), moment, config, 75)

    def test_how_a_run_may_end_where_memory_is_refused(self):
        """With status 6 and nothing, or with 0 and the whole text: another text at 0 is wrong, and so is any at 6."""
        ends = module("bench/refuse_memory").Ends("replay", b"whole")
        for status, written, bad in ((6, b"", 0), (0, b"whole", 0), (0, b"whol", 1), (0, b"", 2), (0, b"wholesome", 3), (6, b"whole", 4), (5, b"", 5)):
            ends.add(1, status, written)
            self.assertEqual(ends.bad, bad, (status, written))


class Drawn(unittest.TestCase):
    def test_each_model_and_last_times_or_none(self):
        """Of the configurations that bench/soak draws."""
        draw, configs = soak.Draw(4), []
        for _ in range(200):
            document, faults = examine_config(draw.configuration(draw.settings()).encode())
            self.assertEqual(faults, [])
            configs.append(config_of(document))
        self.assertEqual({config.last_times for config in configs}, {0, 1})
        self.assertEqual({level.model for config in configs for level in config.levels}, set(MODELS))


class Bench(ToolTest):
    def ran(self, script, named):
        words = [os.path.join(TOP, "bench", script), *SCRIPTS[script][0], "--program", named]
        return subprocess.run([sys.executable, "-B", *words], env={**os.environ, "TMPDIR": self.folder}, capture_output=True,
                              text=True, timeout=120)

    def test_each_script_ends_well_on_little(self):
        for script, (_, end) in SCRIPTS.items():
            with self.subTest(script):
                ran = self.ran(script, program())
                self.assertEqual((ran.returncode, ran.stderr), (0, ""), ran.stdout)
                self.assertTrue(ran.stdout.endswith(end), ran.stdout)

    def test_each_script_tells_of_a_program_that_fails(self):
        for script in SCRIPTS:
            with self.subTest(script):
                ran = self.ran(script, "/bin/false")
                self.assertEqual(ran.returncode, 1, ran.stdout)
                self.assertRegex(ran.stdout + ran.stderr, "FAILED|status 1")
                self.assertNotIn("Traceback", ran.stderr)

    def test_a_program_that_cannot_be_run_is_told_in_a_line(self):
        for script in SCRIPTS:
            for named in (os.path.join(self.folder, "nothing"), self.folder, self.write("text", "")):
                with self.subTest(script, named=named):
                    ran = self.ran(script, named)
                    self.assertEqual((ran.returncode, ran.stdout), (1, ""), ran.stderr)
                    self.assert_one_line(ran.stderr, f": {named} is no program that can be run\n")

    def test_an_interrupt_ends_it(self):
        """Here it comes while the program runs; and once more, where Python was just clearing up something, in which it passes over one."""
        named = self.write("sleeper", '#!/bin/sh\n: >"$0.began"\nexec sleep 60\n')
        os.chmod(named, 0o755)
        words = [sys.executable, "-B", os.path.join(TOP, "bench", "run"), *SCRIPTS["run"][0], "--program", named]
        run = subprocess.Popen(words, stdout=subprocess.PIPE, stderr=subprocess.PIPE, start_new_session=True,
                               preexec_fn=lambda: signal.signal(signal.SIGINT, signal.SIG_DFL))
        self.addCleanup(run.kill)
        while not os.path.exists(f"{named}.began"):
            self.assertIsNone(run.poll())
            time.sleep(0.05)
        os.killpg(run.pid, signal.SIGINT)
        try:
            run.communicate(timeout=10)
        except subprocess.TimeoutExpired:
            os.killpg(run.pid, signal.SIGINT)
            run.communicate(timeout=30)
        self.assertNotEqual(run.returncode, 0)

    def test_words_that_are_not_taken(self):
        for script, words, said in NOT_TAKEN:
            with self.subTest(script, words=words):
                ran = subprocess.run([sys.executable, "-B", os.path.join(TOP, "bench", script), *words, "--program", "/bin/true"],
                                     env={**os.environ, "PATH": "/nowhere"}, capture_output=True, text=True, timeout=120)
                self.assertEqual((ran.returncode, ran.stdout), (2, ""), ran.stderr)
                self.assertTrue(ran.stderr.endswith(f"error: {said}\n"), ran.stderr)

    def test_a_folder_without_a_moment_is_told_in_a_line(self):
        ran = subprocess.run([sys.executable, "-B", os.path.join(TOP, "bench", "worst"), "--measure", self.folder, "--program", "/bin/true"],
                             capture_output=True, text=True, timeout=120)
        self.assertEqual((ran.returncode, ran.stdout), (1, ""), ran.stderr)
        self.assert_one_line(ran.stderr, f"bench/worst: {self.folder}/worst.toml: No such file or directory\n")

    def test_words_that_go_with_built_alone(self):
        for words in (["--task", "batch"], ["--program", "/bin/false"]):
            ran = subprocess.run([sys.executable, "-B", os.path.join(TOP, "bench", "refuse_memory"), *words, "--upto", "0"],
                                 env={**os.environ, "PATH": "/nowhere"}, capture_output=True, text=True, timeout=120)
            self.assertEqual((ran.returncode, ran.stdout), (2, ""), ran.stderr)
            self.assertTrue(ran.stderr.endswith("error: --task and --program go with --built\n"), ran.stderr)

    def batch_without_memory(self, named):
        """What is told of a batch that is read ahead, from the last requests of the opening to that for the ring."""
        words = ["--built", "--task", "batch", "--from", "120", "--upto", "159", "--program", named]
        return subprocess.run([sys.executable, "-B", os.path.join(TOP, "bench", "refuse_memory"), *words],
                              env={**os.environ, "TMPDIR": self.folder}, capture_output=True, text=True, timeout=120)

    def test_a_batch_without_lanes_or_a_ring_writes_the_whole_text(self):
        ran = self.batch_without_memory(program())
        self.assertEqual((ran.returncode, ran.stderr), (0, ""), ran.stdout)
        for task in ("batch", "batch from N on"):
            self.assertRegex(ran.stdout, rf"(?m)^{task} +N = \d+ to 159: status 0, the whole text$")

    def test_a_batch_that_ends_otherwise_without_lanes_is_told(self):
        other = self.write("other", f'#!/bin/sh\n"{program()}" "$@"\nstatus=$?\n[ "$REFUSE_NTH" = 0 ] || [ $status -ne 0 ] || exit 5\nexit $status\n')
        os.chmod(other, 0o755)
        ran = self.batch_without_memory(other)
        self.assertEqual(ran.returncode, 1, ran.stdout)
        self.assertIn("WRONG: status 5, 5640 bytes", ran.stdout)

    def test_a_run_that_ends_otherwise_where_memory_is_refused_is_told(self):
        other = self.write("other", f'#!/bin/sh\n"{program()}" "$@"\nstatus=$?\n[ $status -ne 6 ] || exit 5\nexit $status\n')
        os.chmod(other, 0o755)
        ran = self.ran("refuse_memory", other)
        self.assertEqual(ran.returncode, 1, ran.stdout)
        self.assertIn("WRONG: status 5", ran.stdout)


if __name__ == "__main__":
    unittest.main()
