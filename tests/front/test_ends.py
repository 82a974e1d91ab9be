"""How the real program ends, and what the script says of it; and the program where no thread can be started."""
import os
import re
import resource
import subprocess
import tempfile
import unittest

import builds
from common import LONG, LONG_STATES, TOP, run_at_top, text_of
from threads import refusing_threads, was_refused


class Ends(unittest.TestCase):
    """How the real program ends, and what the script then says: by each status but 6, for which a request for memory has to be
    refused (tests/tools/test_memory.py does that), and 8, for which 2^40 bytes would have to be read."""

    CONFIG, STATES = "examples/three_levels.toml", "examples/encounter.states"

    def setUp(self):
        folder = tempfile.TemporaryDirectory()
        self.addCleanup(folder.cleanup)
        self.folder = folder.name

    def write(self, name, content):
        with open(f"{self.folder}/{name}", "wb") as file:
            file.write(content)
        return f"{self.folder}/{name}"

    def assert_end(self, words, status, wrote, said, section="Statuses", given=b"", **how):
        """The status, all that is written, and the one line of the script, without its beginning and the page that it names."""
        how = {"cwd": TOP, "stdout": subprocess.PIPE, "stderr": subprocess.PIPE, **({} if "stdin" in how else {"input": given}), **how}
        ran = subprocess.run([f"{TOP}/daidalus", *words], **how)
        line = f'daidalus: status {status}: {said} (docs/FORMATS.md, "{section}")\n' if said else ""
        self.assertEqual((ran.returncode, ran.stdout or b"", ran.stderr.decode()), (status, wrote, line))

    def judge(self, states):
        return ["judge", "--config", self.CONFIG, "--states", states]

    def report(self):
        ran = run_at_top(f"./daidalus replay --config {self.CONFIG} --workers 1", text_of(self.STATES).encode())
        self.assertEqual(ran.returncode, 0, ran.stderr.decode())
        return ran.stdout

    def test_a_comparison_ends_with_0_where_nothing_differs_and_else_with_1(self):
        report = self.report()
        lines = report.split(b"\n")
        self.assertEqual(lines[2], b"alert AMBER 2 43")
        other = b"\n".join([*lines[:2], b"alert AMBER 2 42", *lines[3:]])
        self.assert_end(self.judge(self.STATES), 0, b"same\n", "", given=report)
        self.assert_end(self.judge(self.STATES), 1, b"differs 3\n", "", given=other)
        # one byte too few, and one too many
        self.assert_end(self.judge(self.STATES), 1, b"differs %d\n" % report.count(b"\n"), "", given=report[:-1])
        self.assert_end(self.judge(self.STATES), 1, b"differs %d\n" % (report.count(b"\n") + 1), "", given=report + b"\n")

    def test_9_where_the_states_are_longer_than_65536_bytes(self):
        longest, longer = (self.write(f"{size}.states", b"#" * (size % 2) + b"#\n" * (size // 2)) for size in (65536, 65537))
        self.assert_end(self.judge(longest), 0, b"same\n", "")
        self.assert_end(self.judge(longer), 9, b"states long\n", f"the states {longer} {LONG_STATES}", "Command words")

    def test_long_states_are_judged_in_parts_as_the_script_says(self):
        moment = text_of(self.STATES).split("\nmoment 10\n")[0].split("moment 0\n")[1]
        states = "".join(f"moment {time}\n{moment}\n" for time in range(700)).encode()
        self.assertGreater(len(states), 65536)
        report = run_at_top(f"./daidalus replay --config {self.CONFIG}", states).stdout
        self.assert_end(self.judge(self.write("all.states", states)), 9, b"states long\n",
                        f"the states {self.folder}/all.states {LONG_STATES}", "Command words", given=report)
        parts = [[whole.split(b"moment 350\n")[0], b"moment 350\n" + whole.split(b"moment 350\n")[1]] for whole in (states, report)]
        for part, its_report in zip(*parts):
            self.assert_end(self.judge(self.write("part.states", part)), 0, b"same\n", "", given=its_report)

    def test_1_where_a_line_is_refused(self):
        said = f"lines of the states are refused: tools/check {self.CONFIG} STATES says why"
        self.assert_end(["replay", "--config", self.CONFIG], 1, b"refused 1 7\n", said, "Faults of lines", given=b"end\n")

    def test_2_where_the_words_are_not_taken(self):
        usage = re.search("^usage: .*\n", text_of("docs/FORMATS.md"), re.M)[0].encode()
        for words, why in (([], "there is no command word"), (["replay"], "--config is missing"), (["-h"], "the word -h is not replay, exercise or judge")):
            self.assert_end(words, 2, usage, f"{why}; daidalus --help lists what is accepted", "Command words")

    def test_3_where_the_configuration_is_refused(self):
        config = self.write("c.toml", text_of(self.CONFIG).replace("turn_rate = 3", "turn_rate = 31").encode())
        for words in (["replay", "--config", config], self.judge(self.STATES)[:1] + ["--config", config, "--states", self.STATES]):
            said = f"the configuration {config} is refused with code 6: tools/check {config} says why"
            self.assert_end(words, 3, b"config 6\n", said, "Configuration")

    def test_3_where_the_text_nests_as_deep_as_its_reader_goes_and_the_stack_is_small(self):
        """A header and a key of 80 parts, and 80 inline tables, each under a key of 80 parts: reading them takes 1.55 MB of stack."""
        key = ".".join(["a"] * 80)
        config = self.write("deep.toml", f"[{key}]\n{key} = {f'{{{key} = ' * 80}1{'}' * 80}\n".encode())
        said = f"the configuration {config} is refused with code 3: tools/check {config} says why"
        for words in (["replay", "--config", config], ["exercise", "--config", config, "--seed", "1", "--moments", "1"]):
            self.assert_end(words, 3, b"config 3\n", said, "Configuration",
                            preexec_fn=lambda: resource.setrlimit(resource.RLIMIT_STACK, (1 << 20, 1 << 20)))

    def test_4_where_reading_fails(self):
        """A folder can be opened and not read."""
        folder = os.open(self.folder, os.O_RDONLY)
        self.addCleanup(os.close, folder)
        self.assert_end(["replay", "--config", self.CONFIG], 4, b"", "standard input could not be read to its end", stdin=folder)

    def test_5_where_writing_fails(self):
        with open("/dev/full", "wb") as full:
            self.assert_end(["replay"], 5, b"", "standard output could not be written", stdout=full)

    def test_5_without_a_word_where_the_reader_has_gone(self):
        ours, theirs = os.pipe()
        os.close(ours)
        self.assert_end(["replay"], 5, b"", "", stdout=theirs)
        os.close(theirs)

    def test_7_where_a_file_cannot_be_read(self):
        gone = f"{self.folder}/gone"
        self.assert_end(["replay", "--config", gone], 7, b"", f"{gone} cannot be read")
        self.assert_end(self.judge(gone), 7, b"", f"{gone} cannot be read")
        for words in (["replay", "--config="], ["judge", "--config", self.CONFIG, "--states="]):
            self.assert_end(words, 7, b"", "a file without a name cannot be read")


class NoThread(unittest.TestCase):
    """Where no thread can be started, the program does all in one, and writes the same."""

    def test_a_replay_writes_the_same(self):
        words = [builds.program(), "replay", "--config", os.path.join(TOP, "examples/three_levels.toml")]
        states = "".join(f"moment {time}\nown 0 0 10000 0 3600 0\ntraffic A 3000 8000 10000 -1350 0 0\nend\n" for time in range(200)).encode()
        with tempfile.TemporaryDirectory() as folder:
            for more in (["--workers", "4"], ["--workers", "4", "--ahead", "4"]):
                plain, alone = (subprocess.run([*words, *more], input=states, env=environment, capture_output=True, timeout=LONG)
                                for environment in ({}, refusing_threads(folder)))
                self.assertTrue(plain.stdout)
                self.assertEqual((alone.returncode, alone.stdout, alone.stderr), (0, plain.stdout, b""))
                self.assertTrue(was_refused(folder))

    def test_a_configuration_is_read(self):
        words = [builds.program(), "replay", "--config", os.path.join(TOP, "examples/three_levels.toml"), "--workers", "1"]
        with tempfile.TemporaryDirectory() as folder:
            ran = subprocess.run(words, input=b"end\n", env=refusing_threads(folder), capture_output=True, timeout=LONG)
            self.assertEqual((ran.returncode, ran.stdout, ran.stderr), (1, b"refused 1 7\n", b""))
            self.assertTrue(was_refused(folder))
