"""tools/replay, which runs in node, writes the bytes of the program's replay and ends with its status; it reports a live feed in time."""
import os
import random
import subprocess
import sys
import unittest

from common import CONFIG, ENCOUNTER, TOP, ToolTest, module, program, replayed
import counting  # (in a folder that common names)

TOOL = os.path.join(TOP, "tools", "replay")
RECOVERY = os.path.join(TOP, "examples", "recovery.toml")
LONG = 60  # seconds that nothing here takes


def read(path):
    with open(path, "rb") as file:
        return file.read()


class Replay(ToolTest):
    def setUp(self):
        super().setUp()
        counting.need("node")

    def assert_same(self, states, config=CONFIG):
        """The tool's status and report are those of the program."""
        ran = subprocess.run([TOOL, "--config", config], input=states, capture_output=True, timeout=LONG)
        self.assertEqual((ran.returncode, ran.stdout), replayed(config, states), ran.stderr)
        self.assertEqual(ran.stderr, b"")
        return ran.stdout

    def test_reports_are_the_programs(self):
        aimed = subprocess.run([sys.executable, "-B", os.path.join(TOP, "tools/moments"), "--seed", "5", "--aimed", "--moments", "300"],
                               capture_output=True, check=True).stdout
        last = self.write("last.toml", b"last_times = 1\n" + read(RECOVERY))
        for config in (CONFIG, RECOVERY, last):
            self.assertEqual(self.assert_same(aimed, config).count(b"\ndone "), 300)
            for name in ("encounter", "closed", "lines"):
                self.assertTrue(self.assert_same(read(os.path.join(TOP, "examples", f"{name}.states")), config))

    def test_lines_are_cut_and_refused_as_the_program_does(self):
        drawn = random.Random(59)
        whole = read(os.path.join(TOP, "examples", "lines.states")) + read(ENCOUNTER)
        signs = [b"", b" ", b"\t", b"\r", b"\0", b"\xff", b"\n", b"\r\n", b"-", b"99999", b"#", b"moment 1\n", b"end\n", *(b" " * size for size in (254, 255, 256, 511, 512, 513))]
        texts = [b"", b"end", b"moment 4\n", b"\n" + b"x" * 70000, b"#" * 70000 + b"\nend", b"moment 7\n" + b" " * 65530 + b"\nend\nmoment 9\nown"]
        for _ in range(6):
            text = 5 * whole
            for _ in range(150):
                at = drawn.randrange(len(text) + 1)
                text = text[:at] + drawn.choice(signs) + text[at + drawn.randrange(3):]
            texts.append(text[:drawn.randrange(len(whole), len(text))])
        for text in texts:
            with self.subTest(text=text[:200]):
                self.assert_same(text)

    def test_a_live_feed_is_reported_moment_by_moment(self):
        """In pieces whose borders lie anywhere: each report is out before the next moment is written."""
        moments = [f"moment {time}\nown 0 0 10000 0 3600 0\ntraffic A 3000 8000 10000 -1350 0 0\nend\n".encode() for time in range(5)]
        run = subprocess.Popen([TOOL, "--config", CONFIG], stdin=subprocess.PIPE, stdout=subprocess.PIPE)
        self.addCleanup(lambda: (run.kill(), run.wait(), run.stdin.close(), run.stdout.close()))
        wrote = b""
        for time, moment in enumerate(moments):
            for piece in (moment[:40], moment[40:-3], moment[-3:]):
                os.write(run.stdin.fileno(), piece)
            while f"\ndone {time}\n".encode() not in wrote:
                piece = os.read(run.stdout.fileno(), 65536)
                self.assertTrue(piece)
                wrote += piece
        run.stdin.close()
        self.assertEqual((run.wait(timeout=LONG), wrote), replayed(CONFIG, b"".join(moments)))

    def test_it_ends_as_the_program_does(self):
        refused = self.write("refused.toml", read(CONFIG).replace(b"turn_rate = 3", b"turn_rate = 31"))
        long = self.write("long.toml", b"#" * 65537)
        for config, status in ((refused, 3), (long, 3), (os.path.join(self.folder, "gone"), 7), (self.folder, 7), ("", 7)):
            runs = [subprocess.run([*words, "--config", config], input=b"end\n", capture_output=True, timeout=LONG) for words in ([TOOL], [program(), "replay"])]
            self.assertEqual([(it.returncode, it.stdout) for it in runs], [(status, runs[1].stdout)] * 2, config)
            self.assert_one_line(runs[0].stderr.decode(), "replay: ")

    def test_reading_and_writing_that_fail_are_told(self):
        with open(ENCOUNTER, "rb") as states, open("/dev/full", "wb") as full:
            ran = subprocess.run([TOOL, "--config", CONFIG], stdin=states, stdout=full, stderr=subprocess.PIPE, timeout=LONG)
        self.assertEqual((ran.returncode, ran.stderr), (5, b"replay: standard output could not be written (ENOSPC)\n"))
        folder = os.open(self.folder, os.O_RDONLY)
        self.addCleanup(os.close, folder)
        ran = subprocess.run([TOOL, "--config", CONFIG], stdin=folder, capture_output=True, timeout=LONG)
        self.assertEqual((ran.returncode, ran.stdout, ran.stderr), (4, b"", b"replay: standard input could not be read to its end (EISDIR)\n"))
        ours, theirs = os.pipe()
        os.close(ours)
        ran = subprocess.run([TOOL, "--config", CONFIG], input=read(ENCOUNTER), stdout=theirs, stderr=subprocess.PIPE, timeout=LONG)
        os.close(theirs)
        self.assertEqual((ran.returncode, ran.stderr), (5, b""))

    def test_words_that_are_not_taken(self):
        for words in ([], ["--config"], ["--config", "c", "more"], ["replay"], ["-h"], ["--states", "c"], ["--config=c", "--config=c"]):
            ran = subprocess.run([TOOL, *words], input=b"", capture_output=True, timeout=LONG)
            self.assertEqual((ran.returncode, ran.stdout, ran.stderr), (2, b"", b"usage: tools/replay --config FILE < STATES\n"), words)
        asked = subprocess.run([TOOL, "--help"], capture_output=True, timeout=LONG)
        self.assertEqual((asked.returncode, asked.stderr), (0, b""))
        self.assertIn(b"\n  tools/replay --config examples/three_levels.toml < examples/encounter.states\n", asked.stdout)


if __name__ == "__main__":
    unittest.main()
