"""The same bytes with every number of workers, over inputs that make batches of every sort, and over pieces of every size."""
import fcntl
import os
import re
import struct
import subprocess
import sys
import termios
import unittest

from common import CONFIG, TOP, ToolTest, program


def run(workers, states, config=CONFIG, *words):
    ran = subprocess.run([program(), "replay", "--config", config, "--workers", str(workers), *words], input=states,
                         capture_output=True, timeout=300)
    return ran.returncode, ran.stdout


def drawn(moments, *words):
    return subprocess.run([sys.executable, "-B", os.path.join(TOP, "tools/moments"), "--seed", "5", "--moments", str(moments), *words],
                          capture_output=True, check=True).stdout


def crowded(moments, aircraft):
    """Moments of many aircraft, among them each moment of one: their texts fill sheets."""
    lines = []
    for time in range(moments):
        lines += [f"moment {time}", "own 0 0 10000 0 3600 0"]
        lines += [f"traffic A{number} {3000 + 90 * number} {8000 - 200 * number} 10000 -1350 {time % 50} 0"
                  for number in range(aircraft if time % 3 else 1)]
        lines += ["end"]
    return "\n".join([*lines, ""]).encode()


def refused(states):
    """The same lines with every ninth one spoilt."""
    lines = states.split(b"\n")
    return b"\n".join(line + b" x" if number % 9 == 4 else line for number, line in enumerate(lines))


class Workers(ToolTest):
    def look_at(self, states, config=CONFIG, *words):
        alone = run(1, states, config, *words)
        self.assertGreater(len(alone[1]), 100_000)
        for workers in (2, 3, 4, 16):
            with self.subTest(workers=workers):
                self.assertTrue(run(workers, states, config, *words) == alone, "other bytes, or another status")

    def test_drawn_moments(self):
        self.look_at(drawn(3000))

    def test_pieces_read_ahead(self):
        self.look_at(drawn(600, "--aimed"), CONFIG, "--ahead", "64")

    def test_moments_whose_texts_fill_sheets(self):
        """Tracks in steps of a degree: a moment's text is long, and those of a batch are more than the sheets of all workers."""
        with open(CONFIG, encoding="utf-8") as file:
            text = re.sub(r"(?m)^track_step = \d+", "track_step = 1", file.read())
        self.look_at(crowded(1500, 64), self.write("fine.toml", text))

    def test_refused_lines_among_moments(self):
        self.look_at(refused(drawn(2000)))


# One level, and candidates to the four quarters and to the present speed, vertical speed and altitude.
QUARTERS = """resolve = 1
turn_rate = 3
track_step = 90
gs = { min = 3600, max = 3600, step = 1, rate = 10 }
vs = { min = 0, max = 0, step = 1, rate = 100 }
alt = { min = 1000, max = 1000, step = 1, rate = 1000 }
level = [ { dthr = 660, zthr = 450, tthr = 35, tcoa = 0, lookahead = 10, alert = 10 } ]
"""

# An aircraft at the ownship's place, which flies as it does: each candidate violates the level.
TOGETHER = b"moment 0\nown 0 0 1000 0 3600 0\ntraffic A 0 0 1000 0 3600 0\nend\n"
TEXT = b"""moment 0
now A 1
alert A 1 0
track 0 270 1
gs 3600 3600 1
vs 0 0 1
alt 1000 1000 1
resolve track left none right none
resolve gs down none up none
resolve vs down none up none
resolve alt down none up none
done 0
"""

# An input, its status and its report: worked out from docs/FORMATS.md.
HOSTILE = [
    (TOGETHER, 0, TEXT),
    (TOGETHER.replace(b"\n", b"\r\n"), 0, TEXT),
    (TOGETHER[:-1], 0, TEXT),
    (b"\0\n", 1, b"refused 1 2\n"),
    (b"\xff\n", 1, b"refused 1 2\n"),
    (b"\r\n", 0, b""),
    (b"\r\r\n", 1, b"refused 1 2\n"),
    (254 * b"a" + b"\r\n", 1, b"refused 1 2\n"),
    (255 * b"a" + b"\r\n", 1, b"refused 1 1\n"),
    (300 * b"a", 1, b"refused 1 1\n"),
    (b"moment 4294967296\nmoment -1\nmoment 99999999999\nmoment + 1\n", 1, b"refused 1 6\nrefused 2 6\nrefused 3 4\nrefused 4 3\n"),
    (b"moment -0\n", 1, b"refused 2 14\n"),
    (b"moment 1\nmoment x", 1, b"refused 2 4\nrefused 3 14\n"),
    (b"end\r", 1, b"refused 1 7\n"),
    (TOGETHER[:-4] + b"own 0 0 0 0 0 0\ntraffic A 9 9 9 9 9 9\n" + TOGETHER[-4:], 1, b"refused 4 10\nrefused 5 11\n" + TEXT),
    (b"moment 0\nend\n" + TOGETHER[9:], 1, b"refused 2 13\n" + TEXT),
]


def left(pipe):
    """How many bytes of a pipe are not read yet."""
    return struct.unpack("i", fcntl.ioctl(pipe, termios.FIONREAD, b"\0\0\0\0"))[0]


def fed(workers, states, config, size):
    """Status and report, where each read gives one piece of so many bytes: the next one comes once that was read."""
    words = [program(), "replay", "--config", config, "--workers", str(workers)]
    with subprocess.Popen(words, stdin=subprocess.PIPE, stdout=subprocess.PIPE, bufsize=0) as running:
        for at in range(0, len(states), size):
            running.stdin.write(states[at:at + size])
            while left(running.stdin) and running.poll() is None:
                os.sched_yield()
        running.stdin.close()
        report = running.stdout.read()
        return running.wait(timeout=60), report


class Pieces(ToolTest):
    def test_hostile_lines_in_pieces_of_every_size(self):
        config = self.write("quarters.toml", QUARTERS)
        for workers in (1, 3, 4, 16):
            for size in (1, 7, 64, 255, 256, 257, 4096):
                for states, status, report in HOSTILE:
                    with self.subTest(workers=workers, size=size, states=states[:60]):
                        self.assertEqual(fed(workers, states, config, size), (status, report))

    def test_an_exercise_counts_each_candidate_once(self):
        """100 moments of 72 tracks, 66 ground speeds, 101 vertical speeds and altitudes."""
        told = set()
        for workers in (1, 3, 4, 16, 16):
            words = [program(), "exercise", "--config", CONFIG, "--seed", "7", "--moments", "100", "--workers", str(workers)]
            told.add(subprocess.run(words, capture_output=True, check=True, timeout=60).stdout)
        self.assertEqual(len(told), 1)
        sums = {line.split()[0]: sum(map(int, line.split()[1:])) for line in told.pop().decode().splitlines() if line.count(" ") == 4}
        aircraft = sums.pop("alert")
        self.assertEqual(sums, {"track": 7200, "gs": 6600, "vs": 10100, "alt": 10100})
        self.assertGreater(aircraft, 100)


if __name__ == "__main__":
    unittest.main()
