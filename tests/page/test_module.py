"""The engine's module in node, against the program, byte for byte; and the columns of the strip."""
import os
import re
import tempfile
import unittest

from nodes import HOW, NODE, in_node
from shared import EXAMPLES, RECOVERY, THREE_LEVELS, bytes_of, replayed, text_of, tool


@unittest.skipUnless(NODE, HOW)
class Module(unittest.TestCase):
    maxDiff = 2000

    def check_moments(self, config, *words):
        states = tool("moments", *words)
        self.assertEqual(in_node([["replay", bytes_of(config), states]])[0], replayed(config, states))

    def test_1000_drawn_moments(self):
        self.check_moments(THREE_LEVELS, "--seed", "7", "--moments", "1000")

    def test_1000_aimed_moments(self):
        self.check_moments(THREE_LEVELS, "--seed", "11", "--moments", "1000", "--aimed")

    def test_1000_moments_with_recoveries(self):
        self.check_moments(RECOVERY, "--seed", "23", "--moments", "1000", "--aimed")

    def test_1000_moments_under_each_model(self):
        """Of two configurations, whose levels have all four models between them, 500 each."""
        text = bytes_of(RECOVERY).replace(b"tcpa = 0\n", b"")
        for models in ((b"tep = 1\n", b"", b"tcpa = 1\n"), (b"tcpa = 1\n", b"tep = 1\n", b"tau = 1\n")):
            head, *levels = text.split(b"[[level]]\n")
            self.assertEqual(len(levels), len(models))
            with tempfile.NamedTemporaryFile(suffix=".toml") as file:
                file.write(head + b"".join(b"[[level]]\n" + model + level for model, level in zip(models, levels)))
                file.flush()
                self.check_moments(file.name, "--seed", "29", "--moments", "500", "--aimed")

    def test_300_moments_with_last_times(self):
        """With recoveries, which come after them."""
        with tempfile.NamedTemporaryFile(suffix=".toml") as file:
            file.write(b"last_times = 1\n" + bytes_of(RECOVERY))
            file.flush()
            self.check_moments(file.name, "--seed", "37", "--moments", "300", "--aimed")

    def test_after_a_trap_the_instance_is_made_anew(self):
        states = bytes_of(os.path.join(EXAMPLES, "closed.states"))
        answer = in_node([["trap", bytes_of(RECOVERY), states]])[0]
        self.assertEqual(answer, ["Stopped", replayed(RECOVERY, states)])

    def test_the_longest_report_has_room(self):
        most = int(re.search(r"DAA_MOST_TEXT (\d+)", text_of(os.path.join(os.path.dirname(EXAMPLES), "crates/daa_c/include/daidalus.h")))[1])
        self.assertGreaterEqual(in_node([["room", bytes_of(RECOVERY), bytes_of(os.path.join(EXAMPLES, "closed.states"))]])[0], most)

    def test_a_fault_names_its_number(self):
        found = in_node([["named", bytes_of(RECOVERY), bytes_of(os.path.join(EXAMPLES, "closed.states"))]])[0]
        self.assertEqual(found, [[name, name] for name in ("x", "y", "alt", "trk", "gs", "vs", "x", "y", "alt", "vx", "vy", "vs", "age")])

    def strip(self, levels, times=None):
        """How often each paint of a level stands in the strip, how many open tracks are marked, and the columns."""
        fills, columns = in_node([["strip", levels, times]])[0]
        count = lambda paint: sum(fill[0] == paint for fill in fills)
        return {paint: count(paint) for paint in ("level1", "level2", "level3", "level4") if count(paint)}, count("open"), columns

    def test_a_column_of_the_strip_has_the_greatest_level(self):
        """Of 601 moments two share a column, and the last has one of its own: each has a box, and its tracks in two parts."""
        for levels in ([3, 0] * 300 + [3], [0, 3] * 300 + [3], [3, 2] * 300 + [3]):
            self.assertEqual(self.strip(levels)[:2], ({"level3": 301 * (1 + 2)}, 0))

    def test_a_column_of_the_strip_has_as_open_what_is_open_in_all(self):
        """Of 602 moments two share a column; in the first column both are open, in the second and the third one is."""
        self.assertEqual(self.strip([0, 0, 0, 3, 3, 0] + [3] * 596)[1], 1)

    def test_200000_moments_have_a_strip(self):
        """Of 334 moments a column, the first of which alone has a level: a box, and its tracks in two parts."""
        self.assertEqual(self.strip([3] + [0] * 199999)[:2], ({"level3": 1 + 2}, 200000 // 334))

    def test_a_column_of_the_strip_covers_no_gap(self):
        """Of 601 moments two share a column, but not the two with 9700 seconds between them."""
        *_, columns = self.strip([0] * 601, [*range(301), *range(10000, 10300)])
        self.assertEqual(len(columns), 301)
        before, after = columns[150:152]
        self.assertTrue(before[0] < 306 and before[1] < 312 and after[0] > 9990, (before, after))

    def test_a_gap_that_cannot_be_seen_ends_no_column(self):
        """Of 6000 moments, in pairs a second apart and 11 seconds from pair to pair, ten share a column of 912 / 600 points."""
        *_, columns = self.strip([0] * 6000, [11 * pair + second for pair in range(3000) for second in (0, 1)])
        self.assertEqual(len(columns), 600)

    def test_the_last_column_of_the_strip_is_as_long_as_the_median_step(self):
        """Of moments at 0, 1, 11, 21 and 31 seconds: to 41, and not to 32."""
        *_, columns = self.strip([0] * 5, [0, 1, 11, 21, 31])
        self.assertEqual([round(end) for end in columns[-1]], [31, 41])
