"""Deciding takes no memory: the requests for memory of runs of the program with one worker are counted. And without any it ends with 6."""
import os
import subprocess
import sys
import unittest

from common import CONFIG, ENCOUNTER, TOP, ToolTest, module, program
import counting  # (in a folder that common names)

refuse_memory = module("bench/refuse_memory")


def example(name):
    return os.path.join(TOP, "examples", name)


class Requests(ToolTest):
    def setUp(self):
        super().setUp()
        counting.need("cc")
        self.library = refuse_memory.compiled(self.folder)

    def run_program(self, words, given=b"", **environment):
        """Status and output of the program with one worker, and how often it asks for memory."""
        environment.update({"LD_PRELOAD": self.library, "REFUSE_COUNT": self.write("count", bytes(8))})
        ran = subprocess.run([program(), *words, "--workers", "1"], input=given, env=environment, capture_output=True, timeout=120)
        self.assertEqual(ran.stderr, b"")
        with open(environment["REFUSE_COUNT"], "rb") as told:
            return ran.returncode, ran.stdout, int.from_bytes(told.read(), sys.byteorder)

    def run_counted(self, *words, given=b""):
        """What the program writes, and how often it asks for memory; none is refused."""
        status, written, requests = self.run_program(words, given)
        self.assertEqual(status, 0)
        return written, requests

    def test_a_replay_of_many_moments_asks_as_often_as_one_of_none(self):
        for config, states in ((CONFIG, ENCOUNTER), (example("recovery.toml"), example("closed.states"))):
            with open(states, "rb") as file:
                given = file.read()
            nothing, at_the_opening = self.run_counted("replay", "--config", config)
            report, requests = self.run_counted("replay", "--config", config, given=given)
            self.assertEqual(nothing, b"")
            self.assertGreater(at_the_opening, 0)
            self.assertEqual(report.count(b"\ndone "), given.count(b"\nend\n"))
            self.assertEqual(requests, at_the_opening)

    def test_an_exercise_of_many_moments_asks_as_often_as_one_of_few(self):
        words = ["exercise", "--config", CONFIG, "--seed", "7", "--moments"]
        (one, few), (other, many) = self.run_counted(*words, "001"), self.run_counted(*words, "200")
        self.assertNotEqual(one, other)
        self.assertEqual(few, many)

    def test_where_the_first_request_is_refused_it_ends_with_6(self):
        with open(ENCOUNTER, "rb") as file:
            given = file.read()
        for words in (["replay"], ["judge", "--states", ENCOUNTER], ["exercise", "--seed", "7", "--moments", "1"]):
            self.assertEqual(self.run_program([*words, "--config", CONFIG], given, REFUSE_NTH="1")[:2], (6, b""), words)

    def test_whichever_request_for_the_words_is_refused_it_ends_with_6(self):
        """And not as if fewer words had been given: the list of the words grows as they come."""
        words = ["replay", "--config", CONFIG, *(["--workers", "1"] * 40)]  # (too often: that is a faulty command line, which reads nothing)
        status, usage, asked = self.run_program(words)
        self.assertEqual(status, 2)
        ended = [self.run_program(words, REFUSE_NTH=str(nth))[:2] for nth in range(1, asked + 1)]
        self.assertEqual({it for it in ended if it != (2, usage)}, {(6, b"")})
        self.assertGreater(ended.count((6, b"")), 3)

    def test_a_word_that_is_not_utf_8_is_no_want_of_memory(self):
        for words in ([b"\xff"], [b"replay", b"--config", b"\xff"], [b"replay", b"--config", os.fsencode(CONFIG), b"\xe2\x82"]):
            ran = subprocess.run([program(), *words], stdin=subprocess.DEVNULL, capture_output=True, timeout=120)
            self.assertEqual((ran.returncode, ran.stdout[:24]), (2, b"usage: daidalus replay -"), words)


if __name__ == "__main__":
    unittest.main()
