"""bench/worst: what it draws is accepted, its search keeps what takes longer, and the least stack is found."""
import os
import random
import tempfile
import unittest
from types import SimpleNamespace
from unittest import mock

from common import module
from daidalus_files import MODELS, Moment, Reader, config_of, examine_config

worst = module("bench/worst")


def drawn_moments(recovery, last_times=False, count=160):
    """A drawn moment, changed again and again, and drawn anew at times."""
    drawn = random.Random(5)
    for number in range(count):
        draw = (worst.draw_moment, worst.draw_grazing, worst.draw_closed, worst.draw_late)[number // 10 % 4]
        moment = worst.changed(drawn, moment) if number % 10 else draw(drawn, recovery, last_times)
        yield moment


class Moments(unittest.TestCase):
    def test_each_configuration_is_accepted_and_has_all_candidates(self):
        for recovery, last_times in ((False, False), (True, False), (False, True), (True, True)):
            for moment in drawn_moments(recovery, last_times):
                document, faults = examine_config(worst.config_text(moment["config"]).encode())
                self.assertEqual(faults, [])
                config = config_of(document)
                self.assertEqual(1 + sum(map(len, config.values.values())), 1897)
                self.assertEqual((config.recovery is not None, config.last_times, len(config.levels)), (recovery, int(last_times), 4))

    def test_each_model_is_drawn(self):
        """And changed ones have each model too."""
        for drawn in (list(drawn_moments(False))[::10], list(drawn_moments(False))):
            levels = [config_of(examine_config(worst.config_text(moment["config"]).encode())[0]).levels for moment in drawn]
            self.assertEqual({level.model for each in levels for level in each}, set(MODELS))

    def test_each_picture_is_accepted_and_has_all_aircraft(self):
        for moment in drawn_moments(False):
            events = Reader().read(f"format 2\nmoment 0\n{worst.moment_lines(moment)}".encode())
            self.assertEqual([type(it) for it in events], [Moment], events)
            self.assertEqual(len(events[0].traffic), 64)

    def test_a_change_changes_its_moment_and_no_other(self):
        drawn = random.Random(6)
        moment = worst.draw_moment(drawn, True, False)
        text = worst.config_text(moment["config"]) + worst.moment_lines(moment)
        others = [worst.changed(drawn, moment) for _ in range(200)]
        texts = {worst.config_text(other["config"]) + worst.moment_lines(other) for other in others}
        self.assertEqual(worst.config_text(moment["config"]) + worst.moment_lines(moment), text)
        self.assertGreater(len(texts), 150)


class Search(unittest.TestCase):
    """Over times that are made up: a moment takes longer, the nearer the ownship's altitude is to 12345 feet."""

    def seconds(self, config, lines, guess):
        self.asked.append(config + lines)
        return 1 / (1 + abs(int(lines.split()[3]) - 12345))

    def search(self, seed, tries, exact=True):
        self.asked = []
        given = SimpleNamespace(seed=seed, tries=tries, minutes=1, recovery=False, last_times=False)
        return worst.Search(given, self.seconds, exact, str).search()

    def test_finds_what_takes_longest(self):
        took, moment = self.search(1, 800)
        self.assertLess(abs(moment["own"][2] - 12345), 100)
        self.assertEqual(took, 1 / (1 + abs(moment["own"][2] - 12345)))
        self.assertGreaterEqual(took, max(map(lambda text: 1 / (1 + abs(int(text.split("own ")[1].split()[2]) - 12345)), self.asked)) / 1.03)

    def test_the_same_seed_and_times_give_the_same_search(self):
        first, asked = self.search(2, 300), self.asked
        self.assertEqual((self.search(2, 300), self.asked), (first, asked))
        self.assertNotEqual(self.search(3, 300), first)

    def test_ends_after_its_tries(self):
        for tries, exact in ((1, True), (50, True), (50, False)):
            self.search(1, tries, exact)
            self.assertLessEqual(tries, len(self.asked))
            self.assertLessEqual(len(self.asked), tries if exact else tries + 11)

    def test_a_time_is_taken_again_before_it_is_kept(self):
        """Here each first look at a moment is too long by far, as on a machine with other work."""
        seconds = self.seconds
        seen = set()

        def slow_at_first(config, lines, guess):
            first = config + lines not in seen
            seen.add(config + lines)
            return seconds(config, lines, guess) * (1000 if first else 1)

        self.seconds = slow_at_first
        took, moment = self.search(1, 800, exact=False)
        self.assertLess(took, 1.1)
        self.assertLess(abs(moment["own"][2] - 12345), 100)


class Stack(unittest.TestCase):
    def test_the_least_that_ends_well(self):
        for least in (5, 100, 8192):
            self.assertEqual(worst.least_stack(lambda size: size >= least, 4, 8192), least)


class Goals(unittest.TestCase):
    def test_a_comment_asks_for_nothing(self):
        for text, wanted in (("# recovery = 1\n# last_times = 1\n", (False, False)), ("[recovery]\nlast_times = 1\n", (True, True)),
                             ("recovery = { hdist = 20, vdist = 30 }\nlast_times = 0\n", (True, False))):
            self.assertEqual((worst.asks(text, r"\[?recovery\b"), worst.asks(text, "last_times *= *1")), wanted)

    def test_states_without_a_moment_are_told(self):
        with tempfile.TemporaryDirectory() as folder:
            for name, text in (("worst.toml", ""), ("worst.states", "format 2\n")):
                with open(os.path.join(folder, name), "w", encoding="ascii") as file:
                    file.write(text)
            with mock.patch("sys.argv", ["worst", "--measure", folder]), mock.patch.object(worst, "built_program", lambda _: "true"):
                with self.assertRaises(SystemExit) as ended:
                    worst.main()
        self.assertEqual(ended.exception.code, f"bench/worst: {folder}: no moment ends in it")


class Calls(unittest.TestCase):
    def test_the_program_has_the_moments_numbers(self):
        moment = next(iter(Reader().read(b"moment 0\nown 1 2 3 4 5 6\ntraffic AB -7 8 9 10 11 12\nend\n")))
        text = worst.source_of_calls(b"gs", moment)
        for part in ("text[] = { 103, 115 };", "own = { 1, 2, 3, 4, 5, 6 };", 'traffic[] = { {"AB", -7, 8, 9, 10, 11, 12, 0} };'):
            self.assertIn(part, text)
        self.assertNotIn("@", text)

    def test_the_archives_are_those_that_the_documents_make(self):
        with tempfile.TemporaryDirectory() as folder:
            paths = [os.path.join(folder, name) for name in ("libdaa_c.a", "libdaa_toml.a")]
            for path in paths:
                with self.assertRaises(SystemExit) as ended:
                    worst.archives_in(folder)
                self.assertEqual(str(ended.exception), f"bench/worst: there is no {path}: tools/build makes it")
                with open(path, "wb"):
                    pass
            self.assertEqual(worst.archives_in(folder), paths)

    def test_without_archives_nothing_is_measured(self):
        with mock.patch.dict("os.environ", {"DAIDALUS_BUILT": "/nowhere"}), mock.patch("sys.argv", ["worst", "--measure", "nothing", "--calls", "--program", "/bin/true"]):
            with self.assertRaises(SystemExit) as ended:
                worst.main()
        self.assertEqual(str(ended.exception), "bench/worst: there is no /nowhere/x86-64/libdaa_c.a: tools/build makes it")


if __name__ == "__main__":
    unittest.main()
