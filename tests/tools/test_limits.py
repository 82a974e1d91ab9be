"""What the tools must not let pass: each test fails where one place of a tool is wrong, and no other test sees that place."""
import os
import resource
import subprocess
import sys
import unittest

from common import CONFIG, TOP, ToolTest
from test_from_daa import HEAD, PLANE
from test_reports import REPORT

OWN = "own 0 0 5000 0 100 0 0\n"
# Of an ownship's altitude (feet), ground speed (knots) and vertical speed (feet a minute): what is taken, and what is not.
LIMITS = {
    "own 0 0 {} 0 100 0": ((-2000, 60000), (-2001, 60001)),
    "own 0 0 5000 0 {} 0": ((0, 1000), (1000.1,)),
    "own 0 0 5000 0 100 {}": ((-10000, 10000), (-10001, 10001)),
}


class FromDaa(ToolTest):
    def made(self, recording, wanted=0):
        """The lines that are made of a recording, without comments, and what is said."""
        status, out, said = self.tool("from_daa", self.write("in.daa", recording))
        self.assertEqual(status, wanted, said)
        return [line for line in out.splitlines() if not line.startswith("#")], said

    def test_the_place_is_at_the_end_of_the_geodesic(self):
        """By Vincenty's formulas: 29.216 NM east and 60.384 NM north, and the meridians converge by 0.870 degrees; the middle latitude's cosine
        alone gives 29.545 NM and 60 NM."""
        lines, _ = self.made(HEAD + "own 60 10 5000 0 100 0 0\nA 61 11 5000 0 100 0 0\n")
        self.assertEqual(lines[2], "traffic A 29216 60384 5000 -15 1000 0")

    def test_sixty_four_aircraft_are_written_and_no_more(self):
        aircraft = [f"T{number} {number / 10} 1 5000 0 100 0 0\n" for number in range(1, 66)]
        lines, said = self.made(PLANE + OWN + "".join(aircraft[:64]))
        self.assertEqual(sum(line.startswith("traffic ") for line in lines), 64)
        self.assertNotIn("left out", said)
        lines, said = self.made(PLANE + OWN + "".join(aircraft))
        self.assertEqual([line.split()[1] for line in lines if line.startswith("traffic ")], [f"T{number}" for number in range(1, 65)])
        self.assertIn("left out: 1 aircraft out of range, or more than there may be", said)
        self.assertEqual(self.tool("check", CONFIG, self.write("in.states", "\n".join(lines) + "\n"))[:2], (0, ""))

    def test_an_ownship_out_of_range_makes_no_moment(self):
        """The greatest and the least of each number are written, and what is one more or one less is not."""
        for own in ("own 0 0 {} 0 100 0", "own 0 0 5000 0 {} 0", "own 0 0 5000 0 100 {}"):
            inside, outside = LIMITS[own]
            for number in inside:
                lines, said = self.made(PLANE + f"{own.format(number)} 0\n")
                self.assertEqual((lines[0], len(lines)), ("moment 0", 3), number)
                self.assertNotIn("left out", said)
            for number in outside:
                lines, said = self.made(PLANE + f"{own.format(number)} 0\n", 3)
                self.assertEqual(lines, [], number)
                self.assertIn("left out: 1 moment whose ownship is out of range", said)
                self.assertIn(": no moment is left\n", said)

    def test_the_closest_approach_is_looked_for_within_an_hour(self):
        """From 150 NM at 100.04 knots, written 100: after an hour they are 50 and 49.96 NM away; after one and a half, at the same place."""
        _, said = self.made(PLANE + "own 0 0 5000 0 0 0 0\nA 0 150 5000 0 -100.04 0 0\n")
        self.assertIn("distance at the closest approach 0.0400 NM", said)


class Compare(ToolTest):
    def test_a_report_that_was_cut_after_the_same_moments_differs(self):
        whole, cut = self.write("a.report", REPORT), self.write("b.report", REPORT + "moment 20\nnow A 1\n")
        for words in ((whole, cut), (cut, whole)):
            status, out, said = self.tool("compare", *words)
            self.assertEqual(status, 1)
            self.assertNotRegex(out, r"[1-9]\d* of \d+ differ")
            self.assert_one_line(said, "the report ends within a moment")
        self.assertEqual(self.tool("compare", cut, cut)[0], 0)


class Check(ToolTest):
    def test_a_refused_configuration_comes_before_refused_states(self):
        bad, states = self.write("c.toml", "x = 1\n"), self.write("in.states", "moment x\n")
        status, out, _ = self.tool("check", bad, states)
        self.assertEqual(status, 3)
        self.assertRegex(out, r"(?m)^.*c\.toml: config 3: x is no key")
        self.assertRegex(out, r"(?m)^.*in\.states:1: refused 4: ")
        self.assertEqual(self.tool("check", bad)[0], 3)
        self.assertEqual(self.tool("check", CONFIG, states)[0], 1)


class Endless(ToolTest):
    """A file without an end: a configuration is read until it is too long, as the program does, and all else until memory ends."""

    def ran(self, name, *words):
        """Status, standard output and standard error of a tool that may take half a gigabyte."""
        limited = lambda: resource.setrlimit(resource.RLIMIT_AS, (2**29, 2**29))
        run = subprocess.run([sys.executable, "-B", os.path.join(TOP, "tools", name), *words], preexec_fn=limited, stdin=subprocess.DEVNULL,
                             capture_output=True, text=True, timeout=120)
        return run.returncode, run.stdout, run.stderr

    def test_a_configuration_without_an_end_is_too_long(self):
        said = "/dev/zero: config 1: the text has more than 65536 bytes\n"
        self.assertEqual(self.ran("check", "/dev/zero"), (3, said, ""))
        for name in ("reference", "volume"):
            self.assertEqual(self.ran(name, "/dev/zero"), (3, "", f"{name}: {said}"))

    def test_what_does_not_fit_into_memory_is_told_in_a_line(self):
        for name, *words in (("check", CONFIG), ("reference", CONFIG), ("from_daa",), ("from_parameters",)):
            self.assertEqual(self.ran(name, *words, "/dev/zero"), (7, "", f"{name}: what is read does not fit into memory\n"))


if __name__ == "__main__":
    unittest.main()
