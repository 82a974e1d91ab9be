"""tests/counting.py: what is left out is counted in the last lines, and fails where CI is true."""
import os
import re
import subprocess
import sys
import unittest

from common import TOP, ToolTest

TESTS = """import sys, unittest
sys.path.insert(0, {folder!r})
import counting

class Some(unittest.TestCase):
    def test_passes(self): pass
    def test_lacks(self): counting.need("jq")
    def test_lacks_a_module(self):
        counting.DEBIAN_PYTHON = "/nowhere/python3"
        counting.need_module("distributed")
    def test_lacks_in_part(self):
        for _ in range(2):
            with self.subTest(): counting.need("parallel")
    def test_fails_twice(self):
        for one in range(2):
            with self.subTest(one=one): self.assertTrue(not {fails})

sys.exit(counting.run_named(sys.argv[1:]))
"""


class Counting(ToolTest):
    def ended(self, *words, fails=False, **more):
        """Status and last lines of these tests where nothing is on the PATH."""
        script = self.write("some.py", TESTS.format(folder=os.path.join(TOP, "tests"), fails=fails))
        ran = subprocess.run([sys.executable, "-B", script, *words], env={"PATH": self.folder, **more}, stdout=subprocess.PIPE, stderr=subprocess.STDOUT, text=True)
        return ran.returncode, re.findall(r"(?m)^(?:left out: |FAILED: |\d+ passed).*", ran.stdout)

    LEFT_OUT = ["left out: 1 test: there is no jq (Debian: jq)",
                "left out: 1 test: there is no module distributed of /nowhere/python3 (Debian: python3-distributed)", "left out: 2 tests: there is no parallel (Debian: parallel)"]

    def test_what_is_left_out_is_told_before_the_last_line(self):
        self.assertEqual(self.ended(), (0, [*self.LEFT_OUT, "2 passed, 0 failed"]))
        self.assertEqual(self.ended(fails=True), (1, [*self.LEFT_OUT, "1 passed, 1 failed"]))
        self.assertEqual(self.ended("passes"), (0, ["1 passed, 0 failed"]))

    def test_where_ci_is_true_it_fails(self):
        said = "FAILED: where CI is true, what is left out counts as failed"
        self.assertEqual(self.ended(CI="true"), (1, [*self.LEFT_OUT, said, "2 passed, 4 failed"]))
        self.assertEqual(self.ended("passes", CI="true"), (0, ["1 passed, 0 failed"]))
        self.assertEqual(self.ended(CI="no")[0], 0)

    def test_nothing_passed_is_a_failure(self):
        self.assertEqual(self.ended("lacks")[0], 1)

    def test_the_page_without_node_and_browser_fails_in_the_gate(self):
        run = [sys.executable, "-B", os.path.join(TOP, "tests", "page", "run"), "test_module", "test_files"]
        for environment, status in (({}, 0), ({"CI": "true"}, 1)):
            ran = subprocess.run(run, env={"PATH": self.folder, **environment}, stdout=subprocess.PIPE, stderr=subprocess.STDOUT, text=True)
            self.assertRegex(ran.stdout, r"(?m)^left out: \d+ tests: a node ")
            self.assertEqual(ran.returncode, status, ran.stdout)


if __name__ == "__main__":
    unittest.main()
