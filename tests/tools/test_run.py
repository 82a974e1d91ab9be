"""tests/run: parts side by side, what it says of each, and what it counts. Here over stand-ins for the parts and the builds."""
import os
import re
import shutil
import subprocess
import sys
import unittest

from common import TOP, ToolTest, module

run = module("tests/run")


class Run(ToolTest):
    def setUp(self):
        super().setUp()
        for path in ("tests/run", "tests/counting.py", "tools/builds.py"):
            self.part(path, None)

    def part(self, path, script):
        """A part: a script of the shell, or one of this repository."""
        to = os.path.join(self.folder, path)
        os.makedirs(os.path.dirname(to), exist_ok=True)
        if script is None:
            shutil.copy(os.path.join(TOP, path), to)
        else:
            self.write(path, f"#!/bin/sh\n{script}\n")
            os.chmod(to, 0o755)

    def ended(self, *words, **more):
        ran = subprocess.run([sys.executable, "-B", os.path.join(self.folder, "tests/run"), *words], stdout=subprocess.PIPE, stderr=subprocess.STDOUT, text=True,
                             env={**os.environ, "DAIDALUS_BUILT": self.folder, "DAIDALUS_PROGRAM": "/bin/true", **more})
        return ran.returncode, re.sub(r"\d+ s\b", "N s", ran.stdout).splitlines()

    def test_all_parts_are_run_and_counted(self):
        self.part("tests/live_feed", "echo said; echo 3 passed, 0 failed")
        self.part("tests/page/run", "echo $1; echo 4 passed, 0 failed")
        self.part("tests/page/test_one.py", "")
        self.part("tests/page/test_two.py", "")
        status, said = self.ended()
        self.assertEqual(status, 0)
        self.assertEqual(sorted(said[:-2]), [*(f"tests/{part}: {count} passed, 0 failed (N s)" for part, count in (("live_feed", 3), ("page/run test_one", 4), ("page/run test_two", 4)))])
        self.assertEqual(said[-2:], ["all of it took N s", "11 passed, 0 failed"])
        self.assertEqual(self.ended("two")[1][-1], "4 passed, 0 failed")
        self.assertEqual(self.ended("--list"), (0, ["tests/live_feed", "tests/page/run test_one", "tests/page/run test_two"]))
        self.assertEqual(self.ended("nowhere")[0], 1)

    def test_a_part_that_fails_is_shown_and_fails_all(self):
        self.part("tests/live_feed", "echo why; echo 3 passed, 2 failed; exit 1")
        self.part("tools/made", "echo quiet; echo 1 passed, 0 failed")
        status, said = self.ended()
        self.assertEqual((status, said[-1]), (1, "4 passed, 2 failed"))
        self.assertIn("why", said)
        self.assertNotIn("quiet", said)
        for script, last in (("echo 3 passed, 0 failed; exit 1", "4 passed, 1 failed"), ("echo broken", "1 passed, 1 failed"), ("", "1 passed, 1 failed"),
                             ("echo 0 passed, 0 failed", "1 passed, 1 failed"), ("echo 3 passed, 0 failed; kill -9 $$", "4 passed, 1 failed")):
            self.part("tests/live_feed", script)
            status, said = self.ended()
            self.assertEqual((status, said[-1]), (1, last), script)
            self.assertTrue(any(line.startswith("tests/live_feed: FAILED: it ended with status ") for line in said), said)

    def test_what_is_left_out_is_summed_up_by_its_cause(self):
        for part in ("tests/live_feed", "tools/made"):
            self.part(part, "echo 'left out: 2 tests: there is no jq (Debian: jq)'; echo 'left out: 1 test: of another cause'; echo 3 passed, 0 failed")
        status, said = self.ended()
        self.assertEqual(status, 0)
        self.assertEqual(said[-3:], ["left out: 2 tests: of another cause", "left out: 4 tests: there is no jq (Debian: jq)", "6 passed, 0 failed"])

    def test_parts_go_side_by_side(self):
        """Each of two waits until the other has begun; one after the other both would wait in vain."""
        for mine, other in (("trust", "made"), ("made", "trust")):
            self.part(f"tools/{mine}", f": >begun.{mine}; for _ in $(seq 500); do [ -e begun.{other} ] && echo 1 passed, 0 failed && exit; sleep 0.02; done")
        self.assertEqual(self.ended("--jobs", "2")[1][-1], "2 passed, 0 failed")

    def test_parts_that_wait_take_no_place(self):
        """One that waits until two others have begun runs beside these, which then need no place of it; by itself it is one of one."""
        for name in ("trust", "made"):
            self.part(f"tools/{name}", f": >begun.{name}; for _ in $(seq 500); do [ -e begun.made ] && [ -e begun.trust ] && echo 1 passed, 0 failed && exit; sleep 0.02; done")
        self.part("tests/clusters", "for _ in $(seq 500); do [ -e begun.made ] && [ -e begun.trust ] && echo 1 passed, 0 failed && exit; sleep 0.02; done")
        self.assertIn("tests/clusters", run.WAITING)
        self.assertEqual(self.ended("--jobs", "2")[1][-1], "3 passed, 0 failed")

    def test_one_job_runs_one_part_after_the_other(self):
        for path in ("tools/made", "tests/clusters"):
            self.part(path, "mkdir alone && sleep 0.2 && rmdir alone && echo 1 passed, 0 failed")
        self.assertEqual(self.ended("--jobs", "1")[1][-1], "2 passed, 0 failed")

    def test_the_parts_are_told_which_builds_are_tested(self):
        self.part("tests/live_feed", 'echo "$DAIDALUS_BUILT $DAIDALUS_PROGRAM"; echo 0 passed, 1 failed; exit 1')
        self.assertIn(f"{self.folder} /bin/true", self.ended()[1])

    def test_the_parts_are_those_that_are_there(self):
        """Each script of tests/ and each module of its folders is a part, but what needs the toolchain."""
        found = {it.split()[0] for it in run.parts()}
        scripts = {f"tests/{it.name}" for it in os.scandir(f"{TOP}/tests") if it.is_file() and os.access(it.path, os.X_OK)}
        made = {"tools/made", "tools/trust"}  # they compare the pages that they make
        self.assertEqual({it for it in found if it.count("/") == 1}, scripts - {"tests/run", "tests/toolchain", "tests/page_module"} | made)
        for folder in ("tests/front", "tests/page", "tests/tools"):
            modules = {it.name.removesuffix(".py") for it in os.scandir(f"{TOP}/{folder}") if it.name.startswith("test_")}
            self.assertEqual(sorted(name for it in run.parts() if it.startswith(folder) for name in it.split()[1:]), sorted(modules))
        self.assertLessEqual({*run.WAITING, *run.LONGEST}, set(run.parts()))


if __name__ == "__main__":
    unittest.main()
