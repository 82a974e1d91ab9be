"""What .ci/run makes of what its parts say, over stand-ins for them."""
import os
import re
import shutil
import subprocess
import tempfile
import unittest

from checkout import FILES
from common import LONG, text_of

PART = "#!/usr/bin/env python3\nprint('1 passed, 0 failed')\n"


class Gate(unittest.TestCase):
    """What .ci/run makes of what its parts say: rt ci, and scripts that are executable or python3's."""

    def setUp(self):
        self.place = tempfile.mkdtemp(prefix="daidalus-gate-")
        self.addCleanup(shutil.rmtree, self.place, ignore_errors=True)
        gate = text_of(".ci/run")
        self.scripts = [it for line in re.findall("^part (.*)$", gate, re.M) for it in line.split() if "/" in it]
        self.write(".ci/packages", "#!/bin/sh\n")
        self.write("built/FILES", "")
        self.write(".ci/run", gate)
        self.write("daidalus", text_of("daidalus"))
        self.write("crates.txt", FILES["crates.txt"])
        for script in self.scripts:
            self.write(script, PART)
        self.write("tools/prove", "#!/bin/sh\n")

    def write(self, path, text):
        os.makedirs(os.path.dirname(f"{self.place}/{path}"), exist_ok=True)
        with open(f"{self.place}/{path}", "w", encoding="utf-8") as file:
            file.write(text)
        os.chmod(f"{self.place}/{path}", 0o755)

    def run_gate(self, rt, **more):
        self.write("bin/rt", f"#!/bin/sh\n{rt}\n")
        words = {**os.environ, **more, "PATH": f"{self.place}/bin:{os.environ['PATH']}"}
        how = {"cwd": self.place, "stdin": subprocess.DEVNULL, "stdout": subprocess.PIPE, "stderr": subprocess.STDOUT}
        ran = subprocess.run(["bash", ".ci/run"], env=words, timeout=LONG, **how)
        lines = ran.stdout.decode().split("\n")
        self.assertEqual(lines[-1], "", "the last line has no end")
        # (no other line can be taken for it)
        self.assertEqual(sum(bool(re.fullmatch(r"\d+ passed, \d+ failed", it)) for it in lines), 1, lines)
        return ran.returncode == 0, lines[-2]

    def test_the_last_line_counts_all_parts(self):
        self.assertEqual(self.scripts, ["tests/toolchain", "tests/page_module", "tools/build", ".ci/fresh"])
        count = len(self.scripts)
        self.assertEqual(self.run_gate("echo 5 passed, 0 failed"), (True, f"{5 + count} passed, 0 failed"))
        self.assertEqual(self.run_gate("echo 5 passed, 2 failed; exit 1"), (False, f"{5 + count} passed, 2 failed"))

    def test_each_part_can_fail_it(self):
        count = len(self.scripts)
        for script in self.scripts:
            self.write(script, PART.replace("1 passed, 0 failed", "3 passed, 4 failed"))
            self.assertEqual(self.run_gate("echo 5 passed, 0 failed"), (False, f"{7 + count} passed, 4 failed"))
            self.write(script, PART)

    def test_a_part_that_counts_nothing_or_ends_otherwise_has_failed(self):
        count = len(self.scripts)
        for rt, passed in (("echo broken", 0), ("echo 0 passed, 0 failed", 0), ("echo 5 passed, 0 failed; exit 1", 5), ("exit 2", 0)):
            self.assertEqual(self.run_gate(rt), (False, f"{passed + count} passed, 1 failed"), rt)
        self.write("tests/toolchain", "#!/bin/sh\n")
        self.assertEqual(self.run_gate("echo 5 passed, 0 failed"), (False, f"{4 + count} passed, 1 failed"))

    def test_what_is_left_out_fails_it(self):
        """Each part is told that it runs in the gate."""
        count = len(self.scripts)
        for script in self.scripts:
            self.write(script, "#!/usr/bin/env python3\nimport os\nprint('1 passed,', int(os.environ.get('CI') != 'true'), 'failed')\n")
        self.assertEqual(self.run_gate("echo 5 passed, 0 failed", CI="no"), (True, f"{5 + count} passed, 0 failed"))

    def test_the_program_that_the_gate_built_needs_no_other_build(self):
        made = "mkdir -p crates/daa_program/out; cp daidalus crates/daa_program/out/daa_program; echo 5 passed, 0 failed"
        self.assertTrue(self.run_gate(made)[0])
        asked = subprocess.run(["bash", "-c", "source ./daidalus && find_program"], cwd=self.place)
        self.assertEqual(asked.returncode, 0)

    def test_fresh_runs_what_the_readme_shows_in_a_clone_of_what_is_committed(self):
        """A command that fails, says a word or writes nothing, and tests that fail, fail it; the tests' counts are taken over."""
        self.write(".ci/fresh", text_of(".ci/fresh"))
        self.write("README.md", "    ./daidalus replay < x\n\n    tests/run\n")
        self.write("x", "moment 0\n")
        good = "#!/bin/sh\necho moment 0\n"
        tests = '#!/bin/sh\n[ "$PATH" = /usr/bin:/bin ] && [ ! -e lost ] && echo 7 passed, 0 failed\n'
        for script, test, ended in ((good, tests, (0, "8 passed, 0 failed")), (good + "echo word >&2\n", tests, (1, "7 passed, 1 failed")),
                                    (good + "exit 1\n", tests, (1, "7 passed, 1 failed")), ("#!/bin/sh\n", tests, (1, "7 passed, 1 failed")),
                                    (good, "#!/bin/sh\necho 7 passed, 2 failed\nexit 1\n", (1, "8 passed, 2 failed")), (good, "#!/bin/sh\n", (1, "1 passed, 1 failed"))):
            self.write("daidalus", script)
            self.write("tests/run", test)
            subprocess.run("rm -rf .git && git init -q . && git add -A && git -c user.name=x -c user.email=x commit -qm x", shell=True, cwd=self.place, check=True)
            self.write("lost", "this is not committed\n")
            ran = subprocess.run([f"{self.place}/.ci/fresh"], stdout=subprocess.PIPE, stderr=subprocess.STDOUT, text=True)
            self.assertEqual((ran.returncode, ran.stdout.splitlines()[-1]), ended, ran.stdout)
            os.remove(f"{self.place}/lost")

    def test_what_the_gate_has_proved_is_taken_over(self):
        self.write("tools/prove", text_of("tools/prove"))
        self.write("kit/KIT-ID", "a toolchain\n")
        self.write("crates.txt", "low: thiserror # the lowest\nhigh: low\ntop staticlib: high arrayvec\n")
        for name in ("low", "high", "top"):
            self.write(f"crates/{name}/src/lib.rt", f"{name}\n")
        for name in ("low", "high"):
            self.write(f"crates/{name}/out/rlib/{name}.rlib/format", "")
        self.assertTrue(self.run_gate(f'[ "$1" = doc ] && echo {self.place}/kit/START-HERE.md || echo 5 passed, 0 failed')[0])
        self.write("kit/bin/rattle", '#!/bin/sh\necho "rattle $*"\n')
        self.assertEqual(self.prove("top", "--target", "other", "--jobs", "3"), [
            "== top",
            "rattle build src/lib.rt --crate-name top --links top= --extern std=kit/rlibs/std.rlib "
            "--extern high=crates/high/out/proved/high.rlib --extern arrayvec=kit/rlibs/arrayvec.rlib -L dependency=kit/rlibs "
            "-L dependency=crates/low/out/proved -L dependency=crates/high/out/proved "
            "--antt-project kit/rattle/logic/antt-project.json --logic-built kit/logic_built --toolchain kit/toolchain --backend llvm "
            "--incremental out/proved/incremental --crate-type staticlib --target other --jobs 3 -o crates/top/out/proved/other/libtop.a",
            "proved top"])
        os.rename(f"{self.place}/bin/rt", f"{self.place}/bin/gone")
        self.assertEqual(self.prove("top"), ["prove: there is no rt on the PATH: install the toolchain (docs/CONTRIBUTING.md), or add its folder bin to the PATH"])
        os.rename(f"{self.place}/bin/gone", f"{self.place}/bin/rt")
        # a library that another command of rt made has the proofs in it
        self.write("crates/high/out/rlib/stamp", "")
        self.assertEqual(self.prove("--take"), ["1 libraries are those of rt ci"])
        self.write("crates/low/src/lib.rt", "other text\n")
        self.assertEqual([it for it in self.prove("top") if it.startswith("proved")], ["proved low", "proved high", "proved top"])

    def prove(self, *words):
        """What tools/prove writes."""
        words = ["tools/prove", *words]
        environment = {**os.environ, "PATH": f"{self.place}/bin:/usr/bin:/bin"}
        ran = subprocess.run(words, cwd=self.place, env=environment, stdout=subprocess.PIPE, stderr=subprocess.STDOUT)
        return ran.stdout.decode().replace(f"{os.path.realpath(self.place)}/", "").splitlines()
