"""What the script says and does where it cannot run or build the program."""
import contextlib
import os
import pty
import shutil
import signal
import subprocess
import sys
import tempfile
import types

import checkout
from checkout import Checkout, FILES, NEEDED
from common import LONG, TOP, load

PROVE = load(f"{TOP}/tools/prove")


class Refusing(Checkout):
    def test_a_copy_of_the_script_alone_says_what_to_do(self):
        shutil.copy(checkout.SCRIPT, f"{self.place}/daidalus")
        self.refused(self.call("words", script=f"{self.place}/daidalus"),
                     "this script stands at the top of its checkout, and there is no crates.txt in "
                     f"{self.place}: call it there, or by a link to it")
        self.assertFalse(os.path.exists(f"{self.place}/crates"))

    def test_without_the_commands_that_it_begins_with_it_says_so(self):
        ran = subprocess.run(["/bin/bash", f"{self.top}/daidalus", "words"], env={**self.words, "PATH": "/nowhere"}, stdout=subprocess.PIPE, stderr=subprocess.PIPE)
        self.assertEqual((ran.returncode, ran.stdout, ran.stderr),
                         (70, b"", b"daidalus: there is no readlink or no dirname on the PATH (Debian: coreutils)\n"))

    def test_a_proof_that_fails_names_the_log(self):
        for crate in ("low", "daa_middle", "daa_program"):
            self.write("../refuse", crate)
            ended = self.call("words")
            self.refused(ended, self.not_built(f"{crate} is not proved: the compiler ended with 1"))
            self.assertNotIn("says the prover", ended[2])
        os.remove(f"{self.place}/refuse")
        self.proved()
        self.assertEqual(self.call("words")[:2], (0, b"<>"))
        self.assertEqual(self.proved(), ["daa_program"])

    def test_an_older_program_is_not_run_where_the_build_fails(self):
        self.built()
        self.write("crates/low/src/lib.rt", "wrong\n")
        self.write("../refuse", "low")
        self.refused(self.call("words"), self.not_built("low is not proved: the compiler ended with 1"))
        os.remove(f"{self.place}/refuse")
        self.write("../no_link")
        self.refused(self.call("words"), self.not_built("daa_program was not linked"))

    def test_a_script_that_cannot_prove_says_so(self):
        os.remove(f"{self.top}/tools/prove")
        self.refused(self.call("words"), self.not_built("tools/prove could not go on"))

    def test_a_source_that_changes_meanwhile_is_told(self):
        self.built()
        for crate, why in (("low", "a source of low was changed meanwhile; call again"), ("daa_program", "a source was changed meanwhile; call again")):
            self.write("../edit", crate)
            self.write("crates/low/src/lib.rt", "a new body\n")
            self.refused(self.call("words"), self.not_built(why))
            os.remove(f"{self.place}/edit")
            self.proved()
            self.assertEqual(self.call("words")[:2], (0, b"<>"))
            self.assertEqual(self.proved(), self.above("low"))

    def test_a_library_of_a_text_that_is_gone_is_proved_again(self):
        """It was made while its source was changed; then the source is as it was first."""
        self.built()
        self.write("../edit", "low")
        self.write("crates/low/src/lib.rt", "a new body\n")
        self.refused(self.call("words"), self.not_built("a source of low was changed meanwhile; call again"))
        os.remove(f"{self.place}/edit")
        self.proved()
        self.write("crates/low/src/lib.rt", FILES["crates/low/src/lib.rt"])
        self.assertEqual(self.call("words")[:2], (0, b"<>"))
        self.assertEqual(self.proved(), ["daa_program", "low"])  # (what stands between is of the first text)

    def interrupt(self, hit, crate="low"):
        self.write("../hold", crate)
        started = self.start("words", start_new_session=True)
        self.until(lambda: os.path.exists(f"{self.place}/holding") and open(f"{self.place}/holding").read().strip())
        with open(f"{self.place}/holding", encoding="utf-8") as file:
            builder = int(file.read())
        hit(started.pid)
        wrote, said = started.communicate(timeout=LONG)
        self.refused((started.returncode, wrote, said.decode()), "stopped before the program was built. Call again: "
                     "what is proved is kept, and the rest is gone on with")
        self.until(lambda: not os.path.exists(f"/proc/{builder}"))
        for name in ("hold", "holding"):
            os.remove(f"{self.place}/{name}")
        self.proved()
        self.assertEqual(self.call("words")[:2], (0, b"<>"))

    def test_a_first_call_that_is_ended_says_what_to_do(self):
        self.interrupt(lambda it: os.kill(it, signal.SIGTERM))

    def test_what_was_proved_before_an_end_is_not_proved_again(self):
        self.interrupt(lambda it: os.kill(it, signal.SIGTERM), "daa_middle")
        self.assertEqual(self.proved(), self.above("daa_middle"))

    def test_a_first_call_that_is_interrupted_says_what_to_do(self):
        self.interrupt(lambda it: os.killpg(it, signal.SIGINT))

    def test_a_signal_just_before_the_build_ends_the_call(self):
        """It comes while the script sums the sources."""
        self.hold_find()
        started = self.start("words")
        self.until(lambda: os.path.exists(f"{self.place}/looks"))
        started.send_signal(signal.SIGTERM)
        self.write("../go")
        wrote, said = started.communicate(timeout=LONG)
        self.refused((started.returncode, wrote, said.decode()), "stopped before the program was built. Call again: "
                     "what is proved is kept, and the rest is gone on with")
        self.assertNotIn("daa_program", self.proved())

    def test_a_second_call_waits_for_the_first_ones_program(self):
        self.write("../hold", "low")
        first = self.start("words", "1")
        self.until(lambda: os.path.exists(f"{self.place}/holding"))
        second = self.start("words", "2")
        self.assertEqual(second.stderr.readline(), b"daidalus: another call is building the program: waiting for it\n")
        os.remove(f"{self.place}/hold")
        self.assertEqual((first.communicate(timeout=LONG)[0], second.communicate(timeout=LONG)[0]), (b"<1>", b"<2>"))
        self.assertEqual(self.proved(), sorted(NEEDED))

    def test_a_checkout_that_cannot_be_written_says_what_to_do(self):
        """And what it says to do makes a copy in which the program is built."""
        nobody = self.read_only()
        copying = f"cp -r {self.top} COPY && chmod -R u+w COPY"
        sentence = (f"there is no kept program, and {self.top}/crates/daa_program/out cannot be written: "
                    f"call it in your own copy ({copying})")
        self.refused(self.call("words", **nobody), sentence)
        own = tempfile.mkdtemp(prefix="daidalus-own-")
        self.addCleanup(shutil.rmtree, own, ignore_errors=True)
        os.chmod(own, 0o777)
        self.assertEqual(subprocess.run(copying, shell=True, cwd=own, timeout=LONG, **nobody).returncode, 0)
        os.chmod(self.place, 0o777)  # (the stand-in for rt notes its calls there)
        built = subprocess.run([f"{own}/COPY/daidalus", "words", "built"], stdin=subprocess.DEVNULL, env=self.words, timeout=LONG,
                               stdout=subprocess.PIPE, stderr=subprocess.DEVNULL, **nobody)
        self.assertEqual((built.returncode, built.stdout), (0, b"<built>"))
        os.chmod(f"{self.top}/crates/daa_program", 0o755)
        os.mkdir(f"{self.top}/crates/daa_program/out", 0o555)
        self.refused(self.call("words", **nobody), sentence)

    def test_a_built_checkout_that_cannot_be_written_runs(self):
        self.built()
        for path in FILES:
            os.utime(f"{self.top}/{path}")
        nobody = self.read_only()
        self.assertEqual(self.call("words", **nobody), (0, b"<>", ""))

    def test_without_rt_it_says_what_to_do(self):
        self.words["PATH"] = "/usr/bin:/bin"
        self.refused(self.call("words"), f"there is no kept program, {self.NO_RT}; tools/replay (with Node) and tools/reference (with Python) write the same bytes")

    def test_without_rt_no_module_of_the_page_is_made(self):
        made = f"{self.place}/made.wasm"
        ran = subprocess.run([f"{TOP}/tools/page_module", "--to", made], env={**self.words, "PATH": "/usr/bin:/bin"}, capture_output=True)
        self.assertEqual((ran.returncode, ran.stdout, ran.stderr.decode()), (
            1, b"", "page_module: there is no rt on the PATH: install the toolchain (docs/CONTRIBUTING.md), or add its folder bin to the PATH\n"))
        self.assertFalse(os.path.exists(made))

    def test_without_rt_a_built_program_runs(self):
        self.built()
        self.words["PATH"] = "/usr/bin:/bin"
        self.assertEqual(self.call("words"), (0, b"<>", ""))

    def test_a_terminal_gets_one_line_that_is_rewritten(self):
        ours, theirs = pty.openpty()
        started = self.start("words", stderr=theirs)
        started.communicate(timeout=LONG)
        os.close(theirs)
        said = b""
        with contextlib.suppress(OSError):
            while piece := os.read(ours, 4096):
                said += piece
        os.close(ours)
        self.assertEqual(started.returncode, 0)
        self.assertRegex(said, rb"\r\x1b\[Kdaidalus: crate 4 of at most 4: daa_program, .* since \d\d:\d\d:\d\d")
        self.assertEqual(said.count(b"\n"), 3, said)

    def test_as_many_proofs_are_done_at_a_time_as_memory_and_processors_allow(self):
        for size, running, jobs in ((4500000, 0, 0), (4700000, 0, 1), (6200000, 1, 3), (7900000, 0, 3), (40000000, 0, 3), (2500000, 1, 0)):
            self.write("meminfo", f"MemTotal: 99999999 kB\nMemAvailable: {size} kB\n")
            self.assertEqual(PROVE.others(4, running, f"{self.top}/meminfo"), jobs, size)

    def test_the_first_leaves_processors_by_the_work_beside_it(self):
        """What waits for it, or is under way, counts for nothing."""
        sizes = {"first": 30, "above": 900, "small": 10, "large": 20, "huge": 270, "begun": 500}
        crates = types.SimpleNamespace(weight=sizes.get, below=lambda name: ["first"] if name == "above" else [])
        proving = types.SimpleNamespace(jobs=4, running={"begun"}, crates=crates)
        for others, beside, jobs in (([], 3, 4), (["small"], 3, 3), (["small", "large"], 3, 2), (["small", "large"], 1, 3),
                                     (["huge"], 3, 1), (["huge"], 0, 4)):
            left = ["first", "above", "begun", *others]
            self.assertEqual(PROVE.Proving.processors(proving, "first", left, beside), jobs, (others, beside))
        proving.jobs = 1
        self.assertEqual(PROVE.Proving.processors(proving, "first", ["first", "huge"], 0), 1)

    def test_an_older_python_is_told(self):
        """As Debian 11 and Ubuntu 22.04 have it; what is said is the last line of the script, too."""
        older = "import runpy, sys; sys.version_info = (3, 10, 12, 'final', 0); sys.version = '3.10.12 (main)'; "
        ran = subprocess.run(["python3", "-c", f"{older}sys.argv = ['prove', 'low']; runpy.run_path('{self.top}/tools/prove', run_name='__main__')"],
                             env=self.words, stdout=subprocess.PIPE, stderr=subprocess.PIPE)
        self.assertEqual((ran.returncode, ran.stdout, ran.stderr.decode()), (1, b"", "prove: Python 3.11 or newer is needed, and this is 3.10.12\n"))
        self.assertEqual(self.proved(), [])

    def test_what_stops_a_proof_is_told_in_a_line(self):
        """That rt fails, that the toolchain is not whole, and that a folder cannot be written."""
        def prove(**how):
            ran = subprocess.run([f"{self.top}/tools/prove", "low"], env=self.words, stdin=subprocess.DEVNULL, stdout=subprocess.PIPE, stderr=subprocess.PIPE, **how)
            self.assertEqual((ran.returncode, ran.stdout), (1, b""))
            self.assertRegex(ran.stderr.decode(), r"^prove: .*\n$")
            return ran.stderr.decode()
        os.rename(f"{self.place}/kit/KIT-ID", f"{self.place}/kit/gone")
        self.assertIn(f"{self.place}/kit/KIT-ID", prove())
        os.rename(f"{self.place}/kit/gone", f"{self.place}/kit/KIT-ID")
        self.assertIn(f"{self.top}/crates/low/out", prove(**self.read_only()))
        os.chmod(self.place, 0o755)  # (the stand-in for rt notes there that it was asked)
        os.chmod(f"{self.place}/bin", 0o755)
        os.chmod(f"{self.place}/bin/rt", 0o755)
        self.write("../bin/rt", "#!/bin/sh\nexit 3\n")
        self.assertIn("status 3", prove())
        self.write("../bin/rt", '#!/bin/sh\necho >"$PLACE/asked"\nexec sleep 60\n')
        started = self.start("low", script=f"{self.top}/tools/prove", start_new_session=True)
        self.until(lambda: os.path.exists(f"{self.place}/asked"))
        os.killpg(started.pid, signal.SIGINT)
        self.assertEqual((started.communicate(timeout=LONG / 4), started.returncode), ((b"", b""), 1))
