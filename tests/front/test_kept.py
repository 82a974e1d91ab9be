"""When the script runs the kept program."""
import hashlib
import os
import subprocess

from checkout import Checkout, FILES, NEEDED, PROGRAM


class Kept(Checkout):
    KEPT = PROGRAM.replace("exec cat", "echo kept; exec cat").replace("printf '<%s>'", "printf 'kept <%s>'")

    def keep(self, text=KEPT, **how):
        """Keeps a program, as made of the sources as they are now."""
        self.write("built/x86-64/daidalus", text)
        os.chmod(f"{self.top}/built/x86-64/daidalus", 0o755)
        asked = subprocess.run(["bash", "-c", "source ./daidalus && sum_of_sources"], cwd=self.top, stdout=subprocess.PIPE, text=True, check=True)
        row = {"length": len(text), "sum": hashlib.sha256(text.encode()).hexdigest(), "sources": asked.stdout.strip(), **how}
        self.write("built/FILES", f"version 1.2.3\n1 2 3 built/x86-64/libdaa_c.a\n{row['length']} {row['sum']} {row['sources']} built/x86-64/daidalus\n")

    def test_the_kept_program_runs_where_the_sources_are_its_own(self):
        """At once, and also without a toolchain; a new date changes nothing."""
        self.keep()
        self.assertEqual(self.call("words", "a b"), (0, b"kept <a b>", ""))
        self.words["PATH"] = "/usr/bin:/bin"
        for path in FILES:
            os.utime(f"{self.top}/{path}")
        self.assertEqual(self.call("words", "w"), (0, b"kept <w>", ""))
        self.assertEqual(self.call(), (2, b"usage\n", self.not_taken("there is no command word")))
        self.assertEqual(self.proved(), [])

    def test_a_kept_program_is_not_run_where_a_source_is_another(self):
        """And it is again, once the source is what it was."""
        self.keep()
        self.assertEqual(self.call("words")[1], b"kept <>")
        for path in [it for it in FILES if "other" not in it]:
            self.write(path, FILES[path].replace("a", "u") + "\n" if path != "crates.txt" else FILES[path].replace("arrayvec", "itoa"))
            status, wrote, said = self.call("words")
            self.assertEqual((status, wrote), (0, b"<>"), path)
            self.assertIn("daidalus: the sources are not those of the kept program: proving and building the program first", said)
            self.assertEqual(self.call("words"), (0, b"<>", ""))
            self.write(path, FILES[path])
            self.assertEqual(self.call("words"), (0, b"kept <>", ""))
        self.write("crates/other/src/lib.rt", "other text\n")
        self.assertEqual(self.call("words"), (0, b"kept <>", ""))

    def test_changed_sources_without_rt_say_what_can_be_run_all_the_same(self):
        self.keep()
        self.change()
        self.words["PATH"] = "/usr/bin:/bin"
        ended = self.call("words")
        self.refused(ended, f"the sources are not those of the kept program, {self.NO_RT}; the program that was made from the earlier "
                     f"sources can still be run: {self.top}/built/x86-64/daidalus")
        self.assertEqual(ended[2].count("\n"), 1)

    def test_a_kept_program_that_is_not_the_listed_one_is_not_run(self):
        """Another text, a shorter one, and one that is gone."""
        self.words["PATH"] = "/usr/bin:/bin"
        other = "built/x86-64/daidalus is not the file that built/FILES lists"
        for how, why in (({"sum": "0" * 64}, other), ({"length": 7}, other), ({"sources": "0" * 64}, "the sources are not those of the kept program")):
            self.keep(**how)
            status, wrote, said = self.call("words")
            self.assertEqual((status, wrote), (70, b""))
            self.assertTrue(said.startswith(f"daidalus: {why}, {self.NO_RT}; "), said)
        self.keep()
        self.assertEqual(self.call("words")[1], b"kept <>")
        os.remove(f"{self.top}/built/x86-64/daidalus")
        self.assertIn(other, self.call("words")[2])
        self.keep()
        os.remove(f"{self.top}/built/FILES")
        self.assertIn("there is no kept program", self.call("words")[2])

    def test_a_kept_program_that_is_changed_after_it_ran_is_not_run(self):
        self.keep()
        self.assertEqual(self.call("words")[1], b"kept <>")
        was = os.stat(f"{self.top}/built/x86-64/daidalus")
        self.write("built/x86-64/daidalus", self.KEPT.replace("kept", "hurt"))
        os.utime(f"{self.top}/built/x86-64/daidalus", ns=(was.st_atime_ns, was.st_mtime_ns))
        self.words["PATH"] = "/usr/bin:/bin"
        status, wrote, said = self.call("words")
        self.assertEqual((status, wrote), (70, b""), said)

    def test_a_kept_program_that_cannot_run_names_what_can(self):
        """As where the C library is older; what the loader says is told."""
        self.keep("#!/bin/sh\necho \"daidalus: version \\`GLIBC_2.34' not found\" >&2\necho more >&2\nexit 1\n")
        self.words["PATH"] = "/usr/bin:/bin"
        self.refused(self.call("words"), "the kept program does not run here, it needs glibc 2.34 or newer and a processor of 2010 or later "
                     f"(daidalus: version `GLIBC_2.34' not found), {self.NO_RT}; tools/replay (with Node) and tools/reference (with Python) write the same bytes")

    def test_another_machine_is_told_what_runs_there(self):
        self.keep()
        for kind, processor in (("darwin23", "arm64"), ("linux-gnu", "aarch64"), ("msys", "x86_64")):
            self.words.update(OSTYPE=kind, HOSTTYPE=processor)
            self.refused(self.call("words"), f"the program is for Linux on x86-64, and this is {kind} on {processor}: tools/replay writes the same "
                         "bytes with Node, for example tools/replay --config examples/three_levels.toml < examples/encounter.states")
        self.assertEqual(self.call("--help")[0], 0)

    def test_a_checkout_that_cannot_be_written_runs_the_kept_program(self):
        self.keep()
        nobody = self.read_only()
        for _ in range(2):
            self.assertEqual(self.call("words", **nobody), (0, b"kept <>", ""))

    def test_prove_says_whether_the_kept_program_is_what_is_built(self):
        self.keep(PROGRAM)
        same = b"same: built/x86-64/daidalus is, byte for byte, what was proved and built here from these sources\n"
        status, wrote, said = self.call("--prove")
        self.assertEqual((status, wrote), (0, same), said)
        self.assertTrue(said.startswith("daidalus: proving and building the program first, "), said)
        self.assertEqual(self.proved(), sorted(NEEDED))
        self.assertEqual(self.call("--prove"), (0, same, ""))
        made = f"{self.top}/crates/daa_program/out/daa_program"
        self.keep()
        self.assertEqual(self.call("--prove"), (1, f"differs: built/x86-64/daidalus is not what was proved and built here from the same sources, {made}\n".encode(), ""))
        self.keep(sources="0" * 64)
        self.assertEqual(self.call("--prove"), (1, f"differs: the sources are not those of the kept program; what was proved and built here is {made}\n".encode(), ""))
        os.remove(f"{self.top}/built/FILES")
        self.assertEqual(self.call("--prove"), (1, f"differs: there is no kept program; what was proved and built here is {made}\n".encode(), ""))
        self.assertEqual(self.proved(), [])
        self.words["PATH"] = "/usr/bin:/bin"
        self.refused(self.call("--prove"), "there is no rt on the PATH to prove with: install the toolchain (docs/CONTRIBUTING.md), or add its folder bin to the PATH")

    def test_a_proof_that_fails_is_no_same(self):
        self.keep(PROGRAM)
        self.write("../refuse", "low")
        self.refused(self.call("--prove"), self.not_built("low is not proved: the compiler ended with 1"))
