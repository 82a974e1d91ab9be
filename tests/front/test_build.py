"""What tools/build makes and compares."""
import hashlib
import os
import shutil
import subprocess
import sys

import builds
from checkout import AR, COMPILER, Checkout, FILES, LINKER, PROGRAM, TO_FILE
from common import TOP, text_of


class Build(Checkout):
    KEPT_FILES = ("built/x86-64/daidalus", "built/x86-64/libdaa_c.a", "built/x86-64/libdaa_toml.a", "built/x86-64/libdaidalus.so",
                  "built/aarch64/libdaa_c.a", "built/aarch64/libdaa_toml.a", "page/engine.wasm.js")

    def make(self, *words, fails=False):
        """Calls tools/build in the checkout, with stand-ins for the toolchain's other programs: what it writes, and what it says at last."""
        if not os.path.exists(f"{self.top}/tools/build"):
            for name in ("build", "builds.py", "page_module"):
                shutil.copy(f"{TOP}/tools/{name}", f"{self.top}/tools/{name}")
            self.write("examples/c/heap.c", text_of("examples/c/heap.c"))
            self.write("crates/daa_c/include/daidalus.h", "#define DAA_VERSION 20304\n")
            self.write("crates.txt", FILES["crates.txt"] + "daa_c staticlib: low\ndaa_toml staticlib: beside\ndaa_web staticlib: other\n")
            for name in ("daa_c", "daa_toml", "daa_web"):
                self.write(f"crates/{name}/src/lib.rt", f"{name}\n")
            for name, text in (("llvm-ar", AR), ("clang", TO_FILE), ("ld.lld", TO_FILE)):
                self.write(f"../kit/toolchain/bin/{name}", text)
                os.chmod(f"{self.place}/kit/toolchain/bin/{name}", 0o755)
            self.write("../kit/bin/rattle-link", f"#!/bin/sh\n[ $2 != wasm64-unknown-unknown ] || exec {self.place}/kit/toolchain/bin/clang wasm \"$@\"\n" + LINKER.split("\n", 1)[1])
            self.write("../kit/bin/rattle", COMPILER.replace('*) : >"$to" ;;', '*) echo "$name of $(basename "$(dirname "$to")"): $(cat src/*.rt)" >"$to" ;;'))
        ran = subprocess.run([f"{self.top}/tools/build", *words], env=self.words, stdin=subprocess.DEVNULL, stdout=subprocess.PIPE, stderr=subprocess.PIPE, text=True)
        self.assertEqual(ran.returncode, int(fails), ran.stdout + ran.stderr)
        return ran.stdout.splitlines()

    def kept(self, path):
        with open(f"{self.top}/{path}", encoding="utf-8") as file:
            return file.read()

    def test_build_makes_each_file_and_the_list(self):
        self.assertEqual(self.make(), [])
        rows = self.kept("built/FILES").splitlines()
        self.assertEqual(rows[1:5], ["version 2.3.4", "toolchain a toolchain of stand-ins", "", "# length in bytes, SHA-256, sum of the sources, file"])
        self.assertEqual([row.split()[3] for row in rows[5:]], list(self.KEPT_FILES))
        for row in rows[5:]:
            length, text_sum, sources, path = row.split()
            text = self.kept(path).encode()
            self.assertEqual((int(length), text_sum), (len(text), hashlib.sha256(text).hexdigest()), path)
            self.assertRegex(sources, "^[0-9a-f]{64}$")
        # each archive is its crate's, for its processor, and the one that reads has something to take memory by
        for processor, name in (("x86-64", "x86_64"), ("aarch64", "aarch64")):
            self.assertEqual(self.kept(f"built/{processor}/libdaa_c.a"), f"daa_c of {name}-unknown-linux-gnu: daa_c\n")
            self.assertRegex(self.kept(f"built/{processor}/libdaa_toml.a"), rf"^daa_toml of {name}-unknown-linux-gnu: daa_toml\n(the heap|.*aarch64.* -c heap.c)\n")
        self.assertIn("-soname libdaidalus.so.2 ", self.kept("built/x86-64/libdaidalus.so"))
        self.assertIn("daa.wasm = () =>", self.kept("page/engine.wasm.js"))
        # and the program is run from then on, with no toolchain
        self.assertEqual(self.kept("built/x86-64/daidalus"), PROGRAM)
        self.words["PATH"] = "/usr/bin:/bin"
        self.assertEqual(self.call("words"), (0, b"<>", ""))

    def test_build_compares(self):
        self.make()
        before = {path: self.kept(path) for path in (*self.KEPT_FILES, "built/FILES")}
        same = self.make("--compare")
        self.assertEqual(same[-1], "8 passed, 0 failed")
        self.assertEqual([line.split(",")[0] for line in same[:-1]], [f"the same: {path}" for path in self.KEPT_FILES])
        for path in self.KEPT_FILES:
            self.write(path, before[path] + "x")
            said = self.make("--compare", fails=True)
            self.assertEqual(said[-1], "7 passed, 1 failed")
            self.assertIn(f"FAILED: {path}: it differs from what the sources give, first in byte {len(before[path]) + 1}", said)
            os.remove(f"{self.top}/{path}")
            self.assertIn(f"FAILED: {path}: there is no such file", self.make("--compare", fails=True))
            self.write(path, before[path])
        for old, new, why in (("built/aarch64/libdaa_c.a", "built/aarch64/other.a", "FAILED: built/aarch64/libdaa_c.a: built/FILES says otherwise of it"),
                              ("version 2.3.4", "version 2.3.5", "FAILED: built/FILES: it is of version 2.3.5, and the sources are of 2.3.4")):
            self.write("built/FILES", before["built/FILES"].replace(old, new))
            self.assertIn(why, self.make("--compare", fails=True))
        self.write("built/FILES", before["built/FILES"])
        # a source that leaves the bytes as they were is another source all the same
        self.write("crates/beside/proofs/Beside.antt", "a proof\n")
        said = self.make("--compare", fails=True)
        self.assertIn("FAILED: built/x86-64/daidalus: built/FILES says otherwise of it", said)
        self.assertIn("the same: built/x86-64/libdaa_c.a", said[1])
        self.assertEqual(before, {path: self.kept(path) for path in before})
        self.make()
        self.assertEqual(self.make("--compare")[-1], "8 passed, 0 failed")

    def test_builds_beside_stand_in_where_the_sources_are_others(self):
        """The tests take those of built/ while these are of the sources, and else such as tools/build makes beside them."""
        asked = [sys.executable, "-B", "-c", "import sys; sys.path.insert(0, 'tools'); import builds; print(builds.folder())"]
        self.make()
        self.words = {name: value for name, value in self.words.items() if not name.startswith("DAIDALUS_")}
        folder = lambda: subprocess.run(asked, cwd=self.top, env=self.words, stdout=subprocess.PIPE, stderr=subprocess.PIPE, text=True)
        self.assertEqual(folder().stdout, f"{self.top}/built\n")
        self.change()
        self.assertEqual(folder().stdout, f"{self.top}/out/built\n")
        self.proved()
        self.assertEqual(folder().stdout, f"{self.top}/out/built\n")
        self.assertEqual(self.proved(), [])
        shutil.rmtree(f"{self.top}/out")
        self.words["PATH"] = "/usr/bin:/bin"
        ran = folder()
        self.assertEqual((ran.returncode, ran.stdout), (1, ""))
        self.assertRegex(ran.stderr, r"^built/x86-64/daidalus: its sources have been changed since, and there is no rt on the PATH .*\n$")

    def test_build_without_rt_or_with_a_proof_that_fails_writes_nothing(self):
        self.make()
        before = {path: self.kept(path) for path in (*self.KEPT_FILES, "built/FILES")}
        self.change()
        self.write("../refuse", "low")
        self.make(fails=True)
        self.words["PATH"] = "/usr/bin:/bin"
        self.make(fails=True)
        self.assertEqual(before, {path: self.kept(path) for path in before})
