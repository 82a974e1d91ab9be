"""tools/stack: the bound of each call's stack, held against the table of docs/LIBRARY.md, the header, and machine code written by hand."""
import os
import re
import subprocess
import sys
import unittest

from common import TOP, ToolTest, module
import builds  # noqa: E402 (common puts its folder on the path)
import counting  # noqa: E402

stack = module("tools/stack")


def read(path):
    with open(os.path.join(TOP, path), encoding="utf-8") as file:
        return file.read()


def bounds_of(processor):
    """The bound of each call of an archive, by its name."""
    code = stack.Code(os.path.join(builds.folder(), processor, "libdaa_c.a"))
    return {name: code.depth(name)[0] for name in code.exports()}


class Table(unittest.TestCase):
    """The table of docs/LIBRARY.md."""

    def rows(self):
        found = re.findall(r"^\| (`daa_.*?) \| (\d+) \| (\d+) \|$", read("docs/LIBRARY.md"), re.M)
        return {name: (int(here), int(arm)) for names, here, arm in found for name in re.findall(r"`(daa_\w+)`", names)}

    def test_on_x86_64(self):
        counting.need("cc")
        self.assertEqual({name: here for name, (here, _) in self.rows().items()}, bounds_of("x86-64"))

    def test_on_64_bit_arm(self):
        counting.need("aarch64-linux-gnu-gcc")
        self.assertEqual({name: arm for name, (_, arm) in self.rows().items()}, bounds_of("aarch64"))

    def test_the_header_says_no_less(self):
        most, others = map(int, re.search(r"daa_decide and daa_report take less than (\d+) KB, the others but daa_read less than (\d+) KB", read("crates/daa_c/include/daidalus.h")).groups())
        for name, both in self.rows().items():
            self.assertLess(max(both), 1024 * (most if name in ("daa_decide", "daa_report") else others), name)


class Frames(ToolTest):
    """Functions whose frames are known, since they are written by hand."""

    def bound(self, text, name="daa_top", compiler="cc"):
        self.write("code.s", text)
        built = subprocess.run([compiler, "-c", "code.s", "-o", "code.o"], cwd=self.folder, capture_output=True, text=True)
        self.assertEqual(built.returncode, 0, built.stderr)
        subprocess.run(["ar", "rcs", "code.a", "code.o"], cwd=self.folder, check=True)
        return stack.Code(os.path.join(self.folder, "code.a")).depth(name)[0]

    def setUp(self):
        super().setUp()
        counting.need("cc")

    def function(self, name, *lines):
        return f'.section .text.{name},"ax"\n.globl {name}\n.type {name},@function\n{name}:\n' + "".join(f"    {line}\n" for line in lines)

    def test_the_longest_chain_counts(self):
        leaf = self.function("leaf", "sub $24, %rsp", "add $24, %rsp", "ret")
        deep = self.function("deep", "push %rbx", "sub $1000, %rsp", "call leaf@PLT", "add $1000, %rsp", "pop %rbx", "ret")
        top = self.function("daa_top", "push %rbp", "push %rbx", "call leaf@PLT", "call deep@PLT", "pop %rbx", "pop %rbp", "ret")
        self.assertEqual(self.bound(leaf + deep + top), (8 + 16) + (8 + 8 + 1000) + (8 + 24))

    def test_the_steps_of_a_probe_do_not_count_beside_their_limit(self):
        top = self.function("daa_top", "mov %rsp, %r11", "sub $0x27c00, %r11", "1: sub $0xc00, %rsp", "movq $0, (%rsp)", "cmp %r11, %rsp", "jne 1b", "sub $0x108, %rsp", "ret")
        self.assertEqual(self.bound(top), 8 + 0x27c00 + 0x108)

    def test_on_64_bit_arm_the_limit_is_of_the_stack(self):
        """The register of a probe's limit may be one of numbers too."""
        counting.need("aarch64-linux-gnu-gcc")
        lines = ("sub sp, sp, #0x70", "sub x9, x9, #2", "add sp, sp, #0x70", "ret")
        self.assertEqual(self.bound(self.function("daa_top", *lines), compiler="aarch64-linux-gnu-gcc"), 0x70)
        lines = ("sub x9, sp, #6, lsl #12", "sub x9, x9, #0x80", "1: sub sp, sp, #1, lsl #12", "cmp sp, x9", "b.gt 1b", "sub sp, sp, #0x10", "ret")
        self.assertEqual(self.bound(self.function("daa_top", *lines), compiler="aarch64-linux-gnu-gcc"), (6 << 12) + 0x80 + 0x10)

    def test_where_a_function_calls_itself_or_what_a_pointer_names_there_is_no_bound(self):
        self.assertIsNone(self.bound(self.function("daa_top", "call other@PLT", "ret") + self.function("other", "call daa_top@PLT", "ret")))
        self.assertIsNone(self.bound(self.function("daa_top", "call daa_top@PLT", "ret")))
        self.assertIsNone(self.bound(self.function("daa_top", "call *%rax", "ret")))
        self.assertIsNone(self.bound(self.function("daa_top", "call other@PLT", "ret") + self.function("other", "call *8(%rax)", "ret")))

    def test_what_is_no_archive_is_refused(self):
        ran = subprocess.run([sys.executable, "-B", f"{TOP}/tools/stack", f"{TOP}/README.md"], capture_output=True, text=True)
        self.assertEqual((ran.returncode, ran.stdout), (1, ""))
        self.assertIn("is no archive of x86-64 or aarch64", ran.stderr)


if __name__ == "__main__":
    unittest.main()
