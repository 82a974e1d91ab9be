"""The commands that README.md and docs/GUIDE.md show, and the examples of docs/FORMATS.md.

Each command of README.md, an indented block that begins with `./daidalus`, is run from the checkout's top. What it must
write is the next indented block, where the sentence before that ends in `prints` or `writes`, or else the fenced block of
docs/FORMATS.md after the same command in backquotes: the output's first lines where that sentence has `begins` or
`first`, and else the whole. The status must be N where it has `status N`, and else 0. Of a command that writes into a
file only the status is looked at, and that the file is not empty. Each fenced block of docs/FORMATS.md with a line `end`
is an input, whose report is the next block: under the configuration that the words between name in backquotes, or else
under crates/daa_program/data/one_level.toml.
"""
import os
import re
import subprocess
import unittest

from common import TOP, run_at_top, text_of


def blocks_of(text):
    """The text's indented blocks, each with the words between it and the block before."""
    found, words, block = [], [], []
    for line in [*text.split("\n"), ""]:
        if line.startswith("    "):
            block.append(line[4:])
        elif block:
            found.append((" ".join(words), "\n".join(block) + "\n"))
            words, block = [line], []
        else:
            words.append(line)
    return found


def fenced_after(command):
    """The words between this command and the fenced block of docs/FORMATS.md that follows it, and the block."""
    found = re.search(re.escape(f"`{command}`") + r"([^`]*)\n```\n(.*?)^```$", text_of("docs/FORMATS.md"), re.S | re.M)
    return found and (found[1], found[2])


def shown_commands():
    """Each command that README.md and docs/GUIDE.md show, with the words before its output and the output, or None where none
    is shown."""
    shown = []
    for page in ("README.md", "docs/GUIDE.md"):
        blocks = [*blocks_of(text_of(page)), ("", "")]
        for (_, block), after in zip(blocks, blocks[1:]):
            if block.startswith("./daidalus"):
                command = block.strip()
                is_its = re.search(r"(prints|writes)\W*$", after[0])
                shown.append((command, after if is_its else fenced_after(command.removeprefix("./"))))
    return shown


class Shown(unittest.TestCase):
    """What README.md and docs/FORMATS.md show is what the program writes."""

    def setUp(self):
        """In the gate the program was built by then: where it was not, a build would take long and fail too."""
        if os.environ.get("CI") == "true":
            asked = subprocess.run(["bash", "-c", "source ./daidalus && find_program"], cwd=TOP)
            self.assertEqual(asked.returncode, 0, "there is no program of these sources, neither a kept one nor one that rt ci built")

    def test_the_readmes_commands_write_what_it_shows(self):
        shown = shown_commands()
        self.assertGreaterEqual(len(shown), 3, "README.md and docs/GUIDE.md show fewer commands than they should")
        for command, after in shown:
            with self.subTest(command=command):
                self.look_at(command, after)

    def look_at(self, command, after):
        words, wanted = after or ("", None)
        words = words.split(". ")[-1]
        into = re.search(r"> *(\S+)$", command)
        if into:
            file = os.path.join(TOP, into[1])
            self.assertFalse(os.path.exists(file), f"{file} is there already")
            self.addCleanup(lambda: os.path.exists(file) and os.remove(file))
        ran = run_at_top("set -o pipefail; " + command)
        status = re.search(r"status (\d+)", words)
        self.assertEqual(ran.returncode, int(status[1]) if status else 0, ran.stderr.decode())
        if into:
            self.assertGreater(os.path.getsize(file), 0)
            return
        self.assertIsNotNone(wanted, "neither the page itself nor docs/FORMATS.md shows what this writes")
        wrote = ran.stdout.decode()
        self.assertEqual(wrote[: len(wanted)] if re.search(r"\b(begins|first)\b", words) else wrote, wanted)

    def test_the_examples_of_the_formats_give_their_reports(self):
        parts = re.split(r"^```\n(.*?)^```$", text_of("docs/FORMATS.md"), flags=re.S | re.M)
        examples = [it for it in zip(parts[1::2], parts[2::2], parts[3::2]) if re.search("^end$", it[0], re.M)]
        self.assertGreaterEqual(len(examples), 3)
        for given, words, wanted in examples:
            named = re.search(r"`(\S+\.toml)`", words)
            config = named[1] if named else "crates/daa_program/data/one_level.toml"
            with self.subTest(given=given):
                ran = run_at_top(f"./daidalus replay --config {config}", given.encode())
                status = 1 if re.search("^refused", wanted, re.M) else 0
                self.assertEqual((ran.returncode, ran.stdout.decode()), (status, wanted), ran.stderr.decode())
