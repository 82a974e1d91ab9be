"""docs/TOOLS.md and docs/LIVE.md: each of their commands is run, in the page's order, in a folder of its own, and writes what is shown.

An indented block is a command, unless the paragraph before it ends in `prints`: then it is what the command before writes,
its first lines where that paragraph speaks of first lines, and else the whole. The status is 0, or N where the paragraph
after the command says `status N`. A command that calls a program which is not installed is left out, and the last lines say what
has to be installed.
"""
import os
import re
import subprocess
import unittest

from common import TOP, ToolTest, program
import counting  # (in a folder that common names)
from test_reports import tools_for_users

PAGE, LIVE = (os.path.join(TOP, "docs", name) for name in ("TOOLS.md", "LIVE.md"))
INSTALLED = ("parallel", "jq")  # not part of every system
LINKED = ("tools", "examples")


def blocks_of(text):
    """The indented blocks of a page, each with the paragraph before it."""
    found, block, words = [], [], ""
    for line in [*text.split("\n"), "end"]:
        if line.startswith("    "):
            block.append(line[4:])
            continue
        if block:
            found.append((words, "\n".join(block) + "\n"))
            block, words = [], ""
        words = line or words
    return found, words


def commands_of(text):
    """Each command with its status, what it must write (or None), and whether these are first lines alone."""
    blocks, _ = blocks_of(text)
    found = []
    for place, (words, block) in enumerate(blocks):
        if words.rstrip().endswith("prints"):
            continue
        after, output = blocks[place + 1] if place + 1 < len(blocks) else ("", None)
        is_output = after.rstrip().endswith("prints")
        status = re.search(r"status (\d)", after) if is_output else None
        found.append((block, int(status[1]) if status else 0, output if is_output else None, "first line" in after))
    return found


class Page(ToolTest):
    def setUp(self):
        super().setUp()
        for name in LINKED:
            os.symlink(os.path.join(TOP, name), os.path.join(self.folder, name))
        os.makedirs(os.path.join(self.folder, "built", "x86-64"))
        os.symlink(program(), os.path.join(self.folder, "built", "x86-64", "daidalus"))
        script = self.write("daidalus", f'#!/bin/sh\nexec "{program()}" "$@"\n')
        os.chmod(script, 0o755)

    def run_block(self, block):
        """Runs a command; a recording that is played as if it were heard now for five seconds alone, and a server on any port."""
        block = block.replace(" --as-now ", " --as-now --seconds 5 ").replace("tools/show_live ", "tools/show_live --port 0 ")
        run = subprocess.run(["bash", "-c", "set -e -o pipefail\n" + block], cwd=self.folder, stdin=subprocess.DEVNULL, capture_output=True,
                             text=True, timeout=300, env={**os.environ, "PYTHONDONTWRITEBYTECODE": "1", "DAIDALUS_PROGRAM": program()})
        return run.returncode, run.stdout, run.stderr

    def test_each_command_writes_what_is_shown(self):
        with open(PAGE, encoding="utf-8") as file:
            commands = commands_of(file.read())
        shown = 0
        for block, status, output, is_beginning in commands:
            with self.subTest(block):
                counting.need(*(name for name in INSTALLED if re.search(rf"(^|\| *){name} ", block, re.M)))
                ended, wrote, said = self.run_block(block)
                self.assertEqual(ended, status, said)
                if output is not None:
                    shown += 1
                    self.assertEqual(wrote[:len(output)] if is_beginning else wrote, output)
        self.assertGreaterEqual(len(commands), 18)
        self.assertGreaterEqual(shown, 5)

    def test_the_commands_of_a_live_session(self):
        """A recorded session is shown and logged, and its log is judged."""
        with open(LIVE, encoding="utf-8") as file:
            commands = commands_of(file.read())
        self.assertEqual(len(commands), 2)
        for block, *_ in commands:
            ended, wrote, said = self.run_block(block)
            self.assertEqual(ended, 0, said)
        self.assertRegex(wrote, r"^logs/.*/001.states: [4-6] moments judged\n$")

    def test_each_tool_is_named(self):
        with open(PAGE, encoding="utf-8") as file:
            text = file.read()
        rows = re.findall(r"^\| `tools/(\w+)` \|", text, re.M)
        self.assertEqual(sorted(rows), sorted(tools_for_users()))
        self.assertLess(len(text.encode()), 20000)

    def test_the_picture_of_the_recording_is_drawn(self):
        """What the first four commands make is a picture with the title and both aircraft."""
        with open(PAGE, encoding="utf-8") as file:
            commands = commands_of(file.read())
        for block, *_ in commands[:4]:
            self.assertEqual(self.run_block(block)[0], 0)
        with open(os.path.join(self.folder, "recording.svg"), encoding="utf-8") as file:
            text = file.read()
        for words in ("The example recording", "Intrude1", "Intrude2", "plan view", "heights"):
            self.assertIn(words, text)


if __name__ == "__main__":
    unittest.main()
