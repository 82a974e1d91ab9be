"""What the tests share: where things are, the tools as modules, and runs of the tools and of the program."""
import functools
import importlib.machinery
import importlib.util
import os
import subprocess
import sys
import tempfile
import unittest

TOP = os.path.dirname(os.path.dirname(os.path.dirname(os.path.realpath(__file__))))
sys.dont_write_bytecode = True
sys.path[:0] = [os.path.join(TOP, "tools"), os.path.join(TOP, "tests")]
import builds  # noqa: E402 (the folder is no package)

CONFIG = os.path.join(TOP, "examples", "three_levels.toml")
ENCOUNTER = os.path.join(TOP, "examples", "encounter.states")


@functools.cache
def module(path):
    """A script without an ending, as a module."""
    name = os.path.basename(path)
    loader = importlib.machinery.SourceFileLoader(name, os.path.join(TOP, path))
    made = importlib.util.module_from_spec(importlib.util.spec_from_loader(name, loader))
    loader.exec_module(made)
    return made


@functools.cache
def program():
    """The program: the one that DAIDALUS_PROGRAM names, or that which ./daidalus runs."""
    named = os.environ.get("DAIDALUS_PROGRAM")
    found = os.path.realpath(named) if named else builds.program()
    if not found:
        raise RuntimeError("there is no program to test")
    return found


def replayed(config, states):
    """Status and report of the program, on the path of a configuration and the bytes of state lines."""
    run = subprocess.run([program(), "replay", "--config", config, "--workers", "1"], input=states, capture_output=True, timeout=120)
    return run.returncode, run.stdout


class ToolTest(unittest.TestCase):
    """A test with a folder of its own."""

    maxDiff = 4000

    def setUp(self):
        folder = tempfile.TemporaryDirectory()
        self.addCleanup(folder.cleanup)
        self.folder = folder.name

    def write(self, name, content):
        path = os.path.join(self.folder, name)
        with open(path, "wb") as file:
            file.write(content.encode() if isinstance(content, str) else content)
        return path

    def tool(self, name, *words, given=""):
        """Status, standard output and standard error of a tool."""
        run = subprocess.run([sys.executable, "-B", os.path.join(TOP, "tools", name), *words], input=given, capture_output=True,
                             text=True, timeout=120)
        return run.returncode, run.stdout, run.stderr

    def assert_one_line(self, said, part):
        """An error is told in one line, without a trace."""
        self.assertEqual(said.count("\n"), 1, said)
        self.assertIn(part, said)
