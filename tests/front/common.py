"""What the tests of this folder have in common."""
import importlib.machinery
import importlib.util
import os
import subprocess

TOP = os.path.dirname(os.path.dirname(os.path.dirname(os.path.realpath(__file__))))
LONG = 120  # seconds that nothing here takes
# what is said of states that are too long
LONG_STATES = "have more than 65536 bytes: judge parts that begin with a moment (after a line format if there was one), each with its report"


def load(path):
    """A script that is no module by its name."""
    loader = importlib.machinery.SourceFileLoader(os.path.basename(path), path)
    module = importlib.util.module_from_spec(importlib.util.spec_from_loader(loader.name, loader))
    loader.exec_module(module)
    return module


def text_of(path):
    with open(os.path.join(TOP, path), encoding="utf-8") as file:
        return file.read()


def run_at_top(command, given=b""):
    return subprocess.run(["bash", "-c", command], cwd=TOP, input=given, stdout=subprocess.PIPE, stderr=subprocess.PIPE)
