"""How the tests are run, and what the last lines say of them.

For each cause for which tests were left out there is a line `left out: N tests: WHY`, and WHY names what to install. The very last line
is `N passed, M failed`. If CI is true, as in the gate, tests that are left out count as failed, because a gate must not pass on what it
did not try.
"""
import collections
import importlib.util
import os
import shutil
import subprocess
import sys
import unittest

# Debian's package of each command that some tests call.
PACKAGES = {"cc": "gcc", "c++": "g++", "cargo": "cargo", "node": "nodejs", "chromium": "chromium", "chromedriver": "chromium-driver",
            "firefox-esr": "firefox-esr",
            "aarch64-linux-gnu-gcc": "gcc-aarch64-linux-gnu", "qemu-aarch64": "qemu-user", "parallel": "parallel", "jq": "jq",
            "pkg-config": "pkg-config", "cmake": "cmake", "make": "make", "tsc": "node-typescript", "dpkg-deb": "dpkg", "man": "man-db",
            "munged": "munge", "slurmctld": "slurmctld", "slurmd": "slurmd", "sbatch": "slurm-client",
            "dump1090-mutability": "dump1090-mutability", "tmux": "tmux"}
MODULES = {"selenium": "python3-selenium", "distributed": "python3-distributed"}  # Debian's package of each module
DAEMONS = ("munged", "slurmctld", "slurmd")  # which lie in folders of the administrator
# What a compiler's package only recommends: the C library of the other processor.
HEADERS = {"/usr/aarch64-linux-gnu/include/stdio.h": "libc6-dev-arm64-cross"}
PLACES = "/usr/sbin:/sbin"
DEBIAN_PYTHON = "/usr/bin/python3"  # the one for which Debian's packages of Python are


def use_selenium(script):
    """Goes on with a script in the python that has selenium: Debian's package is for Debian's own alone."""
    if importlib.util.find_spec("selenium") or sys.executable == DEBIAN_PYTHON or not os.access(DEBIAN_PYTHON, os.X_OK):
        return
    if subprocess.run([DEBIAN_PYTHON, "-c", "import selenium"], capture_output=True).returncode == 0:
        os.execv(DEBIAN_PYTHON, [DEBIAN_PYTHON, os.path.realpath(script), *sys.argv[1:]])


def is_there(command):
    """Whether a command is there and runs: a stand-in of rustup may have none behind it, and another program is named parallel, too."""
    path = shutil.which(command, path=PLACES if command in DAEMONS else None)
    if not path or command in ("sbatch", "dump1090-mutability"):  # (sbatch tells no version where there is no cluster, the other none at all)
        return bool(path)
    asked = subprocess.run([path, "-V" if command.startswith(("slurm", "tmux")) else "--version"], stdin=subprocess.DEVNULL, capture_output=True)
    return asked.returncode == 0 and (command != "parallel" or asked.stdout.startswith(b"GNU parallel"))


def need(*commands):
    """Leaves the test out where one of these commands is not there, and says which package has it."""
    for command in commands:
        if not is_there(command):
            raise unittest.SkipTest(f"there is no {command} (Debian: {PACKAGES[command]})")
        if command == "aarch64-linux-gnu-gcc":
            for path, package in HEADERS.items():
                if not os.path.exists(path):
                    raise unittest.SkipTest(f"there is no {path} (Debian: {package})")


def need_module(name):
    """The same for a module of Debian's Python."""
    if not has_module(name):
        raise unittest.SkipTest(f"there is no module {name} of {DEBIAN_PYTHON} (Debian: {MODULES[name]})")


def missing_packages():
    """Debian's packages that tests call and that are not here."""
    missing = [package for command, package in PACKAGES.items() if not is_there(command)]
    missing += [package for path, package in HEADERS.items() if not os.path.exists(path)]
    return missing + [package for name, package in MODULES.items() if not has_module(name)]


def has_module(name):
    return os.access(DEBIAN_PYTHON, os.X_OK) and subprocess.run([DEBIAN_PYTHON, "-c", f"import {name}"], capture_output=True).returncode == 0


class Result(unittest.TextTestResult):
    """Counts what passed: a test of which a part failed, or was left out, has not."""

    passed = 0

    def addSuccess(self, test):
        super().addSuccess(test)
        self.passed += 1


def left_out_fails():
    return os.environ.get("CI") == "true"


def tell(passed, failed, left_out):
    """Writes the last lines, and returns the status: 0 where some passed and none failed. `left_out` counts tests by their cause."""
    for why, count in sorted(left_out.items()):
        print(f"left out: {count} test{'s' * (count != 1)}: {why}")
    if left_out and left_out_fails():
        print("FAILED: where CI is true, what is left out counts as failed")
        failed += sum(left_out.values())
    print(f"{passed} passed, {failed} failed", flush=True)
    return int(failed > 0 or passed == 0)


def run(suite, verbosity=2):
    """Runs tests, writes the last lines, and returns the status."""
    ran = unittest.TextTestRunner(stream=sys.stdout, verbosity=verbosity, resultclass=Result).run(suite)
    failed = {str(getattr(test, "test_case", test)) for test, _ in ran.failures + ran.errors}
    return tell(ran.passed, len(failed) + len(ran.unexpectedSuccesses), collections.Counter(why for _, why in ran.skipped))


def run_named(names, verbosity=2):
    """The same with the tests of the script that is run: those whose names have one of these words, or all."""
    loader = unittest.TestLoader()
    loader.testNamePatterns = [f"*{it}*" for it in names] or None
    return run(loader.loadTestsFromModule(sys.modules["__main__"]), verbosity)
