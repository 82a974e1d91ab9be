"""What the scripts of this folder share: the built program, the words of numbers, the inputs `far` and `near`, and measured runs."""
import os
import shutil
import subprocess
import sys
import threading
import time

TOP = os.path.dirname(os.path.dirname(os.path.realpath(__file__)))
sys.path.insert(0, os.path.join(TOP, "tools"))
import builds  # noqa: E402 (tools/ is no package)
from daidalus_files import at_least_one  # noqa: E402, F401 (the scripts take it from here)

CONFIG = os.path.join(TOP, "examples", "three_levels.toml")
TICK = 0.005  # seconds between two looks at the memory


def built_program(named=None):
    """The path of the program that is named, or of the one that ./daidalus runs."""
    if named:
        if not shutil.which(os.path.realpath(named)):
            sys.exit(f"{sys.argv[0]}: {named} is no program that can be run")
        return os.path.realpath(named)
    found = builds.program()
    if not found:
        sys.exit(f"{sys.argv[0]}: the program does not run")
    return found


def write_moments(out, size, near):
    """Moments of eight aircraft each, until there are so many bytes, with the ownship far from them or near."""
    moment = 0
    while out.tell() < size:
        place = 0 if near else moment % 400000 - 200000
        lines = [f"moment {moment}\nown {place} {moment % 9000 if near else 0} 10000 {moment % 360} 3600 0\n"]
        for i in range(8):
            lines.append(f"traffic A{i} {i * 700 - 2000} {moment % 9000} {9500 + 100 * i} {i * 300 - 900} -1200 0\n")
        out.write("".join(lines) + "end\n")
        moment += 1


def peak_of(process, peak):
    """The greatest memory that the process has held so far, in KiB, or what was seen before where it has ended."""
    try:
        with open(f"/proc/{process}/status") as status:
            return next((int(line.split()[1]) for line in status if line.startswith("VmHWM")), peak)
    except OSError:
        return peak


def run_ahead():
    os.sched_setscheduler(0, os.SCHED_FIFO, os.sched_param(1))


def measure(command, source, sink, ahead):
    """Runs a command; answers its seconds by the wall, those of the processors, its peak memory in KiB, and its status."""
    began, peak, ended = time.monotonic(), 0, threading.Event()
    run = subprocess.Popen(command, stdin=source, stdout=sink, preexec_fn=run_ahead if ahead else None)

    def look():
        nonlocal peak
        while not ended.is_set():
            peak = peak_of(run.pid, peak)
            ended.wait(TICK)

    watcher = threading.Thread(target=look)
    watcher.start()
    try:
        _, status, used = os.wait4(run.pid, 0)
        seconds = time.monotonic() - began
    finally:
        ended.set()
        watcher.join()
    run.returncode = os.waitstatus_to_exitcode(status)
    return seconds, used.ru_utime + used.ru_stime, peak, run.returncode
