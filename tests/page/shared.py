"""What the tests of the page share: where things are, runs of the program, and what a report says."""
import functools
import math
import os
import re
import subprocess
import sys

HERE = os.path.dirname(os.path.realpath(__file__))
TOP = os.path.dirname(os.path.dirname(HERE))
sys.dont_write_bytecode = True
sys.path.insert(0, os.path.join(TOP, "tools"))

import builds  # noqa: E402 (tools/ is no package)
from daidalus_files import Moment, Reader, own_line, traffic_line  # noqa: E402

DISPLAYED_SECONDS = 60  # how far velocities are drawn on a range of 6 NM or more
EXAMPLES = os.path.join(TOP, "examples")
THREE_LEVELS, RECOVERY = (os.path.join(EXAMPLES, f"{name}.toml") for name in ("three_levels", "recovery"))
ENCOUNTER = os.path.join(EXAMPLES, "encounter.states")
KINDS = ("track", "gs", "vs", "alt")
STEPS = {"track": 5, "gs": 100, "vs": 100, "alt": 500}  # of the configurations of examples/
UNITS = {"gs": " kt", "vs": " ft/min", "alt": " ft", "track": "°"}


class Page:
    """The folder of the page that is tested; a wrong page stands elsewhere."""

    folder = os.path.join(TOP, "page")


def text_of(path):
    with open(path, encoding="utf-8") as file:
        return file.read()


def bytes_of(path):
    with open(path, "rb") as file:
        return file.read()


@functools.cache
def program():
    """The program: the one that DAIDALUS_PROGRAM names, or that which ./daidalus runs."""
    named = os.environ.get("DAIDALUS_PROGRAM")
    found = os.path.realpath(named) if named else builds.program()
    if not found:
        raise RuntimeError("there is no program to test")
    return found


def replayed(config, states):
    """The program's report, on the path of a configuration and the bytes of state lines."""
    words = [program(), "replay", "--config", config, "--workers", "1"]
    return subprocess.run(words, input=states, capture_output=True, timeout=300).stdout.decode()


def tool(*words):
    """What a tool of the repository writes."""
    return subprocess.run([os.path.join(TOP, "tools", words[0]), *words[1:]], capture_output=True, check=True, timeout=300).stdout


def moments_in(states):
    """The moments of state lines: the text of each, as the page writes it, and its states."""
    found = [event for event in Reader().read(states) if isinstance(event, Moment)]

    def text(moment):
        form = 2 if any(one.age for one in moment.traffic) else 1
        lines = [f"moment {moment.time}", own_line(moment.own), *(traffic_line(one, form) for one in moment.traffic), "end"]
        return "".join(line + "\n" for line in lines)

    return [(text(moment), moment) for moment in found]


def places_of(moment, seconds):
    """Where the display has each aircraft and each end of a velocity, in NM east and north of the ownship, by their keys."""
    own, found = moment.own, {"p:": (0, 0)}
    angle = math.radians(own.trk)
    found["v:"] = own.gs * math.sin(angle) * seconds / 36000, own.gs * math.cos(angle) * seconds / 36000
    for one in moment.traffic:
        for key, after in (("p:", one.age), ("v:", one.age + seconds)):
            found[key + one.id] = ((one.x - own.x + one.vx * after / 36) / 1000, (one.y - own.y + one.vy * after / 36) / 1000)
    return found


def moments_of(report):
    return re.findall(r"(?ms)^moment .*?^done \d+\n", report)


# What a display must show of a moment, by its lines.

def levels_of(moment):
    return {name: int(level) for name, level in re.findall(r"(?m)^alert (\S+) (\d)", moment)}


def words_of(kind, value):
    """A value as the display writes it."""
    if value in ("keep", "none"):
        return value
    if kind == "track":
        return f"{int(value) % 360:03}°"
    return (f"{int(value) / 10:g} kt" if kind == "gs" else f"{value}{UNITS[kind]}").replace("-", "−")


def bands_of(moment, kind):
    """The titles of a kind's bands; the run of tracks through north is one shape."""
    bands = [tuple(map(int, line.split()[1:])) for line in moment.split("\n") if line.startswith(f"{kind} ")]
    if kind == "track" and len(bands) > 1 and bands[0][2] == bands[-1][2]:
        last = bands.pop()
        bands[0] = (last[0], *bands[0][1:])
    return [f"{words_of(kind, low)} to {words_of(kind, high)}: {f'level {level}' if level else 'clear'}" for low, high, level in bands]


def candidates_of(moment, kind):
    """Each candidate of a kind, of the configurations of examples/, with its level."""
    runs = re.findall(rf"(?m)^{kind} (\S+) (\S+) (\d)$", moment)
    return {value: int(level) for low, high, level in runs for value in range(int(low), int(high) + 1, STEPS[kind])}


def values_of(moment, word, kind):
    """The values that a moment's line `resolve` or `recover` names."""
    found = re.search(rf"(?m)^{word} {kind} (?:\w+ (\S+) \w+ (\S+)|\d+ (\S+))$", moment)
    return [int(value) for value in (found.groups() if found else ()) if value and value not in ("keep", "none")]


def answers_of(moment):
    """The words for the answers: by kind and side, and those of recoveries and last times where there are any."""
    found = {}
    for kind, lower, upper in re.findall(r"(?m)^resolve (\w+) \w+ (\S+) \w+ (\S+)", moment):
        marks = ("◄ left", "► right") if kind == "track" else ("▼", "▲")
        found[kind, "lower"], found[kind, "upper"] = (f"{mark} {words_of(kind, value)}" for mark, value in zip(marks, (lower, upper)))
    for kind, after, value in re.findall(r"(?m)^recover (\w+) (\S+) ?(\S*)", moment):
        if kind == "track":
            words = "◆ no recovery" if after == "none" else f"◆ turn to {words_of(kind, value)}, clear after {after} s"
        else:
            words = "◆ none" if after == "none" else f"◆ {words_of(kind, value).split(' ')[0]}, {after} s"
        found[kind, "recover"] = words
    for kind, last in re.findall(r"(?m)^last (\w+) (\S+)", moment):
        if kind == "track":
            found[kind, "last"] = "a turn comes too late" if last == "none" else f"a turn may wait {last} s"
        else:
            found[kind, "last"] = "too late" if last == "none" else f"may wait {last} s"
    return found
