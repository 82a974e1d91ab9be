"""What the tools share: a configuration, state lines and a report, each read once, as docs/FORMATS.md tells them."""
import argparse
import contextlib
import functools
import io
import operator
import os
import re
import signal
import sys
from typing import NamedTuple

import keys
import progress
from toml_1_1 import Scalar, TomlFault, read_toml

KINDS = ("track", "gs", "vs", "alt")
SIDES = {"track": ("left", "right"), "gs": ("down", "up"), "vs": ("down", "up"), "alt": ("down", "up")}
UNITS = {"track": "degree", "gs": "0.1 kt", "vs": "ft/min", "alt": "ft"}
FULL_TURN = 360


class Problem(Exception):
    """What a tool can't do, in one line, and the status it ends with."""

    def __init__(self, message, status):
        super().__init__(message)
        self.status = status

    def __reduce__(self):
        """So that it goes from one process to another."""
        return Problem, (str(self), self.status)


def run_tool(name, main):
    """Runs a tool's main and ends the process; what it can't do is told in one line on standard error. An interrupt ends it as
    it ends a program that knows of none."""
    if signal.getsignal(signal.SIGINT) is signal.default_int_handler:
        signal.signal(signal.SIGINT, signal.SIG_DFL)
    if sys.stdout is None:
        tell(f"{name}: standard output is closed")
        sys.exit(5)
    sys.stdout = whole_writer(sys.stdout)
    progress.begin(name)
    try:
        status = status_of(name, main)
        progress.clear()
        sys.stdout.flush()
    except OSError as fault:  # of writing; what can't be read is a problem
        if not isinstance(fault, BrokenPipeError):
            tell(f"{name}: the output: {fault.strerror}")
        os.dup2(os.open(os.devnull, os.O_WRONLY), sys.stdout.fileno())
        status = 5
    sys.exit(status)


def whole_writer(output):
    """A text output in place of this one that writes all or fails. Python's own, where PYTHONUNBUFFERED is set, drops the rest
    of a write that a full disk has cut short. A file's name goes out as the bytes that it is."""
    bytes_out = io.BufferedWriter(io.FileIO(output.fileno(), "w", closefd=False))
    return io.TextIOWrapper(bytes_out, encoding=output.encoding, errors="surrogateescape")


def status_of(name, main):
    """The status that a main ends with."""
    try:
        return main()
    except Problem as problem:
        tell(f"{name}: {problem}")
        return problem.status
    except SystemExit as end:  # after --help, or words that are not taken
        return end.code
    except MemoryError:
        tell(f"{name}: what is read does not fit into memory")
        return 7


def tell(words):
    """A line on standard error, where there is one, also where a name in it has a line feed."""
    progress.clear()
    if sys.stderr is not None:
        try:
            print(re.sub(r"[\x00-\x1f\x7f]", lambda it: ascii(it[0])[1:-1], words), file=sys.stderr, flush=True)
        except OSError:  # what is held back would fail once more at the end, and change the status
            os.dup2(os.open(os.devnull, os.O_WRONLY), sys.stderr.fileno())


def standard_input():
    if sys.stdin is None:
        raise Problem("standard input is closed", 7)
    return sys.stdin.buffer


def unreadable(path, fault):
    """The problem that a file can't be read."""
    return Problem(f"{path or 'a file without a name'}: {fault.strerror}", 7)


def read_bytes(path, most=-1):
    """The bytes of a file, or of standard input where the name is `-`; where `most` is given, the first so many."""
    try:
        if path == "-":
            return standard_input().read(most)
        with open(path, "rb") as file:
            return file.read(most)
    except OSError as fault:
        raise unreadable(path, fault) from None


def read_lines(path):
    """The lines of a text; a byte order mark at its beginning is skipped, and a byte that is no text becomes a sign for that."""
    text = read_bytes(path)
    if is_utf_16(text):
        raise Problem(f"{path}: {UTF_16}", 3)
    return text.decode("utf-8-sig", "replace").splitlines()


UTF_16 = "the text is in UTF-16, as some editors and spreadsheets write it: save it in UTF-8"


def is_utf_16(text):
    """Whether a text begins with the byte order mark of UTF-16, which is no UTF-8."""
    return text.startswith((b"\xff\xfe", b"\xfe\xff"))


# The configuration.

LONGEST_TEXT, MOST_LEVELS, MOST_VALUES = 65536, 4, 512


TOP = {key.name: key for key in keys.of_table("")}
GRIDS = {kind: {key.name: key for key in keys.of_table(kind)} for kind in ("gs", "vs", "alt")}
LEVEL = {key.name: key for key in keys.of_table("level")}
# The models by their keys, in the order in which their volumes lie one within the next where the thresholds are the same.
MODELS = {"tau": "WCV_TAU", "tcpa": "WCV_TCPA", None: "WCV_TAUMOD", "tep": "WCV_TEP"}
MODEL_KEYS = [key for key in LEVEL if key in MODELS]
RECOVERY = {key.name: key for key in keys.of_table("recovery")}
TABLES = {table.name: table for table in keys.TABLES}


class Fault(NamedTuple):
    """Why a configuration is refused: the code that the program would give if no lower one applied, and the cause."""

    code: int
    why: str


class Level(NamedTuple):
    dthr: int
    zthr: int
    tthr: int
    tcoa: int
    lookahead: int
    alert: int
    tcpa: int = 0
    tau: int = 0
    tep: int = 0

    @property
    def model(self):
        """The key of its model, or None where that is WCV_TAUMOD."""
        return next((key for key in MODEL_KEYS if getattr(self, key)), None)


class Config(NamedTuple):
    """An accepted configuration, in the numbers of its text; `values` has each kind's rising list of candidates."""

    resolve: int
    turn_rate: int
    rates: dict
    values: dict
    levels: list
    recovery: tuple | None
    nearest: int = 0
    last_times: int = 0


def shown(value):
    """A value of a document, for a message."""
    if isinstance(value, dict):
        return "a table"
    if isinstance(value, list):
        return "a list"
    if isinstance(value, str):
        return ascii(value if len(value) <= 40 else value[:40] + "..")
    return value.text if isinstance(value, Scalar) else str(value)


def examine_config(text):
    """The document of a text, or None where there is none, and all its faults; the program answers the least code."""
    if len(text) > LONGEST_TEXT:
        return None, [Fault(1, f"the text has more than {LONGEST_TEXT} bytes")]
    try:
        document = read_toml(text)
    except TomlFault as fault:
        return None, [Fault(2, UTF_16 if is_utf_16(text) else str(fault))]
    return document, sorted(faults_of_document(document), key=lambda fault: fault.code)


def faults_of_document(document):
    yield from faults_of_keys("", document, {**TOP, **TABLES})
    yield from faults_of_numbers("", document, TOP)
    for name, places in (*GRIDS.items(), ("recovery", RECOVERY)):
        if name not in document:
            continue
        table = document[name]
        if not isinstance(table, dict):
            yield Fault(5, f"{name} is {shown(table)} and no table")
            continue
        yield from faults_of_keys(f"{name}.", table, places)
        yield from faults_of_numbers(f"{name}.", table, places)
    yield from faults_of_steps(document)
    yield from faults_of_levels(document)


def faults_of_keys(where, table, places):
    for key in table:
        if key not in places:
            yield Fault(3, f"{where}{shown_key(key)} is no key; known are {', '.join(places)}")
    for key in places:
        if key not in table and not places[key].may_be_left_out:
            yield Fault(4, f"{where}{key} is missing")


def shown_key(key):
    key = key if len(key) <= 40 else key[:40] + ".."
    return key if re.fullmatch(r"[A-Za-z0-9_-]+(\.\.)?", key) else ascii(key)


def faults_of_numbers(where, table, places):
    for key, place in places.items():
        if key not in table:
            continue
        value = table[key]
        if type(value) is not int:
            yield Fault(5, f"{where}{key} = {shown(value)} is no whole number ({place.unit})")
        elif not place.low <= value <= place.high:
            yield Fault(6, f"{where}{key} = {value} is outside {place.low} to {place.high} ({place.unit})")


def faults_of_steps(document):
    """What is wrong with the lists of candidates, where each number is in its range."""
    step = document.get("track_step")
    if type(step) is int and 1 <= step <= TOP["track_step"].high and FULL_TURN % step:
        yield Fault(6, f"track_step = {step} does not divide 360")
    for name in GRIDS:
        table = document.get(name)
        numbers = [table.get(key) for key in ("min", "max", "step")] if isinstance(table, dict) else [None]
        if any(type(number) is not int for number in numbers) or numbers[2] < 1:
            continue
        low, high, step = numbers
        if low > high:
            yield Fault(6, f"{name}.min = {low} is above {name}.max = {high}")
        elif (high - low) // step + 1 > MOST_VALUES:
            yield Fault(8, f"{name} has {(high - low) // step + 1} candidates, and {MOST_VALUES} are the most")


def faults_of_levels(document):
    if "level" not in document:
        return
    levels, resolve = document["level"], document.get("resolve")
    if not isinstance(levels, list):
        yield Fault(5, f"level is {shown(levels)} and no list of tables")
        return
    for number, level in enumerate(levels, 1):
        if not isinstance(level, dict):
            yield Fault(5, f"level {number} is {shown(level)} and no table")
            continue
        yield from faults_of_keys(f"level {number}, ", level, LEVEL)
        yield from faults_of_numbers(f"level {number}, ", level, LEVEL)
        chosen = [key for key in MODEL_KEYS if type(level.get(key)) is int and level[key] == 1]
        if len(chosen) > 1:
            yield Fault(6, f"level {number}, {' and '.join(chosen)} are 1, and at most one may be")
    if not 1 <= len(levels) <= MOST_LEVELS:
        yield Fault(7, f"there are {len(levels)} levels, and 1 to {MOST_LEVELS} may be")
    elif type(resolve) is int and resolve > len(levels):
        yield Fault(7, f"resolve = {resolve} is above the number of levels, {len(levels)}")


def config_of(document):
    """The configuration of a document that has no fault."""
    values = {"track": list(range(0, FULL_TURN, document["track_step"]))}
    for name in GRIDS:
        values[name] = list(range(document[name]["min"], document[name]["max"] + 1, document[name]["step"]))
    recovery = document.get("recovery")
    return Config(document["resolve"], document["turn_rate"], {name: document[name]["rate"] for name in GRIDS}, values,
                  [Level(**level) for level in document["level"]],
                  (recovery["hdist"], recovery["vdist"]) if recovery is not None else None, (recovery or {}).get("nearest", 0),
                  document.get("last_times", 0))


def read_config_text(path):
    """The text of a configuration, or of one that is too long the beginning, which is too long as well."""
    return read_bytes(path, LONGEST_TEXT + 1)


def read_config(path):
    """The configuration in a file; one that is refused is a problem."""
    document, faults = examine_config(read_config_text(path))
    if faults:
        raise Problem(f"{path}: config {faults[0].code}: {faults[0].why}", 3)
    return config_of(document)


# State lines.

class Field(NamedTuple):
    """A field of a state line: its name, the least and the greatest number, its unit."""

    name: str
    low: int
    high: int
    unit: str


def fields_of(line):
    """The numbers of a state line, by the names that messages give them."""
    return [Field(key.name.upper(), key.low, key.high, key.unit) for key in keys.of_table(line)]


X, Y, ALT, TRK, GS, VS = fields_of("own")
*_, VX, VY, _, AGE = fields_of("traffic")
BOUNDS = fields_of("bounds")
ID = Field("ID", 0, 0, "")
FORMATS = range(1, 4)
FIELDS = {"moment": [Field("T", 0, 2**32 - 1, "s")], "own": [X, Y, ALT, TRK, GS, VS],
          "traffic": [ID, X, Y, ALT, VX, VY, VS], "end": [], "format": [Field("N", FORMATS[0], FORMATS[-1], "")]}
MOST_LINE_BYTES, MOST_AIRCRAFT = 255, 64
LINES_BETWEEN = 4096  # lines between two looks at how far the reading has come


def fields_in(word, form):
    """The fields after the first word of a state line, in a format."""
    return FIELDS[word] + [AGE] * (word == "traffic" and form >= 2) + BOUNDS * (word in ("own", "traffic") and form == 3)


class Bounds(NamedTuple):
    """What a report may be off by, in the order of its line: place, height, ground velocity and vertical speed."""

    place: int
    height: int
    speed: int
    climb: int


EXACT = Bounds(0, 0, 0, 0)


class Own(NamedTuple):
    x: int
    y: int
    alt: int
    trk: int
    gs: int
    vs: int
    bounds: Bounds = EXACT


class Traffic(NamedTuple):
    id: str
    x: int
    y: int
    alt: int
    vx: int
    vy: int
    vs: int
    age: int = 0
    bounds: Bounds = EXACT


whole_traffic = functools.partial(tuple.__new__, Traffic)  # an aircraft of a whole tuple, in less time than by its fields


# A line `traffic` that is right by itself but for the ranges of its numbers, in each format.
USUAL_TRAFFIC = {form: re.compile(rb"[ \t]*traffic[ \t]+([A-Za-z0-9_-]{1,8})" + rb"[ \t]+([+-]?[0-9]{1,10})" * (len(fields_in("traffic", form)) - 1)
                                  + rb"[ \t]*\r?") for form in FORMATS}
LEAST_OF_TRAFFIC, GREATEST_OF_TRAFFIC = zip(*((field.low, field.high) for field in fields_in("traffic", 3)[1:]))


class Refusal(NamedTuple):
    """A refused line: its number, the code, the cause, and what it names (the word; the aircraft; the time)."""

    line: int
    code: int
    why: str
    word: str = ""
    named: str = ""


class Origin(NamedTuple):
    """Where a moment's ownship is on the globe, in degrees, and what a direction of the plane lacks to one from true north."""

    lat: float
    lon: float
    turn: float


class Moment:
    """A moment of the input: its ownship, its aircraft, the lines it stands on and those that were refused in it; and what comments
    tell: `lacks` has the identifier and the cause of each aircraft that it lacks, `origin` where it is or None, and `silence` why
    there is no moment between it and the one before, or ''."""

    def __init__(self, time, line):
        self.time, self.first_line, self.last_line = time, line, line
        self.own, self.traffic, self.ids, self.refused = None, [], set(), []
        self.lacks, self.origin, self.silence = [], None, ""


LACKS, NO_MOMENT = re.compile(r"#\s+lacks\s+(\S+)\s*(.*)"), re.compile(r"#\s+no\s+moment:\s*(.*)")
DEGREES_FORM = r"(-?[0-9]{1,3}(?:\.[0-9]{1,9})?)"
ORIGIN = re.compile(rf"#\s+origin\s+{DEGREES_FORM}\s+{DEGREES_FORM}\s+{DEGREES_FORM}\s*")
OWNSHIP = re.compile(r"#\s+ownship\s+(\S.*)")
CLOCK, NAME = re.compile(r"#\s+clock\s+(utc|day)\s*"), re.compile(r"#\s+name\s+([A-Za-z0-9_-]{1,8})\s+(\S.*)")


class Reader:
    """Takes state lines; `events` are the refusals and the ended moments, in their order. Of what comments tell, `clock` is utc, day
    or None, `ownship` the recording's name of the ownship or None, `names` the whole names of aircraft by their identifiers, and `silence` why there is no moment after the last one, or ''."""

    def __init__(self):
        self.events, self.lines, self.form = [], 0, 1
        self.open, self.last = None, None
        self.clock, self.ownship, self.names, self.silence = None, None, {}, ""

    def read(self, text):
        """All lines of a text of bytes, and its end."""
        lines = text.split(b"\n")
        if not lines[-1]:
            lines.pop()
        for line in lines:
            self.lines += 1
            self.take(line)
            if not self.lines % LINES_BETWEEN:
                progress.show("state lines", self.lines, len(lines))
        if self.open:
            self.refuse(14, f"the input ends while moment {self.open.time} is open", line=self.lines + 1)
        return self.events

    def refuse(self, code, why, word="", named="", line=None):
        refusal = Refusal(line or self.lines, code, why, word, named)
        self.events.append(refusal)
        if self.open:
            self.open.refused.append(refusal)

    def take(self, line):
        if len(line) > MOST_LINE_BYTES:
            self.refuse(1, f"more than {MOST_LINE_BYTES} bytes")
            return
        if self.open and self.take_usual_traffic(line):
            return
        fields = [field for field in re.split(rb"[ \t]+", line.removesuffix(b"\r")) if field]
        if not fields:
            return
        if fields[0].startswith(b"#"):
            self.read_comment(line.decode("utf-8", "replace").strip())
            return
        word, *values = (field.decode("latin-1") for field in fields)
        named = values[0] if values and word in ("traffic", "moment") else ""
        fault = self.fault_of_form(word, values) or self.step(word, values)
        if fault:
            self.refuse(*fault, word, named)

    def read_comment(self, text):
        """Takes what a comment tells that has one of the forms; every other one means nothing."""
        if self.open:
            if found := LACKS.fullmatch(text):
                self.open.lacks.append(found.groups())
            elif (found := ORIGIN.fullmatch(text)) and self.open.origin is None:
                self.open.origin = Origin(*map(float, found.groups()))
        elif found := NO_MOMENT.fullmatch(text):
            self.silence = self.silence or found[1] or "no cause is given"
        elif self.last is None and (found := CLOCK.fullmatch(text)):
            self.clock = found[1]
        elif self.last is None and (found := OWNSHIP.fullmatch(text)):
            self.ownship = self.ownship or found[1]
        if found := NAME.fullmatch(text):
            self.names.setdefault(*found.groups())

    def take_usual_traffic(self, line):
        """Takes a line `traffic` that is not refused; whether it was one. Most lines are, so this way is the short one."""
        found = USUAL_TRAFFIC[self.form].fullmatch(line)
        if not found:
            return False
        name, *values = found.groups()
        name, numbers, ids = name.decode(), [*map(int, values)], self.open.ids
        if name in ids or len(ids) == MOST_AIRCRAFT or not (
                all(map(operator.le, LEAST_OF_TRAFFIC, numbers)) and all(map(operator.ge, GREATEST_OF_TRAFFIC, numbers))):
            return False
        ids.add(name)
        if self.form == 3:
            self.open.traffic.append(Traffic(name, *numbers[:7], Bounds(*numbers[7:])))
        else:
            self.open.traffic.append(whole_traffic((name, *numbers, EXACT) if self.form == 2 else (name, *numbers, 0, EXACT)))
        return True

    def fault_of_form(self, word, values):
        """The code and the cause, where the line is wrong by itself."""
        if word not in FIELDS:
            hint = "; a byte order mark stands before it: save the file without one" * word.startswith("\xef\xbb\xbf")
            hint = hint or f"; {UTF_16}" * is_utf_16(word.encode("latin-1"))
            return 2, f"{word!a} is none of the words {', '.join(FIELDS)}{hint}"
        fields = fields_in(word, self.form)
        if len(values) != len(fields):
            names = " ".join(field.name for field in fields)
            return 3, f"{word} has {len(values)} field{'s' * (len(values) != 1)} after it and not {len(fields)}" + f" ({names})" * bool(names)
        faults = (fault_of_field(word, field, value) for field, value in zip(fields, values))
        return next((fault for fault in faults if fault), None)

    def step(self, word, values):
        """Takes a line that is right by itself; the code and the cause, where it is refused in its place."""
        if word in ("moment", "format"):
            return self.begin(word, int(values[0]))
        if self.open is None:
            return 7, f"{word} while no moment is open"
        if word == "own":
            if self.open.own:
                return 10, f"moment {self.open.time} has an ownship already"
            numbers = [*map(int, values)]
            self.open.own = Own(*numbers[:6], Bounds(*numbers[6:]) if self.form == 3 else EXACT)
        elif word == "traffic":
            return self.add(values)
        else:
            return self.end()
        return None

    def begin(self, word, number):
        if self.open:
            return 8, f"{word} {number} while moment {self.open.time} is open"
        if word == "format":
            self.form = number
        elif self.last is not None and number <= self.last:
            return 9, f"moment {number} is not later than moment {self.last}"
        else:
            self.open = Moment(number, self.lines)
            self.open.silence, self.silence = self.silence, ""
        return None

    def add(self, values):
        """A further aircraft that is refused; what is taken, `take_usual_traffic` takes."""
        if values[0] in self.open.ids:
            return 11, f"moment {self.open.time} has an aircraft {values[0]} already"
        return 12, f"moment {self.open.time} has {MOST_AIRCRAFT} aircraft already"

    def end(self):
        if not self.open.own:
            return 13, f"moment {self.open.time} has no ownship"
        self.open.last_line = self.lines
        self.events.append(self.open)
        self.last, self.open = self.open.time, None
        return None


def fault_of_field(word, field, value):
    if field is ID:
        right = re.fullmatch(r"[A-Za-z0-9_-]{1,8}", value)
        return None if right else (5, f"{word}, {value!a} is no identifier (1 to 8 letters, digits, _ and -)")
    if not re.fullmatch(r"[+-]?[0-9]{1,10}", value):
        return 4, f"{word}, {field.name} {value!a} is no whole number of 1 to 10 digits"
    if not field.low <= int(value) <= field.high:
        return 6, f"{word}, {field.name} {int(value)} is outside {field.low} to {field.high}" + f" ({field.unit})" * bool(field.unit)
    return None


def read_moments(path):
    """The ended moments of a file of state lines."""
    return [event for event in Reader().read(read_bytes(path)) if isinstance(event, Moment)]


def own_line(own, form=1):
    line = "own %d %d %d %d %d %d" % own[:6]
    return line + " %d %d %d %d" % own.bounds if form == 3 else line


def traffic_line(traffic, form):
    if form == 1:
        return "traffic %s %d %d %d %d %d %d" % traffic[:7]
    line = "traffic %s %d %d %d %d %d %d %d" % traffic[:8]
    return line + " %d %d %d %d" % traffic.bounds if form == 3 else line


def moment_lines(time, own, traffic, form, comments=()):
    """The lines of a moment in a format, with comments after its first one."""
    return [f"moment {time}", *comments, own_line(own, form), *[traffic_line(aircraft, form) for aircraft in traffic], "end"]


MOST_CAUSE, MOST_NAME = 200, 50  # characters of a cause and of a name in a comment, so that its line is never long


def lacks_line(name, why):
    """The comment of a moment that lacks an aircraft."""
    return f"# lacks {name} {why[:MOST_CAUSE]}"


def no_moment_line(why):
    """The comment that there is no moment."""
    return f"# no moment: {why[:MOST_CAUSE]}"


def name_line(name, whole):
    """The comment that tells the whole name of an aircraft."""
    return f"# name {name} {whole[:MOST_NAME]}"


def ownship_line(name):
    """The comment that tells which aircraft of a recording is the ownship."""
    return f"# ownship {name[:MOST_NAME]}"


def origin_line(lat, lon, turn):
    """The comment of a moment that tells where its ownship is."""
    return f"# origin {fixed(lat, 7)} {fixed(lon, 7)} {fixed(turn, 4)}"


def fixed(number, digits):
    """A number with so many digits after its point, never -0."""
    return f"{round(number * 10 ** digits) / 10 ** digits:.{digits}f}"


# A report.

class Alert(NamedTuple):
    """What is said of an aircraft: its level now, its alert level and the first second of it, or None."""

    now: int
    level: int
    first: int | None


class Band(NamedTuple):
    first: int
    last: int
    level: int


class RefusedLine(NamedTuple):
    """A refused line of the states: its number, its code, and how many moments were reported before it."""

    line: int
    code: int
    before: int


class MomentReport:
    """The report of a moment, which begins on a line of it; `refused` are the refused lines between it and the moment before.
    `recover` has (seconds, value) or None by kind, and `last` seconds or None, where there is such a line; `steady` the levels by
    aircraft that tools/steady adds, and `absent` those of aircraft that the moment has not."""

    __slots__ = ("time", "line", "alerts", "bands", "answers", "last", "recover", "steady", "absent", "refused")

    def __init__(self, time, line=0, refused=()):
        self.time, self.line, self.alerts, self.answers, self.refused = time, line, {}, {}, refused
        self.bands = {kind: [] for kind in KINDS}
        self.last, self.recover, self.steady, self.absent = {}, {}, {}, {}

    def level_at(self, kind, value):
        return next((band.level for band in self.bands[kind] if band.first <= value <= band.last), None)


class Report:
    """A report: its moments, its refused lines, and whether it is whole."""

    def __init__(self):
        self.moments, self.refused, self.whole = [], [], True


NUMBER, ANSWER = r"(-?[0-9]{1,10})", r"(keep|none|-?[0-9]{1,10})"
REPORT_FORMS = {word: re.compile(form) for word, form in {
    "refused": r"refused ([0-9]{1,19}) ([0-9]{1,2})", "moment": r"moment ([0-9]{1,10})", "now": r"now ([A-Za-z0-9_-]{1,8}) ([0-4])",
    "alert": r"alert ([A-Za-z0-9_-]{1,8}) ([0-4]) (-|[0-9]{1,10})", "steady": r"steady ([A-Za-z0-9_-]{1,8}) ([0-4])( absent)?",
    **{kind: rf"{kind} {NUMBER} {NUMBER} ([0-4])" for kind in KINDS},
    "resolve": rf"resolve (track|gs|vs|alt) (?:left|down) {ANSWER} (?:right|up) {ANSWER}",
    "last": r"last (track|gs|vs|alt) (none|[0-9]{1,10})",
    "recover": rf"recover (track|gs|vs|alt) (?:(none)|([0-9]{{1,10}}) {NUMBER})", "done": r"done ([0-9]{1,10})"}.items()}


def parsed(line):
    """What a line of a report says, or None where it is no such line: its word (`band` for one of candidates), whom it is of (an
    aircraft, a kind, or None), and a value; of `alert` the value has an Alert for each level that it may have now."""
    word = line.split(" ", 1)[0]
    found = REPORT_FORMS[word].fullmatch(line) if word in REPORT_FORMS else None
    if not found:
        return None
    values = found.groups()
    if word in KINDS:
        return "band", word, Band(*map(int, values))
    if word == "alert":
        first = None if values[2] == "-" else int(values[2])
        return word, values[0], tuple(Alert(now, int(values[1]), first) for now in range(MOST_LEVELS + 1))
    if word == "now":
        return word, values[0], int(values[1])
    if word == "steady":
        return "absent" if values[2] else word, values[0], int(values[1])
    if word == "resolve":
        return word, values[0], (answer_of(values[1]), answer_of(values[2]))
    if word == "last":
        return word, values[0], None if values[1] == "none" else int(values[1])
    if word == "recover":
        return word, values[0], None if values[1] else (int(values[2]), int(values[3]))
    return word, None, tuple(map(int, values))


def answer_of(word):
    return word if word in ("keep", "none") else int(word)


def answer_word(answers):
    """On which sides of a kind a candidate is open: keep, both, lower, upper or none."""
    if answers[0] == "keep":
        return "keep"
    lower, upper = (answer != "none" for answer in answers)
    return {(True, True): "both", (True, False): "lower", (False, True): "upper", (False, False): "none"}[lower, upper]


MOST_REPORT_BYTES = 64  # of a line, without its end


MOST_KNOWN = 1 << 16  # lines whose meaning is kept


class ReportReader:
    """Takes the lines of a report, one by one; `name` is what it is called in messages."""

    def __init__(self, name):
        self.name, self.line, self.moments, self.open, self.refused, self.refusals, self.known = name, 0, 0, None, [], 0, {}

    def events_of(self, lines):
        """Takes lines, in bytes and without their ends: the moments that they end, and the refused lines that they tell of. Most lines
        are of aircraft and candidates, and right; they are taken here, and all others by `take`."""
        known, quick = self.known.get, 0
        alerts = self.open.alerts if self.open else None
        for line in lines:
            found = known(line)
            if found is not None and alerts is not None:
                word, name, said = found
                if word == "now" and name not in alerts:
                    alerts[name] = said
                    quick += 1
                    continue
                if word == "alert" and type(now := alerts.get(name)) is int:
                    alerts[name] = said[now]
                    quick += 1
                    continue
            self.line, quick = self.line + quick, 0
            event = self.take(line)
            if event is not None:
                yield event
            alerts = self.open.alerts if self.open else None
        self.line += quick

    def take(self, line):
        """Takes a line, in bytes and without its end; gives the moment that it ends, or the refused line that it tells of, or None."""
        self.line += 1
        found = self.known.get(line) or self.meaning_of(line)
        at = self.open
        if found is None or (at is None) != (found[0] in ("refused", "moment")):
            line = line.decode("latin-1")
            raise self.problem(f"is no line of a report there: {line[:60]!a}{hint_on(line)}")
        word, name, said = found
        if at is None:
            return self.begin(word, said)
        if word == "done":
            return self.end(said[0], line)
        self.fill(at, word, name, said)
        return None

    def meaning_of(self, line):
        """What a line says, or None where it is none of a report; it is kept, but for times, of which each stands once."""
        found = parsed(line.decode("latin-1")) if len(line) <= MOST_REPORT_BYTES else None
        if found and found[1] is not None:
            if len(self.known) == MOST_KNOWN:
                self.known.clear()
            self.known[line] = found
        return found

    def begin(self, word, said):
        """Takes a line between two moments."""
        if word == "refused":
            self.refused.append(RefusedLine(*said, self.moments))
            self.refusals += 1
            return self.refused[-1]
        self.open, self.refused = MomentReport(said[0], self.line, tuple(self.refused)), []
        return None

    def fill(self, at, word, name, said):
        """Puts what a line says into the report of its moment."""
        if word == "band":
            bands = at.bands[name]
            if said.first > said.last or bands and said.first <= bands[-1].last:
                raise self.problem(f"does not rise: {said.first} {said.last}")
            bands.append(said)
            return
        if word in ("alert", "steady") and name not in at.alerts:
            raise self.problem(f"is of {name}, of which no line `now` stands before it")
        if word == "absent" and name in at.alerts:
            raise self.problem(f"calls {name} absent, of which a line `now` stands before it")
        place = {"now": at.alerts, "alert": at.alerts, "resolve": at.answers, "last": at.last, "recover": at.recover, "steady": at.steady,
                 "absent": at.absent}[word]
        if name in place and (word != "alert" or type(place[name]) is not int):
            raise self.problem(f"occurs twice in its moment: {'steady' if word == 'absent' else word} {name}")
        place[name] = said[place[name]] if word == "alert" else said

    def end(self, time, line):
        ended = self.open
        if time != ended.time or len(ended.answers) != len(KINDS):
            raise self.problem(f"ends a moment that is not whole: {line.decode('latin-1')!a}")
        for name, alert in ended.alerts.items():
            if type(alert) is int:
                ended.alerts[name] = Alert(alert, 0, None)
        self.open = None
        self.moments += 1
        return ended

    def problem(self, what):
        return Problem(f"{self.name}: line {self.line} {what}", 4)


def hint_on(line):
    """What to do with a text that has such a line in a report's place."""
    word = line.split(" ", 1)[0]
    if word in ("own", "traffic", "end", "format"):
        return "; these are state lines, of which ./daidalus replay makes a report"
    if word.startswith("#"):
        return "; a report has no comments, and of state lines ./daidalus replay makes one"
    if line.endswith("\r") and parsed(line[:-1]):
        return "; a carriage return stands at its end, which no report has: take them off, as by tr -d '\\r'"
    if is_utf_16(line.encode("latin-1")):
        return f"; {UTF_16}"
    return "; the configuration was refused, and tools/check says why" if word == "config" else ""


CUT = "cut"  # what report_events gives last, of a report that ends within a line or a moment


def report_events(path):
    """The moments and the refused lines of a report in a file (`-`: standard input), one by one as they are read."""
    reader, lines = report_reader(path), Lines(path)
    for block in lines.blocks():
        yield from reader.events_of(block)
    if is_cut(reader, lines):
        yield CUT


def report_reader(path):
    """A reader of the report in a file, which has a name in messages."""
    return ReportReader("standard input" if path == "-" else path)


def is_cut(reader, lines):
    """Whether a report that was read to its end has ended too early. It is a problem if it has no whole line."""
    if not reader.line:
        raise Problem(f"{reader.name}: no report: {'it has no whole line' if lines.rest.strip() else 'it is empty'}", 4)
    return bool(lines.rest or reader.open)


class Lines:
    """The lines of a report in a file, in bytes and without their ends, as soon as they are there; `rest` is what stands after
    the last end. Of a line that is longer than any of a report the beginning is given, before its end is read."""

    def __init__(self, path):
        self.path, self.rest = path, b""

    def blocks(self):
        """Lists of lines, one for each read."""
        for block in blocks_of(self.path):
            *lines, self.rest = (self.rest + block).split(b"\n")
            yield lines
            if len(self.rest) > MOST_REPORT_BYTES + 1:
                yield [self.rest[:MOST_REPORT_BYTES + 1]]


def blocks_of(path):
    """The bytes of a file, or of standard input, in blocks as they come."""
    try:
        with contextlib.nullcontext(standard_input()) if path == "-" else open(path, "rb") as file:
            size, done = os.fstat(file.fileno()).st_size, 0
            for block in iter(lambda: file.read1(1 << 16), b""):
                yield block
                done += len(block)
                progress.show("bytes of the report", done, size)
    except OSError as fault:
        raise unreadable(path, fault) from None


def read_report(path):
    """The report in a file, or on standard input where the name is `-`."""
    report = Report()
    for event in report_events(path):
        if event is CUT:
            report.whole = False
        elif isinstance(event, RefusedLine):
            report.refused.append(event)
        else:
            report.moments.append(event)
    return report


def tell_if_cut(name, report):
    """Says on standard error that a report ends too early, as one does whose run was ended by a fault."""
    if not report.whole:
        say_cut(name)


def why_incomplete(moment, state=None):
    """What a moment lacks, in words, or nothing if it is complete: the refused lines that stand before its report, and the
    aircraft that a comment of its states names."""
    words = [f"refused {line} {code}" for line, code, _ in moment.refused]
    return "; ".join(words + [f"lacks {name} {why}" for name, why in (state.lacks if state else ())])


def say_incomplete(name, moment):
    """Says on standard error if refused lines stand before the report of a moment; whether they do."""
    if moment.refused:
        first = moment.refused[0].line
        lines = f"line {first} was refused" if len(moment.refused) == 1 else f"{len(moment.refused)} lines from line {first} on were refused"
        tell(f"{name}: moment {moment.time} is incomplete, since {lines}: what it lacks is not known")
    return bool(moment.refused)


def status_of_refused(reader):
    """The status of a tool that has read a report to its end: 1 if it tells of a refused line."""
    return int(reader.refusals > 0)


def say_cut(name):
    tell(f"{name}: the report ends within a moment, which is left out")


# Encounters.

class Encounters:
    """Numbers encounters from 1 on: one begins where a time is not greater than the one before, and with `pause` also where
    so many seconds or more lie between the two."""

    def __init__(self, pause=None):
        self.number, self.last, self.pause = 0, None, pause

    def number_at(self, time):
        """The number of the encounter that the moment of this time belongs to."""
        if self.last is None or time <= self.last or self.pause and time - self.last >= self.pause:
            self.number += 1
        self.last = time
        return self.number


def encounters_of(moments, pause=None):
    """The moments in lists, one for each encounter."""
    count, found = Encounters(pause), []
    for moment in moments:
        if count.number_at(moment.time) > len(found):
            found.append([])
        found[-1].append(moment)
    return found


def read_words(parser, *files):
    """What a parser makes of the command words; at most one of these files may be standard input."""
    given = parser.parse_intermixed_args()
    if [getattr(given, name) for name in files].count("-") > 1:
        parser.error("standard input is one file and not two")
    return given


def add_pause(parser):
    """The option that tells where encounters begin."""
    parser.add_argument("--pause", metavar="SECONDS", type=at_least_one,
                        help="an encounter begins also after so many seconds without a moment, not only where times do not rise")


def whole_from(least, most=9999999999):
    """The type of a word of the command line: a whole number in a range, of at most 10 digits."""
    def taken(word):
        if not re.fullmatch("[0-9]{1,10}", word) or not least <= int(word) <= most:
            raise argparse.ArgumentTypeError(f"{word} is no whole number from {least} to {most}")
        return int(word)
    return taken


at_least_one = whole_from(1)


def bounds_of_words(word):
    """The type of a word P,V,S,W: the bounds of a report, in the units of its line."""
    parts = word.split(",")
    if len(parts) != len(BOUNDS) or any(fault_of_field("", field, part) for field, part in zip(BOUNDS, parts)):
        told = ", ".join(f"{field.name} in {field.unit}" for field in BOUNDS)
        raise argparse.ArgumentTypeError(f"{word} has not the form P,V,S,W of four whole numbers from {BOUNDS[0].low} to {BOUNDS[0].high}: {told}")
    return Bounds(*map(int, parts))


def add_bounds(parser):
    """The options that give reports bounds."""
    parser.add_argument("--bounds", metavar="P,V,S,W", type=bounds_of_words,
                        help="write format 3: the bounds of each aircraft's report, in 0.001 NM, ft, 0.1 kt and ft/min")
    parser.add_argument("--own-bounds", metavar="P,V,S,W", type=bounds_of_words, help="write format 3: the bounds of the ownship's report")


def bounded_lines(given, time, own, traffic, form, comments=()):
    """The lines of a moment whose reports have the bounds of the command words; without these in this format."""
    if given.bounds is None and given.own_bounds is None:
        return moment_lines(time, own, traffic, form, comments)
    own, bounds = own._replace(bounds=given.own_bounds or EXACT), given.bounds or EXACT
    return moment_lines(time, own, [it._replace(bounds=bounds) for it in traffic], 3, comments)


def format_line(given, form):
    """The line that says which format follows: that of `bounded_lines`."""
    return f"format {form if given.bounds is None and given.own_bounds is None else 3}"
