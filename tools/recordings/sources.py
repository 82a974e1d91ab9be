"""Reads recordings line by line: finds which form a file has, leaves out what can't be read, and puts several files together."""
import json
import os
import re
from typing import NamedTuple

import progress
from daidalus_files import UTF_16, Problem, is_utf_16, read_bytes

from .aircraft_json import AircraftJson
from .basestation import IS_LINE, BaseStation
from .headers import COLUMNS
from .rows import BadRow, RepeatedHeader, Table

MOST_SHOWN = 60  # characters of a line in a message
AT_ONCE = 256  # lines that are read together


class Wishes(NamedTuple):
    """What the command words ask of the reading."""

    columns: dict = {}
    units: dict = {}
    altitude: str | None = None
    is_strict: bool = False


class Faults:
    """The rows that were left out, by cause: how many, and the first one's line."""

    def __init__(self):
        self.by_cause = {}

    def note(self, cause, number, line):
        count, first, text = self.by_cause.get(cause, (0, number, line.strip()[:MOST_SHOWN]))
        self.by_cause[cause] = count + 1, first, text

    def count(self):
        return sum(count for count, _, _ in self.by_cause.values())

    def first(self):
        """The first fault in words, or None."""
        found = min(((first, cause, text) for cause, (_, first, text) in self.by_cause.items()), default=None)
        return f"line {found[0]}: {found[1]}: {found[2]!a}" if found else None

    def told(self):
        for cause, (count, first, text) in self.by_cause.items():
            yield f"left out: {count} row{'s' * (count != 1)} with {cause}: " + f"the first is line {first}: {text!a}" * (count > 1) + f"line {first}: {text!a}" * (count == 1)


class Source:
    """A recording that is taken line by line; the form is found by its first line."""

    def __init__(self, path, wishes, owner=None):
        self.path, self.wishes = path, wishes
        self.owner = owner or os.path.splitext(os.path.basename(path))[0]
        self.number, self.settings, self.header_lines, self.repeated = 0, 0, [], 0
        self.form, self.usual, self.text, self.faults, self.count = None, None, None, Faults(), 0

    def take(self, line):
        """The reports of one more line."""
        self.number += 1
        stripped = line.strip()
        if not stripped or stripped[0] == "#":
            return []
        if self.text is not None:
            self.text.append(line)
            return []
        if self.form is None:
            return self.begin(line, stripped)
        return self.rows(line)

    def take_all(self, lines):
        """The reports of further lines: what take gives of each, sooner where they are lines of a table that are as most are."""
        found = self.usual.rows(lines) if self.usual and lines else None
        if found is not None:
            self.number += len(found)
            self.count += len(found)
            return found
        return self.take(lines[0]) if len(lines) == 1 else [row for line in lines for row in self.take_all([line])]

    def begin(self, line, stripped):
        """Finds the form by the first lines."""
        if self.header_lines:
            return self.begin_table(line)
        if "=" in line and not stripped.startswith("{"):
            self.settings += 1
        elif IS_LINE.match(stripped):
            self.form = BaseStation()
            return self.rows(line)
        elif stripped[0] in "{[":
            return self.begin_json(line)
        else:
            self.header_lines = [line]
        return []

    def begin_table(self, under):
        """Makes the table by the header and the line under it, or by the header alone."""
        self.form = self.at_path(lambda: Table(self.header_lines[0], under, self.number, self.wishes, self.owner))
        self.usual = self.form.usual
        return [] if self.form.header.has_unit_line or not under else self.rows(under)

    def begin_json(self, line):
        self.form = AircraftJson(self.wishes.altitude)
        try:
            json.loads(line)
        except ValueError:
            self.text = [line]  # one text of several lines, which is read at its end
            return []
        return self.rows(line)

    def at_path(self, act):
        """A problem of this file names it."""
        try:
            return act()
        except Problem as problem:
            raise Problem(f"{self.path}: {problem}", problem.status) from None

    def rows(self, line):
        """The reports of a line in the form that was found; what can't be read is noted."""
        try:
            if isinstance(self.form, AircraftJson):
                found = self.form.rows(line)
            else:
                row = self.form.row(line)
                found = [row] if row else []
        except RepeatedHeader:
            self.repeated += 1
            return []
        except (BadRow, ValueError) as fault:
            self.leave_out(line, str(fault) if isinstance(fault, BadRow) else "no JSON")
            return []
        for row in found:
            if row.lack:
                self.leave_out(line, row.lack)
            else:
                self.count += 1
        return found

    def leave_out(self, line, cause):
        self.faults.note(cause, self.number, line)
        if self.wishes.is_strict:
            raise Problem(f"{self.path}: {self.faults.first()}", 3)

    def end(self):
        """The reports that the end brings; it is a problem if nothing could be read."""
        found = []
        if self.text is not None:
            text, self.text = "\n".join(self.text), None
            found = self.rows(text)
        if self.form is None and self.header_lines:
            self.begin_table("")
        if self.form is None:
            raise Problem(f"{self.path}: no header line", 3)
        if not self.count:
            first = self.faults.first()
            raise Problem(f"{self.path}: no report of an aircraft" + f" can be read; {first}" * bool(first), 3)
        return found

    @property
    def is_utc(self):
        return self.form.times.is_utc if isinstance(self.form, Table) else True

    @property
    def clock(self):
        """What the times count from: utc, day or None."""
        if self.is_utc:
            return "utc"
        return "day" if "time of day" in self.form.times.forms else None

    # What is told.

    def told_faults(self):
        """What was left out of this file."""
        yield from self.faults.told()
        if self.repeated:
            yield f"left out: {self.repeated} line{'s' * (self.repeated != 1)} that repeat{'s' * (self.repeated == 1)} the header"
        if isinstance(self.form, Table) and self.form.times.midnights:
            yield "times of day go over midnight: from there on they count past 24:00:00"

    def told(self):
        """What was taken of this file."""
        if self.settings:
            yield f"left out: {self.settings} line{'s' * (self.settings != 1)} `KEY = VALUE`; a configuration says what they say"
        if self.form.grounded:
            yield f"left out: {self.form.grounded} report{'s' * (self.form.grounded != 1)} of aircraft on the ground"
        if not isinstance(self.form, Table):
            yield self.form.told
            return
        header = self.form.header
        if header.dialect:
            yield f"read as {header.dialect['says']}"
        yield f"columns: {', '.join(self.told_column(column) for column in header.used)}"
        if unused := header.unused():
            yield f"not used: the column{'s' * (len(unused) > 1)} {', '.join(unused)}"
        if "name" not in header.places:
            yield f"no column has names: all reports are of {self.owner}, as the file is called"
        if self.form.climbs:
            yield "no column has vertical speeds: they are taken from the heights, from report to report"
        if header.places.get("trk") and "heading" in header.places["trk"].name.lower() and not header.dialect:
            yield "the heading is taken as the track: they differ in wind"

    def told_column(self, column):
        """A column by its name and its unit, which is marked where it is assumed."""
        header, quantity = self.form.header, COLUMNS[column]["quantity"]
        name = header.places[column].name
        if column == "time":
            return f"{name} ({header.units.get('time') or self.form.times.told()})"
        if quantity is None:
            return name
        usual = {"angle": "deg", "length": "NM", "height": "ft", "speed": "knots", "climb": "ft/min"}[quantity]
        return f"{name} ({header.units[column]})" if column in header.units else f"{name} ({usual}, assumed)"


def lines_of_text(path):
    """The lines of a file; a byte order mark at its beginning is skipped, and a byte that is no text becomes a sign for that."""
    text = read_bytes(path)
    if is_utf_16(text):
        raise Problem(f"{path}: {UTF_16}", 3)
    return text.decode("utf-8-sig", "replace").splitlines()


def read_file(path, wishes, shift=0, owner=None):
    """The rows of a file, each later by a shift in seconds, and its source."""
    source = Source(path, wishes, owner)
    lines, rows = lines_of_text(path), []
    for begin in range(0, len(lines), AT_ONCE):
        rows += source.take_all(lines[begin:begin + AT_ONCE])
        progress.show("read", begin, len(lines))
    rows += source.end()
    return source, [row._replace(time=row.time + shift) for row in rows] if shift else rows


def shift_of(word):
    """The seconds of a word such as 2h, -30min or 1.5; or None."""
    found = re.fullmatch(r"([+-]?[0-9]+(?:\.[0-9]+)?) ?(s|min|m|h|d)?", word)
    return float(found[1]) * {"": 1, "s": 1, "m": 60, "min": 60, "h": 3600, "d": 86400}[found[2] or ""] if found else None
