"""The header of a table: which column is where, and what a number in it is worth. columns.json has the names and the units."""
import functools
import json
import os
import re

from daidalus_files import Problem

from .cells import cells_of, marks_of, split_unit, unit_cells_of
from .times import is_time, number_of

with open(os.path.join(os.path.dirname(os.path.realpath(__file__)), "columns.json"), encoding="utf-8") as _file:
    TABLE = json.load(_file)
COLUMNS = TABLE["columns"]


def worths(quantity):
    """Each name of a unit of a quantity, with its worth."""
    return {name: worth[0] / worth[1] if isinstance(worth, list) else worth for names, worth in TABLE["units"][quantity] for name in names.split()}


UNITS = {quantity: worths(quantity) for quantity in TABLE["units"]}
FORMS = {"place": (("lat", "lon"), ("position",), ("sx", "sy")), "speed": (("trk", "gs"), ("vx", "vy"))}
SAYS = {"place": "a place (lat lon, or sx sy)", "speed": "a speed (trk gs, or vx vy)"}
ALTITUDES = {None: ("alt_baro", "alt", "alt_geom"), "baro": ("alt_baro", "alt"), "geom": ("alt_geom",)}
BEGINS_AS_NUMBER = re.compile("[-+]?[0-9.]")
PREFIX = "globalpositionint"  # before each name, where a tool of MAVLink writes several messages into one table
# What a unit may be followed by, which changes no number.
OF_WHAT = re.compile(r" ?(a?msl|hae|agl|std|baro|geo|gps|gnss|true|tas|utc)$")


@functools.cache
def plain(name):
    """A name as it is compared: in small letters, without what stands between its words."""
    return re.sub(r"[\s_.\-]", "", name).lower()


def words_of(name):
    """The words of a name: at blanks, underscores and points, and where a capital follows a small letter."""
    return [word for word in re.split(r"[\s_.\-]+", re.sub(r"([a-z])([A-Z])", r"\1_\2", name)) if word]


@functools.cache
def unit_key(quantity, unit):
    """A unit as the table has it, or None."""
    key = unit.strip().lower()
    for key in (key, OF_WHAT.sub("", key), key.replace(" ", "")):
        if key in UNITS[quantity]:
            return key
    return None


class Found:
    """A column that a header names: where it is, as what, and in which unit by the name itself."""

    def __init__(self, at, name, unit):
        self.at, self.name, self.unit = at, name, unit


class Header:
    """The columns of a table by its header line, and by the line under it, which has that number, where it has units."""

    def __init__(self, line, under, number, wishes):
        self.line, self.marks, self.wishes, self.under_number = line, marks_of(line), wishes, number
        self.cells = cells_of(line, self.marks)
        self.named = [split_unit(cell) for cell in self.cells]
        self.names = [plain(name).removeprefix(PREFIX) for name, _ in self.named]
        self.dialect = next((dialect for dialect in TABLE["dialects"] if set(dialect["needs"]) <= set(self.names)), None)
        self.places = self.find()
        self.altitude = next((column for column in ALTITUDES[wishes.altitude] if column in self.places), None)
        self.check(line)
        self.used = self.used_columns()
        self.has_unit_line = bool(under) and self.is_unit_line(under)
        below = [split_unit(cell)[1] or cell for cell in unit_cells_of(under, self.marks)] if self.has_unit_line else []
        self.units = {}
        self.worth = {column: self.worth_of(column, below) for column in self.used if COLUMNS[column]["quantity"]}

    # Which column is where.

    def find(self):
        """The column's place for each that is there; of several names the one that stands first in the table."""
        places = {}
        for column, entry in COLUMNS.items():
            ranked = [(rank, at, unit) for at in range(len(self.names)) for rank, unit in self.ranks(column, entry, at)]
            best = min(ranked, key=lambda found: found[:2], default=None)
            if best is None:
                continue
            if sum(rank == best[0] and self.names[at] == self.names[best[1]] for rank, at, _ in ranked) > 1:
                raise Problem(f"the header names {column} twice", 3)
            places[column] = Found(best[1], self.named[best[1]][0], best[2])
        for column, wanted in self.wishes.columns.items():
            at = [place for place, name in enumerate(self.names) if name == plain(wanted)]
            if not at:
                raise Problem(f"--columns {column}={wanted}: the header has no column {wanted}; it has {self.all_names()}", 2)
            places[column] = Found(at[0], self.named[at[0]][0], None)
        if "label" in places and places["label"].at == getattr(places.get("name"), "at", None):
            del places["label"]
        return places

    def ranks(self, column, entry, at):
        """How a header's name stands in the names of a column, and the unit that belongs to it: none, or one."""
        name = self.names[at]
        if self.dialect and name in self.dialect["columns"]:
            other, unit = self.dialect["columns"][name]
            if other == column:
                yield -1, unit
            return
        if name in entry["names"]:
            yield entry["names"].index(name), TABLE["units_of_names"].get(name)
        elif entry["quantity"] and len(words := words_of(self.named[at][0])) > 1:
            begin, unit = plain("".join(words[:-1])), unit_key(entry["quantity"], words[-1])
            if begin in entry["names"] and unit:
                yield entry["names"].index(begin), unit

    def has(self, columns):
        return all(column in self.places for column in columns)

    def form(self, what):
        """The columns that a place or a speed is made of; the first form that is whole is taken."""
        return next((form for form in FORMS[what] if self.has(form)), None)

    def check(self, line):
        """It is a problem if a row of such a header can't be read; the words name what is there and what would do."""
        missing = [f"time ({COLUMNS['time']['says']})"] * ("time" not in self.places)
        missing += [f"alt ({COLUMNS['alt']['says']})"] * (self.altitude is None)
        missing += [SAYS[what] for what in FORMS if not self.form(what)]
        if not missing:
            return
        if not any(column in self.places for column in COLUMNS) and any(number_of(cell) is not None for cell in self.cells):
            raise Problem("no header line: the first line has numbers and no names of columns; write one above it, such as "
                          "`time,id,lat,lon,alt,gs,trk,vs`", 3)
        raise Problem(f"the header has no column for {', '.join(missing)}; it has {self.all_names()}{self.hint(missing)}", 3)

    def all_names(self):
        names = [name or "one without a name" for name, _ in self.named]
        return ", ".join(names[:30])[:400] + ", .." * (len(names) > 30)

    def hint(self, missing):
        """What to write for a column that goes by another name, or why one that is there was not taken."""
        above = next((name for name in self.names if name in TABLE["above_what"]), None)
        if above and self.altitude is None:
            return f" ({above} is above {TABLE['above_what'][above]}, and altitudes here are above the sea)"
        if self.wishes.altitude and self.altitude is None:
            return f" (--altitude {self.wishes.altitude} takes only such ones)"
        first = next((column for column in missing[0].split() if column.strip("(") in COLUMNS), "lat").strip("(")
        return f"; if one of these is it, tell tools/from_daa so: --columns {first}=NAME"

    def used_columns(self):
        """The columns that a row is made of."""
        used = ["time", self.altitude, *self.form("place"), *self.form("speed")]
        return used + [column for column in ("name", "vs", "label", "date", "ground") if column in self.places]

    def unused(self):
        """The names of the columns that are not used."""
        there = {self.places[column].at for column in self.used}
        return [name or "without a name" for at, (name, _) in enumerate(self.named) if at not in there]

    # Units.

    def is_unit_line(self, line):
        """A line has units if no time stands where one would, nothing else begins as a number, and it is not the header once more."""
        cells = unit_cells_of(line, self.marks)
        at = self.places["time"].at
        if at >= len(cells) or is_time(cells[at]) or [cell.lower() for cell in cells] == [cell.lower() for cell in self.cells]:
            return False
        return not any(BEGINS_AS_NUMBER.match(cells[self.places[column].at]) for column in self.used
                       if COLUMNS[column]["quantity"] and self.places[column].at < len(cells) and
                       unit_key(COLUMNS[column]["quantity"], cells[self.places[column].at]) is None)

    def worth_of(self, column, below):
        """What a number of a column is worth: by the command words, the line of units, the header, or the name itself."""
        found, quantity = self.places[column], COLUMNS[column]["quantity"]
        unit, where = self.wishes.units.get(column.split("_")[0]) or self.wishes.units.get(column), "--units: "
        if unit is None:
            unit, where = (below[found.at], f"line {self.under_number}: ") if found.at < len(below) else (self.named[found.at][1], "")
        if unit is None or unit.lower() in ("", "none", "-"):
            unit, where = found.unit, ""
        if unit is None:
            return None
        key = unit_key(quantity, unit)
        if key is None:
            also = "no time (a number, hh:mm:ss or ISO 8601) and " * (column == "time" and where.startswith("line"))
            raise Problem(f"{where}{unit} is {also}no unit of {column} that is known; known are {', '.join(names.split()[0] for names, _ in TABLE['units'][quantity])}", 3)
        self.units[column] = unit
        return UNITS[quantity][key]
