"""Reads a table, one report of an aircraft a row."""
import functools
import itertools
import math
import operator
import re
from typing import NamedTuple

from .cells import cells_of, mark_of
from .headers import COLUMNS, UNITS, Header, unit_key
from .times import GREATEST_SINCE_1970, LEAST_UTC, Times, number_of

GREATEST = 1e15  # a number of a recording that is farther from 0 is refused; sums and squares of others stay far from infinity
MOST_LATITUDE = 90
CLIMB_WITHIN = 30  # s: a vertical speed is taken from two heights that are at most so far apart
HEMISPHERE = re.compile(r"([0-9.]+)(?:° ?(?:([0-9.]+)['′] ?(?:([0-9.]+)[\"″] ?)?)?)? ?([NSEW])", re.IGNORECASE)
WITH_UNIT = re.compile(r"([-+]?[0-9.]+(?:[eE][-+]?[0-9]+)?) ?([^\s0-9.].*)")
ON_GROUND = {"true", "t", "1", "-1", "yes", "y", "ground", "gnd"}


class Row(NamedTuple):
    """A report of an aircraft: s, degrees or NM, ft, knots eastward and northward, ft/min, and the track, for where it stands. One
    that lacks a number says in `lack` which."""

    name: str
    time: float
    place: tuple
    alt: float
    east: float
    north: float
    vs: float
    track: float
    lack: str = ""


ROW = functools.partial(tuple.__new__, Row)  # a report of a whole tuple, in less time than by names


class BadRow(Exception):
    """A row that can't be read: the cause, without its line."""


class RepeatedHeader(BadRow):
    """A row that is the header once more."""


class Climbs:
    """The vertical speed of aircraft by their heights, where a recording has none."""

    def __init__(self):
        self.last = {}

    def of(self, name, time, alt):
        """By the height of the report before, or None."""
        before = self.last.get(name)
        if before and before[0] == time:
            return before[2]
        apart = time - before[0] if before else 0
        found = (alt - before[1]) * 60 / apart if 0 < abs(apart) <= CLIMB_WITHIN else None
        self.last[name] = time, alt, found
        return found


class Table:
    """A table: its header, and its rows line by line. `owner` is the name of its only aircraft where no column has one."""

    def __init__(self, line, under, number, wishes, owner):
        self.header = header = Header(line, under, number, wishes)
        self.owner, self.times = owner, Times(header.worth["time"])
        self.on_earth = header.form("place") != ("sx", "sy")
        self.climbs = None if "vs" in header.places else Climbs()
        self.at = {column: found.at for column, found in header.places.items()}
        self.worth = {column: worth or 1 for column, worth in header.worth.items()}
        self.columns = len(header.cells)
        self.labels, self.grounded, self.first_name = {}, 0, None
        self.is_polar = header.form("speed") == ("trk", "gs")
        self.usual = UsualRows(self) if UsualRows.fit(self) else None

    @property
    def is_barometric(self):
        """Whether its altitudes are barometric (True), geometric (False), or not said (None)."""
        return {"alt_baro": True, "alt_geom": False}.get(self.header.altitude)

    def row(self, line):
        """The report of a row; None for one that is told otherwise, of an aircraft on the ground."""
        cells = cells_of(line, self.header.marks)
        if len(cells) != self.columns:
            self.check_length(cells, line)
        if cells[0] == self.header.cells[0] and cells == self.header.cells:
            raise RepeatedHeader("the header once more")
        name = self.name_of(cells)
        self.first_name = self.first_name or name
        time = self.times.read(cells[self.at["time"]], name, cells[self.at["date"]] if "date" in self.at else None)
        if time is None:
            raise BadRow(f"no time{time_hint(cells[self.at['time']])}")
        if abs(time) > GREATEST:
            raise BadRow("too large a number for time")
        if self.is_on_ground(cells):
            self.grounded += 1
            return None
        if "label" in self.at and cells[self.at["label"]]:
            self.labels[name] = cells[self.at["label"]]
        place = self.place_of(cells)
        try:
            return self.whole_row(name, time, place, cells)
        except BadRow as fault:
            return Row(name, time, place, 0, 0, 0, 0, 0, str(fault))

    def check_length(self, cells, line):
        """A row may lack cells at its end; one that has more is none, but for empty ones."""
        if cells == [] or not "".join(cells[self.columns:]) == "":
            raise BadRow(f"{len(cells)} fields, and the header has {self.columns}" + ": a decimal comma (write a point), or a comma in a name?" * ("," in line))
        if len(cells) < self.columns and mark_of(line, self.header.marks) is None:
            raise BadRow(f"{len(cells)} fields, and the header has {self.columns}: between blanks no empty field is seen (write commas)")
        cells += [""] * (self.columns - len(cells))

    def name_of(self, cells):
        if "name" not in self.at:
            return self.owner
        name = cells[self.at["name"]]
        if not name:
            raise BadRow("no name")
        return name

    def is_on_ground(self, cells):
        return ("ground" in self.at and cells[self.at["ground"]].lower() in ON_GROUND) or cells[self.at[self.header.altitude]].lower() in ("ground", "gnd")

    def place_of(self, cells):
        if not self.on_earth:
            return self.value("sx", cells), self.value("sy", cells)
        place = self.latitude_and_longitude(cells)
        if place == (0, 0):
            raise BadRow("the latitude and longitude 0 0, which a receiver writes that has no position")
        return place

    def latitude_and_longitude(self, cells):
        if "position" not in self.header.form("place"):
            return self.value("lat", cells), self.value("lon", cells)
        pieces = re.split(r"[,; ]+", cells[self.at["position"]].strip("()[] "))
        if len(pieces) != 2:
            raise BadRow("no latitude and longitude for position")
        return self.number("lat", pieces[0], 1), self.number("lon", pieces[1], 1)

    def whole_row(self, name, time, place, cells):
        alt = self.value(self.header.altitude, cells)
        if self.is_polar:
            track, speed = self.value("trk", cells), self.value("gs", cells)
            angle = math.radians(track)
            east, north = speed * math.sin(angle), speed * math.cos(angle)
        else:
            track, east, north = 0, self.value("vx", cells), self.value("vy", cells)
        if self.climbs is None:
            return Row(name, time, place, alt, east, north, self.value("vs", cells), track)
        climb = self.climbs.of(name, time, alt)
        if climb is None:
            raise BadRow("no vertical speed yet")
        return Row(name, time, place, alt, east, north, climb, track)

    def value(self, column, cells):
        """A number of a column in its unit."""
        return self.number(column, cells[self.at[column]], self.worth[column])

    @staticmethod
    def number(column, cell, worth):
        found = number_of(cell)
        found = found * worth if found is not None else number_otherwise(column, cell)
        if found is None:
            hint = ": a decimal comma, or a mark of thousands? Write a point, and no mark" * bool(re.fullmatch("[-+0-9.]*,[0-9.,]*", cell))
            raise BadRow(f"no number for {column}{hint}")
        if abs(found) > (MOST_LATITUDE if column == "lat" else GREATEST):
            hint = ": are lat and lon in each other's place, or in another unit?" * (column == "lat")
            raise BadRow(f"too large a number for {column}{hint}")
        return found


class UsualRows:
    """Reads rows of a table as most are, with plain numbers, many at a time: column by column, in a tenth of the time; every other row is
    left to the table."""

    def __init__(self, table):
        self.table, at = table, table.at
        self.mark, other = (";", '"') if table.header.marks == ";" else (",", ";")
        self.unusual = {'"', other, "#"}
        self.name, self.time, self.label, self.ground = at["name"], at["time"], at.get("label"), at.get("ground")
        columns = (*table.header.form("place"), table.header.altitude, "trk", "gs", "vs")
        self.numbers = [(at[column], table.worth[column]) for column in columns]
        self.times, self.on_earth, self.columns = table.times, table.on_earth, table.columns

    @staticmethod
    def fit(table):
        """Whether a table has rows that can be read so."""
        return (table.is_polar and table.header.form("place") != ("position",) and "date" not in table.at and {"name", "vs"} <= table.at.keys()
                and mark_of(table.header.line, table.header.marks) is not None)

    def rows(self, lines):
        """The reports of lines, or None where one may be another one than it looks."""
        text = "\n".join(lines)
        try:
            cells = [*zip(*[line.split(self.mark) for line in lines], strict=True)]
        except ValueError:
            return None
        if len(cells) != self.columns or any(mark in text for mark in self.unusual):
            return None
        names = [*map(str.strip, cells[self.name])]
        if not all(names) or self.ground is not None and any(cell.strip().lower() in ON_GROUND for cell in cells[self.ground]):
            return None
        try:
            north, east, alt, track, speed, vs = (self.column(cells[at], worth) for at, worth in self.numbers)
            times = self.times.scaled_all([*map(float, cells[self.time])], cells[self.time])
        except ValueError:
            return None
        if times is None or not math.hypot(*north, *east, *alt, *track, *speed, *vs, *times) < GREATEST:
            return None
        places = [*zip(north, east)]
        if self.on_earth and (min(north) < -MOST_LATITUDE or max(north) > MOST_LATITUDE or (0, 0) in places):
            return None
        if self.label is not None:
            self.table.labels.update((name, label) for name, label in zip(names, map(str.strip, cells[self.label])) if label)
        if self.table.first_name is None:
            self.table.first_name = names[0]
        angles = [*map(math.radians, track)]
        speeds_east, speeds_north = map(operator.mul, speed, map(math.sin, angles)), map(operator.mul, speed, map(math.cos, angles))
        return [*map(ROW, zip(names, times, places, alt, speeds_east, speeds_north, vs, track, itertools.repeat("")))]

    @staticmethod
    def column(cells, worth):
        """The numbers of a column."""
        return [*map(float, cells)] if worth == 1 else [float(cell) * worth for cell in cells]


def number_otherwise(column, cell):
    """A number that is written with its unit (`3000 ft`), or a latitude or longitude with its hemisphere; or None."""
    quantity = COLUMNS[column]["quantity"]
    if column in ("lat", "lon"):
        found = HEMISPHERE.fullmatch(cell)
        parts = [number_of(part or "0") for part in found.groups()[:3]] if found else [None]
        if None in parts or (found[4].upper() in "NS") != (column == "lat"):
            return None
        return (parts[0] + parts[1] / 60 + parts[2] / 3600) * (-1 if found[4].upper() in "SW" else 1)
    found = WITH_UNIT.fullmatch(cell)
    number, key = (number_of(found[1]), unit_key(quantity, found[2])) if found else (None, None)
    return number * UNITS[quantity][key] if number is not None and key else None


def time_hint(cell):
    if re.fullmatch("[-+0-9.]*,[0-9]*", cell):
        return ": a decimal comma? Write a point"
    if re.fullmatch("[0-9]{1,2}:[0-9]{2}", cell):
        return ": seconds are missing"
    if number_of(cell) is not None and LEAST_UTC <= number_of(cell) < GREATEST_SINCE_1970:
        return ": a spreadsheet has taken away its last digits"
    return ""
