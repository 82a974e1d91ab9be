"""Reads BaseStation lines, as dump1090 and its kin write them on port 30003: position, velocity and call sign of an aircraft come in
different lines, which are joined by its address."""
import math
import re

from .rows import GREATEST, BadRow, Row
from .times import iso_time, number_of

IS_LINE = re.compile(r"(MSG|STA|ID|AIR|SEL|CLK),")
ADDRESS = re.compile("~?[0-9A-Fa-f]{6}")
FIELDS = 22
HELD = 5  # s: what came in another line belongs to a position for so long


class Heard:
    """What was last heard of an aircraft: each value with its time."""

    def __init__(self):
        self.alt = self.velocity = self.climb = (-math.inf, None)

    def value(self, what, now, words):
        when, value = getattr(self, what)
        if value is None:
            raise BadRow(f"no {words}")
        if now - when > HELD:
            raise BadRow(f"no {words} within {HELD} s")
        return value


class BaseStation:
    """The rows of such lines."""

    on_earth, is_barometric = True, True
    told = ("BaseStation lines: altitudes in ft, barometric, speeds in knots and ft/min, of which most receivers send whole knots, whole degrees "
            "and multiples of 64 ft/min")

    def __init__(self):
        self.heard, self.labels, self.grounded, self.first_name = {}, {}, 0, None

    def row(self, line, now=None):
        """The report that a line with a position makes, at the line's own time or at that of a clock; None for other lines."""
        cells = [cell.strip() for cell in line.split(",")]
        if cells[0] != "MSG" and IS_LINE.match(line):
            return None
        if cells[0] != "MSG" or len(cells) < FIELDS:
            raise BadRow(f"no BaseStation line of {FIELDS} fields")
        if not ADDRESS.fullmatch(cells[4]):
            raise BadRow("no address of six hexadecimal digits")
        if now is None:
            time = iso_time(f"{cells[6]} {cells[7]}")
            if time is None:
                raise BadRow("no date and time in the fields 7 and 8")
            now = time[0]
        address = cells[4].upper()
        self.first_name = self.first_name or address
        if cells[21] in ("1", "-1"):
            self.grounded += bool(cells[14])
            return None
        if cells[10]:
            self.labels[address] = cells[10]
        heard = self.heard.setdefault(address, Heard())
        alt, speed, track, lat, lon, climb = (sound_number(cells[at]) for at in range(11, 17))
        if alt is not None:
            heard.alt = now, alt
        if speed is not None and track is not None:
            heard.velocity = now, (speed, track)
        if climb is not None:
            heard.climb = now, climb
        if lat is None or lon is None or abs(lat) > 90 or abs(lon) > 180:
            return None
        return joined(heard, address, now, (lat, lon))


def sound_number(cell):
    """A number, or None; one that is farther from 0 than any in the world is none."""
    found = number_of(cell)
    return None if found is None or abs(found) > GREATEST else found


def joined(heard, address, now, place):
    """The report of a position with what else was heard."""
    try:
        alt = heard.value("alt", now, "altitude")
        speed, track = heard.value("velocity", now, "velocity")
        climb = heard.value("climb", now, "vertical speed")
    except BadRow as fault:
        return Row(address, now, place, 0, 0, 0, 0, 0, str(fault))
    angle = math.radians(track)
    return Row(address, now, place, alt, speed * math.sin(angle), speed * math.cos(angle), climb, track)
