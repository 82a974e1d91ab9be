"""The times of a recording: a number of seconds or of another unit, a time of day, or a date and a time by ISO 8601."""
import datetime
import functools
import math
import re

DAY = 86400
EPOCH = datetime.date(1970, 1, 1).toordinal()
ISO = re.compile(r"([0-9]{4})[-/]([0-9]{2})[-/]([0-9]{2})[T ]+([0-9]{2}):([0-5][0-9]):([0-5][0-9](?:[.,][0-9]*)?) ?(Z|UTC|[+-][0-9]{2}(?::?[0-9]{2})?)?", re.IGNORECASE)
DATE = re.compile(r"([0-9]{4})[-/]([0-9]{2})[-/]([0-9]{2})")
OF_DAY = re.compile(r"([0-9]{1,9}):([0-5][0-9]):([0-5][0-9](?:\.[0-9]*)?)")
# From which number on a time without a unit is counted in this unit, since 1970: the name, and what it is worth.
SINCE_1970 = ((1e17, "nanoseconds", 1e-9), (1e14, "microseconds", 1e-6), (1e11, "milliseconds", 1e-3), (1e9, "seconds", 1))
LEAST_UTC = 1e9  # s: a time from here on counts since 1970
GREATEST_SINCE_1970 = 1e20  # in any unit


@functools.lru_cache(maxsize=64)
def day_of(year, month, day):
    """The seconds from 1970 to a date, or None where there is no such one."""
    try:
        return (datetime.date(int(year), int(month), int(day)).toordinal() - EPOCH) * DAY
    except ValueError:
        return None


def iso_time(cell):
    """The seconds since 1970 of a date and time, and whether its zone is told; or None."""
    found = ISO.fullmatch(cell)
    day = day_of(*found.groups()[:3]) if found else None
    if day is None or int(found[4]) > 24:
        return None
    zone = (found[7] or "").upper()
    shift = 0
    if zone and zone[0] in "+-":
        digits = zone[1:].replace(":", "").ljust(4, "0")
        shift = (int(digits[:2]) * 3600 + int(digits[2:]) * 60) * (1 if zone[0] == "+" else -1)
    return day + int(found[4]) * 3600 + int(found[5]) * 60 + float(found[6].replace(",", ".")) - shift, bool(zone)


def date_time(cell):
    """The seconds since 1970 at which a date begins, or None."""
    found = DATE.fullmatch(cell)
    return day_of(*found.groups()) if found else None


def time_of_day(cell):
    """The seconds of a time of day hh:mm:ss, which may go on past 24:00:00; or None."""
    found = OF_DAY.fullmatch(cell)
    return int(found[1]) * 3600 + int(found[2]) * 60 + float(found[3]) if found else None


def is_time(cell):
    return number_of(cell) is not None or time_of_day(cell) is not None or iso_time(cell) is not None


def number_of(cell):
    """A number, or None."""
    try:
        found = float(cell)
    except ValueError:
        return None
    return found if math.isfinite(found) else None


def has_all_digits(cell):
    """Whether a time since 1970 has all its seconds; a spreadsheet may write 1.71568E+09 and so take the last ones away."""
    if "e" not in cell and "E" not in cell:
        return True
    mantissa = cell.lower().partition("e")[0]
    return sum(letter.isdigit() for letter in mantissa) >= 10


class Times:
    """The times of one file, by the cells that were read before."""

    def __init__(self, worth=None):
        self.worth, self.scale = worth, None
        self.forms, self.last, self.first, self.midnights, self.is_utc = {}, {}, None, 0, False

    def read(self, cell, name, date=None):
        """The seconds of a cell of an aircraft, with the date of another cell where there is one; or None."""
        number = number_of(cell)
        if number is not None:
            return self.scaled(number, cell)
        iso = iso_time(cell)
        if iso:
            self.forms["date and time" + " without a zone, taken as UTC" * (not iso[1])] = True
            self.is_utc = True
            return iso[0]
        seconds = time_of_day(cell)
        if seconds is None:
            return None
        day = date_time(date) if date else None
        if day is not None:
            self.forms["date and time without a zone, taken as UTC"] = self.is_utc = True
            return day + seconds
        self.forms["time of day"] = True
        return self.past_midnight(seconds, name)

    def scaled(self, number, cell):
        """The seconds of a number: of the unit that is given, or of the one since 1970 that fits the first time."""
        if self.scale is None:
            what, self.scale = next(((what, worth) for least, what, worth in SINCE_1970 if number >= least), ("seconds", 1))
            if self.worth is not None:
                self.scale = self.worth
            elif number >= LEAST_UTC:
                self.forms[f"{what} since 1970"] = True
        if LEAST_UTC <= number < GREATEST_SINCE_1970 and not has_all_digits(cell):
            return None
        found = number * self.scale
        if found >= LEAST_UTC:
            self.is_utc = True
        return found

    def scaled_all(self, numbers, cells):
        """The seconds of some numbers of which none lacks digits, or None where one may."""
        if "e" in (text := "".join(cells)) or "E" in text or self.scaled(numbers[0], cells[0]) is None:
            return None
        found = [number * self.scale for number in numbers]
        self.is_utc = self.is_utc or max(found) >= LEAST_UTC
        return found

    def past_midnight(self, seconds, name):
        """A time of day on the day that is nearest to the aircraft's last time, or at first to the recording's first time."""
        if self.first is None:
            self.first = seconds
        near = self.last.get(name, self.first)
        days = max(0, round((near - seconds) / DAY))
        self.midnights += days > 0
        self.last[name] = seconds + days * DAY
        return seconds + days * DAY

    def told(self):
        """The forms of the times, in words."""
        return " and ".join(self.forms) or "seconds"
