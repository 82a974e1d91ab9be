"""Reads aircraft.json, which dump1090 and readsb write each second: one such text, or one a line."""
import json
import math

from .rows import GREATEST, BadRow, Row

KEYS = {"alt_baro": ("alt_baro", "altitude"), "alt_geom": ("alt_geom",), "speed": ("gs", "speed"), "track": ("track",),
        "climb": ("baro_rate", "vert_rate", "geom_rate"), "lat": ("lat",), "lon": ("lon",), "late": ("seen_pos", "seen")}
MOST_NOW = 1e11  # a time that is greater is in milliseconds


class AircraftJson:
    """The rows of such texts."""

    on_earth = True

    def __init__(self, altitude=None):
        self.altitude = "alt_geom" if altitude == "geom" else "alt_baro"
        self.labels, self.grounded, self.is_barometric, self.first_name, self.now = {}, 0, altitude != "geom", None, None
        self.told = f"aircraft.json: altitudes ({self.altitude}) in ft, speeds in knots and ft/min; a position is seen_pos seconds older than `now`"

    def rows(self, text):
        """The rows of a text, each with why it is not whole; and for an aircraft that can't be read the cause."""
        held = json.loads(text)
        if not isinstance(held, dict) or not isinstance(held.get("now"), (int, float)) or not abs(held["now"]) <= GREATEST:
            raise BadRow("no aircraft.json: it has no time `now`")
        now = held["now"] / 1000 if held["now"] > MOST_NOW else held["now"]
        self.now = now  # of the last text, in seconds
        listed = held.get("aircraft", held.get("ac"))
        if not isinstance(listed, list):
            raise BadRow("no aircraft.json: it has no list `aircraft`")
        return [made for made in (self.row(one, now) for one in listed if isinstance(one, dict)) if made]

    def row(self, one, now):
        """The report of an aircraft, or None where it has no place or is on the ground."""
        address, value = str(one.get("hex", "")).upper(), Values(one)
        if isinstance(one.get("flight"), str) and one["flight"].strip():
            self.labels[address] = one["flight"].strip()
        place = value.of("lat"), value.of("lon")
        if not address or None in place or abs(place[0]) > 90:
            return None
        if "ground" in (one.get("alt_baro"), one.get("altitude")):
            self.grounded += 1
            return None
        self.first_name = self.first_name or address
        time = now - (value.of("late") or 0)
        alt, speed, track, climb = (value.of(key) for key in (self.altitude, "speed", "track", "climb"))
        for number, words in ((alt, "altitude"), (speed, "velocity"), (track, "velocity"), (climb, "vertical speed")):
            if number is None:
                return Row(address, time, place, 0, 0, 0, 0, 0, f"no {words}")
        angle = math.radians(track)
        return Row(address, time, place, alt, speed * math.sin(angle), speed * math.cos(angle), climb, track)


class Values:
    """The numbers of an aircraft's object."""

    def __init__(self, one):
        self.one = one

    def of(self, what):
        """The first of the keys that has a number, or None; one that is farther from 0 than any in the world is none."""
        there = (self.one.get(key) for key in KEYS[what])
        return next((float(value) for value in there if isinstance(value, (int, float)) and not isinstance(value, bool) and abs(value) <= GREATEST), None)
