"""Encounters of a table of waypoints, one a row, as MIT Lincoln Laboratory's encounter models sample tracks."""
import csv
import io
import re
from fractions import Fraction

from daidalus_files import Problem, read_bytes

from .encounters import Aircraft, Encounter, Way

# Names of the columns, without their units.
NAMES = {"encounter": ("encounter", "encounterid", "enc", "encid"), "aircraft": ("aircraft", "aircraftid", "ac", "acid", "track", "trackid"),
         "time": ("time", "t"), "x": ("x", "east", "xeast", "e"), "y": ("y", "north", "ynorth", "n"), "z": ("z", "alt", "altitude", "up", "h", "altmsl"),
         "weight": ("weight", "w"), "stratum": ("stratum",)}
FEET = {"ft": Fraction(1), "feet": Fraction(1), "m": Fraction(10000, 3048), "nm": Fraction(18520000, 3048), "nmi": Fraction(18520000, 3048)}
FEET_IN_MIL = Fraction(18520, 3048)  # feet in 0.001 nautical mile
WEIGHT_UNITS = 10**6  # weights are kept as millionths
MOST_ROWS = 10**7


def column_of(word):
    """The name of a column and its unit, or None."""
    plain = re.sub(r"[()\[\]]", " ", word.strip().lower())
    words = re.split(r"[^a-z]+", plain.strip())
    unit = words[-1] if len(words) > 1 and (words[-1] in FEET or words[-1] in ("s", "sec", "seconds")) else ""
    name = "".join(words[:-1] if unit else words)
    return next(((key, unit) for key, names in NAMES.items() if name in names), None)


def rows_of(path):
    """The rows of a table by the columns' names, lengths in feet."""
    text = read_bytes(path).decode("utf-8-sig", "replace")
    table = csv.reader(io.StringIO(text))
    head = [column_of(word) for word in next(table, [])]
    found = [it[0] for it in head if it]
    lacks = [name for name in ("time", "x", "y", "z") if found.count(name) != 1]
    if lacks:
        raise Problem(f"{path}: its first line names no column, or several, for {', '.join(lacks)}", 4)
    for line, words in enumerate(table, 2):
        if not words:
            continue
        row = {}
        try:
            for it, word in zip(head, words, strict=True):
                if it:
                    row[it[0]] = word.strip() if it[0] in ("encounter", "aircraft", "stratum") else Fraction(word.strip()) * FEET.get(it[1], 1)
        except (ValueError, ZeroDivisionError):
            raise Problem(f"{path}: line {line} is no row of numbers: {','.join(words)[:60]!r}", 4) from None
        yield line, row


def imported(paths, own, seconds):
    """The encounters of tables: a file without a column of encounters is one. The ownship is the aircraft of that name, or else the
    first of each."""
    number = 0
    for path in paths:
        encounters = {}
        for line, row in rows_of(path):
            tracks, weights = encounters.setdefault(row.get("encounter", ""), ({}, {}))
            track = tracks.setdefault(row.get("aircraft", "1"), [])
            if track and row["time"] <= track[-1][0]:
                raise Problem(f"{path}: line {line}: the times of an aircraft do not rise", 4)
            track.append((row["time"], row["x"], row["y"], row["z"]))
            weights |= {key: row[key] for key in ("weight", "stratum") if key in row}
        for name, (tracks, more) in encounters.items():
            yield encounter_of(path, name, number, tracks, more, own, seconds)
            number += 1


def encounter_of(path, name, number, tracks, more, own, seconds):
    where = f"{path}: encounter {name or number}"
    own = own or next(iter(tracks))
    if own not in tracks or len(tracks) < 2:
        raise Problem(f"{where} has no aircraft {own}" if own not in tracks else f"{where} has only one aircraft", 4)
    short = next((it for it, track in tracks.items() if len(track) < 2), None)
    if short is not None:
        raise Problem(f"{where}: aircraft {short} has only one waypoint", 4)
    begin = max(track[0][0] for track in tracks.values())
    end = min(track[-1][0] for track in tracks.values())
    length = min(int(end - begin), seconds or int(end - begin))
    if length < 1:
        raise Problem(f"{where}: its aircraft are not there at the same time for a whole second", 4)
    others = [Aircraft(f"A{place}", ways=ways_of(track, begin)) for place, (it, track) in enumerate((it for it in tracks.items() if it[0] != own), 1)]
    weight = max(1, round(more.get("weight", 1) * (WEIGHT_UNITS if "weight" in more else 1)))
    return Encounter(number, length, weight, more.get("stratum", "all"), Aircraft("own", ways=ways_of(tracks[own], begin)), others)


def ways_of(track, begin):
    """The places at whole seconds on an even way from waypoint to waypoint: those of the waypoints, or beside them where a waypoint's
    time is no whole second."""
    last, found, at = int(track[-1][0] - begin), [], 0
    beside = {second for time, *_ in track for second in (int((time - begin) // 1), -int(-(time - begin) // 1))}
    for second in sorted(it for it in {0, last} | beside if 0 <= it <= last):
        while at < len(track) - 2 and track[at + 1][0] - begin < second:
            at += 1
        (one_time, *one), (other_time, *other) = track[at], track[at + 1]
        part = (second + begin - one_time) / (other_time - one_time)
        x, y, z = (a + part * (b - a) for a, b in zip(one, other))
        found.append(Way(second, round(x / FEET_IN_MIL), round(y / FEET_IN_MIL), round(z)))
    return found
