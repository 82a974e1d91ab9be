"""The detect-and-avoid engine for Python: alerts, bands, resolutions, last times and recoveries of a moment, and its report.

It calls the archive of crates/daa_c, made into a shared library as examples/README.md shows:

    engine = Engine("built/x86-64/libdaidalus.so")
    config = engine.read(open("examples/three_levels.toml", "rb").read())
    own = Own(x=0, y=0, alt=10000, trk=0, gs=3600, vs=0)
    amber = Traffic("AMBER", x=3000, y=8000, alt=10000, vx=-1350, vy=0, vs=0)
    moment = engine.decide(config, own, [amber])
    moment.alert(0)                        # Alert(now=0, level=2, first=43)
    moment.bands(Kind.TRACK)               # [Band(low=0, high=5, level=3), ..]
    moment.resolution(Kind.TRACK, Side.UPPER)

A loop over many moments keeps one moment, whose structs are filled anew each time:

    moment = engine.loop(config)
    for time, own, traffic in moments:
        moment.decide(time, own, traffic)
        print(time, moment.alerts())

Units and ranges are those of crates/daa_c/include/daidalus.h. What the engine refuses raises Refused, whose text says why.
"""
import ctypes
from ctypes import byref, c_char, c_int32, c_int64, c_size_t, c_uint8, c_uint32, c_uint64
from dataclasses import dataclass
from enum import IntEnum
from functools import lru_cache
from struct import Struct as Packing
from struct import error as DoesNotFit
from typing import List, NamedTuple, Optional

VERSION = 30300  # of daidalus.h: the structs of a library of another version may be others
MOST_AIRCRAFT, MOST_LEVELS, MOST_VALUES, MOST_CANDIDATES, MOST_TEXT = 64, 4, 512, 1897, 130176


class Kind(IntEnum):
    """What a candidate changes; HOLD is the present flight."""
    HOLD = 0
    TRACK = 1   # degrees clockwise from north
    SPEED = 2   # ground speed, 0.1 kt
    CLIMB = 3   # vertical speed, ft/min
    HEIGHT = 4  # altitude, ft


class Side(IntEnum):
    LOWER = 0  # to the left, slower, or lower
    UPPER = 1  # to the right, faster, or higher


# --- what a caller gives

@dataclass(frozen=True)
class Grid:
    """The values min, min + step, .. up to max of a kind, and by how much a second may change the present value."""
    min: int
    max: int
    step: int
    rate: int


@dataclass(frozen=True)
class Level:
    """A well-clear volume with its lookahead and alert time. Of tcpa, tau and tep at most one is 1: the time to the closest
    approach, tau, or the time to the entry point is then in place of modified tau."""
    dthr: int
    zthr: int
    tthr: int
    tcoa: int
    lookahead: int
    alert: int
    tcpa: int = 0
    tau: int = 0
    tep: int = 0


@dataclass(frozen=True)
class Cylinder:
    """What a recovery stays out of: hdist in 0.001 NM, vdist in ft. nearest: 0 if the least of the values that recover soonest
    is named, 1 if the one nearest to the present value."""
    hdist: int
    vdist: int
    nearest: int = 0


@dataclass(frozen=True)
class Config:
    """The numbers of a configuration; levels[0] is level 1. last_times: 1 if the last times to manoeuvre are asked for, else 0."""
    resolve: int
    turn_rate: int
    track_step: int
    gs: Grid
    vs: Grid
    alt: Grid
    levels: List[Level]
    recovery: Optional[Cylinder] = None
    last_times: int = 0


@dataclass(frozen=True)
class Own:
    x: int
    y: int
    alt: int
    trk: int
    gs: int
    vs: int


@dataclass(frozen=True)
class Traffic:
    """An aircraft; age is that of its report in seconds, over which it is flown straight on."""
    id: str
    x: int
    y: int
    alt: int
    vx: int
    vy: int
    vs: int
    age: int = 0


@dataclass(frozen=True)
class Place:
    """An aircraft on the globe: latitude and longitude in ten-millionths of a degree, velocity east and north in 0.1 kt."""
    lat: int
    lon: int
    vx: int
    vy: int


# --- what the engine answers

class Course(NamedTuple):
    """An ownship in the plane round it; turn: by how much the plane is turned to the right of true north, in 0.0001 degree."""
    trk: int
    gs: int
    turn: int


class Seen(NamedTuple):
    """An aircraft in the plane round an ownship, which is at 0 0."""
    x: int
    y: int
    vx: int
    vy: int


class Alert(NamedTuple):
    """now: the level violated now. level: the one that alerts, 0 if none; first: its first second, None if none."""
    now: int
    level: int
    first: Optional[int]


class Band(NamedTuple):
    """A stretch of a kind's rising values, from low up to high, that all show one level."""
    low: int
    high: int
    level: int


class Resolution(NamedTuple):
    """keep: the present flight is open. Else value is the nearest open one, or None if there is none."""
    keep: bool
    value: Optional[int]


class Recovery(NamedTuple):
    """From second `after` on the value is clear."""
    after: int
    value: int


# --- what the engine refuses

SENTENCES = {
    1: "the configuration has more than 65536 bytes",
    2: "the configuration is no document of TOML",
    3: "the configuration has a key that is not known",
    4: "the configuration lacks a key",
    5: "a value of the configuration is no whole number, or no table",
    6: "a number of the configuration is out of its range, min is above max, track_step does not divide 360, or a level has two models",
    7: "the configuration has no level or more than four, or resolve is above their number",
    8: "a kind has more than 512 candidates",
    16: "the ownship is out of range",
    17: "an aircraft is out of range",
    18: "there are more than 64 aircraft",
    19: "the buffer is too short",
    20: "there is no memory",
    21: "an identifier is not 1 to 8 letters, digits, _ and -",
    22: "two aircraft have one identifier",
    23: "the kind is none of track, gs, vs and alt",
    24: "there is no such side",
    25: "the configuration has no candidate at the index",
    26: "the configuration does not ask for it",
    27: "the board was not decided under this configuration",
    28: "the board is of another ownship",
    29: "the board is of another time",
    30: "the board was changed, or copied while it was filled in",
    31: "the report is too old",
    32: "the report is of a time more than a second ahead",
    33: "m is not 1 to n, or n is above 16",
    34: "the level is none of an alert, or the levels are none of the configuration",
    35: "the time is not after that of the moment before",
    36: "no flight of the kind goes to the value",
    37: "the aircraft is more than 100 nautical miles away",
}
FIELDS = ("", "x", "y", "alt", "trk", "gs", "vs", "vx", "vy", "age")


class Refused(ValueError):
    """The engine refused a call. code is that of daidalus.h; place is the aircraft's, None where none is meant."""

    def __init__(self, code, place=None, detail=""):
        super().__init__(SENTENCES.get(code, f"code {code}") + detail)
        self.code, self.place = code, place


# --- the structs of daidalus.h

def held(number, kind):
    """The number, or if this type of C cannot hold it, one that the engine refuses everywhere."""
    return number if kind(number).value == number else 2 ** (8 * ctypes.sizeof(kind) - 1) - 1


def number(word):
    """The number, or if C's int cannot hold it, one that the engine refuses everywhere."""
    return word if -2**31 <= word < 2**31 else 2**31 - 1


class Struct(ctypes.Structure):
    """A struct of C that holds its numbers, in place of cutting them as ctypes does."""

    def __setattr__(self, name, value):
        kind = dict(self._fields_).get(name)
        super().__setattr__(name, held(value, kind) if kind in (c_int32, c_uint32, c_int64, c_uint64) else value)


def struct(*parts):
    """The struct whose fields have these names and types, in this order."""
    return type("Struct", (Struct,), {"_fields_": [(name, kind) for names, kind in parts for name in names.split()]})


class C:
    """The structs as C lays them out."""
    Grid = struct(("min max step rate", c_int64))
    Level = struct(("dthr zthr tthr tcoa lookahead alert tcpa tau tep", c_int64))
    Config = struct(("resolve turn_rate track_step", c_int64), ("gs vs alt", Grid), ("recovery", c_uint64),
                    ("hdist vdist nearest last_times", c_int64), ("count", c_uint64), ("level", Level * MOST_LEVELS))
    Own = struct(("x y alt trk gs vs", c_int32))
    Traffic = struct(("id", c_char * 8), ("x y alt vx vy vs", c_int32), ("age", c_uint32))
    Alert = struct(("now level", c_uint32), ("first", c_int64))
    Fault = struct(("code field least greatest", c_int32), ("place", c_uint64))
    Board = struct(("mask", c_uint8 * 2048), ("mark", c_int64 * 55), ("own", Own), ("time sum", c_uint32))
    Candidate = struct(("kind value", c_int32))
    Band = struct(("least most", c_int32), ("level", c_uint32))  # from is a word of Python
    Resolution = struct(("what value", c_int32))
    Recovery = struct(("found", c_int32), ("after", c_uint32), ("value", c_int32))
    Last = struct(("found", c_int32), ("after", c_uint32))
    SteadyRule = struct(("m n hold", c_uint32))
    Steady = struct(("recent", c_uint8 * 16), ("ends", c_uint64 * 4), ("gone next", c_uint64))
    Side = struct(("side", c_uint32), ("until next", c_uint64))
    Place = struct(("lat lon vx vy", c_int32))
    Course = struct(("trk gs turn", c_int32))
    Seen = struct(("x y vx vy", c_int32))


def c_config(config):
    if len(config.levels) > MOST_LEVELS:
        raise Refused(7)
    cylinder = config.recovery or Cylinder(0, 0)
    levels = (C.Level * MOST_LEVELS)(*((it.dthr, it.zthr, it.tthr, it.tcoa, it.lookahead, it.alert, it.tcpa, it.tau, it.tep)
                                       for it in config.levels))
    return C.Config(config.resolve, config.turn_rate, config.track_step, *(C.Grid(it.min, it.max, it.step, it.rate) for it in
                    (config.gs, config.vs, config.alt)), int(config.recovery is not None), cylinder.hdist, cylinder.vdist, cylinder.nearest,
                    config.last_times, len(config.levels), levels)


def config_of(numbers):
    grids = [Grid(it.min, it.max, it.step, it.rate) for it in (numbers.gs, numbers.vs, numbers.alt)]
    levels = [Level(*(getattr(it, name) for name, _ in it._fields_)) for it in numbers.level[:numbers.count]]
    cylinder = Cylinder(numbers.hdist, numbers.vdist, numbers.nearest) if numbers.recovery else None
    return Config(numbers.resolve, numbers.turn_rate, numbers.track_step, *grids, levels, cylinder, numbers.last_times)


# states as C lays them out, packed at once
OWN, TRAFFIC, BAND = Packing("=6i"), Packing("=8s6iI"), Packing("=2iI")
MOST_BANDS = c_size_t(MOST_VALUES)


def c_place(place):
    return C.Place(*(held(it, c_int32) for it in (place.lat, place.lon, place.vx, place.vy)))


@lru_cache(maxsize=4096)
def c_name(name):
    """An identifier for C. One that C cannot hold is handed on as none, which the engine refuses."""
    name = name.encode("utf-8", "replace")
    return name if len(name) <= 8 and b"\0" not in name else b""


def pack_own(room, own):
    """Packs an ownship. Numbers that C cannot hold become such as the engine refuses."""
    numbers = own.x, own.y, own.alt, own.trk, own.gs, own.vs
    try:
        OWN.pack_into(room, 0, *numbers)
    except DoesNotFit:
        OWN.pack_into(room, 0, *(held(it, c_int32) for it in numbers))


def pack_traffic(room, traffic):
    """Packs aircraft. Numbers that C cannot hold become such as the engine refuses."""
    pack, size = TRAFFIC.pack_into, TRAFFIC.size
    for place, it in enumerate(traffic):
        try:
            pack(room, place * size, c_name(it.id), it.x, it.y, it.alt, it.vx, it.vy, it.vs, it.age)
        except DoesNotFit:
            numbers = (held(number, c_int32) for number in (it.x, it.y, it.alt, it.vx, it.vy, it.vs))
            pack(room, place * size, c_name(it.id), *numbers, held(it.age, c_uint32))


# --- the engine

def done(code):
    """Raises Refused where a call does not answer 0."""
    if code:
        raise Refused(code)


class Engine:
    """The archive's calls. It has no state: calls may run in threads of the caller. OSError says why there is none."""

    def __init__(self, path: str):
        self.calls = ctypes.CDLL(path)
        tell = getattr(self.calls, "daa_version", None)
        if not tell or tell() != VERSION:
            raise OSError(f"{path} is of {f'version {tell()}' if tell else 'no version'}, and this module of version {VERSION}")

    def ask(self, name, *words):
        """Makes a call, and raises Refused where it does not answer 0."""
        done(getattr(self.calls, name)(*(number(word) if isinstance(word, int) else word for word in words)))

    def read(self, text: bytes) -> Config:
        """The numbers of a configuration's text of TOML."""
        numbers = C.Config()
        self.ask("daa_read", text, c_size_t(len(text)), byref(numbers))
        return config_of(numbers)

    def check(self, config: Config) -> None:
        """Raises Refused unless the numbers are a configuration."""
        self.ask("daa_check", byref(c_config(config)))

    def fly(self, traffic: Traffic, at: int, now: int, most: int = 60999) -> Traffic:
        """An aircraft as it is now, from its report of another time, both in milliseconds: its age, and its numbers flown over what
        is left of a second. A report of up to a second ahead is flown back. Refused where it is older than `most` milliseconds."""
        reported, flown = C.Traffic(), C.Traffic()
        pack_traffic(reported, [traffic])
        self.ask("daa_fly", byref(reported), c_uint64(at), c_uint64(now), c_uint32(held(most, c_uint32)), byref(flown))
        return Traffic(traffic.id, flown.x, flown.y, flown.alt, flown.vx, flown.vy, flown.vs, flown.age)

    def fly_own(self, own: Own, at: int, now: int, most: int = 60999) -> Own:
        """The ownship as it is now, from its report of another time, both in milliseconds: flown over all of its age."""
        reported, flown = C.Own(), C.Own()
        pack_own(reported, own)
        self.ask("daa_fly_own", byref(reported), c_uint64(at), c_uint64(now), c_uint32(held(most, c_uint32)), byref(flown))
        return Own(*OWN.unpack_from(flown))

    def steady(self, m: int = 2, n: int = 4, hold: int = 5) -> "Steady":
        """What is shown of an aircraft's alerts: a level once m of the last n moments had it, and for `hold` seconds after."""
        return Steady(self, m, n, hold)

    def steady_side(self, seconds: int) -> "SteadySide":
        """The side of a kind's answer that is shown: it stays for so many seconds, unless it has no answer."""
        return SteadySide(self, seconds)

    def plane_own(self, own: Place) -> Course:
        """The track and the ground speed of an ownship in the plane round it, and that plane's turn."""
        found = C.Course()
        self.ask("daa_plane_own", byref(c_place(own)), byref(found))
        return Course(found.trk, found.gs, found.turn)

    def plane(self, own: Place, aircraft: Place) -> Seen:
        """An aircraft in the plane round an ownship, which is turned so that the ownship's track is a whole degree. Refused where it
        is more than 100 NM away."""
        found = C.Seen()
        self.ask("daa_plane", byref(c_place(own)), byref(c_place(aircraft)), byref(found))
        return Seen(found.x, found.y, found.vx, found.vy)

    def loop(self, config: Config) -> "Moment":
        """A moment for a loop: decide it again and again. Its structs are made once."""
        return Moment(self, config)

    def decide(self, config: Config, own: Own, traffic: List[Traffic], time: int = 0) -> "Moment":
        """Decides a moment. Refused names the aircraft and the number that is out of range. The time is the caller's number of the
        moment, 0 to 4294967295."""
        moment = Moment(self, config)
        moment.decide(time, own, traffic)
        return moment


class Steady:
    """What is shown of one aircraft's alerts from moment to moment."""

    def __init__(self, engine, m, n, hold):
        self.engine, self.rule, self.state, self.shown = engine, C.SteadyRule(m, n, hold), C.Steady(), c_uint32()

    def take(self, time: int, level: Optional[int]) -> int:
        """The level to be shown in a moment in which the aircraft's alert has this level, or None if the moment has not the
        aircraft. Times rise. Refused where the rule, the level or the time is wrong; then nothing has changed."""
        level = -1 if level is None else level if 0 <= level else 2**31 - 1
        self.engine.ask("daa_steady", byref(self.rule), c_uint32(time_of(time)), level, byref(self.state), byref(self.shown))
        return self.shown.value


class SteadySide:
    """The side of one kind's answer that is shown from moment to moment."""

    def __init__(self, engine, seconds):
        self.engine, self.seconds, self.state, self.shown = engine, c_uint32(time_of(seconds)), C.Side(), c_int32()

    def take(self, time: int, lower: Resolution, upper: Resolution, preferred: Side) -> Optional[Side]:
        """The side whose value is to be shown in a moment with these answers, or None. Times rise."""
        lower, upper = (0 if it.keep else 2 if it.value is None else 1 for it in (lower, upper))
        self.engine.ask("daa_steady_side", self.seconds, c_uint32(time_of(time)), lower, upper, preferred, byref(self.state), byref(self.shown))
        return None if self.shown.value < 0 else Side(self.shown.value)


def time_of(time):
    if not 0 <= time < 2**32:
        raise ValueError(f"the time {time} is not in 0..{2**32 - 1}")
    return time


class Moment:
    """A moment, and what may be asked of it once it is decided. Its structs are kept, and filled anew by each call: so one thread
    at a time uses it. Before the first moment that is decided, and after one that is refused, each answer raises Refused."""

    def __init__(self, engine, config):
        self.engine, self.board, self.own, self.time, self.length = engine, C.Board(), C.Own(gs=-1), c_uint32(), 0
        self.found, self.to, self.count = C.Alert(), C.Resolution(), c_size_t()
        self.config, self.at_board, self.at_own = byref(c_config(config)), byref(self.board), byref(self.own)
        self.at_found, self.at_to, self.at_count = byref(self.found), byref(self.to), byref(self.count)
        self.calls, self.bands_room, self.levels_room, self.text_room = engine.calls, (C.Band * MOST_VALUES)(), None, None
        self.bands_bytes = memoryview(self.bands_room).cast("B")
        self.make_room(MOST_AIRCRAFT)
        self.picture = self.at_own, self.traffic, c_size_t(0)  # (an ownship that is out of range, until there is one)

    def make_room(self, length):
        self.traffic = (C.Traffic * length)()
        self.each = [byref(it) for it in self.traffic]

    def decide(self, time: int, own: Own, traffic: List[Traffic]) -> None:
        """Decides a moment in place of the last one. Refused names the aircraft and the number that is out of range. The time is
        the caller's number of the moment."""
        self.length, self.time = 0, c_uint32(time_of(time))
        self.board.sum = self.board.mark[0] = 0  # a moment that is refused leaves no board of an earlier one
        if len(traffic) > len(self.traffic):
            self.make_room(len(traffic))
        pack_own(self.own, own)
        pack_traffic(self.traffic, traffic)
        self.picture = self.at_own, self.traffic, c_size_t(len(traffic))
        code = self.calls.daa_decide(self.config, self.time, *self.picture, self.at_board)
        if code:
            self.refuse(traffic)
            raise Refused(code)
        self.length = len(traffic)

    def refuse(self, traffic):
        fault = C.Fault()
        self.engine.ask("daa_fault", *self.picture, byref(fault))
        if fault.code == 0:
            return
        of_aircraft = fault.code in (17, 21, 22)
        detail = f": {traffic[fault.place].id}" if of_aircraft else ""
        detail += f": {FIELDS[fault.field]} is not in {fault.least}..{fault.greatest}" if fault.field else ""
        raise Refused(fault.code, fault.place if of_aircraft else None, detail)

    def join(self, more: "Moment") -> None:
        """Adds the levels of another moment of the same configuration, time and ownship: bands, levels and resolutions are then those
        of the aircraft of both together, however many these are. The other answers stay those of this one's aircraft."""
        self.engine.ask("daa_join", self.config, more.at_board, self.at_board)

    def alert(self, place: int) -> Alert:
        """The alert of the aircraft at this place of the list."""
        done(self.calls.daa_alert(self.config, self.at_own, self.each[range(self.length)[place]], self.at_found))
        found = self.found
        return Alert(found.now, found.level, found.first if found.level else None)

    def alerts(self) -> List[Alert]:
        """The alert of each aircraft, in the order of the list."""
        return [self.alert(place) for place in range(self.length)]

    def bands(self, kind: Kind) -> List[Band]:
        """The stretches of the kind's values that show one level each, rising."""
        done(self.calls.daa_bands(self.config, self.time, self.at_board, number(kind), self.bands_room, MOST_BANDS, self.at_count))
        return [*map(Band._make, BAND.iter_unpack(self.bands_bytes[:self.count.value * BAND.size]))]

    def levels(self) -> List[int]:
        """The level of each candidate, in the order of the configuration's whole list."""
        self.levels_room = self.levels_room or (c_uint8 * MOST_CANDIDATES)()
        self.engine.ask("daa_levels", self.config, self.time, self.at_board, self.levels_room, c_size_t(MOST_CANDIDATES), self.at_count)
        return self.levels_room[:self.count.value]

    def resolution(self, kind: Kind, side: Side) -> Resolution:
        """The nearest open value on a side."""
        done(self.calls.daa_resolution(self.config, self.time, self.at_own, self.at_board, number(kind), number(side), self.at_to))
        to = self.to
        return Resolution(to.what == 0, to.value if to.what == 1 else None)

    def recovery(self, kind: Kind) -> Optional[Recovery]:
        """The soonest recovery of a kind, under a configuration that asks for recoveries."""
        to = C.Recovery()
        self.engine.ask("daa_recovery", self.config, *self.picture, kind, byref(to))
        return Recovery(to.after, to.value) if to.found else None

    def recovery_side(self, kind: Kind, side: Side) -> Optional[Recovery]:
        """The soonest recovery among the values on a side of the present one."""
        to = C.Recovery()
        self.engine.ask("daa_recovery_side", self.config, *self.picture, kind, side, byref(to))
        return Recovery(to.after, to.value) if to.found else None

    def last(self, kind: Kind) -> Optional[int]:
        """The greatest number of seconds, below the greatest lookahead of the levels that close, for which the present flight
        may be kept so that some candidate of the kind that begins then is open, or None, under a configuration that asks for
        last times."""
        to = C.Last()
        self.engine.ask("daa_last", self.config, *self.picture, kind, byref(to))
        return to.after if to.found else None

    def closers(self, kind: Kind, value: int, least: int, greatest: int) -> List[int]:
        """The places of the aircraft that the flight to a value of a kind meets at some level from least up to greatest. The value
        may be any that the kind can have, also one that the configuration does not list."""
        places = c_uint64()
        self.engine.ask("daa_closers", self.config, *self.picture, kind, value, c_uint32(held(least, c_uint32)), c_uint32(held(greatest, c_uint32)),
                        byref(places))
        return [place for place in range(MOST_AIRCRAFT) if places.value >> place & 1]

    def value_level(self, kind: Kind, value: int) -> int:
        """The level of the flight to a value of a kind, any that the kind can have: the greatest at which it meets some aircraft, or 0."""
        level = c_uint32()
        self.engine.ask("daa_value_level", self.config, *self.picture, kind, value, byref(level))
        return level.value

    def report(self, time: int) -> bytes:
        """The moment's text, as the program writes it. The time is in seconds, 0 to 4294967295."""
        time, self.text_room = c_uint32(time_of(time)), self.text_room or ctypes.create_string_buffer(MOST_TEXT)
        self.engine.ask("daa_report", self.config, time, *self.picture, self.text_room, c_size_t(MOST_TEXT), self.at_count)
        return ctypes.string_at(self.text_room, self.count.value)
