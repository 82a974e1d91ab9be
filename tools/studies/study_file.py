"""A study's file of TOML: which configuration, pilot, sensors and encounters. Each key may be left out but `config`."""
import os
import re
import tomllib
from dataclasses import dataclass, fields

from daidalus_files import LEVEL, MODEL_KEYS, Level, Problem, read_bytes

from .drawing import FLIGHTS, MOST_NUMBER, Draw, Stratum
from .encounters import MOST_SECONDS, STRATUM, read_encounters
from .flying import WORLDS, World
from .guidance import Guidance
from .pilot import ORDER, Pilot
from .sensors import Sensors

# The ranges of numbers; a pair in the file is a range of its own within these.
PILOT = {"reaction": (0, 120), "warned": (0, 120), "update": (1, 120), "clear": (1, 600), "respond": (0, 4), "sides": (0, 1)}
SENSORS = {"place": (0, 5000), "height": (0, 5000), "speed": (0, 2000), "climb": (0, 5000), "every": (1, 600), "lost": (0, 1000), "gap": (1, 600),
           "late": (0, 60), "oldest": (0, 60), "own_track": (-50, 50)}
DRAW = {"seconds": (60, MOST_SECONDS), "own_gs": (300, 10000), "intruder_gs": (300, 10000), "closest": (1, MOST_SECONDS), "altitudes": (0, 50000)}
PAIRS = ("reaction", "warned", "update", "late", "own_gs", "intruder_gs", "closest", "altitudes")
TOP_KEYS = ("config", "well_clear", "world", "seed", "count", "encounters", "pilot", "sensors", "draw")
MOST_COUNT = MOST_NUMBER + 1
KINDS = {int: "whole number", str: "text", bool: "true or false", list: "list", dict: "table"}


@dataclass
class Study:
    """All that a row depends on beside the encounter. well_clear is the level whose volume tells a loss."""

    path: str
    config: str
    guidance: Guidance
    well_clear: Level
    world: World
    seed: int
    count: int
    encounters: str
    pilot: Pilot
    sensors: Sensors
    draw: Draw

    def encounter(self, number):
        """The encounter of a number; of a file, the one that has it."""
        found = next((it for it in read_encounters(self.encounters) if it.number == number), None) if self.encounters else \
            self.draw.encounter(self.seed, number) if number <= MOST_NUMBER else None
        if found is None:
            raise Problem(f"there is no encounter {number}" + f" in {self.encounters}" * bool(self.encounters), 4)
        return found

    def chosen(self, first, count, shard):
        """The encounters from a number on, or of a file from a place on, and of them the shard (K, N): together the shards are the
        whole, each once and in order."""
        k, n = shard
        if self.encounters:
            found = list(read_encounters(self.encounters))[first:]
            found = found if count is None else found[:count]
            return found[len(found) * k // n:len(found) * (k + 1) // n]
        count = self.count if count is None else count
        if first + count > MOST_COUNT:
            raise Problem(f"encounters have the numbers 0 to {MOST_NUMBER}", 2)
        return (self.draw.encounter(self.seed, number) for number in range(first + count * k // n, first + count * (k + 1) // n))


class Table:
    """A table of the file, each key of which is taken once."""

    def __init__(self, path, name, table):
        self.path, self.name = path, name
        if not isinstance(table, dict):
            self.fail(f"{name} is no table")
        self.left = dict(table)

    def fail(self, why):
        raise Problem(f"{self.path}: {why}", 3)

    def where(self, key):
        return f"{self.name}.{key}" if self.name else key

    def take(self, key, kind, default):
        value = self.left.pop(key, default)
        if type(value) is not kind and value is not default:
            self.fail(f"{self.where(key)} = {value!r} is no {KINDS[kind]}")
        return value

    def number(self, key, least, most, default):
        return self.ranged(key, self.take(key, int, default), least, most)

    def ranged(self, key, value, least, most):
        if type(value) is not int or not least <= value <= most:
            self.fail(f"{self.where(key)}: {value!r} is no whole number in {least}..{most}")
        return value

    def pair(self, key, least, most, default):
        """A range: two numbers, the first not above the second."""
        value = self.take(key, list, default)
        if value is default:
            return default
        if len(value) != 2 or self.ranged(key, value[0], least, most) > self.ranged(key, value[1], least, most):
            self.fail(f"{self.where(key)} = {value!r} is no range [from, to]")
        return tuple(value)

    def parts(self, key, names, default):
        """Parts by their names, or a list of them where there are none."""
        value = self.take(key, dict if names else list, default)
        if value is default:
            return default
        for name in value if names else ():
            if name not in names:
                self.fail(f"{self.where(key)}: {name!r} is none of {', '.join(names)}")
        found = tuple(value.get(name, 0) for name in names) if names else tuple(value)
        if not found or any(self.ranged(key, it, 0, 1000) < 0 for it in found) or not sum(found):
            self.fail(f"{self.where(key)} has no parts")
        return found

    def numbers(self, ranges, plain):
        """The numbers and pairs of these ranges, by their names; `plain` has their defaults."""
        return {key: (self.pair if key in PAIRS else self.number)(key, *ends, getattr(plain, key)) for key, ends in ranges.items()}

    def end(self, known):
        for key in self.left:
            self.fail(f"{self.where(key)} is no key; known are {', '.join(known)}")


def names_of(kind):
    return [it.name for it in fields(kind)]


def pilot_of(table, seed):
    plain = Pilot()
    words = {**table.numbers(PILOT, plain), **{key: table.take(key, bool, getattr(plain, key)) for key in ("heed_back", "heed_plan", "keep_recovery")}}
    kinds = table.take("kinds", list, None)
    words["kinds"] = plain.kinds if kinds is None else tuple(kinds)
    if not words["kinds"] or len(set(map(str, words["kinds"]))) < len(words["kinds"]) or any(it not in ORDER for it in words["kinds"]):
        table.fail(f"{table.where('kinds')} = {kinds!r} is no list of {', '.join(ORDER)}, each at most once")
    margin = Table(table.path, table.where("margin"), table.take("margin", dict, {}))
    words["margin"] = {kind: margin.number(kind, 0, 10000, 0) for kind in ORDER if kind in margin.left}
    margin.end(ORDER)
    words["seed"] = table.number("seed", 0, 2**32 - 1, seed)
    table.end(names_of(Pilot))
    return Pilot(**words)


def sensors_of(table, seed):
    words = {**table.numbers(SENSORS, Sensors()), "whole_degrees": table.take("whole_degrees", bool, False), "seed": table.number("seed", 0, 2**32 - 1, seed)}
    words |= {key: table.number(key, 0, 2**32 - 1, None) for key in ("noise_seed", "lost_seed", "late_seed") if key in table.left}
    table.end(names_of(Sensors))
    return Sensors(**words)


def draw_of(table):
    plain = Draw()
    words = table.numbers(DRAW, plain)
    words["intruders"] = table.parts("intruders", (), plain.intruders)
    words |= {key: table.parts(key, FLIGHTS, getattr(plain, key)) for key in ("own_flights", "intruder_flights")}
    if words["closest"][1] > words["seconds"]:
        table.fail(f"{table.where('closest')} is past {table.where('seconds')}")
    strata = table.take("stratum", list, None)
    words["strata"] = plain.strata if strata is None else tuple(stratum_of(Table(table.path, table.where("stratum"), it)) for it in strata)
    for before, after in zip(words["strata"], words["strata"][1:]):
        if before.across > after.across or before.up > after.up or (before.across, before.up) == (after.across, after.up):
            table.fail(f"{table.where('stratum')}: {after.name} does not lie round {before.name}")
    if not words["strata"] or len({it.name for it in words["strata"]}) < len(words["strata"]):
        table.fail(f"{table.where('stratum')}: there is none, or two have one name")
    table.end([*names_of(Draw)[:-1], "stratum"])
    return Draw(**words)


def stratum_of(table):
    name = table.take("name", str, "")
    if not STRATUM.fullmatch(name):
        table.fail(f"{table.where('name')} = {name!r} is not 1 to 24 letters, digits, . _ and -")
    found = Stratum(name, table.number("across", 0, 100000, None), table.number("up", 0, 50000, None), table.number("parts", 1, 1000, None))
    table.end(("name", "across", "up", "parts"))
    return found


def well_clear_of(table, config):
    """The level whose volume tells a loss: a level's number, or thresholds of its own."""
    value = table.left.pop("well_clear", config.resolve)
    if isinstance(value, dict):
        own = Table(table.path, "well_clear", value)
        keys = ("dthr", "zthr", "tthr", "tcoa", *MODEL_KEYS)
        words = {key: own.number(key, LEVEL[key].low, LEVEL[key].high, 0 if key in (*MODEL_KEYS, "tcoa") else None) for key in keys}
        own.end(keys)
        if sum(words[key] for key in MODEL_KEYS) > 1:
            own.fail(f"well_clear: at most one of {', '.join(MODEL_KEYS)} may be 1")
        return Level(**words, lookahead=1, alert=1)
    level = config.levels[table.ranged("well_clear", value, 1, len(config.levels)) - 1]
    return Level(*(getattr(level, key) for key in Level._fields))


def read_study(path, config=None, encounters=None):
    """The study of a file; another configuration, or a file of encounters, in place of its own."""
    try:
        table = Table(path, "", tomllib.loads(read_bytes(path).decode()))
    except (tomllib.TOMLDecodeError, UnicodeDecodeError, RecursionError) as fault:
        raise Problem(f"{path}: {fault}", 3) from None
    beside = lambda name: os.path.join(os.path.dirname(path), name)
    named = table.take("config", str, None)
    if not named:
        table.fail("config is missing: the file of the configuration")
    config = config or beside(named)
    guidance = Guidance(config)
    world = table.take("world", str, "seconds")
    if world not in WORLDS:
        table.fail(f"world = {world!r} is none of {', '.join(WORLDS)}")
    seed, named = table.number("seed", 0, 2**32 - 1, 0), table.take("encounters", str, "")
    study = Study(path, config, guidance, well_clear_of(table, guidance.config), World(world), seed, table.number("count", 1, MOST_COUNT, 1000),
                  encounters or (named and beside(named)), pilot_of(Table(path, "pilot", table.left.pop("pilot", {})), seed),
                  sensors_of(Table(path, "sensors", table.left.pop("sensors", {})), seed), draw_of(Table(path, "draw", table.left.pop("draw", {}))))
    table.end(TOP_KEYS)
    if study.pilot.respond > len(guidance.config.levels):
        table.fail(f"pilot.respond = {study.pilot.respond} is above the number of levels of {config}")
    return study


NAME_OF_FILE = re.compile(r"([^/]*?)(?:\.[^./]*)?$")


def short_name(path):
    """The name of a file without its folder and ending."""
    return NAME_OF_FILE.search(path)[1]
