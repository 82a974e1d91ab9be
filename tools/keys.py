"""The numbers of a configuration and of a state, in one table: where each stands, its name, its range, its unit, whether it may be
left out (and then is 0), and the version since which it is there.

The Python tools read their ranges from here. What is written elsewhere - the engine's rows, the header's structs, those of Python
and Rust, the page's lists, FORMATS - is compared with this table by tests/tools/test_keys.py. A new number is added here first.
"""
from typing import NamedTuple


class Key(NamedTuple):
    """A number: the table or line it stands in ("" at the top), its name, the least and the greatest that it may be, its unit,
    whether a text may leave it out, and the version since which there is such a number."""

    table: str
    name: str
    low: int
    high: int
    unit: str
    may_be_left_out: bool = False
    since: str = "1.0.0"


FLAG = "0 or 1"

# The numbers of a configuration, table by table.
CONFIGURATION = (
    Key("", "resolve", 1, 4, "a level"),
    Key("", "turn_rate", 1, 30, "degree per second"),
    Key("", "track_step", 1, 90, "degree, a divisor of 360"),
    Key("", "last_times", 0, 1, FLAG, True, "2.0.0"),
    Key("gs", "min", 0, 10000, "0.1 kt"),
    Key("gs", "max", 0, 10000, "0.1 kt"),
    Key("gs", "step", 1, 10000, "0.1 kt"),
    Key("gs", "rate", 1, 10000, "0.1 kt per second"),
    Key("vs", "min", -10000, 10000, "ft/min"),
    Key("vs", "max", -10000, 10000, "ft/min"),
    Key("vs", "step", 1, 20000, "ft/min"),
    Key("vs", "rate", 1, 10000, "ft/min per second"),
    Key("alt", "min", -2000, 60000, "ft"),
    Key("alt", "max", -2000, 60000, "ft"),
    Key("alt", "step", 1, 62000, "ft"),
    Key("alt", "rate", 1, 10000, "ft/min"),
    Key("level", "dthr", 1, 10000, "0.001 NM"),
    Key("level", "zthr", 0, 10000, "ft"),
    Key("level", "tthr", 0, 120, "s"),
    Key("level", "tcoa", 0, 120, "s"),
    Key("level", "lookahead", 1, 180, "s"),
    Key("level", "alert", 1, 180, "s"),
    Key("level", "tcpa", 0, 1, FLAG, True),
    Key("level", "tau", 0, 1, FLAG, True, "2.0.0"),
    Key("level", "tep", 0, 1, FLAG, True, "2.0.0"),
    Key("recovery", "hdist", 1, 10000, "0.001 NM"),
    Key("recovery", "vdist", 0, 10000, "ft"),
    Key("recovery", "nearest", 0, 1, FLAG, True, "2.0.0"),
)


class Table(NamedTuple):
    """A table of a configuration, or a list of tables: its name, and whether a text may leave it out."""

    name: str
    may_be_left_out: bool = False


TABLES = (Table("gs"), Table("vs"), Table("alt"), Table("level"), Table("recovery", True))

# The numbers of the state lines `own` and `traffic`, in their order. Before those of `traffic` the identifier stands.
STATE = (
    Key("own", "x", -200000, 200000, "0.001 NM"),
    Key("own", "y", -200000, 200000, "0.001 NM"),
    Key("own", "alt", -2000, 60000, "ft"),
    Key("own", "trk", 0, 359, "degree"),
    Key("own", "gs", 0, 10000, "0.1 kt"),
    Key("own", "vs", -10000, 10000, "ft/min"),
    Key("traffic", "x", -200000, 200000, "0.001 NM"),
    Key("traffic", "y", -200000, 200000, "0.001 NM"),
    Key("traffic", "alt", -2000, 60000, "ft"),
    Key("traffic", "vx", -10000, 10000, "0.1 kt"),
    Key("traffic", "vy", -10000, 10000, "0.1 kt"),
    Key("traffic", "vs", -10000, 10000, "ft/min"),
    Key("traffic", "age", 0, 60, "s", True),
)

# The bounds of a report, which stand at the end of both lines in format 3, in their order.
BOUNDS = (
    Key("bounds", "p", 0, 10000, "0.001 NM", True, "3.3.0"),
    Key("bounds", "v", 0, 10000, "ft", True, "3.3.0"),
    Key("bounds", "s", 0, 10000, "0.1 kt", True, "3.3.0"),
    Key("bounds", "w", 0, 10000, "ft/min", True, "3.3.0"),
)


def of_table(table):
    """The numbers of one table of a configuration, of one state line, or of bounds, in their order."""
    return [key for key in CONFIGURATION + STATE + BOUNDS if key.table == table]
