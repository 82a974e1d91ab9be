"""The units of NASA's parameter files: what one is worth, by quantity, in the unit that is named beside it. Those that recordings have too
are in recordings/columns.json."""
from recordings.headers import UNITS

FOOT, MILE, GRAVITY = 0.3048, 1852, 9.80665  # metres, metres, metres per second squared
OF_RECORDINGS_ALONE = ("utc", "epoch", "unix", "iso", "hh:mm:ss", "fl", "1e-7deg", "dege7", "cdeg")


def plain(quantity):
    """The units of a quantity without those that only tables of recordings have."""
    return {name: worth for name, worth in UNITS[quantity].items() if worth > 0 and name not in OF_RECORDINGS_ALONE and (quantity == "time" or name != "ms")}


def named(*pairs):
    """Each name of a unit, with its worth."""
    return {name: worth for names, worth in pairs for name in names.split()}


MILES, FEET, KNOTS, FEET_PER_MINUTE = plain("length"), plain("height"), plain("speed"), plain("climb")
DEGREES, SECONDS = plain("angle"), plain("time")
DEGREES_PER_SECOND = {f"{name}/s": worth for name, worth in (("deg", 1), ("rad", DEGREES["rad"]))}
KNOTS_PER_SECOND = named(("knot/s kt/s kts/s", 1), ("m/s^2 m/s2", 3600 / MILE), ("g", GRAVITY * 3600 / MILE))
FEET_PER_MINUTE_PER_SECOND = named(("fpm/s ft/min/s", 1), ("m/s^2 m/s2", 60 / FOOT), ("g", GRAVITY * 60 / FOOT))
