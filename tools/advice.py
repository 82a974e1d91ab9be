"""What the program takes and is seldom meant, of a configuration and of state lines: sentences, which decide nothing."""
import math
import re

from daidalus_files import MODELS
from headings import velocity
from recordings.basestation import IS_LINE as IS_BASE_STATION
from recordings.headers import COLUMNS
from recordings.plane import rotated
from recordings.plausible import implausible
from recordings.rows import Row

FEET_PER_MIL = 6.076  # feet in 0.001 nautical miles
RECORDING_WORDS = {name for column in ("time", "lat", "lon", "alt", "trk", "gs", "vs") for name in COLUMNS[column]["names"]}
SMALL_SPEED, SMALL_PLACE = 600, 50  # 60 knots and 0.05 nautical miles, in the units of state lines
METRES_PER_MIL, FOOT = 1.852, 0.3048  # metres in 0.001 nautical miles and in a foot
LARGE_PLACE = 500  # half a nautical mile
SMALL_BOUND, SMALL_CLIMB = 5, 15  # half a knot, which no class of ADS-B promises; and less than its vertical speeds are rounded by, in ft/min
# Radii of the classes of ADS-B: in these units they are such odd numbers that they tell the unit.
PLACES_IN_METRES, PLACES_IN_FEET = (93, 185, 186, 556, 926, 1852, 3704), (304, 608, 1823, 3038, 6076)
HEIGHTS_IN_METRES = (45, 150)


def first_words(text):
    """The words of the first line of a text that is neither blank nor a comment."""
    lines = (line.split() for line in text[:4096].decode("latin-1").splitlines())
    return next((words for words in lines if words and not words[0].startswith("#")), [])


def advice_on_config(config, text):
    """Advice on a configuration, or None where it is refused, and its text."""
    if config is None:
        if first_words(text)[:1] in (["moment"], ["format"], ["own"]):
            return ["these are state lines: the configuration comes first, tools/check CONFIG STATES"]
        is_nasas = re.search(rb"(?m)^\s*\w+[ \t]*=[ \t]*[-+.0-9]+[ \t]*\[[ \t]*[A-Za-z]", text)
        return ["this looks like NASA's parameters: tools/from_parameters makes a configuration of them"] if is_nasas else []
    return [*on_levels(config), *on_grids(config), *on_recovery(config)]


def on_levels(config):
    for number, level in enumerate(config.levels, 1):
        if level.alert > level.lookahead:
            yield (f"level {number} alerts {level.alert} s ahead and looks {level.lookahead} s ahead for bands: an alert may stand "
                   "while its bands are clear; lookahead is mostly the greater")
        yield from on_distance(f"level {number}, dthr", level.dthr)
    for number, (before, after) in enumerate(zip(config.levels, config.levels[1:]), 1):
        wider = [f"{key} {getattr(before, key)} and {getattr(after, key)}" for key in ("dthr", "zthr", "tthr", "tcoa", "lookahead", "alert")
                 if getattr(after, key) > getattr(before, key)]
        if list(MODELS).index(after.model) > list(MODELS).index(before.model):
            wider.append(f"{MODELS[before.model]} and {MODELS[after.model]}")
        if wider:
            yield (f"level {number + 1} reaches farther than level {number} ({', '.join(wider)}): a later level counts for more, "
                   "so levels mostly go from the farthest to the nearest")


def on_distance(what, dthr):
    if dthr >= 1500:
        yield (f"{what} = {dthr} is {dthr / 1000:g} nautical miles; if {dthr} feet are meant, write {round(dthr / FEET_PER_MIL)}")
    elif dthr <= 10:
        yield f"{what} = {dthr} is {dthr / 1000:g} nautical miles; if miles are meant, write {1000 * dthr}"


def on_grids(config):
    top = {kind: values[-1] for kind, values in config.values.items()}
    if 0 < top["gs"] <= 1000:
        yield f"gs goes up to {top['gs']}, {top['gs'] / 10:g} knots; if {top['gs']} knots are meant, write ten times each number of gs"
    if config.rates["gs"] < 5:
        yield f"gs.rate = {config.rates['gs']} is {config.rates['gs'] / 10:g} knots a second; if knots are meant, write {10 * config.rates['gs']}"
    if 0 < top["vs"] <= 100:
        yield f"vs goes up to {top['vs']} feet a minute; if feet a second are meant, write 60 times each number of vs"
    if 0 < top["alt"] <= 600:
        yield f"alt goes up to {top['alt']} feet; if flight levels are meant, write 100 times each number of alt"


def on_recovery(config):
    if config.recovery:
        hdist = config.recovery[0]
        yield from on_distance("recovery.hdist", hdist)
        closing = config.levels[config.resolve - 1:]
        if hdist >= min(level.dthr for level in closing):
            yield (f"recovery.hdist = {hdist} is as far as the level itself (dthr): a recovery begins within dthr, so few will be found; "
                   "83, which is 504 feet, is just outside a near mid-air collision")


def another_file(refused, text):
    """What a text is that is no state lines, in words; or nothing."""
    words = first_words(text)
    names = {re.split(r"[\[(]", word.lower())[0] for part in words for word in re.split("[,;]", part)}
    if {"time", "name"} <= names or len(names & RECORDING_WORDS) > 2 or IS_BASE_STATION.match(words[0] if words else "") or words and words[0].startswith("{"):
        return "this looks like a recording: tools/from_daa makes state lines of it"
    if words and ("=" in words or words[0].startswith("[")):
        return "this looks like a configuration: it comes first, tools/check CONFIG STATES"
    if any(refusal.code == 2 and refusal.why.startswith("'now'") for refusal in refused):
        return "this looks like a report: the states are what it was made of"
    return ""


def advice_on_states(reader, moments, refused, config):
    """Advice on state lines: what their reader found, their ended moments, their refused lines, and the configuration or None."""
    found = [] if moments or refused else ["there is no moment in it"]
    lengths = {refusal.why for refusal in refused if refusal.code == 3}
    if any("traffic has 8 fields after it and not 7" in why for why in lengths):
        found.append("aircraft with an age, the eighth number, are of format 2: write the line `format 2` before the first moment")
    if any(why.startswith(("traffic has 12 fields", "own has 10 fields")) for why in lengths):
        found.append("lines that end in four bounds are of format 3: write the line `format 3` before the first moment")
    units = [*on_speeds(moments), *on_places(moments), *on_bounds(moments)]
    unlikely = [] if units else implausible(rows_of(moments, reader.ownship), OWN, False)
    return [*found, *units, *unlikely, *on_what_is_known(moments, refused), *on_candidates(moments, config)]


OWN = "the ownship"


def rows_of(moments, made_of):
    """The reports of state lines as rows of a recording. Where the states are made of a recording, the plane of each moment is turned by
    another angle: places of traffic are taken where a comment tells it."""
    rows = []
    for moment in moments:
        own = moment.own
        east, north = velocity(own.gs, own.trk)
        rows.append(Row(OWN, moment.time, (own.x / 1000, own.y / 1000), own.alt, east / 10, north / 10, own.vs, own.trk))
        if made_of and moment.origin is None:
            continue
        angle = -math.radians(moment.origin.turn) if moment.origin else 0
        for it in moment.traffic:
            x, y = rotated((it.x - own.x) / 1000, (it.y - own.y) / 1000, angle)
            place = own.x / 1000 + x, own.y / 1000 + y
            rows.append(Row(it.id, moment.time - it.age, place, it.alt, *rotated(it.vx / 10, it.vy / 10, angle), it.vs, 0))
    return rows


def on_what_is_known(moments, refused):
    """Moments in which nothing is known of an aircraft, or of any."""
    lacking = [moment.time for moment in moments if moment.lacks]
    if lacking:
        yield (f"{len(lacking)} of {len(moments)} moments, from {lacking[0]} to {lacking[-1]} s, lack an aircraft that was heard (comments `# lacks`): "
               "what is not known there is not clear")
    is_refused = any(refusal.word == "traffic" for refusal in refused)
    if moments and not (lacking or is_refused or any(moment.traffic for moment in moments)):
        yield "no moment has another aircraft: each report will say `keep`, because nothing is known and not because the way is clear"


def on_candidates(moments, config):
    """An ownship that flies as no candidate does."""
    if config is None:
        return
    for kind, unit, scale in (("gs", "knots", 10), ("vs", "ft/min", 1), ("alt", "ft", 1)):
        low, high = config.values[kind][0], config.values[kind][-1]
        flown = [getattr(moment.own, kind) for moment in moments]
        outside = [value for value in flown if not low <= value <= high]
        if outside:
            yield (f"in {len(outside)} of {len(flown)} moments the ownship's {kind} is outside the candidates of {kind}, {low / scale:g} to {high / scale:g} {unit}: it is "
                   f"{min(outside) / scale:g} to {max(outside) / scale:g}, so each candidate is a change")


def on_speeds(moments):
    """Knots in place of 0.1 knot: by the ownship's way, or else where all speeds are small."""
    ways = [way for before, after in zip(moments, moments[1:]) if (way := way_of(before, after))]
    flown, stated = (sum(way[part] for way in ways) for part in (0, 1))
    if stated and 8 <= flown / stated <= 12.5:
        return [f"the ownship flies {flown / stated:.1f} times as far as its ground speed says: speeds are in 0.1 knot, so 360 knots are 3600"]
    if stated and 0.4 <= flown / stated <= 2.5:
        return []
    speeds = [max([moment.own.gs, *(max(abs(it.vx), abs(it.vy)) for it in moment.traffic)]) for moment in moments]
    if 0 < max(speeds, default=0) < SMALL_SPEED:
        return [f"no speed is above {max(speeds) / 10:g} knots: speeds are in 0.1 knot, "
                f"so {max(speeds)} knot{'s' * (max(speeds) > 1)} would be {10 * max(speeds)}"]
    return []


def way_of(before, after):
    """How far the ownship's place went between two moments, and how far by its ground speed, in 0.001 nautical miles."""
    flown = math.dist((before.own.x, before.own.y), (after.own.x, after.own.y))
    stated = math.hypot(*velocity(before.own.gs, before.own.trk)) * (after.time - before.time) / 36
    return (flown, stated) if flown >= 20 else None


def on_places(moments):
    """Miles in place of 0.001 nautical miles: where every aircraft is as good as where the ownship is, and none just there."""
    off = [max(abs(it.x - moment.own.x), abs(it.y - moment.own.y)) for moment in moments for it in moment.traffic]
    if len(off) > 0 and 0 < max(off) <= SMALL_PLACE:
        return [f"no aircraft is farther than {max(off) / 1000:g} nautical miles from the ownship: places are in 0.001 nautical miles, "
                f"so {max(off)} mile{'s' * (max(off) > 1)} would be {1000 * max(off)}"]
    return []


def on_bounds(moments):
    """Bounds that look like another unit, or of which half are missing."""
    bounds = [it.bounds for moment in moments for it in (moment.own, *moment.traffic)]
    places, heights, speeds, climbs = (sorted({number for number in numbers if number}) for numbers in zip(*bounds)) if bounds else ((),) * 4
    yield from on_place_bounds(places)
    if HEIGHTS_IN_METRES[0] in heights and set(heights) <= set(HEIGHTS_IN_METRES):
        yield (f"bounds of heights are {told_numbers(heights)}, which are metres of ADS-B's classes (GVA): V is in feet, "
               f"so write {told_numbers(math.ceil(it / FOOT) for it in heights)}")
    if speeds and speeds[-1] <= SMALL_BOUND:
        yield (f"no bound of a velocity is above {speeds[-1] / 10:g} knots, which no class of ADS-B promises: S is in 0.1 knot, so {speeds[-1]} "
               f"knot{'s' * (speeds[-1] > 1)} would be {10 * speeds[-1]}, and {speeds[-1]} m/s {math.ceil(speeds[-1] * 36000 / 1852)}")
    if climbs and climbs[-1] <= SMALL_CLIMB:
        yield (f"no bound of a vertical speed is above {climbs[-1]} feet per minute, and reports round by more: W is in ft/min, so {climbs[-1]} "
               f"feet per second would be {60 * climbs[-1]}")
    if places and not speeds:
        yield "places have bounds and no velocity has one: each velocity is taken as exact, so the bounds of places do not grow"
    if heights and not climbs:
        yield "heights have bounds and no vertical speed has one: each vertical speed is taken as exact"


def on_place_bounds(places):
    """Metres or feet in place of 0.001 nautical miles."""
    for unit, worth, classes in (("metres", METRES_PER_MIL, PLACES_IN_METRES), ("feet", FEET_PER_MIL, PLACES_IN_FEET)):
        found = [it for it in places if it in classes]
        if found:
            yield (f"bounds of places are {told_numbers(found)}, which are {unit} of ADS-B's classes (NACp): P is in 0.001 nautical miles, "
                   f"so write {told_numbers(round(it / worth) for it in found)}")
            return
    if places and places[0] >= LARGE_PLACE:
        yield (f"no bound of a place is below {places[0] / 1000:g} nautical miles, P = {places[0]}: if {places[0]} feet are meant, write "
               f"{math.ceil(places[0] / FEET_PER_MIL)}, and if metres, {math.ceil(places[0] / METRES_PER_MIL)}")


def told_numbers(numbers):
    """Numbers in words."""
    *before, last = map(str, numbers)
    return f"{', '.join(before)} and {last}" if before else last
