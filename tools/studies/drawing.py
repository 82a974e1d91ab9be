"""Encounters drawn from a seed: strata by how near two aircraft would come, with more draws of those that tell most.

Encounter N of a seed is a function of the study's table [draw], the seed and N alone."""
from dataclasses import dataclass
from math import isqrt, lcm

from generator import WORD_32, Generator

from .encounters import Aircraft, Encounter, Event
from .flying import flown
from .whole import FOOT, MIL, rounded

# What the numbers of a seed are drawn for: encounters, pilots, and from OF_SENSORS on each error of each aircraft.
OF_ENCOUNTERS, OF_PILOTS, OF_SENSORS = 0, 4, 8
MOST_NUMBER = 2**23 - 1
FLIGHTS = ("straight", "climb", "turn", "level", "gs")


def generator_of(seed, number, purpose):
    """The generator of an encounter's number, for a purpose."""
    return Generator.of_seed(seed + number * WORD_32 + purpose * 2**55)


@dataclass(frozen=True)
class Stratum:
    """Encounters whose first intruder passes within `across` (0.001 NM) and `up` (feet), and not within those of the stratum before;
    of `parts` of a study's encounters."""

    name: str
    across: int
    up: int
    parts: int


@dataclass(frozen=True)
class Draw:
    """How encounters are drawn. Speeds are in 0.1 kt, `closest` are the seconds at which the first intruder passes; `intruders` says of
    how many parts encounters have one, two, .. of them, and the tables of flights of how many parts aircraft fly so."""

    seconds: int = 240
    own_gs: tuple = (600, 2000)
    intruder_gs: tuple = (800, 3500)
    closest: tuple = (150, 180)
    intruders: tuple = (6, 1)
    own_flights: tuple = (3, 1, 1, 1, 0)
    intruder_flights: tuple = (2, 1, 1, 1, 1)
    altitudes: tuple = (1500, 12000)
    strata: tuple = (Stratum("collision", 82, 100, 3), Stratum("well-clear", 700, 500, 5), Stratum("beyond", 1500, 1200, 2))

    def cells(self, place):
        """How many pairs of miss distances a stratum has, those of the strata within it apart."""
        all_of = [0, *((2 * it.across + 1) * (2 * it.up + 1) for it in self.strata)]
        return all_of[place + 1] - all_of[place]

    def weights(self):
        """Of each stratum, how much an encounter of it counts: miss distances are taken to be even within the last stratum."""
        common = lcm(*(it.parts for it in self.strata))
        return [self.cells(place) * (common // it.parts) for place, it in enumerate(self.strata)]

    def place_of(self, number):
        """The stratum of an encounter."""
        return by_parts([it.parts for it in self.strata], number % sum(it.parts for it in self.strata))

    def encounter(self, seed, number):
        """The encounter of this number."""
        draw, at = generator_of(seed, number, OF_ENCOUNTERS), self.place_of(number)
        own, others = self.aircraft(draw, "own", self.own_gs, self.own_flights), []
        for index in range(by_parts(self.intruders, draw.pick(0, sum(self.intruders) - 1)) + 1):
            while True:
                it = self.aircraft(draw, f"A{index + 1}", self.intruder_gs, self.intruder_flights)
                met = draw.pick(*self.closest) if index == 0 else draw.pick(self.seconds // 3, self.seconds * 5 // 6)
                across, up = self.miss(draw, at if index == 0 else len(self.strata) - 1)
                if put(it, own, met, across, up):
                    break
            others.append(it)
        lowest = min(place[2] for it in (own, *others) for place in flown(it, self.seconds)[0]) // FOOT
        base = draw.pick(*self.altitudes) - min(lowest, 0)
        for it in (own, *others):
            it.alt += base
        return Encounter(number, self.seconds, self.weights()[at], self.strata[at].name, own, others)

    def aircraft(self, draw, name, speeds, flights):
        """An aircraft at 0 0 0 that flies straight, climbs, turns, climbs and levels off, or changes its speed."""
        it = Aircraft(name, trk=draw.pick(0, 359), gs=draw.pick(*speeds), planned=True)
        begin, climb = draw.pick(20, max(20, self.seconds * 4 // 5)), draw.choose(-1, 1) * draw.pick(3, 15) * 100
        kind = FLIGHTS[by_parts(flights, draw.pick(0, sum(flights) - 1))]
        if kind in ("climb", "level"):
            it.vs, it.events = climb, [Event(begin, "vs", 0, 300)] if kind == "level" else []
        elif kind == "turn":
            it.events = [Event(begin, "track", (it.trk + draw.choose(-1, 1) * draw.pick(15, 120)) % 360, draw.pick(1, 3))]
        elif kind == "gs":
            it.events = [Event(begin, "gs", draw.pick(*speeds), 20)]
        return it

    def miss(self, draw, at):
        """The miss distances of a stratum: across, to the left of the intruder's way relative to the ownship where positive, and up."""
        outer, inner = self.strata[at], self.strata[at - 1] if at else None
        while True:
            across, up = draw.pick(-outer.across, outer.across), draw.pick(-outer.up, outer.up)
            if inner is None or abs(across) > inner.across or abs(up) > inner.up:
                return across, up


def by_parts(parts, number):
    """The place in a list of parts that a number from 0 on falls into."""
    for place, count in enumerate(parts):
        if number < count:
            return place
        number -= count
    raise ValueError(f"{number} is past all parts")


def put(it, own, met, across, up):
    """Moves an aircraft to where at second `met` it passes the ownship so far away. False if both fly nearly alike."""
    (*_, mine), my_velocity = flown(own, met)
    (*_, its), its_velocity = flown(it, met)
    east, north = (b - a for a, b in zip(my_velocity[:2], its_velocity[:2]))
    speed = isqrt(east * east + north * north)
    if speed < 300:
        return False
    at = mine[0] - across * MIL * north // speed, mine[1] + across * MIL * east // speed, mine[2] + up * FOOT
    it.x, it.y, it.alt = (rounded(want - have, size) for want, have, size in zip(at, its, (MIL, MIL, FOOT)))
    return True
