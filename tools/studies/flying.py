"""How the aircraft of an encounter fly: the truth of which a study measures losses."""
from headings import velocity

from .whole import FOOT, MIL, NINE_DIGITS, direction, root, rounded, sine, toward, turned

WORLDS = {"seconds": 1, "tenths": 10}
PLAN_RATES = {"track": 3, "gs": 20, "vs": 300}  # of the kinds that no event names


class World:
    """In how many legs a second is flown. `seconds`: one leg, as the engine takes flights: whole degrees, sines of four digits.
    `tenths`: ten legs, tracks in tenths of a degree, sines of nine digits; a turn begins at once."""

    def __init__(self, name):
        self.steps, self.kept = WORLDS[name], {}

    def velocity(self, gs, trk):
        """East and north of a ground speed along a track in tenths of a degree, in units a second."""
        key = gs, trk
        if key not in self.kept:
            fine = rounded(gs * sine(trk), NINE_DIGITS), rounded(gs * sine(900 - trk), NINE_DIGITS)
            self.kept[key] = velocity(gs, trk // 10) if self.steps == 1 else fine
        return self.kept[key]


class Flying:
    """An aircraft on its way: its place in units / steps, so that a leg adds the velocity, its track in tenths of a degree. `off` is
    by how many of these it flies to the right of its track."""

    def __init__(self, aircraft, world, off=0):
        self.it, self.world, self.step, self.off, self.by_ways, self.level = aircraft, world, 0, off, bool(aircraft.ways), None
        if self.by_ways:
            self.place = self.place_at(0)
            self.take_leg()
        else:
            n = world.steps
            self.place = aircraft.x * MIL * n, aircraft.y * MIL * n, aircraft.alt * FOOT * n
            self.trk, self.gs, self.vs = aircraft.trk * 10, aircraft.gs, aircraft.vs

    def place_at(self, step):
        """The place by the ways; before the first and after the last one the flight goes straight on."""
        n, ways = self.world.steps, self.it.ways
        at = next((k for k in range(len(ways) - 1) if step < n * ways[k + 1].second), len(ways) - 2)
        (begin, *one), (end, *other) = ways[at], ways[at + 1]
        span, gone = n * (end - begin), step - n * begin
        return tuple(rounded(scale * n * (a * (span - gone) + b * gone), span) for a, b, scale in zip(one, other, (MIL, MIL, FOOT)))

    def take_leg(self):
        """Track and speeds of the present leg between two ways."""
        self.leg = tuple(b - a for a, b in zip(self.place, self.place_at(self.step + 1)))
        east, north, self.vs = self.leg
        self.trk, self.gs = direction(east, north), root(east * east + north * north)
        if self.world.steps == 1:
            self.trk = rounded(self.trk, 10) * 10 % 3600

    def leave_ways(self):
        """From here on the flight goes by track and speeds."""
        self.by_ways = False

    def plan(self, second):
        """What its plan wants from this second on: of each kind the target, and by how much a second it is reached."""
        if self.it.ways:
            east, north, climb = (b - a for a, b in zip(*(self.place_at(self.world.steps * it) for it in (second, second + 1))))
            east, north, climb = (rounded(it, self.world.steps) for it in (east, north, climb))
            return {"track": (rounded(direction(east, north), 10) % 360, PLAN_RATES["track"]),
                    "gs": (root(east * east + north * north), PLAN_RATES["gs"]), "vs": (climb, PLAN_RATES["vs"])}
        found = {"track": (self.it.trk, PLAN_RATES["track"]), "gs": (self.it.gs, PLAN_RATES["gs"]), "vs": (self.it.vs, PLAN_RATES["vs"])}
        for event in self.it.events:
            if event.second <= second:
                found[event.kind] = event.target, event.rate
        return found

    def velocity(self):
        """The velocity of the leg that begins, in units a second."""
        if self.by_ways:
            return self.leg
        if self.level is not None:  # an altitude, and by how much a second it is reached
            target, rate = self.level
            self.vs = toward(0, target * FOOT * self.world.steps - self.place[2], rate)
        return *self.world.velocity(self.gs, (self.trk + self.off) % 3600), self.vs

    def go(self, velocity, targets):
        """Flies the leg, and then changes track and speeds toward the targets."""
        x, y, z = self.place
        self.place = x + velocity[0], y + velocity[1], z + velocity[2]
        self.step += 1
        if self.by_ways:
            self.take_leg()
            return
        n, k = self.world.steps, (self.step - 1) % self.world.steps
        target, rate = targets["track"]
        if self.trk != target * 10:
            self.trk = turned(self.trk, target * 10, share(rate * 10, k, n))
        target, rate = targets["gs"]
        if self.gs != target:
            self.gs = toward(self.gs, target, share(rate, k, n))
        target, rate = targets["vs"]
        if self.vs != target and self.level is None:
            self.vs = toward(self.vs, target, share(rate, k, n))


def share(rate, k, n):
    """The part of a second's change that is made on leg k of n: together they are the whole."""
    return rate * (k + 1) // n - rate * k // n


def flown(aircraft, seconds):
    """The places at each second of a plan flown by itself, as the engine takes flights, with the last velocity."""
    flying, places = Flying(aircraft, SECONDS), []
    for second in range(seconds):
        places.append(flying.place)
        flying.go(flying.velocity(), flying.plan(second))
    return [*places, flying.place], flying.velocity()


SECONDS = World("seconds")
