"""What the ownship's sensors tell of the truth, with errors that a seed draws. Without errors all is the truth, rounded once."""
from dataclasses import dataclass

from daidalus_files import AGE
from headings import velocity as table_velocity

from .drawing import OF_SENSORS, generator_of
from .guidance import Own, Traffic
from .whole import FOOT, MIL, direction, root, rounded

ERRORS = ("noise", "lost", "late")


@dataclass(frozen=True)
class Sensors:
    """Errors of what is told of other aircraft. Noise, gaps and delays are drawn apart, each from its own seed, or where that is None
    from `seed`: so none changes what another one draws. Deviations are standard ones, in the units of state lines; a noise is
    drawn anew after every `every` seconds. Of 1000 reports `lost` begin a gap of 1 to `gap` seconds; a report comes `late`
    seconds after its time, one number for each aircraft. In both cases the engine is told the report's age; one older than
    `oldest` is left out. whole_degrees: velocities come from a track in whole degrees and a ground speed. own_track: by how
    many tenths of a degree the ownship flies to the right of the track that the engine is told."""

    seed: int = 0
    noise_seed: int = None
    lost_seed: int = None
    late_seed: int = None
    place: int = 0
    height: int = 0
    speed: int = 0
    climb: int = 0
    every: int = 1
    lost: int = 0
    gap: int = 5
    late: tuple = (0, 0)
    oldest: int = 10
    whole_degrees: bool = False
    own_track: int = 0

    @property
    def has_errors(self):
        return any((self.place, self.height, self.speed, self.climb, self.lost, *self.late, self.whole_degrees))


def bell(draw, deviation):
    """A number drawn with this standard deviation: the sum of twelve even ones, which is nearly normal."""
    return rounded((sum(draw.pick(0, 65535) for _ in range(12)) - 6 * 65535) * deviation, 65536) if deviation else 0


class Sensed:
    """What is told of one other aircraft, second by second."""

    def __init__(self, sensors, number, place):
        drawn = lambda kind, seed: generator_of(sensors.seed if seed is None else seed, number, OF_SENSORS + len(ERRORS) * place + ERRORS.index(kind))
        self.of_noise, self.of_gaps = drawn("noise", sensors.noise_seed), drawn("lost", sensors.lost_seed)
        self.sensors, self.late, self.silent = sensors, drawn("late", sensors.late_seed).pick(*sensors.late), 0
        self.history, self.noise = [], None

    def report(self, second, place, v):
        """The newest report of this second: the true place then, the noise on it, the velocity with noise, and its age; or None if
        all are too old."""
        sensors = self.sensors
        if self.noise is None or second % sensors.every == 0:
            self.noise = [bell(self.of_noise, it) for it in (sensors.place, sensors.place, sensors.height, sensors.speed, sensors.speed, sensors.climb)]
        if self.silent:
            self.silent -= 1
        elif sensors.lost and self.of_gaps.pick(1, 1000) <= sensors.lost:
            self.silent = self.of_gaps.pick(1, sensors.gap) - 1
        else:
            self.history.append((second, place, self.noise[:3], self.seen_velocity(v)))
        ready = [it for it in self.history if it[0] + self.late <= second]
        if not ready:
            return None
        self.history = self.history[len(ready) - 1:]
        then, *told = ready[-1]
        return (*told, second - then) if second - then <= min(sensors.oldest, AGE.high) else None

    def seen_velocity(self, v):
        east, north, up = v
        if self.sensors.whole_degrees:
            east, north = table_velocity(root(east * east + north * north), rounded(direction(east, north), 10) % 360)
        return east + self.noise[3], north + self.noise[4], up + self.noise[5]


class Seen:
    """What the engine is told of an encounter: all relative to the ownship, which is at 0 0."""

    def __init__(self, sensors, number, others, world):
        self.sensors, self.world, self.each = sensors, world, None
        if sensors.has_errors:
            self.each = [Sensed(sensors, number, place) for place in range(len(others))]

    def look(self, second, own, others):
        """The ownship and the aircraft that it is told of at this second."""
        n = self.world.steps
        told = Own(0, 0, rounded(own.place[2], FOOT * n), (own.trk + 5) // 10 % 360, own.gs, own.vs)
        if self.each is None:
            return told, [self.traffic(it.it.name, own, told.alt, it.place, (0, 0, 0), it.velocity(), 0) for it in others]
        reports = [(it.it.name, sensed.report(second, it.place, it.velocity())) for sensed, it in zip(self.each, others)]
        return told, [self.traffic(name, own, told.alt, *report) for name, report in reports if report]

    def traffic(self, name, own, alt, place, noise, velocity, age):
        n, (east, north, up) = self.world.steps, own.place
        return Traffic(name, rounded(place[0] - east, MIL * n) + noise[0], rounded(place[1] - north, MIL * n) + noise[1],
                       alt + rounded(place[2] - up, FOOT * n) + noise[2], *velocity, age)
