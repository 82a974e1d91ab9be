"""One encounter flown, with or without the guidance, and what was measured of it."""
from dataclasses import dataclass, field

from .flying import Flying
from .guidance import Refused
from .measures import collides, lost, nearest_square, severity, volume_of
from .pilot import Following
from .sensors import Seen

GRAZE = 2  # a loss within so many 0.001 NM, and a foot, of the border is a graze
MINUTE = 60
EVEN = 2  # by so many units a second the velocity of a straight flight between two ways may change, since places are rounded


@dataclass
class Run:
    """What a flight gave. Seconds are None where nothing was; squares of distances are in units / steps."""

    loss: int = None        # the second on which well clear was first lost
    grazes: bool = True     # each loss is near the border
    nmac: bool = False
    severity: float = 0.0
    nearest: tuple = None   # the square of the least distance while within zthr
    alerts: dict = field(default_factory=dict)  # of each level the first second with an alert of it or more
    advices: int = 0
    reversals: int = 0      # until the loss
    nones: int = 0          # how often until the loss an answer was looked for and no kind had one
    first_advice: int = None
    off: int = 0            # the square of the greatest distance from the plan's flight
    back: int = None        # the second of the last return to the plan; where well clear was lost, of the last before that
    changes: list = field(default_factory=list)  # the seconds on which the velocity of a flight by plan was not that of the second before
    refused: int = None     # the second on which the engine refused what it was told
    log: list = field(default_factory=list)

    def note_return(self, second):
        """The pilot returns to the plan."""
        if self.loss is None or self.back is None:
            self.back = second

    def is_steady(self, resolve):
        """Whether from a minute before the first alert of a level up to the loss all flights by plan went straight on; without an alert
        from a minute before the loss."""
        begin = self.alerts.get(resolve, self.loss)
        return begin is None or not any(begin - MINUTE <= it and (self.loss is None or it <= self.loss) for it in self.changes)


class Losses:
    """Measures the legs of one flight."""

    def __init__(self, volume, smaller, steps, run):
        self.volume, self.smaller, self.steps, self.run = volume, smaller, steps, run

    def measure(self, second, place, velocity):
        """A relative leg."""
        run, volume = self.run, self.volume
        if lost(place, velocity, volume):
            if run.loss is None:
                run.loss = second
            run.grazes = run.grazes and not lost(place, velocity, self.smaller)
            run.severity = max(run.severity, severity(place, velocity, volume))
        run.nmac = run.nmac or collides(place, velocity, self.steps)
        if abs(place[2]) <= volume.zthr + abs(velocity[2]):
            self.measure_distance(place, velocity)

    def measure_distance(self, place, velocity):
        """The least distance of the leg, where it can be less than the least so far."""
        run, (east, north, _), (v_east, v_north, _) = self.run, place, velocity
        if run.nearest is not None:
            far = run.nearest[0] // run.nearest[1]
            if (abs(east) > abs(v_east) and (abs(east) - abs(v_east)) ** 2 > far) or (abs(north) > abs(v_north) and (abs(north) - abs(v_north)) ** 2 > far):
                return
        found = nearest_square(place, velocity, self.volume.zthr)
        if found and (run.nearest is None or found[0] * run.nearest[1] < run.nearest[0] * found[1]):
            run.nearest = found


def plan_of(own, second, guidance, was_advised):
    """The plan's targets. Once an advice was flown they are reached at the rates of the configuration."""
    plan = own.plan(second)
    return {kind: (target, guidance.rate(kind)) for kind, (target, _) in plan.items()} if was_advised else plan


def fly(encounter, study, guided, trace=None):
    """Flies an encounter of a study. `trace` is called each second with what the engine was told."""
    run, world, guidance = Run(), study.world, study.guidance
    own, bare = (Flying(encounter.own, world, study.sensors.own_track) for _ in range(2))
    others = [Flying(it, world) for it in encounter.others]
    seen = Seen(study.sensors, encounter.number, others, world)
    losses = Losses(volume_of(study.well_clear, world.steps), volume_of(study.well_clear, world.steps, GRAZE), world.steps, run)
    following, was_advised = Following(guidance, study.pilot, encounter.number, run) if guided else None, False
    before = None
    for second in range(encounter.seconds):
        told = seen.look(second, own, others)
        try:
            guidance.see(second, *told)
        except Refused as fault:
            run.refused = second
            run.log.append(f"{second} refused: {fault}")
            break
        level = note_alerts(run, guidance.alerts(), second)
        targets = plan_of(own, second, guidance, was_advised)
        if guided:
            targets, own.level = following.step(second, targets, level)
            if following.mode == "avoid" and not was_advised:
                was_advised = True
                own.leave_ways()
        now = [part for it in (bare if guided else own, *others) for part in it.velocity()]
        if before and any(abs(a - b) > EVEN for a, b in zip(before, now)):
            run.changes.append(second)
        before = now
        if trace:
            trace(second, *told)
        fly_second(second, own, others, targets, losses)
        if guided:
            plan = bare.plan(second)
            for _ in range(world.steps):
                bare.go(bare.velocity(), plan)
            run.off = max(run.off, (own.place[0] - bare.place[0]) ** 2 + (own.place[1] - bare.place[1]) ** 2)
    run.grazes = run.grazes and run.loss is not None
    return run


def note_alerts(run, alerts, second):
    """The greatest level that alerts; the first second of each is kept."""
    greatest = max((it.level for it in alerts), default=0)
    for level in range(1, greatest + 1):
        run.alerts.setdefault(level, second)
    return greatest


def fly_second(second, own, others, targets, losses):
    """Flies and measures the legs of a second."""
    plans = [it.plan(second) for it in others]
    for _ in range(losses.steps):
        mine = own.velocity()
        for it, plan in zip(others, plans):
            its = it.velocity()
            place, velocity = tuple(a - b for a, b in zip(own.place, it.place)), tuple(a - b for a, b in zip(mine, its))
            losses.measure(second, place, velocity)
            it.go(its, plan)
        own.go(mine, targets)
