"""The engine's answers of a moment, as a pilot model asks for them: the loop of examples/python/daidalus.py over the shared library."""
import os
import platform
import sys
from typing import NamedTuple

from daidalus_files import Problem, read_bytes

TOP = os.path.dirname(os.path.dirname(os.path.dirname(os.path.realpath(__file__))))
if f"{TOP}/examples/python" not in sys.path:
    sys.path.append(f"{TOP}/examples/python")
import daidalus  # noqa: E402 (the folder is no package)
from daidalus import Kind, Refused, Side  # noqa: E402

NUMBERS = {"track": Kind.TRACK, "gs": Kind.SPEED, "vs": Kind.CLIMB, "alt": Kind.HEIGHT}
FULL_TURN = 360


class Own(NamedTuple):
    """The ownship that the engine is told, in the units of state lines."""

    x: int
    y: int
    alt: int
    trk: int
    gs: int
    vs: int


class Traffic(NamedTuple):
    """An aircraft that the engine is told."""

    id: str
    x: int
    y: int
    alt: int
    vx: int
    vy: int
    vs: int
    age: int = 0


def library():
    """The shared library: of DAIDALUS_BUILT, or else the kept one."""
    return f"{os.environ.get('DAIDALUS_BUILT') or f'{TOP}/built'}/x86-64/libdaidalus.so"


class Guidance:
    """A configuration's engine for a loop over moments. After `see` each question is of that moment."""

    def __init__(self, path):
        try:
            engine = daidalus.Engine(library())
        except OSError as fault:
            here = "" if platform.machine() == "x86_64" else f"; this is {platform.machine()}, and it is for Linux on x86-64"
            raise Problem(f"the engine's library can't be loaded: {fault}{here}", 7) from None
        try:
            self.config = engine.read(read_bytes(path))
        except Refused as fault:
            raise Problem(f"{path}: config {fault.code}: {fault}", 3) from None
        self.moment, self.board, self.own = engine.loop(self.config), None, None
        config, index, self.lists = self.config, 1, {}  # of each kind: index of its first candidate, least value, step, how many
        for kind, (low, high, step) in {"track": (0, FULL_TURN - 1, config.track_step),
                                        **{it: (grid.min, grid.max, grid.step) for it, grid in self.grids().items()}}.items():
            many = (high - low) // step + 1
            self.lists[kind] = index, low, step, many
            index += many

    def grids(self):
        return {"gs": self.config.gs, "vs": self.config.vs, "alt": self.config.alt}

    def rate(self, kind):
        """By how much a second the engine's candidates of a kind change."""
        return self.config.turn_rate if kind == "track" else self.grids()[kind].rate

    def see(self, time, own, traffic):
        """Decides a moment. Refused says what the engine does not take."""
        self.moment.decide(time, own, traffic)
        self.own, self.board = own, None

    def alerts(self):
        return self.moment.alerts()

    def answer(self, kind):
        """`keep`, or the nearest open values on the lower and on the upper side, None where there is none."""
        lower = self.moment.resolution(NUMBERS[kind], Side.LOWER)
        return "keep" if lower.keep else (lower.value, self.moment.resolution(NUMBERS[kind], Side.UPPER).value)

    def recovery(self, kind):
        """The soonest recovery of a kind as (after, value), or None, also where the configuration asks for none."""
        found = self.moment.recovery(NUMBERS[kind]) if self.config.recovery else None
        return tuple(found) if found else None

    def recoveries(self, kind):
        """The soonest recovery on the lower and on the upper side, each as `recovery` has it. The present value is on the lower side."""
        found = [self.moment.recovery_side(NUMBERS[kind], side) if self.config.recovery else None for side in Side]
        return tuple(it and tuple(it) for it in found)

    def present(self, kind):
        """The ownship's value of a kind."""
        return {"track": self.own.trk, "gs": self.own.gs, "vs": self.own.vs, "alt": self.own.alt}[kind]

    def is_open(self, kind, value):
        """Whether a value is open. One that is neither a candidate nor the present one counts as open where both candidates beside
        it are, since the engine has no question for it."""
        self.board = self.board or self.moment.levels()
        if value == self.present(kind):
            return self.board[0] < self.config.resolve
        first, low, step, many = self.lists[kind]
        lower, rest = divmod(value - low, step)
        places = [lower] if rest == 0 else [lower, lower + 1]
        places = [it % many for it in places] if kind == "track" else [min(max(it, 0), many - 1) for it in places]
        return all(self.board[first + it] < self.config.resolve for it in places)

    def report(self, time):
        return self.moment.report(time)


def change(kind, now, value):
    """By how much a value lies above the present one; of tracks the shorter way, to the right where both are as short."""
    right = (value - now) % FULL_TURN
    return value - now if kind != "track" else right if right <= FULL_TURN // 2 else right - FULL_TURN
