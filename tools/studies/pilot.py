"""The pilot model: how the guidance is followed, and when it no longer is."""
from dataclasses import dataclass, field

from daidalus_files import SIDES

from .drawing import OF_PILOTS, generator_of
from .guidance import FULL_TURN, change

ORDER = ("track", "gs", "vs", "alt")


@dataclass(frozen=True)
class Pilot:
    """Times are in seconds; a pair is a range from which each encounter draws one. kinds: what is followed, in the order in which an
    answer is looked for. reaction: from an alert of `respond` or more to the first manoeuvre; warned: from one of the greatest
    level. update: from one look at the answer to the next. margin: by how much farther than the answer is flown, of each kind in
    its unit. clear: for how long the way back must be without an alert of `respond` and, with heed_back, open. respond: the least
    level that is answered to; 0 is the configuration's `resolve`. keep_recovery: the first recovery is flown on until there is
    an answer. sides: 1 if the recovery on the side that is flown already comes before a sooner one, else 0. heed_plan: a manoeuvre
    of the plan waits while its value is not open."""

    seed: int = 0
    kinds: tuple = ("track",)
    reaction: tuple = (5, 12)
    warned: tuple = (2, 5)
    update: tuple = (4, 8)
    margin: dict = field(default_factory=dict)
    clear: int = 5
    respond: int = 0
    heed_back: bool = True
    heed_plan: bool = False
    keep_recovery: bool = False
    sides: int = 0


class Following:
    """A pilot at work in one encounter: `plan` follows the plan, `wait` has seen an alert, `avoid` flies an advice."""

    def __init__(self, guidance, pilot, number, run):
        draw = generator_of(pilot.seed, number, OF_PILOTS)
        self.guidance, self.pilot, self.run = guidance, pilot, run
        self.reaction, self.warned, self.update = draw.pick(*pilot.reaction), draw.pick(*pilot.warned), draw.pick(*pilot.update)
        self.mode, self.due, self.next, self.open_for = "plan", 0, 0, 0
        self.kind = self.target = self.side = None
        self.recovering, self.held, self.begun = False, {}, {}
        self.least, self.most = pilot.respond or guidance.config.resolve, len(guidance.config.levels)

    def choose(self, second):
        """Takes an answer of this second. Whether the present flight may go on."""
        kinds = sorted(self.pilot.kinds, key=lambda it: it != self.kind)  # what is flown already comes first
        for kind in kinds:
            answer = self.guidance.answer(kind)
            if answer == "keep":
                return True
            sides = [(value, side) for side, value in enumerate(answer) if value is not None]
            if sides:
                self.recovering = False
                value, side = min(sides, key=lambda it: self.order(kind, *it))
                self.take(second, kind, self.with_margin(kind, value, side), side)
                return False
        self.run.nones += self.run.loss is None
        if not (self.pilot.keep_recovery and self.recovering):
            self.recover(second, kinds)
        return False

    def order(self, kind, value, side):
        """The side that is flown already first, then the nearer value, then the upper side."""
        return not (kind == self.kind and side == self.side), abs(change(kind, self.guidance.present(kind), value)), -side

    def with_margin(self, kind, value, side):
        """The value with the pilot's margin, where that is open."""
        further = value + self.pilot.margin.get(kind, 0) * (1 if side else -1)
        if kind == "track":
            further %= FULL_TURN
        else:
            grid = self.guidance.grids()[kind]
            further = min(max(further, grid.min), grid.max)
        return further if further != value and self.guidance.is_open(kind, further) else value

    def recover(self, second, kinds):
        """Where no kind has an answer: the soonest recovery, of several that of the first kind. With `sides` those on the side that is
        flown already come first, and of a kind's two that are as soon it is the nearer value, or else the upper one."""
        found = []
        for place, kind in enumerate(kinds):
            for after, value, side in self.recoveries(kind):
                is_other, *nearness = self.order(kind, value, side)
                found.append((self.pilot.sides and is_other, after, place, *nearness, kind, value, side))
        self.recovering = bool(found)
        if not found:
            self.run.log.append(f"{second} no answer and no recovery")
            return
        _, after, *_, kind, value, side = min(found)
        self.run.log.append(f"{second} no answer; {kind} {value} recovers after {after} s")
        self.take(second, kind, value, side)

    def recoveries(self, kind):
        """The recoveries of a kind that the pilot is told, each as (after, value, side): the soonest one, or with `sides` that of each
        side, where the present value is on the side that is flown already."""
        now = self.guidance.present(kind)
        if not self.pilot.sides:
            it = self.guidance.recovery(kind)
            return [(*it, int(change(kind, now, it[1]) > 0))] if it else []
        return [(*it, self.side if (kind, it[1]) == (self.kind, now) else side) for side, it in enumerate(self.guidance.recoveries(kind)) if it]

    def take(self, second, kind, value, side):
        run = self.run
        if (kind, value, side) != (self.kind, self.target, self.side):
            run.advices += 1
            run.reversals += kind == self.kind and side != self.side and run.loss is None
            run.log.append(f"{second} {kind} {SIDES[kind][side]} {value}")
        if run.first_advice is None:
            run.first_advice = second
        self.kind, self.target, self.side = kind, value, side

    def step(self, second, plan, level):
        """What is flown from this second on: the plan's targets with the advice in place of its kind, and an altitude or None. Called
        after the guidance has seen this second's moment; `level` is the greatest alert."""
        if self.mode == "plan" and level >= self.least:
            self.mode, self.due = "wait", second + self.reaction
        if self.mode == "wait":
            self.wait(second, level)
        elif self.mode == "avoid":
            self.avoid(second, plan, level)
        if self.mode == "avoid":
            rate = self.guidance.rate(self.kind)
            return (plan, (self.target, rate)) if self.kind == "alt" else ({**plan, self.kind: (self.target, rate)}, None)
        return self.with_plan_heeded(plan) if self.pilot.heed_plan else plan, None

    def wait(self, second, level):
        """Until the reaction is over, or sooner after a warning."""
        if level == self.most:
            self.due = min(self.due, second + self.warned)
        if second < self.due:
            return
        if level < self.least or self.choose(second):
            self.mode = "plan"
            self.run.log.append(f"{second} no advice is needed any more")
        elif self.kind is None:
            self.due = second + 1
        else:
            self.mode, self.next, self.open_for = "avoid", second + self.update, 0

    def avoid(self, second, plan, level):
        """Goes back to the plan once its way is free for long enough; else looks at the advice anew from time to time."""
        kind = "vs" if self.kind == "alt" else self.kind
        wish = plan[kind][0]
        is_free = level < self.least and (not self.pilot.heed_back or self.guidance.is_open(kind, wish))
        self.open_for = self.open_for + 1 if is_free else 0
        if self.open_for >= self.pilot.clear:
            self.run.log.append(f"{second} back to {kind} {wish}")
            self.run.note_return(second)
            self.mode, self.kind, self.target, self.side = "plan", None, None, None
        elif second >= self.next:
            self.next = second + self.update
            if not self.guidance.is_open(self.kind, self.target) and self.choose(second):
                self.target = self.guidance.present(self.kind)
                self.run.log.append(f"{second} keep {self.kind} {self.target}")

    def with_plan_heeded(self, plan):
        """The plan, of whose kinds each stays at its value while the wanted one is not open, or an alert waits for an answer. A
        manoeuvre that has begun goes on."""
        heeded = dict(plan)
        for kind, (wish, rate) in plan.items():
            now = self.guidance.present(kind)
            if wish in (now, self.begun.get(kind)):
                self.held[kind] = self.begun[kind] = wish
            elif self.mode == "wait" or not self.guidance.is_open(kind, wish):
                heeded[kind] = self.held.setdefault(kind, now), rate
            else:
                self.begun[kind] = wish
        return heeded
