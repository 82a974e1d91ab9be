"""Encounters as text: an ownship and other aircraft, each with a plan of manoeuvres or with the places on its way."""
import re
from dataclasses import dataclass, field
from typing import NamedTuple

from daidalus_files import ALT, GS, TRK, VS, Problem, read_lines

KINDS = ("track", "gs", "vs")
TARGETS = {"track": (TRK.low, TRK.high), "gs": (GS.low, GS.high), "vs": (VS.low, VS.high)}
ALTS, PLACES = (ALT.low, ALT.high), (-10**6, 10**6)
MOST_SECONDS, MOST_WEIGHT = 3600, 10**15
NAME, STRATUM = re.compile(r"[A-Za-z0-9_-]{1,8}"), re.compile(r"[A-Za-z0-9_.-]{1,24}")
FORMS = {"encounter": "encounter NUMBER SECONDS WEIGHT STRATUM", "own": "own X Y ALT TRK GS VS", "intruder": "intruder ID X Y ALT TRK GS VS",
         "at": "at SECOND ID KIND TARGET RATE", "way": "way ID SECOND X Y ALT", "end": "end"}


class Event(NamedTuple):
    """From this second on a kind (track, gs or vs) goes to a target, by at most `rate` a second."""

    second: int
    kind: str
    target: int
    rate: int


class Way(NamedTuple):
    """A place at a whole second; between two of them an aircraft flies straight and evenly."""

    second: int
    x: int
    y: int
    alt: int


@dataclass
class Aircraft:
    """Where an aircraft begins and how it flies, in the units of state lines: by events, or by two or more ways in place of all
    else."""

    name: str
    x: int = 0
    y: int = 0
    alt: int = 0
    trk: int = 0
    gs: int = 0
    vs: int = 0
    events: list = field(default_factory=list)
    ways: list = field(default_factory=list)
    planned: bool = False


@dataclass
class Encounter:
    """An encounter: how many of the real ones it stands for is its weight, and it was drawn for a stratum."""

    number: int
    seconds: int
    weight: int
    stratum: str
    own: Aircraft = None
    others: list = field(default_factory=list)

    def lines(self):
        """The encounter as text."""
        yield f"encounter {self.number} {self.seconds} {self.weight} {self.stratum}"
        for it in (self.own, *self.others):
            if it.ways:
                yield from (f"way {it.name} {way.second} {way.x} {way.y} {way.alt}" for way in it.ways)
            else:
                head = "own" if it is self.own else f"intruder {it.name}"
                yield f"{head} {it.x} {it.y} {it.alt} {it.trk} {it.gs} {it.vs}"
                yield from (f"at {event.second} {it.name} {event.kind} {event.target} {event.rate}" for event in it.events)
        yield "end"


class Bad(Exception):
    """Why a line is not taken."""


def whole(word, least, most):
    """A whole number of a range."""
    if not re.fullmatch(r"[+-]?[0-9]{1,18}", word):
        raise Bad(f"{word[:40]!r} is no whole number")
    if not least <= int(word) <= most:
        raise Bad(f"{word} is not in {least}..{most}")
    return int(word)


class Reading:
    """Takes the lines of encounters; an encounter is ready at its line `end`."""

    def __init__(self):
        self.now, self.by_name, self.numbers = None, {}, set()

    def take(self, words):
        """Takes a line's words; the encounter that it ends, or None."""
        head = words[0]
        if head not in FORMS:
            raise Bad(f"no line begins with {head[:40]!r}; known are {', '.join(FORMS)}")
        if len(words) != len(FORMS[head].split()) and not (head == "encounter" and len(words) == 4):
            raise Bad(f"the form is: {FORMS[head]}")
        if (head == "encounter") == (self.now is not None):
            raise Bad("the encounter before has no line `end`" if self.now else "it stands in no encounter")
        return getattr(self, f"take_{head}")(*words[1:])

    def take_encounter(self, number, seconds, weight, stratum="all"):
        number = whole(number, 0, 2**31 - 1)
        if number in self.numbers:
            raise Bad(f"encounter {number} occurs twice")
        if not STRATUM.fullmatch(stratum):
            raise Bad(f"{stratum[:40]!r} is no name of a stratum: 1 to 24 letters, digits, . _ and -")
        self.numbers.add(number)
        self.now, self.by_name = Encounter(number, whole(seconds, 1, MOST_SECONDS), whole(weight, 1, MOST_WEIGHT), stratum), {}

    def add(self, name):
        """A further aircraft of the encounter."""
        if not NAME.fullmatch(name):
            raise Bad(f"{name[:40]!r} is no name: 1 to 8 letters, digits, _ and -")
        if name in self.by_name:
            raise Bad(f"{name} occurs twice")
        self.by_name[name] = it = Aircraft(name)
        if name == "own":
            self.now.own = it
        else:
            self.now.others.append(it)
        return it

    def take_own(self, *numbers):
        self.place(self.add("own"), numbers)

    def take_intruder(self, name, *numbers):
        if name == "own":
            raise Bad("own is the ownship's name")
        self.place(self.add(name), numbers)

    @staticmethod
    def place(it, numbers):
        ranges = PLACES, PLACES, ALTS, TARGETS["track"], TARGETS["gs"], TARGETS["vs"]
        it.x, it.y, it.alt, it.trk, it.gs, it.vs = (whole(word, *ends) for word, ends in zip(numbers, ranges))
        it.planned = True

    def take_at(self, second, name, kind, target, rate):
        it = self.by_name.get(name)
        if it is None or not it.planned:
            raise Bad(f"{name[:40]!r} has no line `own` or `intruder` before it")
        if kind not in KINDS:
            raise Bad(f"{kind[:40]!r} is none of {', '.join(KINDS)}")
        event = Event(whole(second, 0, MOST_SECONDS), kind, whole(target, *TARGETS[kind]), whole(rate, 1, 10000))
        if it.events and it.events[-1].second > event.second:
            raise Bad("the seconds of an aircraft's manoeuvres do not rise")
        it.events.append(event)

    def take_way(self, name, second, *place):
        it = self.by_name[name] if name in self.by_name else self.add(name)
        if it.planned:
            raise Bad(f"{name} has a line `own` or `intruder`, in place of ways")
        ranges = (0, MOST_SECONDS), PLACES, PLACES, ALTS
        way = Way(*(whole(word, *ends) for word, ends in zip((second, *place), ranges)))
        if it.ways and it.ways[-1].second >= way.second:
            raise Bad("the seconds of an aircraft's ways do not rise")
        it.ways.append(way)

    def take_end(self):
        now, self.now = self.now, None
        if now.own is None or not now.others:
            raise Bad("the encounter has no ownship or nobody else")
        if any(len(it.ways) == 1 for it in (now.own, *now.others)):
            raise Bad("an aircraft has one `way` alone, and two are the least")
        return now


def read_encounters(path):
    """The encounters of a file; what can't be taken is a problem."""
    reading, number = Reading(), 0
    for number, line in enumerate(read_lines(path), 1):
        words = line.split("#")[0].split()
        if words:
            try:
                ready = reading.take(words)
            except Bad as fault:
                raise Problem(f"{path}: line {number}: {fault}", 4) from None
            if ready:
                yield ready
    if reading.now:
        raise Problem(f"{path}: line {number}: the last encounter has no line `end`", 4)
