#!/usr/bin/env python3
"""One moment of the encounter in README.md, from Python: its alerts, bands and resolutions, in the lines of the report.

    one_moment.py LIBRARY CONFIGURATION           asks for each answer by itself
    one_moment.py LIBRARY CONFIGURATION report    asks for the whole text

What the engine refuses is said on standard error, and its code is the status.
"""
import sys

from daidalus import Engine, Kind, Own, Refused, Side, Traffic

OWN = Own(x=0, y=0, alt=10000, trk=0, gs=3600, vs=0)
TRAFFIC = [
    Traffic("AMBER", x=3000, y=8000, alt=10000, vx=-1350, vy=0, vs=0),
    Traffic("BRAVO", x=-1200, y=-300, alt=10600, vx=0, vy=3600, vs=-600),
]
KINDS = {"track": (Kind.TRACK, "left", "right"), "gs": (Kind.SPEED, "down", "up"), "vs": (Kind.CLIMB, "down", "up"),
         "alt": (Kind.HEIGHT, "down", "up")}


def side_of(to):
    if to.keep:
        return "keep"
    return "none" if to.value is None else to.value


def print_answers(moment):
    print("moment 0")
    for place, aircraft in enumerate(TRAFFIC):
        alert = moment.alert(place)
        print("now", aircraft.id, alert.now)
        print("alert", aircraft.id, alert.level, "-" if alert.first is None else alert.first)
    for name, (kind, *_) in KINDS.items():
        for band in moment.bands(kind):
            print(name, band.low, band.high, band.level)
    for name, (kind, lower, upper) in KINDS.items():
        down, up = (side_of(moment.resolution(kind, side)) for side in Side)
        print("resolve", name, lower, down, upper, up)
    print("done 0")


def main(words):
    if len(words) < 2 or words[2:] not in ([], ["report"]):
        print("usage: one_moment.py LIBRARY CONFIGURATION [report]", file=sys.stderr)
        return 2
    try:
        with open(words[1], "rb") as file:
            text = file.read()
        engine = Engine(words[0])
    except OSError as fault:
        print(fault, file=sys.stderr)
        return 1
    moment = engine.decide(engine.read(text), OWN, TRAFFIC)
    if words[2:]:
        sys.stdout.buffer.write(moment.report(0))
    else:
        print_answers(moment)
    return 0


if __name__ == "__main__":
    try:
        sys.exit(main(sys.argv[1:]))
    except Refused as refused:
        print(refused, file=sys.stderr)
        sys.exit(refused.code)
