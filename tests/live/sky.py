#!/usr/bin/env python3
"""A simulated sky, sent as raw Mode S frames (ADS-B, DF17 and DF18) in AVR form to a decoder's port, in real time:

  tests/live/sky.py PORT SECONDS [AIRCRAFT]

The ownship has the address 4B0001 and flies a rectangle of standard turns. Three of four others are aimed at it. Each sends two positions
and two velocities a second, of which one of ten is lost, and its name every 5 s. Beside them one stands on the ground, one tells no
velocity, and one is a radar's.
"""
import math
import random
import socket
import sys
import time

OWN = 0x4B0001
STEP = 0.02  # s
LOSS = 0.1
LETTERS = "#ABCDEFGHIJKLMNOPQRSTUVWXYZ##### ###############0123456789######"


def parity(bits, length):
    """The 24 parity bits of a frame of so many bits, whose last 24 are 0."""
    for place in range(length - 1, 23, -1):
        if bits >> place & 1:
            bits ^= 0x1FFF409 << (place - 24)
    return bits


def frame(form, capability, address, payload):
    """The hexadecimal digits of an extended squitter of 112 bits."""
    bits = ((form << 3 | capability) << 24 | address) << 56 | payload
    return f"{bits << 24 | parity(bits << 24, 112):028X}"


def zones(lat):
    """The number of zones of longitude at a latitude."""
    part = (1 - math.cos(math.pi / 30)) / math.cos(math.radians(lat)) ** 2
    return math.floor(2 * math.pi / math.acos(1 - part))


def compact(lat, lon, odd, turn=360):
    """The two numbers of 17 bits of a place in compact position reporting; on the ground a turn is 90 degrees."""
    high = turn / (60 - odd)
    y = math.floor(131072 * (lat % high) / high + 0.5)
    known = high * (y / 131072 + math.floor(lat / high))
    wide = turn / max(zones(known) - odd, 1)
    x = math.floor(131072 * (lon % wide) / wide + 0.5)
    return y & 131071, x & 131071


def position(lat, lon, feet, odd):
    steps = round((feet + 1000) / 25)
    height = (steps >> 4) << 5 | 1 << 4 | steps & 15
    y, x = compact(lat, lon, odd)
    return (((11 << 3) << 12 | height) << 2 | odd) << 34 | y << 17 | x


def ground_position(lat, lon, track, odd):
    y, x = compact(lat, lon, odd, 90)
    return ((((7 << 7 | 13) << 1 | 1) << 7 | round(track * 128 / 360) & 127) << 2 | odd) << 34 | y << 17 | x


def velocity(track, knots, climb):
    """Over ground, with a barometric vertical speed."""
    part = lambda value: (value < 0) << 10 | min(abs(round(value)) + 1, 1023)
    bits = (19 << 3 | 1) << 5
    bits = (bits << 11 | part(knots * math.sin(math.radians(track)))) << 11 | part(knots * math.cos(math.radians(track)))
    return ((bits << 1 | 1) << 1 | (climb < 0)) << 19 | min(abs(round(climb / 64)) + 1, 511) << 10 | 7


def call_sign(text):
    bits = 4 << 3 | 3
    for letter in text.ljust(8)[:8]:
        bits = bits << 6 | LETTERS.index(letter)
    return bits


class Aircraft:
    def __init__(self, address, place, feet, track, knots, climb, kind="adsb"):
        self.address, (self.lat, self.lon), self.feet, self.track, self.knots, self.climb, self.kind = address, place, feet, track, knots, climb, kind
        self.odd, self.next = 0, {"place": random.random() / 2, "speed": random.random() / 2, "name": random.random() * 5}

    def fly(self, seconds, turn=0):
        self.track = (self.track + turn * seconds) % 360
        self.feet = min(max(self.feet + self.climb * seconds / 60, 500), 45000)
        way = self.knots * seconds / 3600 / 60
        self.lat += way * math.cos(math.radians(self.track))
        self.lon += way * math.sin(math.radians(self.track)) / math.cos(math.radians(self.lat))

    def due(self, now):
        """The frames that are due."""
        for what, every in (("place", 0.5), ("speed", 0.5), ("name", 5)):
            if now >= self.next[what]:
                self.next[what] = now + every * random.uniform(0.8, 1.2)
                yield from self.frames(what)

    def frames(self, what):
        if what == "place":
            self.odd ^= 1
            payload = ground_position(self.lat, self.lon, self.track, self.odd) if self.kind == "ground" else position(self.lat, self.lon, self.feet, self.odd)
        elif what == "speed":
            if self.kind in ("ground", "mute"):
                return
            payload = velocity(self.track, self.knots, self.climb)
        else:
            payload = call_sign(f"SIM{self.address & 0xFFF:04d}")
        yield frame(18 if self.kind == "radar" else 17, 4 if self.kind == "ground" else 5, self.address, payload)


def sky(count):
    """The ownship, those aimed at it and others, and the odd ones."""
    own = Aircraft(OWN, (47.0, 8.0), 10000, 75, 180, 0)
    for number in range(count):
        track, knots, climb = random.uniform(0, 360), random.uniform(90, 480), random.choice([0, 0, 640, -640])
        after = random.uniform(40, 200) if number % 4 else -300
        north = (own.knots * math.cos(math.radians(own.track)) - knots * math.cos(math.radians(track))) * after / 3600
        east = (own.knots * math.sin(math.radians(own.track)) - knots * math.sin(math.radians(track))) * after / 3600
        feet = own.feet + random.uniform(-2500, 2500) - climb * abs(after) / 60
        yield Aircraft(0x4B1001 + number, (own.lat + north / 60, own.lon + east / 60 / math.cos(math.radians(own.lat))), feet, track, knots, climb)
    yield Aircraft(0x4BF001, (47.02, 8.03), 1400, 10, 12, 0, "ground")
    yield Aircraft(0x4BF002, (47.05, 8.05), 9000, 200, 150, 0, "mute")
    yield Aircraft(0x2A0003, (47.1, 8.2), 11000, 255, 200, 0, "radar")
    yield own


def linked(port):
    while True:
        try:
            return socket.create_connection(("127.0.0.1", port), 2)
        except OSError:
            time.sleep(0.2)


def main():
    port, seconds, count = int(sys.argv[1]), float(sys.argv[2]), int(sys.argv[3]) if len(sys.argv) > 3 else 8
    assert frame(17, 5, 0x4840D6, 0x202CC371C32CE0) == "8D4840D6202CC371C32CE0576098"  # a frame of the literature
    random.seed(4)
    aircraft, there, begun, steps = list(sky(count)), linked(port), time.time(), 0
    while steps * STEP < seconds:
        now = steps * STEP
        for one in aircraft:
            one.fly(STEP, 3 if one.address == OWN and now % 120 > 90 else 0)
        text = "".join(f"*{it};\n" for one in aircraft for it in one.due(now) if random.random() >= LOSS)
        wait = begun + now - time.time()
        if wait > 0:
            time.sleep(wait)
        elif wait < -0.5:  # this process stood still: so did its sky
            begun -= wait
        try:
            there.sendall(text.encode())
        except OSError:
            there = linked(port)
        steps += 1


if __name__ == "__main__":
    main()
