"""What live sources say, as it comes: lines of a port that is connected to anew when it is gone, gpsd, and a text that is written again and again.

A source's own clock may be any other, and its lines may wait on the way. So how old a line is, is told by what its own stamps say against
the least difference that was seen (Lateness): what waited is as old as it is, whatever the two clocks are.
"""
import http.client
import json
import math
import os
import socket
import threading
import time
import urllib.parse

from daidalus_files import tell
from recordings.rows import Row
from recordings.times import iso_time

AFTER = 1  # s until a source that is gone is asked again
LONGEST_LINE = 512  # bytes
TOO_LATE = 60  # s: a source whose lines are so late is asked anew
LEAST_STEP = 1  # s by which the machine's clock must be ahead to count as put forward
DRIFT = 1e-4  # seconds in a second by which two clocks may drift apart
OFTEN = 0.25  # s from one look at a text to the next
LARGEST_TEXT = 1 << 22
LOOPBACK = ("127.0.0.1", "localhost", "::1")
FOOT = 0.3048


class Clock:
    """Seconds since 1970 that never step back. They step forward with the machine's clock, as after it was suspended."""

    def __init__(self):
        self.base = time.time() - time.monotonic()

    def now(self):
        found = self.base + time.monotonic()
        if time.time() - found > LEAST_STEP:
            self.base = time.time() - time.monotonic()
            found = self.base + time.monotonic()
        return found


class Lateness:
    """How long ago something was written, by its own stamp and the clock here: the least difference so far counts as none."""

    def __init__(self):
        self.least, self.at = math.inf, None

    def of(self, stamp, now):
        if self.at is not None:
            self.least += DRIFT * (now - self.at)
        self.at, self.least = now, min(self.least, now - stamp)
        return now - stamp - self.least


def stamps_of(line):
    """When a BaseStation line was received and when it was written, by its own stamps; None each where it has none."""
    cells = line.split(",")
    found = [iso_time(f"{cells[at]} {cells[at + 1]}") if len(cells) > at + 1 else None for at in (6, 8)]
    return [it and it[0] for it in found]


def address_of(word):
    """The host and the port of a word HOST:PORT, or None."""
    host, colon, port = word.rpartition(":")
    if not colon or "/" in host or not port.isdecimal() or int(port) > 65535:
        return None
    return host.strip("[]") or "localhost", int(port)


class Lines:
    """The lines of a port, which is connected to anew when it is gone."""

    hello = b""

    def __init__(self, word, say):
        self.word, self.to, self.say = word, address_of(word), say
        self.there, self.next, self.rest, self.told, self.heard = None, 0, b"", None, -math.inf
        self.late = Lateness()

    def connect(self, now):
        if self.there or now < self.next:
            return
        self.next, self.rest, self.late = now + AFTER, b"", Lateness()
        try:
            self.there = socket.create_connection(self.to, 1)
            self.there.sendall(self.hello)
            self.there.setblocking(False)
            self.tell(f"connected to {self.word}")
        except OSError as fault:
            self.lose(fault.strerror or str(fault))

    def lose(self, why):
        if self.there:
            self.there.close()
        self.there = None
        self.tell(f"{self.word}: {why}")

    def tell(self, words):
        if words != self.told:
            self.say(words)
            self.told = words

    def lines(self, now):
        """The whole lines that have come; one that is too long is none."""
        try:
            piece = self.there.recv(1 << 16)
        except BlockingIOError:
            return []
        except OSError as fault:
            self.lose(fault.strerror or str(fault))
            return []
        if not piece:
            self.lose("the connection was ended")
            return []
        self.heard = now
        *lines, self.rest = (self.rest + piece).split(b"\n")
        if len(self.rest) > LONGEST_LINE:
            self.rest = b"?" * LONGEST_LINE
        return [line.decode("latin-1") for line in lines if len(line) < LONGEST_LINE]

    def is_too_late(self, late):
        """Whether lines are so late that the source is asked anew."""
        if late > TOO_LATE:
            self.lose(f"its lines are {late:.0f} s late, or its clock was set back")
        return late > TOO_LATE


class Decoder(Lines):
    """The BaseStation lines of a decoder, each with the time at which it was received there."""

    def stamped(self, now):
        for line in self.lines(now):
            received, written = stamps_of(line)
            late = 0 if written is None else self.late.of(written, now)
            if self.is_too_late(late):
                return
            waited = 0 if None in (received, written) else min(max(written - received, 0), TOO_LATE)
            yield line, now - late - waited


class Gpsd(Lines):
    """The ownship by what gpsd says. Heights are geometric; `above` is how far such ones stand above barometric ones, in feet. The first
    report decides whether they are above the ellipsoid or above the sea, since one is never taken in place of the other."""

    hello = b'?WATCH={"enable":true,"json":true};\n'
    HEIGHTS = {"altHAE": "above the ellipsoid", "altMSL": "above the sea", "alt": "above the sea"}

    def __init__(self, word, above, say):
        super().__init__(word, say)
        self.above, self.height = above, None

    def rows(self, name, now):
        for line in self.lines(now):
            row = self.row(line, name, now)
            if row:
                yield row

    def row(self, line, name, now):
        """The report of a line, or None of every other one; one that lacks a number says which."""
        try:
            said = json.loads(line)
        except ValueError:
            return None
        if not isinstance(said, dict) or said.get("class") != "TPV":
            return None
        stamp = iso_time(str(said.get("time", "")))
        when = now - (self.late.of(stamp[0], now) if stamp else 0)
        if number(said.get("mode")) is None or said["mode"] < 3:
            return Row(name, when, (0, 0), 0, 0, 0, 0, 0, "no fix of three dimensions by GPS")
        if self.height is None:
            self.height = next((key for key in self.HEIGHTS if number(said.get(key)) is not None), None)
            self.say(f"the ownship's heights are those of GPS {self.HEIGHTS.get(self.height, '(none yet)')}, less {self.above:g} ft")
        lat, lon, height, speed, climb = (number(said.get(key)) for key in ("lat", "lon", self.height, "speed", "climb"))
        track = number(said.get("track"))
        if track is None and speed is not None and speed < 1:
            track = 0.0  # where it stands there is none
        for value, words in ((lat, "position"), (lon, "position"), (height, "altitude"), (speed, "velocity"), (track, "velocity"), (climb, "vertical speed")):
            if value is None:
                return Row(name, when, (0, 0), 0, 0, 0, 0, 0, f"no {words} by GPS")
        angle, knots = math.radians(track), speed * 3600 / 1852
        return Row(name, when, (lat, lon), height / FOOT - self.above, knots * math.sin(angle), knots * math.cos(angle), climb * 60 / FOOT, track)


def number(value):
    """A value of JSON that is a number, or None."""
    return float(value) if isinstance(value, (int, float)) and not isinstance(value, bool) and math.isfinite(value) else None


def is_on_loopback(word):
    """Whether a word is an address by HTTP of this machine itself."""
    parts = urllib.parse.urlsplit(word)
    return parts.scheme == "http" and parts.hostname in LOOPBACK


class Texts:
    """A text that is written again and again, as aircraft.json: a file, or an address by HTTP on this machine. Looked at by a thread of its
    own, so that nothing waits for it."""

    def __init__(self, word, clock, say):
        self.word, self.clock, self.say, self.told = word, clock, say, None
        self.seen, self.found, self.lock = None, None, threading.Lock()
        threading.Thread(target=self.look, daemon=True).start()

    def look(self):
        while True:
            try:
                text = self.by_http() if "://" in self.word else self.by_file()
                if text is not None:
                    with self.lock:
                        self.found = text, self.clock.now()
                self.tell(f"reads {self.word}")
            except (OSError, http.client.HTTPException) as fault:
                self.seen = None
                self.tell(f"{self.word}: {getattr(fault, 'strerror', None) or fault!r}")
            time.sleep(OFTEN)

    def tell(self, words):
        if words != self.told:
            self.say(words)
            self.told = words

    def by_file(self):
        stamp = os.stat(self.word)
        key = stamp.st_mtime_ns, stamp.st_size, stamp.st_ino
        if key == self.seen:
            return None
        with open(self.word, "rb") as file:
            text = file.read(LARGEST_TEXT)
        self.seen = key
        return text

    def by_http(self):
        parts = urllib.parse.urlsplit(self.word)
        asked = http.client.HTTPConnection(parts.hostname, parts.port or 80, timeout=1)
        try:
            asked.request("GET", parts.path or "/")
            answer = asked.getresponse()
            text = answer.read(LARGEST_TEXT)
        finally:
            asked.close()
        if answer.status != 200:
            raise http.client.HTTPException(f"status {answer.status}")
        if text == self.seen:
            return None
        self.seen = text
        return text

    def take(self):
        """What was found since it was asked last, and when; or None."""
        with self.lock:
            found, self.found = self.found, None
        return found


def sayer(name):
    """What tells of a tool on standard error."""
    return lambda words: tell(f"{name}: {words}")
