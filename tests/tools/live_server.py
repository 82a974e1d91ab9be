"""tools/show_live as a test runs it: with a pipe for its input, on any port, and a listener to its events."""
import http.client
import json
import os
import re
import subprocess
import sys
import threading
import time

from common import CONFIG, TOP, program

LONG = 60  # s that nothing here takes, whatever else the machine does
# A moment of two aircraft, of which one alerts, at any second.
LINES = "own 0 0 10000 0 3600 0\ntraffic AMBER 3000 8000 10000 -1350 0 0 0\ntraffic BRAVO -1200 -300 10600 0 3600 -600 1\n"


def moment(second, lines=LINES):
    return f"moment {second}\n{lines}end\n".encode()


def wait_for(act, what):
    """What an act gives, once it gives something."""
    end = time.monotonic() + LONG
    while not (found := act()):
        if time.monotonic() > end:
            raise AssertionError(f"it never came that {what}")
        time.sleep(0.1)  # (a look at a page takes a hundredth of a second of a processor)
    return found


def child_of(number):
    """The process that a process has started."""
    for name in filter(str.isdigit, os.listdir("/proc")):
        try:
            with open(f"/proc/{name}/stat", encoding="utf-8", errors="replace") as file:
                parent = int(file.read().rpartition(")")[2].split()[1])
        except OSError:
            continue  # it has ended meanwhile
        if parent == number:
            return int(name)
    raise AssertionError(f"{number} has started no process")


class Live:
    """A server under way."""

    def __init__(self, *words, config=CONFIG, given=subprocess.PIPE, beside=None):
        command = [sys.executable, "-B", os.path.join(TOP, "tools", "show_live"), "--config", config, "--port", "0", *words]
        environment = {**os.environ, "DAIDALUS_PROGRAM": beside or program()}
        self.run = subprocess.Popen(command, stdin=given, stderr=subprocess.PIPE, text=True, env=environment)
        self.told = []
        self.reader = threading.Thread(target=self.read, daemon=True)
        self.reader.start()
        found = wait_for(lambda: re.search(r"http://127\.0\.0\.1:(\d+)/(?:, log (.*))?\n", "".join(self.told)), f"the server begins: {self.told}")
        self.port, self.folder = int(found[1]), found[2]

    def read(self):
        for line in self.run.stderr:
            self.told.append(line)

    def write(self, text):
        self.run.stdin.buffer.write(text)
        self.run.stdin.buffer.flush()

    def end(self):
        """Ends the input, and gives the status and what was told."""
        self.run.stdin.close()
        status = self.run.wait(LONG)
        self.reader.join(LONG)
        self.run.stderr.close()
        return status, "".join(self.told)

    def stop(self):
        if self.run.poll() is None:
            self.run.kill()
            self.run.wait()
            self.reader.join(LONG)
        for stream in (self.run.stdin, self.run.stderr):
            if stream:
                stream.close()

    def log(self, name):
        with open(os.path.join(self.folder, name), "rb") as file:
            return file.read()


class Listener:
    """A browser's part: takes the events of a feed as they come."""

    def __init__(self, port):
        self.connection = http.client.HTTPConnection("127.0.0.1", port, timeout=LONG)
        self.connection.request("GET", "/feed")
        self.answer = self.connection.getresponse()
        self.events = []

    def next(self):
        name = data = None
        while line := self.answer.readline():
            if line.startswith(b"event: "):
                name = line[7:].decode().strip()
            elif line.startswith(b"data: "):
                data = json.loads(line[6:])
            elif line == b"\n" and name:
                self.events.append((name, data))
                return name, data
        return None, None

    def until(self, wanted, **values):
        """The data of the next event of a name that has these values."""
        end = time.monotonic() + LONG
        while True:
            name, data = self.next()
            if name is None or time.monotonic() > end:
                raise AssertionError(f"no {wanted} came; {self.events[-3:]}")
            if name == wanted and all(data.get(key) == value for key, value in values.items()):
                return data

    def close(self):
        self.connection.close()
