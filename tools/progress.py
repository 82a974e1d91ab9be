"""How far a tool has come: a line on standard error that is written over itself, where standard error is a terminal and the
work takes longer than two seconds."""
import sys
import time

AFTER, EVERY = 2, 0.2  # seconds until it is first shown, and from then on between two times
ERASE = "\r\x1b[K"


class Shown:
    """The line that stands now: whose it is, when it may be written next, and whether one stands."""

    name, due, is_there = "", None, False


def begin(name):
    """The tool of this name begins to work."""
    Shown.name, Shown.is_there = name, False
    Shown.due = time.monotonic() + AFTER if is_terminal(sys.stderr) else None


def is_terminal(stream):
    return stream is not None and stream.isatty()


def hide_beside_output():
    """Shows nothing from now on if standard output is a terminal too: for a tool that writes while it reads."""
    if is_terminal(sys.stdout):
        Shown.due = None


def show(what, part, whole=None):
    """Says what is worked on, and how much is done: a part of a whole, or where the whole is not known a count."""
    if Shown.due is None or time.monotonic() < Shown.due:
        return
    Shown.due = time.monotonic() + EVERY
    write(f"{ERASE}{Shown.name}: {what}: " + (f"{min(100 * part // whole, 100)} %" if whole else f"{part}"))
    Shown.is_there = True


def shown(made, count, what):
    """The same things, of which there are so many; while one is made it is told how many are made."""
    made = iter(made)
    for number in range(count):
        show(what, number, count)
        one = next(made)
        clear()
        yield one


def clear():
    """Takes the line away."""
    if Shown.is_there:
        write(ERASE)
        Shown.is_there = False


def write(words):
    try:
        sys.stderr.write(words)
        sys.stderr.flush()
    except OSError:
        Shown.due = None
