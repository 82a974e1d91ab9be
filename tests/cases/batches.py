"""Cases of many moments, which several workers share out, and comparisons of their reports. Their texts are made here by the rule
that each function states, and what no rule gives is what tools/reference finds. All are under one level."""

CLEAR = """track 0 270 0
gs 3600 3600 0
vs 0 0 0
alt 1000 1000 0
resolve track left keep right keep
resolve gs down keep up keep
resolve vs down keep up keep
resolve alt down keep up keep
"""
COVERED = CLEAR.replace(" 0\n", " 1\n").replace("keep", "none")
OWN, THERE, ALERT = "own 0 0 1000 0 3600 0\n", "traffic A 0 0 1000 0 3600 0\n", "alert A 1 0\n"
SOME = [1, 2, 3, 4, 16]
JUDGE = ["daidalus", "judge", "--config", "CONFIG", "--states", "STATES"]


def moments(count):
    """So many moments with one aircraft at the ownship's place; of each the fourth of five lines is refused."""
    return "".join(f"moment {time}\n{OWN}{THERE}x\nend\n" for time in range(count))


def report(count, other=None, alerts=ALERT):
    """Their report; that of one moment may have other alerts. It has thirteen lines a moment."""
    return "".join(f"refused {5 * time + 4} 2\nmoment {time}\nnow A 1\n{alerts if time == other else ALERT}{COVERED}done {time}\n" for time in range(count))


def crowded(time, aircraft):
    """A moment of so many aircraft side by side, and a line that is refused."""
    return f"moment {time}\n{OWN}" + "".join(f"traffic A{i} {i} 0 1000 0 3600 0\n" for i in range(aircraft)) + "x\nend\n"


# Lines between two moments of which the first letters tell too little: other formats, an earlier time, two moments at once, words
# after `end`, blanks in front, nothing.
ODD_LINES = [
    "format 2\ntraffic A 0 0 1000 0 3600 0 9\nend\nformat 1\nend\n",
    "end of a moment\nmoment 0\nend\n",
    "  end\nenough\n\tmoment 0\n",
    "moment 0\nend\nend\nmoment 0\nown 0 0 0 0 0 0\n",
    "moment 0\nformat 2\nformat 1\nend\r\n",
    "\n\n# end\nend #\nend\n",
    "format 2\nend\nmoment 0\nown 0 0 1000 0 3600 0\nformat 1\n",
    "own 0 0 1000 0 3600 0\nend\nf\nm\ne\nend\nformat 1\nend\n",
]


def odd(count):
    """So many moments, between lines by which what is guessed of some is wrong. Where moments end is guessed by the first letters of
    lines; some begin with the rest of a line that is too long."""
    text = ""
    for time in range(count):
        text += f"moment {time}0\n{OWN}x\nend\n" + (ODD_LINES[time % 24] if time % 24 < len(ODD_LINES) else "")
        if time % 24 == 9:
            text += f"moment {time}5\nformat 2\nend\nmoment {time}0\n\t{OWN} \tend\nmoment {time}4\nend\n"
        if time % 50 == 0:
            text += "end" + 30 * " 123456789"
    return text


def full_sheet():
    """A moment with so many refused lines that a worker has no room for them all, among light ones."""
    return moments(50) + f"moment 50\n{OWN}" + 20000 * "x\n" + "end\n" + "".join(crowded(time, 1) for time in range(51, 100))


def replays():
    yield {"shows": "moments are shared out", "input": moments(1100), "output": report(1100), "status": 1, "workers": [1, 3, 4, 16], "pieces": [20000]}
    yield {"shows": "a few crowded moments among light ones", "status": 1, "workers": SOME,
           "input": "".join(crowded(time, 1 if time % 8 else 64) for time in range(400))}
    yield {"shows": "wrong guesses of where moments end", "status": 1, "workers": SOME, "pieces": [7777], "input": odd(600)}
    yield {"shows": "a moment that a worker has no room for", "status": 1, "workers": [1, 16], "input": full_sheet()}
    yield {"shows": "pieces in which a moment ends, or two, or none", "status": 1, "workers": [2], "pieces": [60, 97, 131, 200], "input": moments(40),
           "output": report(40)}
    yield {"shows": "pieces that are read ahead are shared out as they come", "status": 1, "workers": [], "ahead": [64], "input": moments(300),
           "output": report(300)}


def judged(shows, states, given, line=None, **more):
    """A comparison with the report of states: it is the same, or differs in a line."""
    told = "same\n" if line is None else f"differs {line}\n"
    return {"shows": shows, "words": JUDGE, "states": states, "input": given, "status": int(line is not None), "output": told, "workers": SOME, **more}


def judgements():
    states, whole = moments(300), report(300)
    yield judged("the report of shared moments", states, whole, pieces=[1, 7777])
    for name, alerts, line in (("another alert", "alert A 1 1\n", 4), ("a line less", "", 4), ("a line more", 2 * ALERT, 5)):
        for other in (0, 1, 149, 298, 299):
            yield judged(f"{name} in moment {other} of 300", states, report(300, other, alerts), 13 * other + line)
    for cut in (9, 8, 1):  # the last line is `done 299`
        yield judged(f"a report of shared moments without its last {cut} bytes", states, whole[:-cut], 3900)
    yield judged("no report of shared moments", states, "", 1)
    yield judged("a report of shared moments that goes on", states, whole + "\n", 3901)
    rest = f"format 2\nmoment 900\n{OWN}traffic A 0 -1000 1000 0 3600 0 10\nend\nx\nmoment 901\n{OWN}"[:-1]
    longer = f"{whole}moment 900\nnow A 1\n{ALERT}{COVERED}done 900\nrefused 1506 2\nrefused 1509 14\n"
    yield judged("lines behind the last shared moment", states + rest, longer)
    yield judged("lines behind the last shared moment, of which the last differs", states + rest, longer[:-2], 3914)


def judgements_of(report_of):
    """Comparisons with the reports that another reading finds: the same, and with another byte at some places."""
    for shows, states, places in (("wrong guesses of where moments end", odd(600), 5), ("a moment that a worker has no room for", full_sheet(), 1)):
        assert len(states) <= 65536
        found = report_of(states)
        yield judged(f"{shows}: the same report", states, found)
        for place in range(1, places + 1):
            at = len(found) // (places + 1) * place
            yield judged(f"{shows}: another byte, the {place}. of {places}", states, found[:at] + "!" + found[at + 1:], found.count("\n", 0, at) + 1)
