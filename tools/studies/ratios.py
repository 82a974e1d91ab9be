"""Ratios of a study's rows with intervals, as a table with a column for each file of rows.

The bootstrap draws encounters within each stratum, by numbers of SHAKE-128, so that the intervals are the same on every machine."""
from array import array
from collections import Counter
from hashlib import shake_128
from typing import NamedTuple

from .rows import CAUSES

RESAMPLES, LOW, HIGH = 1000, 25, 974  # of the sorted resamples the places of an interval of 95 %
HEAVY = 0.2  # an encounter that is so much of a ratio is named
LATE = 15    # an alert is late so many seconds before the loss


def has(key):
    return lambda row: row[key] is not None


def is_missed(row):
    return row["loss"] is not None and (row["alert"] is None or row["alert"] >= row["loss"])


def is_late(row):
    return row["loss"] is not None and row["alert"] is not None and 0 < row["loss"] - row["alert"] < LATE


# Each ratio: its name, which encounters are counted, and of which.
RATIOS = (("loss ratio: losses with guidance / without", has("g_loss"), has("loss")),
          ("risk ratio: near collisions with / without", lambda row: row["g_nmac"], lambda row: row["nmac"]),
          ("induced losses / losses without", lambda row: row["g_loss"] is not None and row["loss"] is None, has("loss")),
          ("unresolved losses / losses without", lambda row: row["g_loss"] is not None and row["loss"] is not None, has("loss")),
          ("alert ratio: alerts / losses without", has("alert"), has("loss")),
          ("false alerts: no loss without / alerts", lambda row: row["alert"] is not None and row["loss"] is None, has("alert")),
          ("missed: no alert before / losses without", is_missed, has("loss")),
          (f"late: alert less than {LATE} s before / losses without", is_late, has("loss")))


class Ratio(NamedTuple):
    """A weighted ratio with its interval; None where nothing is divided by. `many` encounters are counted, and the heaviest of them,
    number `heaviest`, is `share` of their weight."""

    value: float | None
    low: float | None
    high: float | None
    many: int
    heaviest: int | None
    share: float


def resampled(rows, marks):
    """Of each resample the summed weights of each mark: a row's marks are a list of truths. Rows whose weight and marks are alike are
    one sort."""
    sorts, strata = {}, {}
    for row, its in zip(rows, marks):
        sort = sorts.setdefault(tuple(row["weight"] * bool(it) for it in its), len(sorts))
        strata.setdefault(row["stratum"], []).append(sort)
    weights = list(sorts)
    for resample in range(RESAMPLES):
        sums = [0] * len(marks[0])
        for place, stratum in enumerate(sorted(strata)):
            for sort, count in Counter(drawn(strata[stratum], resample, place)).items():
                sums = [total + count * weight for total, weight in zip(sums, weights[sort])]
        yield sums


def drawn(members, resample, place):
    """As many members as there are, each drawn from all of them."""
    words, many = array("Q"), len(members)
    words.frombytes(shake_128(f"{resample} {place}".encode()).digest(8 * many))
    return [members[word % many] for word in words]


def ratios_of(rows):
    """The ratios of RATIOS, in their order."""
    marks = [[test(row) for _, above, below in RATIOS for test in (above, below)] for row in rows]
    sums = [sum(row["weight"] for row, its in zip(rows, marks) if its[place]) for place in range(len(marks[0]))]
    found = [[] for _ in RATIOS]
    for resample in resampled(rows, marks):
        for place, ratios in enumerate(found):
            if resample[2 * place + 1]:
                ratios.append(resample[2 * place] / resample[2 * place + 1])
    return [ratio_of(rows, [its[2 * place] for its in marks], sums[2 * place], sums[2 * place + 1], sorted(ratios)) for place, ratios in enumerate(found)]


def ratio_of(rows, counted, above, below, resamples):
    chosen = [row for row, it in zip(rows, counted) if it]
    heaviest = max(chosen, key=lambda row: row["weight"], default=None)
    share = heaviest["weight"] / above if heaviest else 0.0
    ends = [resamples[len(resamples) * it // RESAMPLES] for it in (LOW, HIGH)] if resamples else [None, None]
    return Ratio(above / below if below else None, *ends, len(chosen), heaviest and heaviest["encounter"], share)


def quantiles(pairs, parts=(5, 50, 95)):
    """Of pairs of a value and a weight the values at these percents of the weight, or None of no pair."""
    pairs, total = sorted(pairs), sum(weight for _, weight in pairs)
    found = []
    for part in parts:
        gone = 0
        for value, weight in pairs:
            gone += weight
            if 100 * gone >= part * total:
                found.append(value)
                break
    return found or None


# Each quantity of which quantiles are told: its name, its value of a row or None, and by what it is divided.
def ahead(row):
    return row["loss"] - row["alert"] if row["loss"] is not None and row["alert"] is not None else None


QUANTITIES = (("seconds from alert to loss, without", ahead, 1),
              ("severity of losses without", lambda row: row["severity"] if row["loss"] is not None else None, 1000),
              ("severity of losses with guidance", lambda row: row["g_severity"] if row["g_loss"] is not None else None, 1000),
              ("deviation from the plan, NM", lambda row: row["off"] if row["advices"] else None, 1000))


def shown(ratio):
    """A ratio in words."""
    if ratio.value is None:
        return "nothing to divide by"
    if not ratio.many:
        return "0, none seen"
    text = f"{ratio.value:.4f} [{ratio.low:.4f}, {ratio.high:.4f}]"
    return f"{text}, {ratio.heaviest} is {100 * ratio.share:.0f} %" if ratio.share >= HEAVY else text


def counts_of(rows):
    """Plain counts, without weights."""
    lost, g_lost = (sum(row[key] is not None for row in rows) for key in ("loss", "g_loss"))
    told = [row for row in rows if row["advices"]]
    yield "encounters", len(rows)
    if refused := sum(row["refused"] is not None for row in rows):
        yield "ended early, since the engine refused what it was told", refused
    yield "losses of well clear, without and with", f"{lost}, {g_lost}"
    yield "of these induced, resolved", (f"{sum(row['g_loss'] is not None and row['loss'] is None for row in rows)}, "
                                         f"{sum(row['g_loss'] is None and row['loss'] is not None for row in rows)}")
    yield "near collisions, without and with", f"{sum(row['nmac'] for row in rows)}, {sum(row['g_nmac'] for row in rows)}"
    yield "with an advice; with a reversal; without any answer at some look", (f"{len(told)}; {sum(row['reversals'] > 0 for row in told)}; "
                                                                              f"{sum(row['nones'] > 0 for row in rows)}")


def lines_of(rows):
    """The names and values of a column of the table."""
    yield from counts_of(rows)
    for (name, *_), ratio in zip(RATIOS, ratios_of(rows)):
        yield name, shown(ratio)
    for name, value_of, size in QUANTITIES:
        found = quantiles([(value, row["weight"]) for row in rows if (value := value_of(row)) is not None])
        yield name + " (5, 50, 95 %)", ", ".join(f"{it / size:g}" for it in found) if found else "none"
    causes = Counter(row["cause"] for row in rows)
    for cause in list(CAUSES)[1:]:
        numbers = [str(row["encounter"]) for row in rows if row["cause"] == cause]
        yield f"cause {cause}", f"{causes[cause]}" + (f": {' '.join(numbers[:3])}{' ..' * (len(numbers) > 3)}" if numbers else "")


def table_of(named):
    """The table of rows by their names, in the form of Markdown."""
    columns = [dict(lines_of(rows)) for _, rows in named]
    names = list(dict.fromkeys(name for column in columns for name in column))
    cells = [["", *(name for name, _ in named)], *([name, *(str(column.get(name, "0")) for column in columns)] for name in names)]
    widths = [max(len(line[place]) for line in cells) for place in range(len(cells[0]))]
    for place, line in enumerate(cells):
        yield "| " + " | ".join(cell.ljust(width) for cell, width in zip(line, widths)) + " |"
        if place == 0:
            yield "|" + "|".join("-" * (width + 2) for width in widths) + "|"
