"""A row of CSV for each encounter: what came of it without and with the guidance, and why well clear was lost."""
import csv
import io
from math import isqrt

from daidalus_files import Problem, read_bytes

from .flight import fly
from .whole import MIL

# Names of the columns; those of the flight with guidance begin with g_.
COLUMNS = ("encounter", "stratum", "weight", "aircraft", "loss", "nmac", "severity", "nearest", "alert", "warning",
           "g_loss", "g_nmac", "g_severity", "g_nearest", "g_alert", "g_warning", "g_graze", "advice", "advices", "reversals", "nones", "off", "back",
           "steady", "refused", "cause")
TEXTS = ("stratum", "cause")
CAUSES = {"": "no loss with guidance",
          "refused": "the engine refused what it was told",
          "graze": "within 0.002 NM and 1 ft of the border",
          "no-alert": "no alert before the loss",
          "no-advice": "lost before the first manoeuvre: a late alert, or no way out",
          "induced": "no loss without guidance",
          "after-return": "lost after the way back to the plan",
          "none-open": "at some look before the loss no kind followed had an answer",
          "reversal": "the side was changed before the loss",
          "other": "none of these"}


def row_of(encounter, study):
    """The row of an encounter, as texts and numbers, None for what was not."""
    bare, guided = fly(encounter, study, False), fly(encounter, study, True)
    unit, resolve, top = MIL * study.world.steps, study.guidance.config.resolve, len(study.guidance.config.levels)
    row = {"encounter": encounter.number, "stratum": encounter.stratum, "weight": encounter.weight, "aircraft": len(encounter.others)}
    for head, run in (("", bare), ("g_", guided)):
        row |= {f"{head}loss": run.loss, f"{head}nmac": int(run.nmac), f"{head}severity": round(run.severity * 1000),
                f"{head}nearest": isqrt(run.nearest[0] // run.nearest[1]) // unit if run.nearest else None,
                f"{head}alert": run.alerts.get(resolve), f"{head}warning": run.alerts.get(top)}
    row |= {"g_graze": int(guided.grazes), "advice": guided.first_advice, "advices": guided.advices, "reversals": guided.reversals,
            "nones": guided.nones, "off": isqrt(guided.off) // unit, "back": guided.back, "steady": int(guided.is_steady(resolve)),
            "refused": guided.refused if guided.refused is not None else bare.refused}
    return {**row, "cause": cause_of(row)}


def cause_of(row):
    """Why an encounter was lost with guidance: the first of CAUSES that applies."""
    loss, alert, advice = row["g_loss"], row["g_alert"], row["advice"]
    if row["refused"] is not None:
        return "refused"
    if loss is None:
        return ""
    tests = {"graze": row["g_graze"], "no-alert": alert is None or alert >= loss, "no-advice": advice is None or advice > loss,
             "induced": row["loss"] is None, "after-return": row["back"] is not None and row["back"] < loss, "none-open": row["nones"],
             "reversal": row["reversals"], "other": True}
    return next(cause for cause, test in tests.items() if test)


def text_of(row):
    return ",".join("" if row[it] is None else str(row[it]) for it in COLUMNS) + "\n"


HEAD = ",".join(COLUMNS) + "\n"


def read_rows(path, count=None):
    """The rows of a file; one that lacks an encounter, or has one twice, is a problem, and so is one that has not `count` of them."""
    text = read_bytes(path).decode("utf-8", "replace")
    if not text.startswith(HEAD):
        raise Problem(f"{path}: its first line does not have the columns of tools/study run: is the first shard missing?", 4)
    if not text.endswith("\n"):
        raise Problem(f"{path}: it ends within a line: was its shard cut short?", 4)
    rows, seen = [], set()
    for line, words in enumerate(csv.DictReader(io.StringIO(text)), 2):
        try:
            row = {key: words[key] if key in TEXTS else int(words[key]) if words[key] else None for key in COLUMNS}
        except (ValueError, TypeError):
            raise Problem(f"{path}: line {line} is no row of tools/study run", 4) from None
        if None in words or None in words.values() or row["encounter"] is None or not row["weight"] or row["cause"] not in CAUSES:
            raise Problem(f"{path}: line {line} is no row of tools/study run", 4)
        if row["encounter"] in seen:
            raise Problem(f"{path}: line {line}: encounter {row['encounter']} occurs twice: was a shard taken twice?", 4)
        seen.add(row["encounter"])
        rows.append(row)
    if not rows:
        raise Problem(f"{path}: there is no row", 4)
    gap = next((number for number in range(min(seen), max(seen)) if number not in seen), None)
    if gap is not None:
        raise Problem(f"{path}: encounter {gap} is missing: did a shard fail?", 4)
    if count is not None and len(rows) != count:
        raise Problem(f"{path}: there are {len(rows)} encounters instead of {count}: did the last shard fail?", 4)
    return rows
