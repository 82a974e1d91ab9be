"""A study on one page: a file of HTML with its pictures in it, and links that show single moments on the page of this repository."""
import base64
import json
import zlib
from html import escape

import svg

from .ratios import QUANTITIES, RATIOS, ratios_of, shown, table_of
from .rows import CAUSES
from .tracing import Traced, state_lines

WORST = 10  # encounters that are listed
BLUE, RED, GREY, COLOURS = "#1f5fa8", "#b3362b", "#777777", ("#1f5fa8", "#b3362b", "#2f7d4f", "#8a5a00", "#6a3d9a")
STYLE = """body { font: 15px/1.45 sans-serif; margin: 2em auto; max-width: 70em; padding: 0 1em; color: #222 }
svg { max-width: 100%; height: auto } table { border-collapse: collapse } td, th { padding: .2em .7em; text-align: left; border-bottom: 1px solid #ddd }
td.number { text-align: right } .scroll { overflow-x: auto } .note { color: #555 }"""


def packed(value):
    """The part of a link after #, as page/link.js packs it."""
    pack = zlib.compressobj(9, zlib.DEFLATED, -15)
    text = pack.compress(json.dumps(value, ensure_ascii=False, separators=(",", ":")).encode()) + pack.flush()
    return "m=" + base64.urlsafe_b64encode(text).decode().rstrip("=")


def link_of(moment, configuration, name):
    """The link's part for a moment under a configuration, named by its file."""
    look = {"auto": True, "trackUp": False, "range": 12, "heights": 3000}
    config = {"name": configuration[0], "toml": configuration[1]}
    return packed({"states": moment, "name": name, "told": [], "lacks": "", "configs": [config, config], "look": [look, look], "compare": False})


# Pictures.

def ratios_picture(named, found):
    """Each ratio of each file as a point with its interval."""
    width, row, left = 900, 18, 420
    parts, y = [], 20
    most = max((ratio.high for ratios in found for ratio in ratios if ratio.high is not None), default=1) or 1
    scale = svg.Scale(0, most, left, width - 150, least=0.001)
    for place, (name, *_) in enumerate(RATIOS):
        parts.append(svg.text(8, y + 4, name))
        for colour, (_, ratios) in zip(COLOURS * len(named), zip(named, found)):
            ratio = ratios[place]
            if ratio.value is not None and ratio.many:
                parts += [svg.line(scale(ratio.low), y, scale(ratio.high), y, colour, stroke_width=3),
                          svg.shape("circle", cx=svg.number(scale(ratio.value)), cy=svg.number(y), r=4, fill=colour)]
            parts.append(svg.text(width - 145, y + 4, shown(ratio).partition(" [")[0], fill=colour))
            y += row
        y += 6
    ticks = [most * part / 4 for part in range(5)]
    parts += [svg.line(scale(it), 8, scale(it), y, "#dddddd") for it in ticks] + [svg.text(scale(it) - 10, y + 12, f"{it:.3f}", fill=GREY) for it in ticks]
    legend = [svg.text(8 + 200 * place, y + 32, name, fill=colour) for place, ((name, _), colour) in enumerate(zip(named, COLOURS * len(named)))]
    return svg.picture(width, y + 42, [*parts, *legend], "Ratios with intervals of 95 %")


def histogram(title, values, low, high, bins, unit, colour):
    """Weighted bars of pairs of a value and a weight; what lies beyond is in the last bar."""
    width, height, base = 430, 190, 160
    total, size, sums = sum(weight for _, weight in values), (high - low) / bins, [0] * bins
    for value, weight in values:
        sums[min(max(int((value - low) / size), 0), bins - 1)] += weight
    most = max(sums, default=0) or 1
    across, parts = svg.Scale(low, high, 40, width - 10, least=0.001), [svg.text(8, 16, title)]
    for place, it in enumerate(sums):
        tall = 110 * it / most
        parts.append(svg.rectangle(across(low + place * size) + 1, base - tall, (width - 50) / bins - 2, tall, colour))
    parts += [svg.line(40, base, width - 10, base), svg.text(8, 40, f"{100 * most / total:.0f} %" if total else "", fill=GREY)]
    parts += [svg.text(across(it) - 6, base + 14, f"{it:g}", fill=GREY) for it in (low, (low + high) / 2, high)]
    parts.append(svg.text(width - 200, height - 4, f"{unit}; {len(values)} encounters", fill=GREY))
    return svg.picture(width, height, parts, title)


def nearest_picture(rows):
    """Least distances while near in height, without and with guidance."""
    size, parts = 330, [svg.text(8, 16, "least distance within the height of well clear, NM")]
    across, up = svg.Scale(0, 2, 45, size - 10), svg.Scale(0, 3, size - 30, 30)
    for row in rows:
        if row["nearest"] is not None and row["g_nearest"] is not None and row["nearest"] <= 2000 and row["g_nearest"] <= 3000:
            parts.append(svg.shape("circle", cx=svg.number(across(row["nearest"] / 1000)), cy=svg.number(up(row["g_nearest"] / 1000)), r=1.6,
                                   fill=RED if row["g_loss"] is not None else GREY))
    parts += [svg.line(45, size - 30, size - 10, size - 30), svg.line(45, 30, 45, size - 30)]
    parts += [svg.text(across(it) - 3, size - 16, it, fill=GREY) for it in (0, 1, 2)] + [svg.text(30, up(it) + 4, it, fill=GREY) for it in (0, 1, 2, 3)]
    parts.append(svg.text(60, size - 2, "across: without guidance; up: with; red: loss", fill=GREY))
    return svg.picture(size, size, parts, "Least distances")


def causes_picture(rows):
    """How many encounters were lost with guidance, by cause."""
    width, parts, y = 560, [svg.text(8, 16, "losses with guidance, by cause")], 30
    counts = {cause: sum(row["cause"] == cause for row in rows) for cause in list(CAUSES)[1:]}
    scale = svg.Scale(0, max(counts.values()), 110, width - 60)
    for cause, count in counts.items():
        parts += [svg.text(8, y + 10, cause), svg.rectangle(110, y, scale(count) - 110, 12, RED), svg.text(scale(count) + 6, y + 10, count)]
        y += 20
    return svg.picture(width, y + 6, parts, "Causes of losses")


# The parts of the page.

def section(name, rows, study, display):
    """What the page has of one file of rows."""
    ahead, _, severity, off = (value_of for _, value_of, _ in QUANTITIES)
    weighted = lambda value_of, size: [(value / size, row["weight"]) for row in rows if (value := value_of(row)) is not None]
    pictures = [histogram("seconds from alert to loss, without guidance", weighted(ahead, 1), 0, 60, 20, "s", BLUE),
                histogram("severity of losses with guidance", weighted(severity, 1000), 0, 1, 20, "0 to 1", RED),
                histogram("deviation from the plan", weighted(off, 1000), 0, 4, 20, "NM", BLUE), nearest_picture(rows), causes_picture(rows)]
    return "\n".join([f"<h2>{escape(name)}: {len(rows)} encounters</h2>", *pictures, worst_table(rows, study, display)])


def worst_of(rows):
    """The losses with guidance that were deepest, near collisions first."""
    lost = [row for row in rows if row["g_loss"] is not None or row["g_nmac"]]
    return sorted(lost, key=lambda row: (-row["g_nmac"], -row["g_severity"], row["encounter"]))[:WORST]


def worst_table(rows, study, display):
    """The worst encounters, with links to their moments where the study is known."""
    lines = []
    for row in worst_of(rows):
        links = links_of(row, study, display) if study else []
        numbers = "".join(f'<td class="number">{"" if row[key] is None else row[key]}</td>' for key in ("encounter", "loss", "g_loss", "g_severity", "weight"))
        lines.append(f"<tr>{numbers}<td>{escape(row['cause'])}{' near collision' * row['g_nmac']}</td><td>{', '.join(links)}</td></tr>")
    if not lines:
        return "<p>No encounter was lost with guidance.</p>"
    head = "".join(f"<th>{it}</th>" for it in ("encounter", "loss without, s", "loss with, s", "severity, 0.001", "weight", "cause", "moment on the page"))
    return f'<h3>The worst with guidance</h3>\n<div class="scroll"><table><tr>{head}</tr>\n' + "\n".join(lines) + "\n</table></div>"


def links_of(row, study, display):
    """Links to the moments of the first alert, of the first manoeuvre and of the loss, in a flight that is made again."""
    encounter = study.encounter(row["encounter"])
    traced, found = Traced(encounter, study, True), []
    with open(study.config, encoding="utf-8") as file:
        configuration = study.config.rpartition("/")[2], file.read()
    for word, second in (("alert", row["g_alert"]), ("manoeuvre", row["advice"]), ("loss", row["g_loss"])):
        if second is not None and second < len(traced.told):
            own, traffic = traced.told[second]
            moment = "format 2\n" * traced.ages + state_lines(second, own, traffic, traced.ages)
            found.append(f'<a href="{escape(display)}#{link_of(moment, configuration, f"encounter {encounter.number}")}">{word}, {second} s</a>')
    return found


def page_of(named, studies, display):
    """The page of rows by their names; `studies` are theirs, or None."""
    found = [ratios_of(rows) for _, rows in named]
    rows = [line.removeprefix("| ").removesuffix(" |").split(" | ") for line in table_of(named)]
    table = "\n".join("<tr>" + "".join(f"<td>{escape(cell.strip())}</td>" for cell in cells) + "</tr>" for cells in (rows[0], *rows[2:]))
    return "\n".join(["<!doctype html>", '<html lang="en"><head><meta charset="utf-8">', '<meta name="viewport" content="width=device-width">',
                      f"<title>Study</title><style>{STYLE}</style></head><body>", "<h1>Encounters without and with guidance</h1>",
                      '<p class="note">Ratios are weighted; intervals are of 95 %, by drawing encounters anew within their strata. '
                      "docs/STUDY.md tells what the numbers mean and what they do not.</p>", ratios_picture(named, found),
                      f'<div class="scroll"><table>{table}</table></div>', *(section(*it, study, display) for it, study in zip(named, studies)),
                      "</body></html>", ""])
