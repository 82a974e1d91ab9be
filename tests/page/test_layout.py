"""Where things stand in windows of many sizes: nothing is cut, and no text stands on another."""
import math

from browser import IN_FIREFOX
from page_test import CROWD, FOUR_LEVELS, PageTest, crowd, setUpModule  # noqa: F401 (unittest calls the last one)
from shared import ENCOUNTER, RECOVERY, text_of

SIZES = ((1024, 700), (1024, 768), (1280, 800), (1920, 1080))
SMALL = ((800, 600), (1366, 400), (844, 390), (390, 844))  # the last two of a telephone

# Boxes of what is drawn; those of texts are of their letters, without the room above and below them, and without the halo, which a browser may
# count as a part of what is on the screen, as Firefox does, or not, as Chromium.

BOXES = """
const [view] = arguments, figure = document.querySelector(`figure[data-view='${view}']`), svg = figure.querySelector("svg"), all = [];
const box = (it) => { const b = it.getBoundingClientRect(); return { x: b.x, y: b.y, right: b.right, bottom: b.bottom }; };
const letters = (it) => {
  const { x, y, width, height } = it.getBBox(), at = (...point) => new DOMPoint(...point).matrixTransform(it.getScreenCTM());
  const [first, last] = [at(x, y + height / 10), at(x + width, y + 0.9 * height)];
  return { x: first.x, y: first.y, right: last.x, bottom: last.y };
};
for (const it of svg.querySelectorAll("text")) {
  const layer = it.closest("[data-layer]").dataset.layer, handle = it.closest(".handle");
  const kind = layer === "handles" ? (handle.dataset.key.startsWith("p:") && it.classList.contains("halo") ? "label" : "inside") : layer;
  all.push({ kind, words: it.textContent, of: handle ? handle.dataset.key : "", ...letters(it) });
}
for (const it of svg.querySelectorAll(".handle[data-key^='p:'] > .grip")) {
  const b = box(it), m = 6;
  all.push({ kind: "symbol", words: "", of: it.closest(".handle").dataset.key, x: b.x + m, y: b.y + m, right: b.right - m, bottom: b.bottom - m });
}
return { frame: box(svg), all };
"""

# The size of the document and of the window, and of selectors each one's boxes of what is to be seen.
PLACES = """
const it = document.documentElement, boxOf = (one) => { const b = one.getBoundingClientRect(); return { x: b.x + scrollX, y: b.y + scrollY, width: b.width, height: b.height }; };
const isSeen = (one) => one.checkVisibility({ opacityProperty: true, visibilityProperty: true }) && one.getClientRects().length > 0;
return [it.scrollWidth, it.scrollHeight, innerWidth, innerHeight,
  arguments[0].map((selector) => [...document.querySelectorAll(selector)].filter(isSeen).map((one) => ({ ...boxOf(one), text: one.outerHTML.slice(0, 80) })))];
"""
PARTS = ("header", "#displays", "#time", "#axis", "#strip", "#restore", "figcaption [data-do=png]", "#panel", "#summary", "#aircraft tbody tr:nth-child(2)")


def overlap(a, b):
    return max(0, min(a["right"], b["right"]) - max(a["x"], b["x"])) * max(0, min(a["bottom"], b["bottom"]) - max(a["y"], b["y"]))


class Layout(PageTest):
    def check_fits(self):
        """The document is no larger than the window, and no control stands outside of it; the panel shows its first aircraft."""
        wide, tall, inner_wide, inner_tall, found = self.page.js(PLACES, PARTS)
        self.assertLessEqual(wide, inner_wide)
        self.assertLessEqual(tall, inner_tall)
        for selector, boxes in zip(PARTS, found):
            self.assertTrue(boxes, selector)
            for box in boxes:
                self.assertTrue(box["x"] >= 0 and box["y"] >= 0 and box["x"] + box["width"] <= inner_wide + 1 and box["y"] + box["height"] <= inner_tall + 1, (selector, box))

    def check_display(self, view=0):
        """No text is cut by the display's edge; labels stand on no other text, on no symbol and not on the ring."""
        found = self.page.js(BOXES, view)
        frame, all_boxes = found["frame"], found["all"]
        for it in all_boxes:
            if it["words"]:
                self.assertTrue(it["x"] >= frame["x"] - 1 and it["right"] <= frame["right"] + 1 and it["y"] >= frame["y"] - 2 and it["bottom"] <= frame["bottom"] + 2, it)
        fixed = [it for it in all_boxes if it["kind"] in ("head", "answers", "legend")]
        labels = [it for it in all_boxes if it["kind"] == "label"]
        for i, a in enumerate(fixed):
            for b in fixed[i + 1:]:
                self.assertLess(overlap(a, b), 30, (a, b))
        bad = [(a["words"], a["of"], b["words"], b["of"]) for i, a in enumerate(labels) for b in labels[i + 1:] if a["of"] != b["of"] and overlap(a, b) > 60]
        g = self.page.js("return daa.page.views[arguments[0]].drawn.g", view)
        x, y = frame["x"] + g["centre"]["x"], frame["y"] + g["centre"]["y"]
        bad += [(a["words"], a["of"], "ring") for a in labels
                if max(math.hypot(at_x - x, at_y - y) for at_x in (a["x"], a["right"]) for at_y in (a["y"], a["bottom"])) > g["radius"] + 2]
        bad += [(a["words"], a["of"], "answer", b["words"]) for a in labels for b in all_boxes if b["kind"] == "ring" and b["words"].endswith(("°", " s")) and overlap(a, b) > 30]
        bad += [(a["words"], a["of"], "symbol", b["of"]) for a in labels for b in all_boxes if b["kind"] == "symbol" and a["of"] != b["of"] and overlap(a, b) > 60]
        return labels, bad

    def check_all(self, name, compare=False):
        for width, height in SIZES:
            with self.subTest(size=(width, height)):
                self.page.size(width, height)
                self.page.settle()
                self.check_fits()
                for view in (0, 1) if compare else (0,):
                    labels, bad = self.check_display(view)
                    self.assertEqual(bad, [])
                self.page.shot(f"{name}_{width}_{height}")

    def test_the_encounter(self):
        """Also with the long answers of its fourth moment."""
        for place in (2, 3):
            self.page.step_to(place)
            self.check_all(f"encounter_{place}")

    def test_small_windows(self):
        """All stands in one column, which scrolls down and not sideways: the displays are large enough to be read, and no control is cut."""
        self.page.select("#example", "encounter, with recoveries")
        self.page.step_to(6)
        for compare in (False, True):
            for width, height in SMALL[:3] if IN_FIREFOX else SMALL:  # a window of Firefox is no narrower than 500 points
                with self.subTest(size=(width, height), compare=compare):
                    self.page.size(width, height)
                    self.page.settle()
                    wide, *_, [boxes] = self.page.js(PLACES, ["header > *, .bar > *, figcaption > *, #panel button"])
                    self.assertLessEqual(wide, width)
                    for box in boxes:
                        self.assertTrue(box["x"] >= 0 and box["x"] + box["width"] <= width, box)
                    for view in (0, 1) if compare else (0,):
                        _, bad = self.check_display(view)
                        self.assertEqual(bad, [])
                        self.assertGreaterEqual(self.page.js("return daa.page.views[arguments[0]].drawn.g.radius", view), 80)
                    self.page.shot(f"small_{width}_{height}_{compare}")
            self.page.click("#compare")

    def test_long_names(self):
        """They are cut where they would stand on each other, and keep their beginnings."""
        name = "a_long_name_of_" + "an_encounter_near_the_coast_" * 6
        self.page.open_files(self.page.file(f"{name}.states", text_of(ENCOUNTER)), self.page.file(f"{name}.toml", text_of(RECOVERY)))
        for compare in (False, True):
            self.check_all(f"long_names_{compare}", compare)
            words = self.page.js("return [...document.querySelectorAll('[data-layer=head] text')].map((it) => it.textContent)")
            self.assertEqual(sum(it.startswith("a_long_") for it in words), 3 if compare else 2, words)
            self.page.click("#compare")
        self.page.open_files(self.page.file(f"{name}.states", "nothing\n" + text_of(ENCOUNTER)))
        for width, height in SMALL[:3] if IN_FIREFOX else SMALL:
            self.page.size(width, height)
            self.page.settle()
            self.assertLessEqual(self.page.js("return document.documentElement.scrollWidth"), width)

    def test_all_closed_with_recoveries(self):
        self.page.select("#example", "encounter, with recoveries")
        self.page.step_to(6)
        self.check_all("recoveries")

    def test_recoveries_and_last_times(self):
        """Both have rows of their own under the tapes."""
        self.page.open_files(self.page.file("last.toml", "last_times = 1\n" + text_of(RECOVERY)), ENCOUNTER)
        for place in (3, 6):
            self.page.step_to(place)
            self.check_all(f"last_times_{place}")

    def test_two_displays(self):
        self.page.open_files(self.page.file("four.toml", FOUR_LEVELS))
        self.page.click("#compare")
        for place in (2, 5, 6):
            self.page.step_to(place)
            self.check_all(f"two_displays_{place}", compare=True)

    def test_twenty_aircraft(self):
        """Labels keep out of each other's way; each aircraft that alerts has one; table and report have those first."""
        path = self.page.file("four.toml", FOUR_LEVELS)
        self.page.open_files(path, self.page.file("crowd.states", crowd()))
        self.check_shown(path)
        self.check_all("crowd")
        levels = self.page.levels()
        loud = {name for name, level in levels.items() if level}
        self.assertTrue(2 <= len(loud) <= CROWD - 6, levels)
        self.page.size(*SIZES[0])
        self.page.settle()
        labels, _ = self.check_display()
        self.assertLessEqual(loud, {it["words"] for it in labels})
        self.assertGreaterEqual(len({it["of"] for it in labels}), CROWD // 2)
        rows = self.page.js("return [...document.querySelectorAll('#aircraft tbody tr')].slice(1).map((it) => it.cells[0].textContent)")
        self.assertEqual(set(rows), loud)
        self.assertEqual(rows, sorted(rows, key=lambda name: -levels[name]))
        hidden = self.page.js("return [...document.querySelectorAll('#report .line')].filter((it) => !it.checkVisibility()).map((it) => it.querySelector('span').textContent)")
        self.assertEqual(len(hidden), 2 * (CROWD - len(loud)))
        self.page.click("#rest")
        self.assertEqual(self.page.js("return document.querySelectorAll('#aircraft tbody tr').length"), CROWD + 1)

    def test_the_panel_and_the_header_are_not_cut(self):
        """Texts of the panel end within it, also with the configuration open, of names of eight letters and heights of five digits; the
        panel scrolls where it is longer than the window."""
        aircraft = "".join(f"traffic AIRCRF0{i} {x} {y} {alt} 0 -3600 0\n" for i, (x, y, alt) in enumerate(((0, 900, 10050), (100, 20000, 60000), (19000, -20000, -2000))))
        self.page.open_files(self.page.file("wide.states", f"moment 0\nown 0 0 10000 0 3600 -5000\n{aircraft}end\n"))
        self.page.js("document.querySelectorAll('details').forEach((it) => { it.open = true; })")
        for width, height in SIZES:
            self.page.size(width, height)
            self.page.settle()
            cut = self.page.js("""
                const panel = document.querySelector("#panel").getBoundingClientRect();
                return [...document.querySelectorAll("#panel td, #panel th, #panel button, #panel input, #panel p, #panel dd, header > *")].filter((it) => {
                  const b = it.getBoundingClientRect(), right = it.closest("header") ? innerWidth : panel.right;
                  return b.width && b.right > right + 1;
                }).map((it) => it.outerHTML.slice(0, 80));""")
            self.assertEqual(cut, [])
            self.page.shot(f"panel_{width}_{height}")
