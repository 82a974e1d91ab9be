"""What the tests in a browser share: one browser, the page opened anew for each test, and what must be shown of a moment."""
import atexit
import math
import unittest

from browser import HAS_BROWSER, HOW, browser
from shared import DISPLAYED_SECONDS, THREE_LEVELS, answers_of, bands_of, levels_of, places_of, replayed

CROWD = 20

FOUR_LEVELS = """resolve = 3
turn_rate = 3
track_step = 5
gs = { min = 500, max = 7000, step = 100, rate = 20 }
vs = { min = -5000, max = 5000, step = 100, rate = 500 }
alt = { min = 0, max = 50000, step = 500, rate = 2000 }
recovery = { hdist = 82, vdist = 100 }
""" + "".join(f"[[level]]\ndthr = {d}\nzthr = {z}\ntthr = {t}\ntcoa = 0\nlookahead = {ahead}\nalert = {alert}\n" for d, z, t, ahead, alert in (
    (2000, 1200, 60, 120, 90), (1200, 700, 45, 90, 70), (660, 450, 35, 75, 55), (660, 450, 20, 55, 25)))


def crowd():
    """A moment of 20 aircraft on all sides, some of which come close."""
    lines = ["format 2", "moment 0", "own 0 0 10000 30 2500 0"]
    for i in range(CROWD):
        x, y = ((i * 7919) % 17000) - 8500, ((i * 104729) % 17000) - 8500
        toward = -1 if i % 4 == 0 else 1
        lines.append(f"traffic {'N' + str(100 + 37 * i) + 'XY' if i % 3 == 0 else f'AC{i:02d}'} {x} {y} {9000 + (i * 331) % 2200} {toward * x // 4} {toward * y // 4} {(i % 5 - 2) * 400} {i % 7}")
    return "\n".join([*lines, "end", ""])


def setUpModule():
    """One browser for all modules of a run, which the first of them starts: a start takes as long as three or four tests."""
    if HAS_BROWSER and not PageTest.browser:
        PageTest.browser = browser()
        atexit.register(PageTest.browser.close)


@unittest.skipUnless(HAS_BROWSER, HOW)
class PageTest(unittest.TestCase):
    """A test on the page, opened anew; at its end the console has told no error."""

    browser = None
    maxDiff = 3000

    def setUp(self):
        self.page = PageTest.browser
        self.page.open()

    def tearDown(self):
        self.assertEqual(self.page.problems(), [])

    def check_shown(self, config=THREE_LEVELS, place=0):
        """All that is shown of the page's moment is what the program says of the page's own state lines."""
        report = replayed(config, self.page.states().encode())
        self.assertTrue(report.startswith("moment"), report)
        self.check_moment(report, place)

    def check_moment(self, report, place=0):
        self.assertEqual(self.page.report(place), report)
        self.assertEqual(self.page.levels(place), levels_of(report))
        self.assertEqual(self.page.titles("ring", place), bands_of(report, "track"))
        tapes = self.page.titles("tapes", place)
        for kind in ("gs", "vs"):
            self.assertEqual([title for title in tapes if f" {'kt' if kind == 'gs' else 'ft/min'}:" in title], bands_of(report, kind))
        altitudes = [title for title in tapes if " ft:" in title]
        self.assertTrue(altitudes and all(title in bands_of(report, "alt") for title in altitudes))
        self.assertEqual(self.page.answers(place), answers_of(report))


    def check_places(self, moment):
        """Symbols stand where the states are, and rings at the ends of velocities where they will be, to a pixel."""
        g, range_nm = self.page.js("const [{ drawn, look }] = daa.page.views; return [drawn.g, look.range]")
        shown = self.page.js("""return Object.fromEntries([...document.querySelectorAll("figure[data-view='0'] .handle")].map((it) => [it.dataset.key,
            it.getAttribute("transform").match(/[-.0-9]+/g).map(Number)]))""")
        compared = 0
        seconds = DISPLAYED_SECONDS if range_nm >= 6 else 30 if range_nm >= 3 else 15 if range_nm >= 1.5 else 5
        for key, (east, north) in places_of(moment, seconds).items():
            x, y = g["centre"]["x"] + east / range_nm * g["radius"], g["centre"]["y"] - north / range_nm * g["radius"]
            if math.hypot(x - g["centre"]["x"], y - g["centre"]["y"]) < g["radius"] - 12:
                self.assertTrue(abs(shown[key][0] - x) < 1 and abs(shown[key][1] - y) < 1, (key, shown[key], x, y))
                compared += 1
        return compared
