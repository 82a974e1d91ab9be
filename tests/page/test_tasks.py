"""The page is never dead for long: in Chromium no piece of work of the page's own thread takes longer than docs/PAGE.md promises."""
import json
import time
import unittest

from browser import HAS_BROWSER, HOW as NO_BROWSER, IN_FIREFOX, Chromium

MOST = 100  # ms of processor time
AIRCRAFT, MOMENTS, LOUD = 64, 300, 4


class Traced(Chromium):
    """A Chromium that writes down how long each task takes."""

    logs = ("browser", "performance")
    traced = "toplevel"

    def tasks(self):
        """The ms of processor time of each piece of work of the page's own thread since they were asked for last."""
        told = [json.loads(entry["message"])["message"] for _ in range(3) for entry in self.driver.get_log("performance")]
        events = [it["params"] for it in told if it["method"] == "Tracing.dataCollected"]
        self.threads |= {(it["pid"], it["tid"]) for it in events if it.get("name") == "thread_name" and it["args"]["name"] == "CrRendererMain"}
        return [it["tdur"] / 1000 for it in events if "tdur" in it and (it["pid"], it["tid"]) in self.threads]

    def start(self):
        self.threads = set()
        return super().start()


def recording():
    """State lines of 64 aircraft, of which four come close and the others fly beside the ownship."""
    lines = ["format 2"]
    for time_ in range(MOMENTS):
        lines += [f"moment {time_}", f"own 0 {83 * time_} 10000 0 3000 0"]
        for i in range(AIRCRAFT):
            x, y = (i * 7919) % 24000 - 12000, (i * 104729) % 24000 - 12000
            vx, vy = (-x // 4, 3000 - y // 4) if i < LOUD else (0, 3000)
            lines.append(f"traffic AC{i:02d} {x + vx * time_ // 36} {y + vy * time_ // 36} {9000 + (i * 331) % 2200} {vx} {vy} 0 {i % 7}")
        lines.append("end")
    return "\n".join([*lines, ""])


@unittest.skipUnless(HAS_BROWSER and not IN_FIREFOX, NO_BROWSER)
class Tasks(unittest.TestCase):
    """Of processor time, so that other programs do not count; the better one of two times, so that a collection of garbage does not."""

    def setUp(self):
        self.page = Traced()
        self.addCleanup(self.page.close)
        self.page.open()
        self.path = self.page.file("long.states", recording())

    def check(self, what, use):
        longest = []
        while not longest or (longest[-1] >= MOST and len(longest) < 2):
            self.page.tasks()
            use()
            self.page.settle()
            longest.append(max(self.page.tasks(), default=MOST))
        self.assertLess(min(longest), MOST, what)

    def read(self):
        self.page.open_files(self.path)
        self.page.press(*".....n")
        self.page.wait("!daa.page.reading && document.body.dataset.surveyed === String(daa.page.moments.length)")
        self.assertEqual(self.page.js("return daa.page.moments.length"), MOMENTS)

    def scrub(self):
        actions = self.page.actions().move_to_element(self.page.one("#axis")).click_and_hold()
        for _ in range(12):
            actions.move_by_offset(-9, 0)
        actions.release().perform()

    def play(self):
        self.page.one("#play").click()
        time.sleep(1)
        self.page.one("#play").click()

    def test_no_task_takes_longer_than_a_tenth_of_a_second(self):
        """While a long recording of 64 aircraft is read and decided, and while one steps, scrubs, zooms and plays."""
        self.check("reading", self.read)
        self.check("stepping", lambda: self.page.press(*"........"))
        self.check("scrubbing", self.scrub)
        self.check("zooming", lambda: [self.page.click(name) for name in ("#zoom-in", "#zoom-in", "#zoom-out")])
        self.page.select("#speed", "×30")
        self.check("playing", self.play)
