"""The page as tools/show_live serves it, in Chromium: what it shows of moments of the present and of others, and wrong pages, each of
which a test must refuse. The server is the tool's own, in this process; moments and reports are those of the tests."""
import contextlib
import json
import re
import socket
import subprocess
import threading
import time
import unittest

import browser
import counting
from common import CONFIG, module, program
from live_server import LINES, wait_for

server = module("tools/show_live")
LIVE = "live.js"
OLD = 4.5  # s: older than the present, and what looking takes on a busy machine
# What the page shows now: what its banner says, of which moment, and what is seen of bands, answers and report.
LOOK = """
const s = daa.page, banner = document.getElementById("live"), bands = document.querySelectorAll("figure[data-view='0'] svg [data-layer] path[data-level], figure[data-view='0'] svg [data-level]").length;
return { now: Date.now() / 1000, is: banner.dataset.is, words: banner.firstElementChild.textContent, time: s.current && s.current.time, length: s.moments && s.moments.length,
  times: s.moments ? [...s.moments.times()] : [], said: Boolean(daa.ui.saidOf(s.views[0])), bands, lines: document.querySelectorAll("#report .line").length,
  chips: document.querySelectorAll("#aircraft .chip").length, answers: document.querySelectorAll("[data-layer=answers] text").length,
  summary: document.getElementById("summary").textContent, clock: document.getElementById("clock").textContent,
  isSeen: document.querySelector("main").checkVisibility({ visibilityProperty: true }),
  curtain: document.getElementById("curtain").getAnimations().map((it) => it.effect.getComputedTiming().endTime)[0] ?? null };
"""


class Stage:
    """The server with one page, whose files may be wrong ones."""

    def __init__(self, changes=()):
        with open(CONFIG, encoding="utf-8") as file:
            toml = file.read()
        self.board = server.Board({"session": f"{time.time()}", "toml": toml, "head": "format 2\n# clock utc\n", "compares": True, "name": "three_levels"})
        files = server.files_of_page()
        for name, old, new in changes:
            text = files[f"/{name}"].decode()
            assert text.count(old) == 1, f"{name} has this text once: {old}"
            files[f"/{name}"] = text.replace(old, new).encode()
        self.server = server.opened(0, self.board, files)
        self.there, begun = [], self.server.process_request
        self.server.process_request = lambda request, address: (self.there.append(request), begun(request, address))
        self.address = f"http://127.0.0.1:{self.server.server_port}/"

    def cut(self):
        """Ends all connections, as a network does."""
        for it in self.there:
            with contextlib.suppress(OSError):
                it.shutdown(socket.SHUT_RDWR)

    def close(self):
        self.board.put_why("", ended=True)
        self.server.shutdown()
        self.server.server_close()


class Slow(dict):
    """Files of a server, and one more that comes after nine seconds: a script that waits for it stands, and takes no processor's time."""

    PATH = "/slow.js"

    def __contains__(self, path):
        return path == self.PATH or super().__contains__(path)

    def __getitem__(self, path):
        if path != self.PATH:
            return super().__getitem__(path)
        time.sleep(9)
        return b""


def text_of(second, lines=LINES):
    return f"moment {second}\n{lines}end\n"


def report_of(second):
    """The program's report of a moment."""
    given = f"format 2\n{text_of(second)}".encode()
    return subprocess.run([program(), "replay", "--config", CONFIG, "--workers", "1"], input=given, capture_output=True).stdout.decode()


class Feed:
    """Puts a moment each second, and its report, until it is stopped."""

    def __init__(self, board, report=report_of, by=0):
        self.board, self.report, self.by, self.is_over = board, report, by, threading.Event()
        self.thread = threading.Thread(target=self.go, daemon=True)
        self.thread.start()

    def go(self):
        while not self.is_over.is_set():
            second = int(time.time()) + self.by
            self.board.put_moment(text_of(second))
            if text := self.report(second):
                self.board.put_report(second, text)
            self.is_over.wait(1 - time.time() % 1)

    def stop(self):
        self.is_over.set()
        self.thread.join()


class Watched(browser.Chromium):
    """A browser that also tells what it shows."""

    logs = ("browser", "performance")


class LivePage(unittest.TestCase):
    """A test with a page of its own; `changes` make it a wrong one."""

    changes, browser = (), None

    @classmethod
    def setUpClass(cls):
        if LivePage.browser is None:
            cls.open_browser()
            unittest.addModuleCleanup(cls.close_browser)

    @staticmethod
    def open_browser():
        counting.need("chromium", "chromedriver")
        counting.need_module("selenium")
        LivePage.browser = Watched()

    @staticmethod
    def close_browser():
        LivePage.browser.close()
        LivePage.browser = None

    def setUp(self):
        self.open()

    def open(self, *more):
        """Opens the page, with changes of the test's own beside those of a wrong page."""
        self.stage = Stage((*self.changes, *more))
        self.addCleanup(self.stage.close)
        self.addCleanup(self.browser.driver.get, "about:blank")
        self.browser.size(1440, 900)
        self.browser.driver.get(self.stage.address)

    def look(self):
        return self.browser.js(LOOK)

    def feed(self, *words, **how):
        made = Feed(self.stage.board, *words, **how)
        self.addCleanup(made.stop)
        return made

    def await_banner(self, what, words=""):
        def found():
            seen = self.look()
            return seen if seen["is"] == what and words in seen["words"] else None
        return wait_for(found, f"the banner is {what} {words}: {self.look()}")

    def await_same(self, times):
        """What is shown once the program's report was the same so often, or more often."""
        def found():
            seen = self.look()
            told = re.search(r"the program's report was the same (\d+) times", seen["words"])
            return seen if seen["is"] == "live" and told and int(told[1]) >= times else None
        return wait_for(found, f"the program's report was the same {times} times")

    def assert_nothing_old(self, seen):
        """No band, answer, alert or line of a report is shown as the present one of a moment that is older than three seconds, and a little more
        that looking takes."""
        if seen["is"] != "past" and seen["time"] and seen["now"] - seen["time"] > OLD:
            self.assertEqual((seen["said"], seen["lines"], seen["chips"], seen["answers"]), (False, 0, 0, 0), seen)


class Shown(LivePage):
    def test_the_present_moment(self):
        self.feed()
        seen = self.await_same(3)
        self.assertLess(seen["now"] - seen["time"], 3)
        self.assertTrue(seen["said"] and seen["bands"] > 4 and seen["answers"] > 4 and seen["isSeen"], seen)
        self.assertTrue(seen["clock"].startswith(time.strftime("%Y-%m-%d %H:%M:", time.gmtime(seen["time"]))), seen["clock"])
        self.assertLessEqual(seen["curtain"], 4000)
        self.assertGreater(seen["curtain"], 1000)
        told = self.browser.js("""return ["report", "time"].map((what) => what === "time" ? daa.page.current.time
            : [...document.querySelectorAll("#report .line")].map((it) => [Number(it.dataset.line), it.querySelector("span").textContent]))""")
        self.assertEqual("".join(line + "\n" for _, line in sorted(told[0])), report_of(told[1]))

    def test_the_feed_stops(self):
        """After three seconds bands, answers and report go, and a sentence says why and since when."""
        feed = self.feed()
        self.await_same(2)
        feed.stop()
        self.stage.board.put_why("The decoder is gone.")
        last, end = self.look()["time"], time.time() + 6
        while time.time() < end:
            self.assert_nothing_old(self.look())
            time.sleep(0.1)
        seen = self.await_banner("stale", "The decoder is gone.")
        self.assertIn(time.strftime("NOT CURRENT: the last moment is of %H:%M:%S UTC", time.gmtime(seen["time"])), seen["words"])
        self.assertGreaterEqual(seen["time"], last)
        self.assertEqual(seen["summary"], seen["words"])
        self.feed()
        self.await_banner("live")

    def test_moments_of_another_time(self):
        """None that is ten seconds old, or ten to come, is shown as present."""
        self.feed(by=-10)
        seen = self.await_banner("stale", "NOT CURRENT: the last moment is of ")
        self.assert_nothing_old(seen)
        for _ in range(20):
            self.assert_nothing_old(self.look())
            self.assertNotEqual(self.look()["is"], "live")
            time.sleep(0.1)

    def test_a_clock_that_is_wrong(self):
        self.feed(by=10)
        self.await_banner("stale", "which is in the future: a clock is wrong")

    def test_a_connection_that_was_lost(self):
        """The newest moment comes once more with the new connection, and is appended once."""
        second = int(time.time())
        self.stage.board.put_moment(text_of(second - 1))
        wait_for(lambda: self.look()["times"] == [second - 1], "the first moment is shown")
        self.stage.cut()
        self.await_banner("stale", "The server of this page does not answer.")
        self.stage.board.put_why("Nothing comes.")
        self.await_banner("stale", "Nothing comes.")
        self.stage.board.put_moment(text_of(second))
        seen = wait_for(lambda: (it := self.look())["times"][-1:] == [second] and it, "the next moment is shown")
        self.assertEqual(seen["times"], [second - 1, second])

    def test_looking_back(self):
        self.feed()
        self.await_same(3)
        self.browser.js("document.getElementById('back').click()")
        seen = self.await_banner("past", "NOT LIVE: the moment of ")
        self.assertTrue(seen["said"] and seen["curtain"] is None, seen)
        wait_for(lambda: self.look()["length"] >= seen["length"] + 2, "more moments come")
        self.assertEqual(self.look()["time"], seen["time"])
        self.browser.js("document.getElementById('go-live').click()")
        self.assertGreater(self.await_banner("live")["time"], seen["time"])

    def test_a_tab_that_was_hidden(self):
        """It shows nothing until it is drawn anew."""
        self.feed()
        self.await_banner("live")
        script = """const main = document.querySelector("main"), isSeen = () => main.checkVisibility({ visibilityProperty: true });
            const hide = (it) => { Object.defineProperty(document, "hidden", { configurable: true, get: () => it });
              document.dispatchEvent(new Event("visibilitychange")); return isSeen(); };
            return [hide(true), hide(false)];""" # (no picture is drawn within one script)
        self.assertEqual(self.browser.js(script), [False, False])
        wait_for(lambda: self.look()["isSeen"], "the page is seen again")

    def test_a_page_that_stands_still(self):
        """While the page's script stands for nine seconds, what the browser shows becomes red all over, by its own pictures with their times."""
        self.feed()
        self.await_same(2)
        self.stage.server.files = Slow(self.stage.server.files)
        self.browser.driver.get_log("performance")
        self.browser.driver.execute_cdp_cmd("Page.startScreencast", {"format": "png", "maxWidth": 480, "maxHeight": 300})
        self.browser.js("""daa.stood = [Date.now() / 1000];
            setTimeout(() => { const it = new XMLHttpRequest(); it.open("GET", arguments[0], false); it.send(); daa.stood.push(Date.now() / 1000); })""", Slow.PATH)
        begin, end = wait_for(lambda: (it := self.browser.js("return daa.stood")) and len(it) == 2 and it, "the script goes on")
        self.browser.driver.execute_cdp_cmd("Page.stopScreencast", {})
        told = [json.loads(entry["message"])["message"] for entry in self.browser.driver.get_log("performance")]
        pictures = [it["params"] for it in told if it["method"] == "Page.screencastFrame"]
        meanwhile = [it["data"] for it in pictures if begin + 1 < it["metadata"]["timestamp"] < end - 1]
        self.assertGreater(max(map(red_share, meanwhile), default=0), 0.9, f"{len(pictures)} pictures, {len(meanwhile)} of them meanwhile")

    def test_the_program_differs(self):
        self.feed(report=lambda second: report_of(second).replace("alert AMBER 2", "alert AMBER 3"))
        self.await_banner("differs", "THE PROGRAM'S REPORT OF ")

    def test_the_program_is_silent(self):
        end = time.time() + 4
        self.feed(report=lambda second: report_of(second) if time.time() < end else "")
        self.await_banner("live", "the program's report was the same ")
        self.assertTrue(self.await_banner("live", "NO REPORT OF THE PROGRAM since ")["said"])

    def test_side_by_side(self):
        """Both displays follow, and all moments are decided under both configurations."""
        self.feed()
        self.await_banner("live")
        self.browser.js("document.getElementById('compare').click()")
        length = self.look()["length"]
        wait_for(lambda: self.look()["length"] >= length + 3, "more moments come")
        wait_for(lambda: self.browser.js("return daa.page.surveys.every((it) => it.decided === daa.page.moments.length) && daa.page.views.every((it) => daa.ui.saidOf(it))"),
                 "all are decided")
        self.assertEqual(self.await_banner("live")["is"], "live")

    def test_a_changed_configuration(self):
        """The page goes on under the one that is typed, and says that the program has another."""
        self.feed()
        self.await_same(2)
        self.browser.js("""const it = document.getElementById("toml"); it.value = it.value.replace("alert = 25", "alert = 20"); it.dispatchEvent(new Event("input", { bubbles: true }));""")
        seen = self.await_banner("live", "the configuration was changed here")
        wait_for(lambda: self.look()["time"] > seen["time"] + 1 and self.look()["said"], "moments go on")
        self.assertEqual(self.browser.js("return daa.live.differing"), 0)

    def test_slower_than_they_come(self):
        """While one moment is decided three come: the last of them is the next one shown."""
        self.open((LIVE, "const answer = await desk.ask(", "await new Promise((done) => setTimeout(done, 1000));\n    const answer = await desk.ask("))
        second = int(time.time())
        for at in (second - 3, second - 2, second - 1, second):
            self.stage.board.put_moment(text_of(at))
            wait_for(lambda: self.browser.js("return daa.live.came") >= at - second + 4, "it comes")
        seen = wait_for(lambda: (it := self.look())["times"][-1:] == [second] and it, "the last is shown")
        self.assertEqual((seen["times"], self.browser.js("return daa.live.skipped")), ([second - 3, second], 2))

    def test_memory_does_not_grow(self):
        """Of 60 moments the last 20 and a few more stay, in their order, with what is known of them; a page keeps 600."""
        self.open((LIVE, "const MOST = 600;", "const MOST = 20;"), (LIVE, "const SPARE = 60;", "const SPARE = 5;"))
        first = int(time.time()) - 60
        for at in range(first, first + 60):
            self.stage.board.put_moment(text_of(at))
            wait_for(lambda: self.look()["time"] == at, "it is shown")
        seen = self.look()
        self.assertLessEqual(seen["length"], 26)
        self.assertEqual(seen["times"], list(range(first + 60 - seen["length"], first + 60)))
        kept = self.browser.js("const { surveys: [it], index } = daa.page; return [it.notes.length, it.decided, it.next, index, it.notes.at(0).time]")
        self.assertEqual(kept, [seen["length"], seen["length"], seen["length"], seen["length"] - 1, seen["times"][0]])


def red_share(picture):
    """The share of a picture's points that are red, by Chromium's own decoding."""
    script = """const done = arguments[1], image = new Image();
        image.onload = () => { const c = document.createElement("canvas"); Object.assign(c, { width: image.width, height: image.height });
          const g = c.getContext("2d"); g.drawImage(image, 0, 0); const d = g.getImageData(0, 0, c.width, c.height).data;
          let red = 0; for (let i = 0; i < d.length; i += 4) red += d[i] > 90 && d[i] > 1.6 * d[i + 1] && d[i] > 1.6 * d[i + 2]; done(red / (d.length / 4)); };
        image.src = "data:image/png;base64," + arguments[0];"""
    LivePage.browser.driver.get("about:blank")
    return LivePage.browser.driver.execute_async_script(script, picture)


if __name__ == "__main__":
    unittest.main()
