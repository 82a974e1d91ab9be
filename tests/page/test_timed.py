"""The page in a browser while time goes on: playing, long moments, and what is broken."""
import contextlib
import math
import os
import shutil
import tempfile

from page_test import PageTest, setUpModule  # noqa: F401 (unittest calls the last one)
from shared import ENCOUNTER, THREE_LEVELS, TOP, Page, bytes_of, moments_of, replayed, text_of

LONGEST = [os.path.join(TOP, "bench", "worst_moments", "wait", f"worst.{end}") for end in ("toml", "states")]


class Timed(PageTest):
    # A clock that the test alone moves, and the frames that wait for it. The page's own time then does not depend on what else the machine does.
    CLOCK = """
        const clock = { now: 0, frames: [] };
        performance.now = () => clock.now;
        window.requestAnimationFrame = (frame) => clock.frames.push(frame);
        window.cancelAnimationFrame = () => {};
        const step = (ms) => {
          clock.now += ms;
          for (const frame of clock.frames.splice(0)) frame(clock.now);
        };"""

    def test_playing_keeps_the_recordings_own_times(self):
        """At thirty times the speed each moment comes with the first frame, of 20 ms each, a third of a second after the one before."""
        self.page.select("#speed", "×30")
        came = self.page.js(self.CLOCK + """
            const came = [];
            document.querySelector("#play").click();
            for (let frame = 0; frame < 400 && daa.page.current.time < 100; frame++) {
              const before = daa.page.current.time;
              step(20);
              if (daa.page.current.time !== before) came.push([daa.page.current.time, clock.now]);
            }
            return came;""")
        self.assertEqual(came, [[second, math.ceil(second * 1000 / 30 / 20) * 20] for second in range(10, 101, 10)])

    def test_an_uneven_recording_keeps_its_times(self):
        lines = [f"moment {second}\nown 0 {second * 60} 5000 0 2160 0\nend\n" for second in (0, 1, 2, 20, 21, 40)]
        self.page.open_files(self.page.file("uneven.states", "".join(lines)))
        self.page.select("#speed", "×10")
        shown = self.page.js(self.CLOCK + """
            document.querySelector("#play").click();
            return [90, 10, 99, 1, 1790, 10, 100, 1890, 10].map((ms) => {
              step(ms);
              return daa.page.current.time;
            });""")
        self.assertEqual(shown, [0, 1, 1, 2, 2, 20, 21, 21, 40])

    def test_a_long_moment_leaves_the_page_alive(self):
        """While the longest moment is decided frames go on, which none does where the page itself decides it; and drawing it is short beside that."""
        self.page.js("""
            daa.frames = 0;
            const look = () => { daa.frames += document.body.dataset.settled === "no"; requestAnimationFrame(look); };
            requestAnimationFrame(look);""")
        self.page.open_files(*LONGEST)
        frames, drawn, took = self.page.js("""
            const { views: [view], times } = daa.page, { lookOf, modelOf } = daa.ui, drawn = [];
            for (let time = 0; time < 5; time++) {
              const svg = document.createElementNS("http://www.w3.org/2000/svg", "svg"), before = performance.now();
              daa.draw(svg, lookOf(view), modelOf(view), { width: 1000, height: 700 });
              drawn.push(performance.now() - before);
            }
            return [daa.frames, Math.min(...drawn), Math.max(...times)];""")
        self.assertGreaterEqual(frames, 5)
        self.assertLess(drawn, took / 2)

    def test_no_old_band_is_shown_while_a_moment_is_decided(self):
        """On a page whose worker never answers: nothing of the moment before stays, and another moment is answered by a new worker."""
        self.page.js("daa.page.views[0].desk.worker.postMessage = () => {}")
        self.page.one("#file").send_keys("\n".join(LONGEST))
        self.page.wait("document.body.dataset.settled === 'no' && daa.page.name === 'worst.states'")
        self.page.js("return new Promise((done) => setTimeout(done, 300))")
        self.assertEqual(self.page.js("return document.body.dataset.settled"), "no")
        self.assertEqual(self.page.titles("ring"), [])
        self.assertIn("being decided", self.page.text("#summary"))
        self.assertTrue(all(level == 0 for level in self.page.levels().values()))
        self.page.select("#example", "encounter, three levels")
        self.check_shown()

    def test_a_long_moment_is_answered(self):
        config, states = LONGEST
        self.page.open_files(config, states)
        self.page.settle()
        self.assertEqual(self.page.report(), replayed(config, bytes_of(states)))


class Broken(PageTest):
    def test_after_a_trap_the_instance_is_made_anew(self):
        answer = self.page.js("""
            const { engine, current, views } = daa.page, [view] = views, before = engine.calls;
            engine.places.report = 2 ** 40;
            let thrown = null;
            try { engine.report(view.config, current); } catch (problem) { thrown = problem instanceof daa.Stopped; }
            return [thrown, engine.calls !== before, engine.report(view.config, current)];""")
        self.assertEqual(answer, [True, True, self.page.report()])

    @contextlib.contextmanager
    def other_page(self, name, change):
        """Opens the page with one file changed."""
        right = Page.folder
        self.addCleanup(setattr, Page, "folder", right)
        with tempfile.TemporaryDirectory() as folder:
            Page.folder = os.path.join(folder, "page")
            shutil.copytree(right, Page.folder)
            with open(os.path.join(Page.folder, name), "w", encoding="utf-8") as file:
                file.write(change(text_of(os.path.join(right, name))))
            self.page.driver.get("about:blank")
            self.page.go()
            yield

    def test_a_browser_that_runs_no_worker_has_answers(self):
        """On the page with a policy that forbids workers, which the browser tells of only after each was made."""
        with self.other_page("index.html", lambda text: text.replace("worker-src blob:", "worker-src 'none'")):
            self.page.wait("document.body.dataset.surveyed === '19'")
            self.page.settle()
            self.check_moment(moments_of(replayed(THREE_LEVELS, bytes_of(ENCOUNTER)))[0])
            self.page.press(".")
            self.check_moment(moments_of(replayed(THREE_LEVELS, bytes_of(ENCOUNTER)))[1])
            self.assertIsNone(self.page.js("return daa.page.views[0].desk.worker"))
        self.page.problems()  # which tell of that refusal

    def test_a_browser_without_64_bit_memory_is_told(self):
        """On the page with a first script after which no module is valid."""
        with self.other_page("core.js", lambda text: text + "WebAssembly.validate = () => false;\n"):
            self.page.wait("document.body.dataset.ready === 'no'")
        self.assertIn("needs a browser with 64-bit WebAssembly memory", self.page.text("#missing"))
        self.assertTrue(self.page.one("#missing").is_displayed())
        self.assertFalse(self.page.one("main").is_displayed())
        self.page.shot("missing")
