"""Things of a display moved in a browser, by real events of pointer and keys."""
import re
import unittest

from browser import ActionChains, By, IN_FIREFOX, Keys, ScrollOrigin
from page_test import PageTest, setUpModule  # noqa: F401 (unittest calls the last one)
from shared import ENCOUNTER, THREE_LEVELS, bytes_of, moments_of, replayed


class Moved(PageTest):
    def test_an_aircraft_is_dragged(self):
        before = self.page.report()
        self.page.grab("p:AMBER", (-20, 40), (-20, 0))
        held = self.page.report()
        self.check_shown()
        self.assertNotEqual(before, held)
        self.page.let_go()
        self.check_shown()
        radius, range_nm = self.page.js("return [daa.page.views[0].drawn.g.radius, daa.page.views[0].look.range]")
        moved = tuple(map(int, re.search(r"traffic AMBER (-?\d+) (-?\d+)", self.page.states()).groups()))
        right = tuple(round(start + offset / radius * range_nm * 1000) for start, offset in ((3000, -40), (8000, -40)))
        self.assertTrue(all(abs(a - b) <= 80 for a, b in zip(moved, right)), (moved, right))
        self.page.shot("dragged")
        self.page.press(Keys.ESCAPE)
        self.assertEqual(self.page.report(), before)
        self.page.step_to(1)
        self.page.step_to(0)
        self.assertEqual(self.page.report(), before)

    @unittest.skipIf(IN_FIREFOX, "a finger is Chromium's alone")
    def test_a_finger_moves_an_aircraft_and_scrolls_elsewhere(self):
        self.page.size(390, 844)
        self.page.settle()
        before = self.page.states()
        self.page.swipe(60, 700, 0, -200)
        self.page.wait("scrollY > 50")
        self.page.stand()
        self.assertEqual(self.page.states(), before)
        x, y = self.page.js("scrollTo(0, 100); const m = arguments[0].getScreenCTM(); return [m.e, m.f]", self.page.handle("p:AMBER"))
        radius, range_nm = self.page.js("return [daa.page.views[0].drawn.g.radius, daa.page.views[0].look.range]")
        self.page.swipe(x, y, -20, 40)
        moved = tuple(map(int, re.search(r"traffic AMBER (-?\d+) (-?\d+)", self.page.states()).groups()))
        right = tuple(start + offset / radius * range_nm * 1000 for start, offset in ((3000, -20), (8000, -40)))
        self.assertTrue(all(abs(a - b) <= 150 for a, b in zip(moved, right)), (moved, right))
        self.assertEqual(self.page.js("return scrollY"), 100)

    def test_keys_count_after_a_drag_and_after_a_click(self):
        """Whatever of the display has the focus then."""
        moments = moments_of(replayed(THREE_LEVELS, bytes_of(ENCOUNTER)))
        self.page.drag("p:AMBER", (-20, 40))
        self.page.press(".")
        self.check_moment(moments[1])
        self.page.click("figure[data-view='0'] [data-layer=head] text")
        self.page.press(".")
        self.check_moment(moments[2])

    def test_everything_that_can_be_held_is_dragged(self):
        for key, offset in (("track", (90, 60)), ("gs", (0, 60)), ("vs", (0, -50)), ("alt", (0, 40)), ("v:BRAVO", (30, 30)), ("v:", (20, 10)), ("p:", (15, -25))):
            with self.subTest(key=key):
                before = self.page.states()
                self.page.drag(key, offset)
                self.assertNotEqual(self.page.states(), before)
                self.check_shown()

    def test_everything_is_moved_by_keys(self):
        """Each key changes what it says, by as much as it says, and the focus stays."""
        changes = (("p:AMBER", Keys.ARROW_UP, (1, 100)), ("p:AMBER", Keys.PAGE_UP, (2, 100)), ("p:AMBER", Keys.ARROW_LEFT, (0, -100)))
        for key, pressed, (field, by) in changes:
            before = list(map(int, re.search(r"traffic AMBER (-?\d+) (-?\d+) (-?\d+)", self.page.states()).groups()))
            self.press_at(key, pressed)
            after = list(map(int, re.search(r"traffic AMBER (-?\d+) (-?\d+) (-?\d+)", self.page.states()).groups()))
            before[field] += by
            self.assertEqual(after, before)
        for key, pressed, own in (("track", Keys.ARROW_RIGHT, "own 0 0 10000 1 3600 0"), ("vs", Keys.ARROW_UP, "own 0 0 10000 1 3600 100"),
                                  ("gs", Keys.ARROW_DOWN, "own 0 0 10000 1 3550 100"), ("alt", Keys.ARROW_UP, "own 0 0 10100 1 3550 100"), ("v:", Keys.ARROW_RIGHT, "own 0 0 10100 6 3550 100")):
            self.press_at(key, pressed)
            self.assertIn(own + "\n", self.page.states())
        self.press_at("v:BRAVO", Keys.ARROW_LEFT)
        self.press_at("p:BRAVO", Keys.DELETE, kept=False)
        self.assertNotIn("BRAVO", self.page.states())

    def press_at(self, key, pressed, kept=True):
        before = self.page.states()
        self.page.js("arguments[0].focus()", self.page.handle(key))
        self.page.press(pressed)
        self.assertNotEqual(self.page.states(), before)
        if kept:
            self.assertEqual(self.page.focused()["key"], key)
        self.check_shown()

    def test_an_old_report_is_flown_on(self):
        """An aircraft whose report is 20 seconds old stands where it is now, in report and table too, and a drag puts it there."""
        states = "format 2\nmoment 0\nown 0 0 10000 0 3600 0\ntraffic A 3000 8000 10000 -1350 0 600 20\nend\n"
        now = replayed(THREE_LEVELS, states.replace(" 20\n", " 0\n").encode())
        self.page.open_files(self.page.file("late.states", states))
        self.check_shown()
        self.assertNotEqual(self.page.report(), now)
        self.assertEqual(self.page.js("return document.querySelector('#aircraft tbody tr:nth-child(2)').cells[4].textContent"), "+200")
        self.page.drag("p:A", (30, 10))
        self.check_shown()
        x, y = map(int, re.search(r"traffic A (-?\d+) (-?\d+)", self.page.states()).groups())
        radius, range_nm = self.page.js("return [daa.page.views[0].drawn.g.radius, daa.page.views[0].look.range]")
        scale = range_nm * 1000 / radius
        self.assertTrue(abs(x - (3000 + 30 * scale)) < 80 and abs(y - (8000 - 10 * scale)) < 80, (x, y))

    def test_numbers_are_written(self):
        self.page.click("[data-choose=BRAVO]")
        self.page.fill("#state [data-field=alt]", "10200")
        self.assertIn("traffic BRAVO -1200 -300 10200 ", self.page.states())
        self.check_shown()
        self.page.fill("#state [data-field=alt]", "70000")
        self.assertIn("altitude of BRAVO is not within -2000 and 60000 ft", self.page.text("#fault"))
        self.assertEqual(self.page.titles("ring"), [])
        self.assertEqual(self.page.report(), "")
        self.page.fill("#state [data-field=alt]", "9000")
        self.check_shown()
        self.page.fill("#state [data-field=id]", "AMBER")
        self.assertIn("two aircraft have one identifier", self.page.text("#fault"))

    def test_aircraft_are_added_and_removed(self):
        self.page.click("#add")
        self.assertIn("traffic NEW1 ", self.page.states())
        self.check_shown()
        self.page.click("[data-remove]")
        self.assertNotIn("NEW1", self.page.states())
        self.check_shown()


class Obeyed(PageTest):
    """Keys, wheels and the tabulator do what they say, wherever the focus is."""

    MANY = "moment 0\nown 0 0 10000 0 3600 0\n" + "".join(f"traffic T{i} {300 if i == 40 else 1000 + 300 * i} {4000 + 200 * i} {10000 if i == 40 else 30000} 0 -3600 0\n" for i in range(64)) + "end\n"
    LOOK = "return [daa.page.index, daa.page.views[0].look.range, Boolean(daa.page.playing)]"

    def test_keys_count_wherever_the_focus_is_but_where_letters_are_typed(self):
        """At a button, a list, a box to tick and a slider each key but those that it takes itself; in a field none."""
        self.page.click("#configuration > summary")
        before = self.page.js(self.LOOK)
        for selector, has_space in (("#play", False), ("#speed", False), ("#compare", False), ("#report", False), ("#axis", True), (".handle[data-key='p:AMBER']", True)):
            with self.subTest(selector):
                self.page.js("document.querySelector(arguments[0]).focus()", selector)
                self.page.press(".", "-")
                self.assertEqual(self.page.js(self.LOOK), [1, 18, False])
                self.page.press(",", "+")
                self.assertEqual(self.page.js(self.LOOK), before)
                if has_space:
                    self.page.press(" ")
                    self.assertTrue(self.page.js(self.LOOK)[2])
                    self.page.press(" ")
                    self.page.press(Keys.ESCAPE)
                    self.page.js("daa.ui.goTo(0)")
                    self.page.settle()
        for selector in ("#toml", "#state [data-field=alt]"):
            self.page.js("document.querySelector(arguments[0]).focus()", selector)
            self.page.press(".", "-", "+")
            self.assertEqual(self.page.js(self.LOOK), before)
            self.page.js("document.querySelector('#toml').blur()")

    def test_plus_means_one_thing(self):
        """The key and both buttons: nearer, which is a smaller range and fewer altitudes."""
        look = "const { range, heights } = daa.page.views[0].look; return [range, heights]"
        self.page.press("+")
        self.assertEqual(self.page.js(look), [9, 3000])
        for button in self.page.driver.find_elements(By.CSS_SELECTOR, "figure[data-view='0'] figcaption button"):
            if button.text == "+":
                button.click()
        self.assertEqual(self.page.js(look), [6, 1500])

    def test_a_wheel_scrolls_the_page_where_it_is_higher_than_the_window(self):
        self.page.size(800, 600)
        self.page.settle()
        box = self.page.js("const { x, y, width, height } = document.querySelector('figure svg').getBoundingClientRect(); return [x + width / 2, y + height / 2]")
        ActionChains(self.page.driver).scroll_from_origin(ScrollOrigin.from_viewport(*map(round, box)), 0, 300).perform()
        self.page.wait("scrollY > 100")
        self.assertEqual(self.page.js(self.LOOK)[1], 12)

    def test_play_is_reached_in_a_few_steps_with_64_aircraft(self):
        """The tabulator goes to one of them, that alerts most; Enter goes to the next, and a skip link to the time."""
        self.page.open_files(self.page.file("many.states", self.MANY))
        self.page.js("document.activeElement.blur()")
        reached = []
        while len(reached) < 40 and (not reached or reached[-1] != "play"):
            self.page.press(Keys.TAB)
            at = self.page.focused()
            reached.append(at["key"] or at["id"] or at["tag"])
        self.assertEqual(reached[-1], "play")
        self.assertLessEqual(len(reached), 24)
        self.assertEqual([name for name in reached if name.startswith(("p:T", "v:T"))][-1], "p:T40")
        self.page.js("arguments[0].focus()", self.page.handle("p:T40"))
        self.page.press(Keys.ENTER)
        self.assertEqual(self.page.focused()["key"], "p:T0")
        ActionChains(self.page.driver).key_down(Keys.SHIFT).send_keys(Keys.ENTER).key_up(Keys.SHIFT).perform()
        self.page.settle()
        self.assertEqual(self.page.focused()["key"], "p:T40")

    def test_a_removed_aircraft_leaves_the_focus_somewhere(self):
        self.page.js("arguments[0].focus()", self.page.handle("p:BRAVO"))
        self.page.press(Keys.DELETE)
        self.assertEqual(self.page.focused()["key"], "p:")
        self.page.click("[data-choose=AMBER]")
        self.page.click("[data-remove]")
        self.assertEqual(self.page.js("return document.activeElement.dataset.choose"), "")

    def test_sliders_say_true_numbers(self):
        """Each lies between its least and its greatest, which the keys of it reach."""
        self.page.open_files(self.page.file("many.states", self.MANY.replace("own 0 0 10000 0 3600 0", "own 0 0 60000 0 10000 -10000")))
        for name, *numbers in self.page.js("""return [...document.querySelectorAll("[role=slider]")].map((it) =>
                [it.getAttribute("aria-label"), ...["min", "now", "max"].map((part) => it.getAttribute(`aria-value${part}`))])"""):
            low, now, high = map(float, numbers)
            self.assertTrue(low <= now <= high, (name, numbers))

    @unittest.skipIf(IN_FIREFOX, "forced colours are Chromium's alone")
    def test_forced_colours_show_what_is_chosen(self):
        self.page.driver.execute_cdp_cmd("Emulation.setEmulatedMedia", {"features": [{"name": "forced-colors", "value": "active"}]})
        self.page.click("[data-choose=AMBER]")
        grounds = self.page.js("return arguments[0].map((it) => getComputedStyle(document.querySelector(it)).backgroundColor)",
                               ["[data-do=auto]", "[data-do=up]", "#aircraft tr.chosen td", "#aircraft tr:not(.chosen) td"])
        self.assertNotEqual(grounds[0], grounds[1])
        self.assertNotEqual(grounds[2], grounds[3])
