"""Configurations edited in a browser, and what is told of their faults."""
from browser import Keys
from page_test import PageTest, setUpModule  # noqa: F401 (unittest calls the last one)
from shared import RECOVERY, THREE_LEVELS, text_of


class Configured(PageTest):
    def setUp(self):
        super().setUp()
        self.page.click("#configuration > summary")

    def edit(self, old, new):
        text = self.page.one("#toml").get_property("value")
        self.assertEqual(text.count(old), 1, old)
        self.page.js("const area = document.querySelector('#toml'); area.value = arguments[0]; area.dispatchEvent(new Event('input'))", text.replace(old, new))
        self.page.settle()

    def test_a_fault_has_its_code_its_key_and_its_line(self):
        for old, new, told in (("track_step = 5\n", "track_step = 7\n", "config 6: line 8: track_step = 7 does not divide 360"),
                               ("track_step = 7\n", "track_step = 5.5\n", "config 5: line 8: track_step = 5.5 is no whole number"),
                               ("track_step = 5.5\n", "track_stop = 5\n", "config 3: line 8: track_stop is no key"),
                               ("track_stop = 5\n", "", "config 4: line 1: track_step is missing"),
                               ("resolve = 2\n", "resolve = 2 2\n", "config 2: line 4: ")):
            self.edit(old, new)
            self.assertTrue(self.page.text("#config-fault").startswith(told), self.page.text("#config-fault"))
        self.page.click("#show-fault")
        self.assertEqual(self.page.js("const { value, selectionStart, selectionEnd } = document.querySelector('#toml'); return value.slice(selectionStart, selectionEnd)"), "resolve = 2 2")
        self.assertEqual(self.page.one("#toml").get_attribute("aria-invalid"), "true")

    def test_the_line_of_a_fault_is_in_sight(self):
        """Also behind lines that are longer than the field is wide."""
        self.edit("resolve = 2\n", ("# " + "a long comment " * 8 + "\n") * 40 + "resolve = 2 2\n")
        self.page.click("#show-fault")
        top, bottom, at = self.page.js("""
            const area = document.querySelector("#toml"), twin = area.parentNode.insertBefore(area.cloneNode(), area);
            twin.value = area.value.slice(0, area.selectionStart);
            twin.style.height = "0";
            const at = twin.scrollHeight;
            twin.remove();
            return [area.scrollTop, area.scrollTop + area.clientHeight, at];""")
        self.assertTrue(top < at < bottom, (top, at, bottom))

    def test_an_edited_configuration_counts_at_once(self):
        self.edit("track_step = 5\n", "track_step = 10\n")
        self.assertEqual(self.page.text("#config-fault"), "")
        self.check_shown(self.page.file("ten.toml", text_of(THREE_LEVELS).replace("track_step = 5\n", "track_step = 10\n")))

    def test_a_levels_model_counts_at_once(self):
        """Modified tau, tau and the time to the entry point give three reports of one moment."""
        self.page.step_to(1)
        reports = {self.page.report()}
        for old, new in (("tcpa = 0\n", "tau = 1\n"), ("tau = 1\n", "tep = 1\n")):
            self.edit(old, new)
            self.check_shown(self.page.file("model.toml", text_of(THREE_LEVELS).replace("tcpa = 0\n", new)))
            reports.add(self.page.report())
        self.assertEqual(len(reports), 3)

    def test_last_times_count_at_once(self):
        """Asked for by the key, and no more where it is 0 or left out."""
        self.assertNotIn(("track", "last"), self.page.answers())
        for old, new, asked in (("", "last_times = 1 # asked\n", True), ("last_times = 1 # asked\n", "last_times = 0\n", False), ("last_times = 0\n", "", False)):
            text = self.page.one("#toml").get_property("value")
            if old:
                self.edit(old, new)
            else:
                self.edit(text, new + text)
            self.check_shown(self.page.file("last.toml", new + text_of(THREE_LEVELS)))
            self.assertEqual(("track", "last") in self.page.answers(), asked)
        self.edit("resolve = 2\n", "last_times = 2\nresolve = 2\n")
        self.assertRegex(self.page.text("#config-fault"), r"^config 6: line \d+: last_times = 2 is outside 0 to 1")

    def test_typed_letters_count(self):
        area = self.page.one("#toml")
        area.send_keys(Keys.CONTROL, Keys.HOME)
        area.send_keys("x")
        self.assertTrue(self.page.text("#config-fault").startswith("config 2"))
        area.send_keys(Keys.BACKSPACE)
        self.page.settle()
        self.assertEqual(self.page.text("#config-fault"), "")
        look = "return [daa.page.index, daa.page.views[0].look.range, Boolean(daa.page.playing)]"
        before = self.page.js(look)
        area.send_keys("# 0.1, +- ")
        self.assertTrue(area.get_property("value").startswith("# 0.1, +- "))
        self.assertEqual(self.page.js(look), before)

    def test_levels_are_told_in_words(self):
        for old, new, words in (("tcpa = 0\n", "tau = 1\n", "tau"), ("tau = 1\n", "tep = 1\n", "time to the entry point"),
                                ("tep = 1\n", "tcpa = 1\n", "time to closest approach")):
            self.edit(old, new)
            self.assertIn(f" s of {words}, ", self.page.text("#levels li"))
            self.assertEqual(self.page.text("#config-fault"), "")
        told = self.page.js("return [...document.querySelectorAll('#levels li')].map((it) => it.textContent)")
        self.assertEqual(told, ["1 0.66 NM, 700 ft, 35 s of time to closest approach, 0 s to co-altitude; alerts 55 s ahead, candidates 75 s",
                                "2 corrective, 0.66 NM, 450 ft, 35 s of modified tau, 0 s to co-altitude; alerts 55 s ahead, candidates 75 s",
                                "3 0.66 NM, 450 ft, 35 s of modified tau, 0 s to co-altitude; alerts 25 s ahead, candidates 55 s"])

    def test_two_displays_under_two_configurations(self):
        self.page.click("#compare")
        self.page.step_to(4)
        for place, config in enumerate((THREE_LEVELS, RECOVERY)):
            self.check_shown(config, place)
        self.page.shot("side_by_side")
