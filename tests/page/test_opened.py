"""What is opened and saved in a browser: files, recordings, links, state lines and pictures."""
import os
import re
import xml.etree.ElementTree

from page_test import FOUR_LEVELS, PageTest, setUpModule  # noqa: F401 (unittest calls the last one)
from shared import ENCOUNTER, EXAMPLES, RECOVERY, THREE_LEVELS, bands_of, bytes_of, moments_of, replayed, tool


class Opened(PageTest):
    def test_files(self):
        self.page.open_files(RECOVERY, os.path.join(EXAMPLES, "closed.states"))
        self.check_moment(replayed(RECOVERY, bytes_of(os.path.join(EXAMPLES, "closed.states"))))
        self.page.shot("all_closed")

    def test_a_recording_seen_from_each_of_its_aircraft(self):
        path = os.path.join(EXAMPLES, "recording.daa")
        self.page.open_files(path)
        for own in (None, "Intruder1"):
            if own:
                self.page.select("#own", own)
            states = tool("from_daa", path, *(["--own", own] if own else []))
            moments = moments_of(replayed(THREE_LEVELS, states))
            self.assertEqual(self.page.js("return daa.page.moments.length"), len(moments))
            self.page.step_to(4)
            self.check_moment(moments[4])
        self.assertIn("Intruder2 is written Intrude2", self.page.text("#notes"))

    def test_a_name_with_blanks_is_chosen(self):
        """As the ownship, whose altitude is then that of its row."""
        rows = "".join(f"{name},{time},0,{alt},{alt},0,100,0\n" for time in (0, 1) for name, alt in (("A", 1000), ("B  2", 2000)))
        self.page.open_files(self.page.file("blanks.csv", "name,time,sx [m],sy [m],sz,trk,gs,vs\n" + rows))
        self.page.select("#own", "B 2")
        self.assertEqual(self.page.js("return [document.querySelector('#own').value, daa.page.current.own.alt]"), ["B  2", 2000])

    def test_a_lesson_is_flown_and_left(self):
        """By its list and buttons; the display is the program's report of the flown moment, and the outcome stands in the panel."""
        self.page.select("#example", "lesson: crossing")
        self.assertTrue(self.page.one("#lesson-question").is_displayed())
        self.check_shown()
        self.page.wait("document.body.dataset.surveyed === '121'")
        self.page.click("#fly")
        self.page.step_to(26)
        self.check_shown()
        self.assertIn("own ", self.page.states())
        self.assertNotIn(" 10000 0 3000 0\n", self.page.states().split("traffic")[0])
        self.page.wait("document.body.dataset.surveyed === '121'")
        self.page.settle()
        rows = self.page.js("return [...document.querySelectorAll('#outcome tbody tr')].map((it) => [...it.cells].map((cell) => cell.textContent))")
        self.assertEqual([[row[0], row[1], row[5]] for row in rows], [["as recorded", "0.00", "3"], ["flown", "0.75", "3"]])
        self.page.shot("whatif")
        self.page.click("#unfly")
        self.assertEqual(self.page.js("return [daa.page.name, daa.page.index]"), ["lesson: crossing", 20])
        self.assertFalse(self.page.one("#outcome").is_displayed())

    def test_a_file_that_is_none(self):
        self.page.open_files(self.page.file("none.states", "nothing\n"))
        self.assertIn("none.states has no whole moment; line 1 was refused with code 2", self.page.text("#fault"))

    def test_a_link_holds_the_whole_moment(self):
        """Opened anew with what follows #, the page shows the moment that was changed, under both configurations."""
        self.page.open_files(self.page.file("four.toml", FOUR_LEVELS))
        self.page.drag("p:AMBER", (-20, 40))
        self.page.click("figure[data-view='0'] [data-do=up]")
        self.page.click("figure[data-view='0'] [data-do=near]")
        self.page.click("#compare")
        before = self.page.states(), self.page.report(0), self.page.report(1), self.page.js("return JSON.stringify(daa.page.views.map((view) => view.look))")
        link = self.page.link()
        self.assertTrue(100 < len(link) < 4000)
        self.page.open(link)
        self.assertEqual((self.page.states(), self.page.report(0), self.page.report(1), self.page.js("return JSON.stringify(daa.page.views.map((view) => view.look))")), before)
        self.page.open("#m=" + link[5:40])
        self.check_moment(moments_of(replayed(THREE_LEVELS, bytes_of(ENCOUNTER)))[0])
        self.assertEqual(self.page.text("#fault"), "the link holds no moment: is it whole?")

    def test_a_copied_link_is_no_step_of_the_history(self):
        """And leaves the address as it is; where copying is refused it stands there, still no step: the recording stays."""
        before = self.page.js("return [history.length, location.href, daa.page.moments.length]")
        for is_refused in (False, True):
            link = self.page.link(is_refused)
            self.assertEqual(self.page.js("return [history.length, location.href, daa.page.moments.length]"), [before[0], before[1] + link * is_refused, before[2]])

    def test_state_lines_are_copied_for_the_program(self):
        self.page.drag("p:AMBER", (-20, 40))
        self.page.js("Object.defineProperty(navigator, 'clipboard', { value: { writeText: () => Promise.reject() } })")
        self.page.click("#copy")
        self.assertEqual(replayed(THREE_LEVELS, self.page.downloaded(".states")), self.page.report())

    def test_pictures(self):
        """The picture of lines names each band, has no colour that only the page knows, and stands alone; that of points is no blank. The
        second display has its own."""
        self.page.step_to(4)
        self.page.click("figure[data-view='0'] [data-do=svg]")
        text = self.page.downloaded(".svg").decode()
        xml.etree.ElementTree.fromstring(text)
        self.assertNotIn("var(", text)
        moment = moments_of(replayed(THREE_LEVELS, bytes_of(ENCOUNTER)))[4]
        for title in bands_of(moment, "track") + bands_of(moment, "gs"):
            self.assertIn(f"<title>{title}</title>", text)
        for used in set(re.findall(r"url\(#(\w+)\)", text)):
            self.assertIn(f'id="{used}"', text)
        self.page.click("figure[data-view='0'] [data-do=png]")
        points = self.page.downloaded(".png")
        self.assertTrue(points.startswith(b"\x89PNG") and len(points) > 40000, len(points))
        self.page.click("#compare")
        self.page.click("figure[data-view='1'] [data-do=svg]")
        text = self.page.downloaded(".svg").decode()
        self.assertIn(">recovery</text>", text)
        self.assertIn("clear after ", text)
