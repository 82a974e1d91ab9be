"""Comments `# no moment: WHY`: what the page tells of a time of which nothing is known."""
import unittest

from page_test import PageTest, setUpModule  # noqa: F401 (unittest calls the last one)

MOMENT = "moment {}\nown 0 0 10000 0 3600 0\ntraffic AMBER 3000 8000 10000 -1350 0 0\nend\n"
STATES = ("# clock utc\n# no moment: not yet heard\n" + MOMENT.format(100) + MOMENT.format(101) + "# no moment: the decoder is gone\n#\tno  moment: once more\n"
          + MOMENT.format(160).replace("own", "# no moment: within a moment this means nothing\nown") + MOMENT.format(161) + " # no moment:\n")


class Silence(PageTest):
    def test_why_there_is_no_moment(self):
        """It is told at the moment before the gap, with its end, and at the one after it; the first cause counts, and a moment is not incomplete by it."""
        self.page.open()
        self.page.open_files(self.page.file("gap.states", STATES))
        self.page.select("#clock-form", "seconds")
        notes = []
        for place in range(4):
            self.page.step_to(place)
            notes.append(self.page.text("#notes"))
            self.assertNotIn("Incomplete", self.page.text("#summary"))
        self.assertEqual(notes, ["no moment before this one: not yet heard", "no moment after this one until 160 s: the decoder is gone",
                                 "no moment before this one: the decoder is gone", "no moment after this one: no cause is given"])

    def test_a_link_holds_its_moment_alone(self):
        """Of a moment after a gap a link is made, and what is read from it has no gap."""
        self.page.open()
        self.page.open_files(self.page.file("gap.states", STATES))
        self.page.step_to(2)
        self.page.open(self.page.link())
        self.assertNotIn("the decoder is gone", self.page.text("#notes"))
        self.assertEqual(self.page.js("return daa.page.current.time"), 160)

    def test_a_file_without_gaps(self):
        self.page.open()
        self.page.open_files(self.page.file("whole.states", MOMENT.format(1) + MOMENT.format(2)))
        self.assertEqual(self.page.text("#notes"), "")


if __name__ == "__main__":
    unittest.main()
