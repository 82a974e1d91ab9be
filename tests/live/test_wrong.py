"""Wrong live pages: each is the page with one bug, and the test that is named must fail on it, soon."""
import io
import unittest

import live_server
import test_shown  # (whose tests would be this module's too, were they named here)
from test_shown import LIVE

# A wrong page: the bug, the file, the text that is there once, what stands in its place, and the test that must fail.
WRONG = (("no curtain", "live.css", "@keyframes down-0 { 0%, 99.9% { opacity: 0 } 100% { opacity: 1 } }\n@keyframes down-1 { 0%, 99.9% { opacity: 0 } 100% { opacity: 1 } }", "",
          "test_a_page_that_stands_still"),
         ("what is stale is ignored", LIVE, "follows && !isPresent()", "false", "test_the_feed_stops"),
         ("bands of a stale moment stay", LIVE, "      state.stale = stale;\n", "", "test_the_feed_stops"),
         ("an old moment is taken as present", LIVE, "ageOf(live.last) <= OLDEST &&", "", "test_moments_of_another_time"),
         ("a moment that comes again is taken", LIVE, " && block.times[0] > live.heard", "", "test_a_connection_that_was_lost"),
         ("a clock that is wrong is believed", LIVE, " && ageOf(live.last) >= -AHEAD", "", "test_a_clock_that_is_wrong"),
         ("the comparison is left out", LIVE, "if (both.page === both.program) live.agreed", "if (true) live.agreed", "test_the_program_differs"),
         ("a silent program is not told", LIVE, "if (live.last - live.compared <= OLDEST)", "if (live.compared)", "test_the_program_is_silent"),
         ("a tab that comes back shows its old picture", LIVE, 'document.body.dataset.unseen = "yes";', "", "test_a_tab_that_was_hidden"),
         ("all moments are kept", LIVE, "  function drop() {\n", "  function drop() {\n    return;\n", "test_memory_does_not_grow"),
         ("a new moment takes away the one that is looked at", LIVE, "if (follows) {\n      ui.go", "if (true) {\n      ui.go", "test_looking_back"))


class Wrong(unittest.TestCase):
    def test_each_wrong_page_fails(self):
        test_shown.LivePage.open_browser()  # one for all of them
        self.addCleanup(test_shown.LivePage.close_browser)
        self.addCleanup(setattr, live_server, "LONG", live_server.LONG)
        self.addCleanup(setattr, test_shown.LivePage, "changes", ())
        live_server.LONG = 15
        for bug, file, old, new, name in WRONG:
            with self.subTest(bug):
                test_shown.LivePage.changes = ((file, old, new),)
                ran = unittest.TextTestRunner(stream=io.StringIO(), verbosity=0).run(unittest.TestSuite([test_shown.Shown(name)]))
                self.assertEqual((ran.testsRun, len(ran.skipped)), (1, 0))
                self.assertTrue(ran.failures or ran.errors, f"{name} passes on a page in which: {bug}")

    def test_each_named_test_is_there(self):
        self.assertEqual([name for *_, name in WRONG if not hasattr(test_shown.Shown, name)], [])


if __name__ == "__main__":
    unittest.main()
