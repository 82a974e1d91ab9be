"""What is kept: the states and the report of a whole recording as files, and the sheet that is printed."""
import base64
import hashlib
import os
import re
import subprocess
import tempfile
import unittest

from nodes import HOW, NODE, OPEN, on_page
from shared import ENCOUNTER, EXAMPLES, RECOVERY, Page, bytes_of, program, replayed, text_of
from test_files import version

SAVE = OPEN + """
    const save = async (what) => {
      const before = saved.length;
      await fire($(what), "click");
      for (let frames = 0; frames < 2000 && saved.length === before && !page.untaken; frames++) await frame();
      await settle();
      return saved.length === before ? null : [saved.at(-1)[0], await saved.at(-1)[1].text()];
    };"""


@unittest.skipUnless(NODE, HOW)
class Whole(unittest.TestCase):
    def check_kept(self, states, report, config=RECOVERY):
        """The report is that of the program on the states, byte for byte, and `judge` takes it."""
        self.assertEqual(report, replayed(config, states.encode()))
        with tempfile.TemporaryDirectory() as folder:
            path = os.path.join(folder, "a.states")
            with open(path, "w", encoding="utf-8") as file:
                file.write(states)
            judged = subprocess.run([program(), "judge", "--config", config, "--states", path], input=report.encode(), capture_output=True, timeout=300)
        self.assertEqual(judged.returncode, 0, judged.stderr)

    def test_states_and_report_of_the_whole_recording(self):
        """Of one with ages, whose times are of the day, as it is shown: a moment was changed by hand."""
        recording = text_of(os.path.join(EXAMPLES, "recording.daa"))
        before, states, report = on_page(SAVE + """
            await open(["recovery.toml", given[0]], ["recording.daa", given[1]]);
            const before = daa.stateLines(page.moments);
            daa.ui.goTo(3);
            await settle();
            await press("alt", "ArrowUp");
            return [before, await save("save-states"), await save("save-report")];""", text_of(RECOVERY), recording)
        self.assertEqual((states[0], report[0]), ("recording-changed.states", "recording-changed.report"))
        self.check_kept(states[1], report[1])
        lines = lambda text: [line for line in text.splitlines() if not line.startswith("#")]
        differ = [pair for pair in zip(lines(before), lines(states[1]), strict=True) if pair[0] != pair[1]]
        self.assertEqual(len(differ), 1)
        self.assertRegex(differ[0][1], "^own ")

    def test_as_recorded_it_has_the_name_of_the_recording(self):
        name, states = on_page(SAVE + 'return save("save-states");')
        self.assertEqual((name, states), ("encounter.states", text_of(ENCOUNTER) if text_of(ENCOUNTER).startswith("format") else states))
        self.assertEqual(replayed(RECOVERY, states.encode()), replayed(RECOVERY, bytes_of(ENCOUNTER)))

    def test_comments_stay(self):
        """What a moment lacks, why there is none before it, and what the clock is."""
        text = ("# clock utc\nmoment 1\nown 0 0 0 0 0 0\nend\n# no moment: nothing came\nmoment 9\n# lacks A no report for 20 s, 1.0 NM away\n"
                "own 0 0 0 0 0 0\nend\n")
        kept = on_page(SAVE + 'await open(["a.states", given[0]]); return save("save-states");', text)[1]
        self.assertEqual(kept, text)

    def test_a_refused_moment_is_told_and_no_report_is_saved(self):
        saved, told = on_page(SAVE + """
            page.current.own.gs = 99999;
            daa.ui.edited();
            await settle();
            return [await save("save-report"), $("fault").textContent];""")
        self.assertIsNone(saved)
        self.assertIn("encounter-changed.report is not saved: a number of the ownship is out of its range", told)


@unittest.skipUnless(NODE, HOW)
class Sheet(unittest.TestCase):
    def test_a_sheet_can_be_made_again(self):
        """It has the version, the engine's and the configuration's digests, the date, and the state lines of the moment, of which the program makes the
        report that is printed."""
        html, states, report = on_page(OPEN + """
            await open(["recovery.toml", given[0]], ["encounter.states", given[1]]);
            daa.ui.goTo(4);
            await settle();
            for (let frames = 0; frames < 50; frames++) await frame();
            await fire(screen, "beforeprint");
            return [$("sheet").daaHtml, daa.stateLines([page.current]), page.views[0].said.text];""", text_of(RECOVERY), text_of(ENCOUNTER))
        module = base64.b64decode(re.search(r'atob\("([^"]+)"\)', text_of(os.path.join(Page.folder, "engine.wasm.js")))[1])
        for words in (f"DAIDALUS, exact {version()}, engine SHA-256 {hashlib.sha256(module).hexdigest()}",
                      f"configuration recovery.toml, SHA-256 {hashlib.sha256(bytes_of(RECOVERY)).hexdigest()}", f"<pre>{states}</pre>"):
            self.assertIn(words, html)
        self.assertRegex(html, "printed 20[0-9-]{8}T[0-9:]{5}Z, of encounter.states")
        self.assertEqual(replayed(RECOVERY, states.encode()), report)
