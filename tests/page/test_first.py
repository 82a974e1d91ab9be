"""The first minute: what words mean where they stand, one form for all angles and numbers, and what was taken of a recording."""
import os
import re
import subprocess
import tempfile
import unittest

from nodes import HOW, NODE, OPEN, on_page, xml_of
from shared import ENCOUNTER, EXAMPLES, RECOVERY, TOP, bytes_of, moments_of, replayed, text_of

SHOWN = """const { layers } = display().daa, handles = [...display().daa.handles.values()];
  const shown = () => [Object.values(display().daa.layers).join(""), ...[...display().daa.handles.values()].map((it) => it.innerHTML),
    ...["summary", "report", "notes", "differs"].map((id) => $(id).textContent + $(id).innerHTML), $("aircraft").tBodies[0].innerHTML];"""


def lines_of(tool, path):
    """What tools/from_daa tells of a recording."""
    said = subprocess.run([os.path.join(TOP, "tools", tool), path], capture_output=True, text=True, check=True, timeout=300).stderr
    return [line.removeprefix("from_daa: ") for line in said.splitlines()]


@unittest.skipUnless(NODE, HOW)
class Words(unittest.TestCase):
    def test_each_answer_is_explained_where_it_stands(self):
        """Open, keep, none and a recovery, each by what the report says of the kind and side; the corrective level in the legend; the height in a label."""
        meanings, found = on_page(OPEN + """
            await open(["recovery.toml", given[0]], ["encounter.states", given[1]]);
            const found = [];
            for (let index = 0; index < page.moments.length; index++) {
              daa.ui.goTo(index);
              await settle();
              const { answers, legend } = display().daa.layers;
              found.push([answers, legend, handle("p:AMBER").innerHTML]);
            }
            return [daa.MEANINGS, found];""", text_of(RECOVERY), text_of(ENCOUNTER))
        seen, heights = set(), 0
        for moment, (answers, legend, label) in zip(moments_of(replayed(RECOVERY, bytes_of(ENCOUNTER))), found, strict=True):
            words = {}
            for group in xml_of(answers):
                self.assertEqual(group.find("title").text, meanings[group.get("data-word")])
                text = group.find("text")
                words[text.get("data-kind"), text.get("data-what")] = group.get("data-word")
            for kind, lower, upper in re.findall(r"(?m)^resolve (\w+) \w+ (\S+) \w+ (\S+)", moment):
                wanted = [to if to in ("keep", "none") else "open" for to in (lower, upper)]
                self.assertEqual([words[kind, side] for side in ("lower", "upper")], wanted)
                seen.update(wanted)
            for kind in re.findall(r"(?m)^recover (\w+)", moment):
                self.assertEqual(words[kind, "recover"], "recovery")
                seen.add("recovery")
            self.assertEqual([group.find("text").text for group in xml_of(legend).iter("g") if group.get("data-word") == "corrective"], ["level 2, corrective"])
            for height in [group.find("text").text for group in xml_of(label).iter("g") if group.get("data-word") == "height"]:
                self.assertRegex(height, "^[+−][0-9]{2}[↑↓]?( |$)")
                heights += 1
        self.assertGreater(heights, 5)
        self.assertEqual(seen, {"open", "keep", "none", "recovery"})

    def test_all_angles_have_three_digits_and_all_numbers_one_minus(self):
        """On the display, in the sentence, the table and the line under it, of two configurations and at each moment."""
        found = on_page(OPEN + SHOWN + """
            await open(["recovery.toml", given[0]], ["encounter.states", given[1]]);
            $("compare").checked = true;
            await fire($("compare"), "change", { target: { checked: true } });
            page.current.own.trk = 7;
            page.current.own.vs = -300;
            daa.ui.touched();
            await settle();
            const found = shown();
            for (const index of [3, 6]) {
              daa.ui.goTo(index);
              await settle();
              found.push(...shown());
            }
            return found;""", text_of(RECOVERY), text_of(ENCOUNTER))
        texts = [text for html in found for text in re.findall(r">([^<>]+)<", f">{html}<") if not re.match(r"(track|gs|vs|alt|resolve|recover|now|alert) ", text)]
        angles = [angle for text in texts for angle in re.findall(r"(?<![0-9])[0-9]+(?=°)", text)]
        self.assertTrue("007" in angles and len(angles) > 20, angles)
        self.assertEqual([angle for angle in angles if len(angle) != 3], [])
        self.assertTrue(any("−300" in text for text in texts))
        self.assertEqual([text for text in texts if re.search(r"(?<![\w])-[0-9]", text)], [])


@unittest.skipUnless(NODE, HOW)
class Taken(unittest.TestCase):
    ROWS = ("time,id,latitude,longitude,altitude,gs,track,vertical_rate\n" + "".join(
        f"2026-01-01T00:00:{second:02}Z,{name},{lat},-70,1000,100,0,0\n" for second in (0, 1, 2, 9, 10) for name, lat in (("OWN", 40), ("AB", 40.05))))

    def test_what_was_taken_of_a_recording_is_told_in_the_words_of_the_tool(self):
        """The ownship and why, columns and units, how many moments, where 0 0 is, the stretches without a moment."""
        with tempfile.TemporaryDirectory() as folder:
            path = os.path.join(folder, "flight.csv")
            with open(path, "w", encoding="utf-8") as file:
                file.write(self.ROWS)
            said = lines_of("from_daa", path), lines_of("from_daa", os.path.join(EXAMPLES, "recording.daa"))
        told = on_page(OPEN + """
            const told = [];
            for (const [name, text] of given) {
              await open([name, text]);
              told.push([$("taken").hidden, [...$("taken-lines").innerHTML.matchAll(/<li>(.*?)<.li>/g)].map(([, words]) => words)]);
            }
            await open(["plain.states", given[2][1]]);
            return [...told, $("taken").hidden];""", ["flight.csv", self.ROWS], ["recording.daa", text_of(os.path.join(EXAMPLES, "recording.daa"))], ["e.states", text_of(ENCOUNTER)])
        *recordings, (_, none), hidden = told
        for (is_hidden, lines), tool in zip(recordings, said, strict=True):
            self.assertFalse(is_hidden)
            shared = [line for line in tool if line.startswith(("columns:", "0 0 of the plane", "no moment for")) or re.match("[0-9]+ moments of up to", line)]
            self.assertTrue(len(shared) >= 2 and set(shared) <= set(lines), (shared, lines))
            owns = [line for line in tool if line.startswith("the ownship is ")]
            self.assertEqual([lines[0]], [owns[0].replace("--own NAME", "Ownship")])
        self.assertIn("no moment for 7 s, from 1767225602 to 1767225609 s, because no report of the ownship came", recordings[0][1])
        self.assertEqual((none, hidden), ([], True))
