"""tools/study page: one file of HTML whose pictures are well formed, and whose links hold the moments that were told; and
docs/STUDY.md, whose commands are run and whose keys are those that are read."""
import base64
import html.parser
import json
import os
import re
import subprocess
import unittest
import zlib
from xml.etree import ElementTree

import counting
from common import TOP, program
from studies import page, ratios, rows, study_file
from studies.drawing import Draw
from studies.encounters import FORMS
from studies.pilot import Pilot
from studies.sensors import Sensors
from studies.study_file import read_study
from studies.tracing import Traced
from test_study import ROW, STUDY, Studies
from test_tools_page import commands_of

DOCUMENT = os.path.join(TOP, "docs", "STUDY.md")
VOID = ("meta", "br", "hr", "link", "img")


class Tags(html.parser.HTMLParser):
    """Takes a page whose tags all end; what it has of each tag."""

    def __init__(self, text):
        super().__init__()
        self.open, self.found, self.links = [], {}, []
        self.feed(text)
        self.close()

    def handle_starttag(self, tag, attributes):
        self.found[tag] = self.found.get(tag, 0) + 1
        self.links += [value for key, value in attributes if key in ("href", "src")]
        if tag not in VOID:
            self.open.append(tag)

    def handle_startendtag(self, tag, attributes):
        self.found[tag] = self.found.get(tag, 0) + 1

    def handle_endtag(self, tag):
        assert self.open.pop() == tag, tag


def unpacked(link):
    """What a link to the page holds."""
    text = link.partition("#m=")[2]
    return json.loads(zlib.decompress(base64.urlsafe_b64decode(text + "=" * (-len(text) % 4)), -15))


class Pages(Studies):
    def test_a_page_of_two_files(self):
        """Its numbers are those of the table, and its pictures show them."""
        study = read_study(STUDY)
        made = [rows.row_of(study.draw.encounter(7, number), study) for number in range(6, 8)]
        text = page.page_of([("one & a half", made), ("two", made)], [study, None], "page/index.html")
        tags = Tags(text)
        self.assertEqual(tags.open, [])
        self.assertEqual(tags.found["svg"], 1 + 2 * 5)
        self.assertNotIn("script", tags.found)
        for picture in re.findall(r"(?s)<svg.*?</svg>", text):
            ElementTree.fromstring(picture)
        lines = list(ratios.table_of([("one & a half", made), ("two", made)]))
        for line in (lines[0], *lines[2:]):
            cells = [it.strip() for it in line.strip("|").split("|")]
            self.assertIn("<tr>" + "".join(f"<td>{page.escape(it)}</td>" for it in cells) + "</tr>", text)
        self.assertEqual(len(tags.links), 3)  # encounter 7 is lost: its alert, its manoeuvre and its loss, in the section with a study
        self.assertEqual(text, page.page_of([("one & a half", made), ("two", made)], [study, None], "page/index.html"))

    def test_a_link_holds_the_moment_that_the_pilot_saw(self):
        study = read_study(STUDY)
        encounter = study.draw.encounter(7, 7)
        row, traced = rows.row_of(encounter, study), Traced(encounter, study, True)
        for second, link in zip((row["g_alert"], row["advice"], row["g_loss"]), page.links_of(row, study, "page/index.html"), strict=True):
            held = unpacked(re.search(r'href="([^"]*)"', link)[1])
            self.assertIn(f", {second} s</a>", link)
            self.assertEqual(held["states"], traced.states[second])
            self.assertEqual(len(held["configs"]), 2)
            config = self.write("c.toml", held["configs"][0]["toml"])
            ran = subprocess.run([program(), "replay", "--config", config], input=held["states"].encode(), capture_output=True, timeout=60)
            self.assertEqual((ran.returncode, ran.stdout), (0, traced.reports[second]))

    def test_the_page_in_node_unpacks_a_link(self):
        counting.need("node")
        link = page.link_of("moment 1\n", ("c.toml", "resolve = 2\n"), "encounter 1 \N{DEGREE SIGN}")
        script = (f'globalThis.daa = {{ bytesOf: (text) => new TextEncoder().encode(text) }}; require("{TOP}/page/link.js");\n'
                  f'daa.unpack("#{link}").then((held) => console.log(JSON.stringify(held)));')
        ran = subprocess.run(["node", "-e", script], capture_output=True, text=True, timeout=60)
        self.assertEqual(ran.stderr, "")
        held = json.loads(ran.stdout)
        self.assertEqual((held["states"], held["name"], held["configs"][1]["toml"]), ("moment 1\n", "encounter 1 \N{DEGREE SIGN}", "resolve = 2\n"))

    def test_the_worst_come_first(self):
        """Near collisions, then by severity; at most ten, and none that was not lost."""
        lost = [{**ROW, "encounter": number, "g_loss": 5, "g_severity": number % 7, "g_nmac": int(number == 3)} for number in range(12)]
        found = [it["encounter"] for it in page.worst_of([*lost, {**ROW, "encounter": 12, "g_severity": 900}])]
        self.assertEqual(found, [3, 6, 5, 4, 11, 10, 2, 9, 1, 8])
        self.assertIn("No encounter was lost", page.worst_table([ROW], None, ""))

    def test_a_configuration_for_each_file(self):
        path = self.write("r.csv", rows.HEAD + rows.text_of({**ROW, "encounter": 0}))
        self.refused(2, "give --config once for each file of rows", "page", path, path, path, "--study", STUDY, "--config", "a", "--config", "b")


def read(path):
    with open(path, encoding="utf-8") as file:
        return file.read()


class Document(Studies):
    def test_each_command_writes_what_is_shown(self):
        """In a folder with what the commands name. Of 200 encounters, which take minutes, eight are made here."""
        for name in ("tools", "examples", "page"):
            os.symlink(os.path.join(TOP, name), os.path.join(self.folder, name))
        os.makedirs(os.path.join(self.folder, "built", "x86-64"))
        script = self.write("daidalus", f'#!/bin/sh\nexec "{program()}" "$@"\n')
        os.chmod(script, 0o755)
        found, shown = commands_of(read(DOCUMENT)), 0
        for block, status, output, is_beginning in found:
            block = re.sub(r"--count 200 ", "--count 8 ", block)
            with self.subTest(block):
                ran = subprocess.run(["bash", "-c", "set -e -o pipefail\n" + block], cwd=self.folder, stdin=subprocess.DEVNULL, capture_output=True, text=True,
                                     timeout=300, env={**os.environ, "PYTHONDONTWRITEBYTECODE": "1"})
                self.assertEqual((ran.returncode, ran.stderr), (status, ""))
                if output is not None:
                    shown += 1
                    self.assertEqual(ran.stdout[:len(output)] if is_beginning else ran.stdout, output)
        self.assertGreaterEqual(len(found), 8)
        self.assertGreaterEqual(shown, 2)

    def test_each_key_column_line_and_cause_is_told(self):
        text = read(DOCUMENT)
        keys = {*study_file.TOP_KEYS, *study_file.names_of(Pilot), *study_file.names_of(Sensors), *study_file.names_of(Draw)} - {"strata"}
        told = set(re.findall(r"`([^`\n]+)`", text))
        for name in (*keys, *rows.COLUMNS, *FORMS.values(), *filter(None, rows.CAUSES)):
            self.assertTrue(name in told or f"g_{name}" in told, name)
        for name, *_ in ratios.RATIOS:
            self.assertIn(name.partition(":")[0], text)

    def test_the_table_of_the_example_has_the_rows_of_a_table(self):
        """It is too large to be made here; its first encounters are those of the small table, which is made."""
        table = re.search(r"(?m)^## An example\n[\s\S]*?((?:^\|.*\|\n)+)", read(DOCUMENT))[1].splitlines()
        self.assertEqual([it.split("|")[1].strip() for it in table[2:]], [name for name, _ in ratios.lines_of([{**ROW, "encounter": 0}])])

    def test_the_defaults_are_told(self):
        """The table of keys has the default of each number and range."""
        text, plain = read(DOCUMENT), {**vars(Pilot()), **vars(Sensors()), **vars(Draw())}
        for key in (*study_file.PILOT, *study_file.SENSORS, *study_file.DRAW):
            value = plain[key]
            shown = f"[{value[0]}, {value[1]}]" if isinstance(value, tuple) else str(value)
            self.assertRegex(text, rf"(?m)^\| `{key}` \| {re.escape(shown)} \|", key)


if __name__ == "__main__":
    unittest.main()
