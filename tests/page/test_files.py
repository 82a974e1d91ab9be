"""The page's files, without a browser: they name no network, they are all there, and the examples are those of examples/."""
import json
import os
import re
import unittest

from shared import EXAMPLES, TOP, Page, text_of

CONFIGS = ("three_levels", "recovery")
ENCOUNTERS = {"encounter, three levels": ("three_levels", "encounter.states"),
              "encounter, with recoveries": ("recovery", "encounter.states"),
              "all closed, with recoveries": ("recovery", "closed.states"),
              "a recording": ("three_levels", "recording.daa"),
              "refused lines": ("three_levels", "lines.states")}
NAMESPACE = "http://www.w3.org/2000/svg"  # a name of the SVG standard, which is never asked for
ANY_ADDRESS = re.compile(r"(?:https?|wss?|ftp)://[^\s\"'`)<>]+|(?<![:\w])//[a-z0-9-]+\.[a-z]{2,}")
ASKS = re.compile(r"\bfetch\(|XMLHttpRequest|WebSocket|EventSource|sendBeacon|importScripts|\bimport\b[ (]|@import|navigator\.serviceWorker")
MADE = ("engine.wasm.js", "examples.js", "columns.js")
COLUMNS = os.path.join(TOP, "tools", "recordings", "columns.json")


def examples_text():
    """What page/examples.js must be."""
    files = sorted({states for _, states in ENCOUNTERS.values()})
    words = {"configs": {name: text_of(os.path.join(EXAMPLES, f"{name}.toml")) for name in CONFIGS},
             "files": {name: text_of(os.path.join(EXAMPLES, name)) for name in files},
             "encounters": {name: {"config": config, "states": states} for name, (config, states) in ENCOUNTERS.items()}}
    return ('"use strict";\n// Made by tests/page/run --write of the files of examples/.\nglobalThis.daa = globalThis.daa || {};\n'
            f"daa.version = {json.dumps(version())};\n"
            f"daa.examples = {json.dumps(words, indent=1)};\n")


def version():
    """The version of the repository, which the archive for C and the program tell."""
    number = int(re.search(r"#define DAA_VERSION (\d+)", text_of(os.path.join(TOP, "crates", "daa_c", "include", "daidalus.h")))[1])
    return f"{number // 10000}.{number // 100 % 100}.{number % 100}"


def columns_text():
    """What page/columns.js must be: names of columns and units as tools/from_daa has them."""
    return ('"use strict";\n// Made by tests/page/run --write of tools/recordings/columns.json.\nglobalThis.daa = globalThis.daa || {};\n'
            f"daa.columns = {json.dumps(json.loads(text_of(COLUMNS)), separators=(',', ':'))};\n")


def write_made():
    for name, text in (("examples.js", examples_text()), ("columns.js", columns_text())):
        with open(os.path.join(Page.folder, name), "w", encoding="utf-8") as file:
            file.write(text)
    return 0


def files():
    return {name: text_of(os.path.join(Page.folder, name)) for name in sorted(os.listdir(Page.folder))}


class Files(unittest.TestCase):
    def test_no_file_names_a_network_address(self):
        for name, text in files().items():
            found = set(ANY_ADDRESS.findall(text)) - {NAMESPACE}
            self.assertEqual(found, set(), name)

    def test_no_script_asks_a_network(self):
        for name, text in files().items():
            if name not in MADE:
                self.assertEqual(ASKS.findall(text), [], name)

    def test_the_policy_forbids_the_network(self):
        """The browser itself refuses all that is not the page's own: default-src 'none', and no connect-src."""
        policy = re.search(r'http-equiv="Content-Security-Policy" content="([^"]+)"', files()["index.html"]).group(1)
        rules = dict(rule.strip().split(" ", 1) for rule in policy.split(";"))
        self.assertEqual(rules.pop("default-src"), "'none'")
        self.assertEqual(set(rules), {"script-src", "worker-src", "style-src", "img-src"})
        allowed = {"'self'", "file:", "blob:", "data:", "'unsafe-inline'", "'wasm-unsafe-eval'"}
        self.assertLessEqual({source for value in rules.values() for source in value.split()}, allowed)
        self.assertNotIn("'unsafe-inline'", rules["script-src"])

    def test_each_file_is_named_and_there(self):
        """index.html names each script and style sheet of the folder, and no other file."""
        named = re.findall(r'(?:src|href)="([^"#:]+)"', files()["index.html"])
        self.assertEqual(sorted(named), sorted(name for name in files() if name != "index.html"))
        self.assertEqual(len(set(named)), len(named))

    def test_no_script_or_event_stands_in_the_markup(self):
        self.assertEqual(re.findall(r"<script(?! src=)|\son[a-z]+=", files()["index.html"]), [])

    def test_the_examples_are_those_of_the_repository(self):
        self.assertEqual(files()["examples.js"], examples_text(), "tests/page/run --write writes page/examples.js anew")

    def test_the_columns_of_recordings_are_those_of_the_tool(self):
        self.assertEqual(files()["columns.js"], columns_text(), "tests/page/run --write writes page/columns.js anew")

    def test_each_label_of_a_field_is_there(self):
        """Each input, select, textarea of the markup stands in a label or has a name for screen readers."""
        text = files()["index.html"]
        for found in re.finditer(r"<(input|select|textarea)\b[^>]*>", text):
            before = text[:found.start()]
            inside = before.rfind("<label") > before.rfind("</label>")
            self.assertTrue(inside or "aria-label" in found.group(), found.group())

    def test_no_control_stands_as_it_was_before_the_page_was_loaded_anew(self):
        """Of those whose state the page keeps: a browser would put them back, and tell nobody."""
        for name in ("compare", "theme", "which"):
            self.assertRegex(files()["index.html"], rf'<[^>]* id="{name}" autocomplete="off"')

    def test_no_two_levels_have_one_colour(self):
        """On a light and on a dark ground: fills, that of no level too, marks of the patterns, and edges."""
        for part, least in (("fill", 0), ("mark", 1), ("edge", 1)):
            rows = [re.search(rf"--l{level}-{part}: (?:light-dark\(([^,]+), ([^)]+)\)|([^;]+));", files()["style.css"]) for level in range(least, 5)]
            for ground in (1, 2):
                colours = [row[3] or row[ground] for row in rows]
                self.assertEqual(len(set(colours)), len(colours), (part, colours))

    def test_lines_are_not_too_long(self):
        for name, text in files().items():
            if name not in MADE:
                longest = max(text.split("\n"), key=len)
                self.assertLessEqual(len(longest), 150, f"{name}: {longest[:80]}")

    def test_the_folder_is_small(self):
        """The page is mailed and kept whole: all files together are below 600 KB."""
        self.assertLess(sum(len(text.encode()) for text in files().values()), 600000)


class Readme(unittest.TestCase):
    def test_the_picture_of_the_readme_is_there(self):
        """README.md shows the page in its first lines, and the picture is small."""
        first = "\n".join(text_of(os.path.join(TOP, "README.md")).split("\n")[:30])
        self.assertIn("docs/page.png", first)
        self.assertIn("page/index.html", first)
        self.assertLess(os.path.getsize(os.path.join(TOP, "docs", "page.png")), 300000)
