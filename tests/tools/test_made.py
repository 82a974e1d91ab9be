"""tools/made: what the made pages hold, and that another text is refused."""
import contextlib
import io
import os
import re
import sys
import unittest
from unittest import mock

from common import TOP, module

made = module("tools/made")


class Made(unittest.TestCase):
    def test_another_line_is_refused(self):
        for path in made.PAGES:
            text = made.text_of_page(path)
            self.assertIsNone(made.wrong_in(path, text))
            number = text.count("\n") // 2
            lines = text.split("\n")
            lines[number - 1] += " "
            self.assertIn(f"{path}:{number} ", made.wrong_in(path, "\n".join(lines)))
            self.assertIn(path, made.wrong_in(path, text + "\n"))


class Main(unittest.TestCase):
    def test_each_page_is_compared(self):
        """Where each is wrong, each is told, and none passes; where none is, all pass."""
        self.assertEqual(set(made.PAGES), {"docs/made/DEFINITIONS.md", "docs/made/MUTANTS.md", "docs/made/CALLS.md"})
        paths = [*made.PAGES, *made.readmes()]
        for wrong, status, told in ((lambda path, _: path, 1, [*(f"FAILED: {path}" for path in paths), f"0 passed, {len(paths)} failed"]),
                                    (lambda *_: None, 0, [f"{len(paths)} passed, 0 failed"])):
            out = io.StringIO()
            with mock.patch.object(made, "wrong_in", wrong), mock.patch.object(sys, "argv", ["made"]), contextlib.redirect_stdout(out):
                self.assertEqual((made.main(), out.getvalue().splitlines()), (status, told))


class Definitions(unittest.TestCase):
    def setUp(self):
        self.text = made.text_of_page("docs/made/DEFINITIONS.md")

    def test_each_definition_of_a_public_clause_is_listed_and_no_other(self):
        found = made.believed()
        names = [key[2] for key in found.named(found.headline | found.public)]
        listed = [line.split("`")[1] for line in self.text.split("\n") if line.startswith(("- `", "- **`"))]
        self.assertGreater(len(listed), 700)
        self.assertEqual(sorted(listed), sorted(names))

    def test_the_headlines_definitions_are_in_bold(self):
        found = made.believed()
        self.assertEqual(self.text.count("- **`"), len(found.named(found.headline)))

    def test_a_block_within_a_block_is_read(self):
        self.assertIn("\n- **`IsLastTime`**\n", self.text)
        self.assertIn(("daa_last", "Last", "IsLastTime"), made.trust.Specs().all)

    def test_a_line_has_the_comment_of_its_definition(self):
        self.assertIn("\n- `IsShort`: each component is below 2^60 in size, so that the products fit\n", self.text)


class Mutants(unittest.TestCase):
    def test_each_edit_says_its_mistake_in_words(self):
        """In its first line: a sentence of its own, and not its name once more."""
        found = set()
        for crate in made.crates():
            for path in made.trust.files_below(f"crates/{crate}/must-fail", ".edit"):
                said = made.mistake_of(path)
                self.assertTrue(said, path)
                self.assertGreater(len(said.split()), 3, path)
                self.assertNotIn((crate, said), found, path)
                self.assertFalse(said.endswith("."), path)
                found.add((crate, said))
        self.assertGreater(len(found), 60)

    def test_each_edit_can_be_applied(self):
        """What it replaces stands once in its file, after its replacements before."""
        for path in [path for crate in made.crates() for path in made.trust.files_below(f"crates/{crate}/must-fail", ".edit")]:
            texts, file, old = {}, None, None
            for line in made.trust.text_of(path).split("\n")[1:]:
                word, _, rest = line.partition(":")
                rest = rest.removeprefix(" ")
                if word == "file":
                    file = f"{path.split('/must-fail/')[0]}/{rest.strip()}"
                    texts.setdefault(file, made.trust.text_of(file))
                elif word == "old":
                    old = rest
                elif word == "new":
                    self.assertEqual(texts[file].count(old), 1, path)
                    texts[file] = texts[file].replace(old, rest)
                else:
                    self.assertEqual(line, "", path)
            self.assertTrue(any(text != made.trust.text_of(file) for file, text in texts.items()), path)

    def test_each_edit_has_a_row(self):
        text = made.text_of_page("docs/made/MUTANTS.md")
        for crate in made.crates():
            for path in made.trust.files_below(f"crates/{crate}/must-fail", ".edit"):
                self.assertIn(f"](../../{path}) |\n", text)


class Calls(unittest.TestCase):
    def setUp(self):
        self.text = made.trust.text_of("docs/made/CALLS.md")

    def section(self, crate):
        return self.text.partition(f"\n## {crate}\n")[2].partition("\n## ")[0]

    def test_each_public_item_is_listed_with_its_comment(self):
        found = 0
        for crate in made.crates():
            path = f"crates/{crate}/src/lib.rt"
            if not crate.endswith("_tests") and os.path.exists(os.path.join(TOP, path)):
                text = made.trust.text_of(path)
                items = re.findall(r"^pub (?:fn|struct|enum|trait) (\w+)", text, re.M)
                for module, used in re.findall(r"^pub use (\w+)::([^;]+);", text, re.M):
                    items += re.findall(r"\w+", used) if module not in made.crates() else []
                for item in items:
                    self.assertRegex(self.section(crate), rf"(?m)^- `{item}`(?: \([^)]*\))?: \S", crate)
                    found += 1
        self.assertGreater(found, 200)

    def test_methods_and_labels_are_listed(self):
        self.assertRegex(self.section("daa_lines"), r"\n- `Lines::take_line` \([^)]*`not_yet`[^)]*\): \S")
        self.assertIn("\n- `Source::read` (", self.section("daa_io"))

    def test_no_item_lacks_a_comment(self):
        self.assertEqual(re.findall(r"(?m)^- .*: ?$", self.text), [])

    def test_what_a_crate_stands_on(self):
        for crate, below in made.crates().items():
            if not crate.endswith("_tests"):
                said = re.search(r"^Stands on (.*)\.$", self.section(crate), re.M)[1]
                names = re.findall(r"\w+", re.sub(r"\(.*?\)", "", said).replace("std alone", ""))
                self.assertEqual(names, below, crate)


class Callers(unittest.TestCase):
    def test_a_quoted_caller_is_that_of_its_file(self):
        found = 0
        for path in made.readmes():
            text = made.text_of_page(path)
            for file, name in re.findall(r"<!-- caller: (\S+) (\S+) -->", text):
                quoted = made.function_in(f"crates/{file}", name)
                self.assertIn(f"fn {name}", quoted)
                self.assertIn(f"<!-- caller: {file} {name} -->\n```rust\n{quoted}\n```\n", made.trust.text_of(path))
                found += 1
            self.assertIsNone(made.wrong_in(path, text))
            self.assertEqual(made.with_callers(made.trust.text_of(path).replace(" -->\n```rust\n", " -->\n```rust\n// stale\n")), text)
        self.assertGreater(found, 25)


if __name__ == "__main__":
    unittest.main()
