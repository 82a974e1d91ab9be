"""The map of the repository and the READMEs of its crates, held against what they tell of: docs/ARCHITECTURE.md,
docs/CONTRIBUTING.md, docs/DECISIONS.md, docs/PROOFS.md, docs/DETECTOR.md and crates/*/README.md."""
import functools
import glob
import os
import re
import unittest

from common import TOP

DOCUMENTS = [f"docs/{name}.md" for name in ("ARCHITECTURE", "CONTRIBUTING", "DECISIONS", "PROOFS", "DETECTOR")]
PARTS = ("src", "src/tests", "specs", "specs/Inside", "proofs")
# A file or folder of a crate: with its path, or a file's name alone in backquotes.
PATH = re.compile(r"`((?:src|specs|proofs|must-fail|include|data)/[\w/.-]*[\w]|[\w]+\.(?:rt|antt))`")
CRATE = re.compile(r"\b(daa_\w+|one_moment)\b")


def read(name):
    with open(os.path.join(TOP, name), encoding="utf-8") as file:
        return file.read()


@functools.cache
def crates():
    """The crates in the order of crates.txt, each with what it stands on."""
    found = {}
    for line in read("crates.txt").splitlines():
        line = line.split("#")[0]
        if ":" in line:
            name, below = line.split(":")
            found[name.split()[0]] = below.split()
    return found


@functools.cache
def described():
    """The crates that have a README and a row of the map: all but NAME_tests, where there is a crate NAME."""
    return {name: below for name, below in crates().items() if not (name.endswith("_tests") and name[:-6] in crates())}


@functools.cache
def tested():
    """The crates of tests, each with the crates whose tests it holds."""
    of_tests = [name for name in crates() if name not in described()]
    return {name: re.findall(r"\bdaa_\w+", read(f"crates/{name}/src/lib.rt").splitlines()[0]) for name in of_tests}


def readmes():
    return [f"crates/{name}/README.md" for name in described()]


def lies_in(crate, path):
    """The path is one of the crate's files or folders, or a file's name alone is."""
    tops = ("",) if "/" in path else PARTS
    return any(os.path.exists(os.path.join(TOP, "crates", crate, top, path)) for top in tops)


def paths_of(name):
    """Each path of a crate that a document names, with the crates that it may be of: those named on its line, the last one
    named before that, and the README's own."""
    own = [name.split("/")[1]] if name.startswith("crates/") else []
    last = []
    for line in read(name).splitlines():
        named = [crate for crate in CRATE.findall(line) if crate in crates()]
        for match in PATH.finditer(line):
            yield match[1], [*own, *last, *named]
        last = named[-1:] or last


class Map(unittest.TestCase):
    def test_each_crate_has_its_readme(self):
        self.assertGreater(len(described()), 30)
        for name in described():
            self.assertTrue(read(f"crates/{name}/README.md").startswith(f"# {name}\n"), name)
        self.assertEqual(sorted(crates()), sorted(os.listdir(os.path.join(TOP, "crates"))))

    def test_crates_of_tests_hold_all_tests_of_their_crates_and_nothing_else(self):
        found = tested()
        self.assertGreater(len(found), 5)
        for name, those in found.items():
            self.assertEqual(those[-1], name.removesuffix("_tests"))
            listed = " and ".join(filter(None, [", ".join(those[:-1]), those[-1]]))
            self.assertEqual(read(f"crates/{name}/src/lib.rt"), f"//! Tests of {listed}.\n#![tactic(auto)]\n\n#[cfg(test)]\nmod tests;\n")
            for of in those:
                self.assertIn(of, crates()[name])
                self.assertFalse(os.path.exists(os.path.join(TOP, "crates", of, "proofs", "tests")), of)
                for path in glob.glob(os.path.join(TOP, "crates", of, "src", "**", "*.rt"), recursive=True):
                    self.assertNotIn("#[test]", read(path), path)

    def test_each_crate_stands_on_rows_above_its_own(self):
        above = set()
        for name, below in crates().items():
            self.assertLessEqual(set(below) & set(crates()), above, name)
            above.add(name)

    def test_the_map_has_the_crates_in_their_order(self):
        text = read("docs/ARCHITECTURE.md")
        self.assertEqual(re.findall(r"^\| \[(\w+)\]\(\.\./crates/\1\) \|", text, re.M), list(described()))

    def test_readmes_say_what_for_show_a_caller_and_say_what_surprises(self):
        """Programs have no caller, and those of a library for another language are not of Rattle."""
        for name in described():
            text = read(f"crates/{name}/README.md")
            sections = re.findall(r"^## (.*)$", text, re.M)
            self.assertIn("What surprises", sections, name)
            self.assertLessEqual(set(sections), {"A caller", "How it goes", "What surprises", "Proofs"}, name)
            is_library = os.path.exists(os.path.join(TOP, "crates", name, "src", "lib.rt")) and f"\n{name} staticlib" not in read("crates.txt")
            self.assertEqual("A caller" in sections, is_library or name == "daa_cockpit", name)
            self.assertEqual(text.count("<!-- caller: "), sections.count("A caller"), name)

    def test_links_lead_to_files(self):
        found = 0
        for name in [*DOCUMENTS, *readmes()]:
            for link in re.findall(r"\]\(([^)#:]+)(?:#[^)]*)?\)", read(name)):
                self.assertTrue(os.path.exists(os.path.join(TOP, os.path.dirname(name), link)), f"{link} in {name}")
                found += 1
        self.assertGreater(found, 40)

    def test_links_to_headings_lead_to_headings(self):
        """As a page on the web has their anchors: small letters, no signs, dashes for blanks."""
        found = 0
        for name in ["README.md", "examples/README.md", *glob.glob("docs/*.md", root_dir=TOP), *readmes()]:
            for link, anchor in re.findall(r"\]\(([^)#:\s]*)#([\w-]+)\)", read(name)):
                page = os.path.normpath(os.path.join(os.path.dirname(name), link)) if link else name
                if page.endswith(".md"):
                    titles = re.findall(r"^#+ (.*)$", re.sub(r"(?s)```.*?```", "", read(page)), re.M)
                    anchors = {re.sub(r"[^\w -]", "", title.lower()).replace(" ", "-") for title in titles}
                    self.assertIn(anchor, anchors, f"{link}#{anchor} in {name}")
                    found += 1
        self.assertGreater(found, 40)

    def test_paths_of_crates_are_there(self):
        found = 0
        for name in [*DOCUMENTS, *readmes()]:
            for path, of in paths_of(name):
                self.assertTrue(any(lies_in(crate, path) for crate in of), f"{path} in {name}")
                found += 1
        self.assertGreater(found, 200)

    def test_other_paths_are_there(self):
        for name in [*DOCUMENTS, *readmes()]:
            for path in re.findall(r"(?<![\w/.])((?:docs|crates|tests|tools|bench|examples)/[\w./*-]*\w)", read(name)):
                if "NAME" not in path:
                    self.assertTrue(glob.glob(os.path.join(TOP, path)), f"{path} in {name}")

    def test_crates_and_calls_that_are_named_are_there(self):
        calls = re.findall(r"^int32_t (daa_\w+)\(|^struct (daa_\w+) \{", read("crates/daa_c/include/daidalus.h"), re.M)
        there = {*crates(), *(name for call in calls for name in call if name)}
        self.assertGreater(len(there), len(crates()) + 10)
        for name in [*DOCUMENTS, *readmes()]:
            for crate in re.findall(r"\bdaa_\w+", read(name)):
                self.assertIn(crate, there, name)

    def test_threads_start_where_the_map_says(self):
        said = re.search(r"^- Threads start in (.*?) alone\.", read("docs/ARCHITECTURE.md"), re.M)[1]
        found = set()
        for path in glob.glob(os.path.join(TOP, "crates", "*", "src", "*.rt")):
            if os.path.basename(path) != "tests.rt" and re.search(r"\b(for_each_mut|for_each_chunk_mut|join_mut|spawn|spawn_with|scope)\b\(", read(path)):
                found.add((path.split(os.sep)[-3], os.path.basename(path)))
        self.assertEqual({(crate, file) for file, crate in re.findall(r"`(\w+\.rt)` of (\w+)", said)}, found)

    def test_only_screens_may_wait(self):
        for path in glob.glob(os.path.join(TOP, "crates", "*", "src", "*.rt")):
            if re.search(r"[:+] Wait\b", read(path)):
                self.assertIn(path.split(os.sep)[-3], ("daa_screen", "daa_cockpit"), path)


class OnOnePage(unittest.TestCase):
    """What is said on one page alone, the made pages apart."""

    MADE = {"docs/made/TRUST.md", "docs/made/DEFINITIONS.md", "docs/made/CALLS.md", "docs/made/MUTANTS.md"}

    def pages(self):
        pages = ["README.md", "examples/README.md", *glob.glob("docs/*.md", root_dir=TOP), *readmes()]
        return [name for name in pages if name not in self.MADE]

    def test_a_number_of_the_formats_is_said_on_one_page(self):
        for number in ("130176", "1897"):
            self.assertEqual([name for name in self.pages() if number in read(name)], ["docs/FORMATS.md"])

    def test_the_order_of_a_pictures_faults_is_said_on_one_page(self):
        self.assertEqual([name for name in self.pages() if "too many aircraft" in read(name)], ["docs/LIBRARY.md"])


class Layout(unittest.TestCase):
    def test_no_line_of_a_proof_is_long_but_an_import(self):
        for path in glob.glob("crates/*/proofs/**/*.antt", root_dir=TOP, recursive=True):
            for number, line in enumerate(read(path).splitlines(), 1):
                if not re.match("(pub )?use ", line):
                    self.assertLessEqual(len(line), 200, f"{path}:{number}")

    def test_no_clause_and_no_comment_of_code_is_long(self):
        for path in glob.glob("crates/*/src/**/*.rt", root_dir=TOP, recursive=True):
            for number, line in enumerate(read(path).splitlines(), 1):
                if not re.match(r' *(ghost use |#\[tactic|.*")', line):
                    self.assertLessEqual(len(line), 100, f"{path}:{number}")


class Mutants(unittest.TestCase):
    def setUp(self):
        text = read("docs/CONTRIBUTING.md")
        self.rows = re.findall(r"^\| (.*) \| (.*) \|$", text.split("| The mutant |")[1], re.M)

    def test_each_row_names_what_refuses_it(self):
        self.assertGreater(len(self.rows), 6)
        for body, refused_by in self.rows:
            self.assertNotIn("`", body)
            self.assertTrue(any(word in refused_by for word in ("`", "the signatures", "every test")), body)

    def test_each_name_is_a_test(self):
        found = 0
        for _, refused_by in self.rows:
            for name in re.findall(r"`([^`]*)`", refused_by):
                self.assertTrue(self.is_there(name, refused_by), f"{name}: {refused_by}")
                found += 1
        self.assertGreater(found, 5)

    def is_there(self, name, row):
        """It is a test of a crate that the row names, or a test of the gate."""
        for named in re.findall(r"\bdaa_\w+", row):
            files = [path for it in (named, *(name for name, those in tested().items() if named in those))
                     for path in glob.glob(os.path.join(TOP, "crates", it, "src", "**", "*.rt"), recursive=True)]
            if any(re.search(rf"#\[test\]\s+fn {re.escape(name)}\(", read(path)) for path in files):
                return True
        return name.startswith("tests/") and os.path.exists(os.path.join(TOP, name))


if __name__ == "__main__":
    unittest.main()
