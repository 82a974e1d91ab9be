"""docs/FORMULAS.md, docs/FROM_DAIDALUS.md, counts of docs/MEASUREMENTS.md and the READMEs' words on the tools, held against the code that they tell of."""
import glob
import os
import re
import unittest

from common import CONFIG, ENCOUNTER, TOP, module
from daidalus_files import GRIDS, LEVEL, RECOVERY, TOP as TOP_KEYS, read_config, read_moments
from headings import SINES

import generator

KEYS = {*GRIDS, *LEVEL, *RECOVERY, *TOP_KEYS, "rate", "min", "max", "step", "keep", "now", "resolve", "recover"}
# Words of other libraries and of the tools that stand in FORMULAS.md.
OTHERS = {"rand_pcg", "rand_core", "seed_from_u64", "pick", "meets", "tools/reference", "Hold", "nearing", *KEYS}


def read(name):
    with open(os.path.join(TOP, name), encoding="utf-8") as file:
        return file.read()


def defined():
    """All names that the definitions of our crates define."""
    names = set()
    for path in glob.glob(os.path.join(TOP, "crates", "*", "specs", "**", "*.antt"), recursive=True):
        with open(path, encoding="utf-8") as file:
            names.update(re.findall(r"\bpub (?:record )?([A-Za-z_][A-Za-z_0-9]*)", file.read()))
    return names


class Formulas(unittest.TestCase):
    def setUp(self):
        self.text = read("docs/FORMULAS.md")

    def test_names_definitions_that_are_there(self):
        names, found = defined(), 0
        for words in re.findall(r"`([A-Za-z_]+)(?: Tau| Tcpa| Taumod| Tep)?`", self.text):
            if words not in OTHERS:
                self.assertIn(words, names)
                found += 1
        self.assertGreater(found, 40)

    def test_names_files_that_are_there(self):
        paths = re.findall(r"(daa_\w+/specs/(?:Inside/)?\w+\.antt)", self.text)
        self.assertGreater(len(paths), 20)
        for path in paths:
            self.assertTrue(os.path.exists(os.path.join(TOP, "crates", path)), path)

    def test_each_named_definition_stands_in_its_file(self):
        """Those that are told as `name`, file."""
        for name, path in re.findall(r"`([A-Za-z_]+)`, (daa_\w+/specs/(?:Inside/)?\w+\.antt)", self.text):
            self.assertRegex(read(f"crates/{path}"), rf"\bpub (?:record )?{name}\b", path)

    def test_the_table_of_sines(self):
        rows = re.findall(r"^\| \d+ \| ([0-9 ]+) \|$", self.text, re.M)
        self.assertEqual([int(sine) for row in rows for sine in row.split()], SINES)
        stated = read("crates/daa_heading/specs/Heading.antt").split("\nsines =")[1].split("[])")[0]
        self.assertEqual([int(sine) for sine in re.findall(r"\d+", stated)], SINES)

    def test_the_generators_first_outputs(self):
        rows = re.findall(r"^\| (\d+) \| ([0-9a-f, ]+) \| (\d+) \| (\d+) \| ([0-9 ]+) \|$", self.text, re.M)
        self.assertEqual(len(rows), 3)
        for seed, words, state, increment, outputs in rows:
            self.assertEqual([f"{word:08x}" for word in generator.words_of_seed(int(seed))], words.split(", "))
            draw = generator.Generator.of_seed(int(seed))
            self.assertEqual((draw.state, draw.increment), (int(state), int(increment)))
            self.assertEqual([draw.next() for _ in outputs.split()], [int(output) for output in outputs.split()])

    def test_the_constants(self):
        for constant in (generator.MULTIPLIER, generator.SEED_INCREMENT):
            self.assertIn(str(constant), self.text)


class Guide(unittest.TestCase):
    def test_the_last_times_of_the_example(self):
        """The lines that the guide shows of moment 30 are those of the reference."""
        told = read("docs/GUIDE.md").split("## How long a manoeuvre may wait\n")[1].split("\n## ")[0]
        lines = re.findall(r"^    (.+)$", told, re.M)
        moment = next(it for it in read_moments(ENCOUNTER) if it.time == 30)
        found = module("tools/reference").report_of(read_config(CONFIG)._replace(last_times=1), moment)
        self.assertEqual(found[-1 - len(lines):-1], lines)
        self.assertEqual(len(lines), 8)


class Measurements(unittest.TestCase):
    def test_the_crates_that_the_program_needs(self):
        rows = {name: below.split() for name, below in re.findall(r"^(\w+)[^:#\n]*:(.*)$", read("crates.txt"), re.M)}
        needed, waiting = set(), ["daa_program"]
        while waiting:
            name = waiting.pop()
            if name in rows and name not in needed:
                needed.add(name)
                waiting += rows[name]
        self.assertIn(f"The {len(needed)} crates that the program needs", read("docs/MEASUREMENTS.md"))

    def test_the_mutants(self):
        mutants = glob.glob(os.path.join(TOP, "crates", "*", "must-fail", "*"))
        self.assertIn(f"There are {len(mutants)} mutants now.", read("docs/MEASUREMENTS.md"))


class Words(unittest.TestCase):
    def test_each_key_has_its_parameter(self):
        table = read("docs/FROM_DAIDALUS.md").partition("## Parameters\n")[2].partition("\n## ")[0]
        here = re.findall(r"(?m)^\| .* \| (.*) \|$", table)
        named = {word for cell in here for words in re.findall("`([^`]*)`", cell) for word in re.findall(r"\w+", words)}
        self.assertEqual({*LEVEL, *RECOVERY, *TOP_KEYS, *GRIDS} - named, set())

    def test_the_reference_is_short(self):
        self.assertLessEqual(sum(read(f"tools/{name}").count("\n") for name in ("reference", "headings.py", "well_clear.py")), 480)

    def test_no_document_names_what_is_gone(self):
        for name in ["README.md", *glob.glob("docs/*.md", root_dir=TOP)]:
            self.assertNotIn("draw_bands", read(name), name)

    def test_tools_that_documents_name_are_there(self):
        for name in ["README.md", *glob.glob("docs/*.md", root_dir=TOP)]:
            for path in re.findall(r"(?<![\w/])((?:tools|bench|examples|tests/tools)/[A-Za-z_.0-9]+)\b", read(name)):
                self.assertTrue(os.path.exists(os.path.join(TOP, path.rstrip("."))), f"{path} in {name}")


if __name__ == "__main__":
    unittest.main()
