"""The names that docs/PROVED.md, docs/ANSWERS.md, docs/ASSURANCE.md, the READMEs of the crates and the words of the house in
docs/CONTRIBUTING.md cite, held against the sources."""
import functools
import glob
import os
import re
import unittest

from common import TOP, module

made = module("tools/made")

PAGES = ("docs/PROVED.md", "docs/ANSWERS.md", "docs/ASSURANCE.md")
# Words in backquotes that are of the formats, of the toolchain or of std, and no names of ours.
OTHERS = {"same", "differs", "states", "long", "requires", "replay", "judge", "exercise", "format", "recover", "malloc", "nearest",
          "Vec", "String", "Result", "Ok", "None", "Err", "Display", "ArrayVec", "Wait", "Abort", "Threads", "resolve", "done", "rt",
          "daidalus", "recovery", "bench", "examples"}
# And those that stand in READMEs: words of the language, of the kit and of its crates, and of stored runs.
OF_KIT = {"unfoldable", "omega", "subst", "match", "tt", "unfolding", "search", "simp", "refl", "do", "if", "u32", "usize", "Set",
          "is_unsigned_in", "ParsesUnsigned", "Words", "Copy", "Default", "clap", "left_right", "logbook", "rtrb", "slots_beside",
          "args", "stdin", "data", "stdout", "run_", "write_", "say_x", "__heap_base"}
NAME = re.compile(r"[A-Za-z_][A-Za-z_0-9]*(?:::[A-Za-z_][A-Za-z_0-9]*)*")


@functools.cache
def names():
    """What the sources name: definitions with their fields and forms, and of the code functions, types, fields, forms and
    labels of clauses; and Type::call where a type has the call."""
    found, specs = set(), made.trust.Specs()
    for file in specs.files.values():
        found |= {one.name for one in file.definitions} | {*file.constructors}
        found |= set(re.findall(r"(?m)^\s+pub (\S+) : ", file.text)) | set(re.findall(r"(?m)^\s+(\w+) : ", file.text))
    for path in glob.glob(os.path.join(TOP, "crates", "*", "src", "**", "*.rt"), recursive=True):
        path = os.path.relpath(path, TOP)
        text = made.trust.text_of(path)
        found |= set(re.findall(r"\b(?:fn|struct|enum|trait|const|static|ensures\*?|requires\*?|ghost) (\w+)", text))
        found |= set(re.findall(r"(?m)^\s+(?:pub )?(\w+)(?:: |,$|\(.*\),$| \{$)", text))
        found |= {f"{item.owner}::{item.name}" for item in made.items_of(path) if item.owner}
        found |= set(re.findall(r"impl(?:<.*?>)? (?:[\w<>]+ for )?(\w+)", text))
    found |= set(re.findall(r"\bDAA_\w+", made.trust.text_of("crates/daa_c/include/daidalus.h")))
    return found


@functools.cache
def lemmas():
    """What the files of proofs name, and the modules of the code."""
    found = set()
    for path in glob.glob(os.path.join(TOP, "crates", "*", "proofs", "**", "*.antt"), recursive=True):
        text = made.trust.text_of(os.path.relpath(path, TOP))
        found |= set(re.findall(r"(?m)^\s*(?:(?:abbrev|unfoldable) )?(?:pub )?(?:record |data )?(\S+) (?::|\()", text))
    for path in glob.glob(os.path.join(TOP, "crates", "*", "src", "lib.rt")):
        found |= set(re.findall(r"\bmod (\w+);", made.trust.text_of(os.path.relpath(path, TOP))))
    return found


def is_there(span):
    """The name is one of the sources', or each part of Type::call is."""
    known = lambda part: part in names() or part in made.crates()
    return known(span) or all(known(part) for part in span.split("::"))


def cited(text):
    """The names in backquotes, each alone or as Type::call."""
    text = re.sub(r"(?s)```.*?```", "", text)
    return [span for span in re.findall(r"`([^`\n]+)`", text) if NAME.fullmatch(span)]


class Names(unittest.TestCase):
    def test_each_name_is_there(self):
        for page, least in zip(PAGES, (200, 60, 15)):
            spans = [span for span in cited(made.trust.text_of(page)) if span not in OTHERS]
            self.assertGreater(len(spans), least, page)
            for span in spans:
                self.assertTrue(is_there(span), f"{span} in {page}")

    def test_each_name_of_a_readme_is_there(self):
        found = 0
        for page in made.readmes():
            for span in cited(made.trust.text_of(page)):
                if span not in OTHERS | OF_KIT:
                    self.assertTrue(is_there(span) or all(is_there(part) or part in lemmas() for part in span.split("::")),
                                    f"{span} in {page}")
                    found += 1
        self.assertGreater(found, 250)

    def test_each_name_of_the_words_of_the_house_is_there(self):
        table = made.trust.text_of("docs/CONTRIBUTING.md").partition("| Word | Means |\n")[2].partition("\n\n")[0]
        self.assertGreater(len(cited(table)), 12)
        for span in cited(table):
            self.assertTrue(is_there(span) or span in lemmas(), span)

    def test_the_function_of_a_claim_is_of_its_crate(self):
        """Where a cell of PROVED begins with a crate, the first name after it is a function or a type of that crate."""
        cells = re.findall(r"\| (daa_\w+) `([\w:]+)`", made.trust.text_of("docs/PROVED.md"))
        self.assertGreater(len(cells), 50)
        for crate, name in cells:
            texts = [made.trust.text_of(path) for path in made.trust.files_below(f"crates/{crate}/src", ".rt")]
            self.assertTrue(any(re.search(rf"\bfn {name.split('::')[-1]}\b", text) for text in texts), f"{crate} {name}")

    def test_files_are_there(self):
        for page in PAGES:
            for path in re.findall(r"`((?:tests|bench|tools|crates|examples)/[\w/.*]+)`", made.trust.text_of(page)):
                self.assertTrue(glob.glob(os.path.join(TOP, path)), f"{path} in {page}")


if __name__ == "__main__":
    unittest.main()
