"""The structs of the callers in Python and in Rust: their numbers are those of the exports, each with its name, its type and its
place; and how the program in Python ends where it makes no call. No archive is needed; tests/examples makes the calls themselves."""
import ctypes
import os
import pathlib
import re
import subprocess
import sys
import unittest

import structs
import daidalus  # (in the folder that structs names)
from common import TOP
from exports import numbers_of, parts, rust_structs

NAMES = ("Config", "Own", "Traffic", "Alert", "Fault", "Board", "Resolution", "Recovery", "Last", "Band")
TYPES = {"l": "int64_t", "L": "uint64_t", "i": "int32_t", "I": "uint32_t", "B": "uint8_t", "c": "uint8_t"}
RENAMED = {"least": "from", "most": "upto"}  # from is a word of Python


def numbers_in_python(struct, head="", at=0):
    """The numbers of a struct of ctypes, each as its path, its type and the bytes that it begins at."""
    found = []
    for name, kind in struct._fields_:
        path, place = head + RENAMED.get(name, name) if struct is structs.Band else head + name, at + getattr(struct, name).offset
        one, count = (kind._type_, kind._length_) if issubclass(kind, ctypes.Array) else (kind, None)
        for number in range(count or 1):
            each = path if count is None else f"{path}[{number}]"
            here = place + number * ctypes.sizeof(one)
            found += numbers_in_python(one, f"{each}.", here) if issubclass(one, ctypes.Structure) else [(each, TYPES[one._type_], here)]
    return found


def structs_in_rust():
    text = "\n".join(pathlib.Path(TOP, "examples/rust/src", name).read_text(encoding="utf-8") for name in ("lib.rs", "raw.rs"))
    found = re.findall(r"#\[repr\(C\)\]\n(?:#[^\n]*\n)*pub struct (\w+) \{(.*?)\n\}", text, re.S)
    return {name: parts(re.sub(r"//[^\n]*", "", body)) for name, body in found}


def shared_numbers(name):
    """The numbers of the struct that the exports share under this name: the one that begins with Daa, or else Own of daa_state."""
    found = rust_structs()
    return numbers_of(found, f"Daa{name}" if f"Daa{name}" in found else name)


class Structs(unittest.TestCase):
    def test_in_python(self):
        for name in (*NAMES, "Candidate", "Lines"):
            rows, size, _ = shared_numbers(name)
            self.assertEqual(numbers_in_python(getattr(structs, name)), rows, name)
            self.assertEqual(ctypes.sizeof(getattr(structs, name)), size, name)

    def test_a_configuration_goes_into_its_struct_and_back(self):
        """Each number is its place, but for the count of levels and whether there is a recovery."""
        rows, _, _ = numbers_of(rust_structs(), "DaaConfig")
        at = {path: place for place, (path, *_) in enumerate(rows, 1)}
        each = lambda kind, head: kind(**{name: at[f"{head}{name}"] for name in kind.__dataclass_fields__})
        config = daidalus.Config(at["resolve"], at["turn_rate"], at["track_step"], *(each(daidalus.Grid, f"{kind}.") for kind in ("gs", "vs", "alt")),
                                 [each(daidalus.Level, f"level[{place}].") for place in range(4)], each(daidalus.Cylinder, ""), at["last_times"])
        struct = daidalus.c_config(config)
        numbers = [int.from_bytes(bytes(struct)[place:place + 8], "little") for _, _, place in rows]
        self.assertEqual(dict(zip(at, numbers)), {**at, "recovery": 1, "count": 4})
        self.assertEqual(daidalus.config_of(struct), config)

    def test_in_rust(self):
        found = structs_in_rust()
        for name in NAMES:
            self.assertEqual(numbers_of(found, name), shared_numbers(name), name)


class ProgramInPython(unittest.TestCase):
    """As examples/README.md says of each program: 2 for wrong words, 1 for a file that is missing, and a line that says why."""

    def ended(self, *words):
        script = os.path.join(TOP, "examples", "python", "one_moment.py")
        run = subprocess.run([sys.executable, "-B", script, *words], stdin=subprocess.DEVNULL, capture_output=True, text=True, timeout=120)
        self.assertEqual((run.stdout, run.stderr.count("\n")), ("", 1), run.stderr)
        return run.returncode, run.stderr

    def test_wrong_words(self):
        for words in ([], ["lib.so"], ["lib.so", "a.toml", "whole"], ["lib.so", "a.toml", "report", "report"]):
            self.assertEqual(self.ended(*words), (2, "usage: one_moment.py LIBRARY CONFIGURATION [report]\n"), words)

    def test_files_that_are_missing(self):
        for words in (["./missing.so", os.path.join(TOP, "examples/three_levels.toml")], ["libc.so.6", "missing.toml"], ["libc.so.6", "missing.toml", "report"]):
            status, said = self.ended(*words)
            self.assertEqual(status, 1)
            self.assertIn("missing", said)


class Sentences(unittest.TestCase):
    """Each code of the header that is no 0 is told by its own words, in Python and, where Rust has a sentence for it, there too."""

    WORDS = {"CONFIG_TOO_LONG": "65536 bytes", "CONFIG_NOT_TOML": "TOML", "CONFIG_UNKNOWN_KEY": "not known", "CONFIG_MISSING_KEY": "lacks",
             "CONFIG_NOT_NUMBER": "whole number", "CONFIG_OUT_OF_RANGE": "divide 360", "CONFIG_LEVELS": "resolve", "CONFIG_TOO_MANY": "512 candidates",
             "BAD_OWN": "the ownship", "BAD_TRAFFIC": "an aircraft is out", "TOO_MANY": "64 aircraft", "SHORT": "too short", "NO_MEMORY": "memory",
             "BAD_ID": "an identifier is not", "SAME_ID": "two aircraft", "BAD_KIND": "the kind is none", "BAD_SIDE": "side", "BAD_INDEX": "index",
             "NOT_ASKED": "ask", "BAD_BOARD": "not decided", "OTHER_OWN": "another ownship", "OTHER_TIME": "another time",
             "DAMAGED_BOARD": "was changed", "TOO_OLD": "too old", "AHEAD": "second ahead",
             "BAD_RULE": "above 16", "BAD_LEVEL": "levels are none", "NOT_LATER": "moment before", "BAD_VALUE": "no flight", "TOO_FAR": "100 nautical"}

    def test_in_python_and_in_rust(self):
        text = pathlib.Path(TOP, "crates/daa_c/include/daidalus.h").read_text(encoding="utf-8")
        numbers = dict(re.findall(r"DAA_(\w+) = (\d+)", re.search(r"enum \{(.*?)\};", text, re.S)[1]))
        codes = {int(number): self.WORDS[name] for name, number in numbers.items() if name != "OK"}
        found = {code: [words for words in self.WORDS.values() if words in sentence] for code, sentence in daidalus.SENTENCES.items()}
        self.assertEqual(found, {code: [words] for code, words in codes.items()})
        rust = re.findall(r'(?m)^ +(\d+) => "([^"]+)",$', pathlib.Path(TOP, "examples/rust/src/lib.rs").read_text(encoding="utf-8"))
        self.assertGreater(len(rust), 14)
        self.assertLessEqual({(int(code), sentence) for code, sentence in rust}, set(daidalus.SENTENCES.items()))


if __name__ == "__main__":
    unittest.main()
