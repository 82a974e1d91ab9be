"""The reader of TOML 1.1: what it takes and refuses by hand, and against python's reader of TOML 1.0."""
import tomllib
import unittest

from common import module
from toml_1_1 import Scalar, TomlFault, read_toml

# Texts that TOML 1.1 takes and TOML 1.0 does not, and what they are.
ONLY_1_1 = {
    "gs = { min = 1,\n  # a comment\n  max = 2, }": {"gs": {"min": 1, "max": 2}},
    "gs = {\r\n}": {"gs": {}},
    r'a = "\e\x41\xe9"': {"a": "\x1bAé"},
    "a = 07:32": {"a": Scalar("time", "07:32")},
    "a = 1979-05-27 07:32": {"a": Scalar("date", "1979-05-27 07:32")},
    "a = 23:59:60": {"a": Scalar("time", "23:59:60")},
    "a = 0000-02-29": {"a": Scalar("date", "0000-02-29")},
    "\ufeffa = 1": {"a": 1},
}
# What both take.
BOTH = {
    "a = 0x1b58\nb = 7_000\nc = +7000\nd = -0\ne = 0b11\nf = 0o17": {"a": 7000, "b": 7000, "c": 7000, "d": 0, "e": 3, "f": 15},
    "a.b = 1\na.c = 2\n[d]\n[d.e]\nf = 3": {"a": {"b": 1, "c": 2}, "d": {"e": {"f": 3}}},
    "[[level]]\nx = 1\n[[level]]\n[level.y]\nz = 2": {"level": [{"x": 1}, {"y": {"z": 2}}]},
    "a = [1,\n 2, # two\n]": {"a": [1, 2]},
    '"a b" = 1\n\'c\' = """\nx\\\n   y"""': {"a b": 1, "c": "xy"},
    "a = '''''two'' '''": {"a": "''two'' "},
    r'a = "\u00e9\U0001F600\b\t\n\f\r\"\\"': {"a": 'é\U0001F600\b\t\n\f\r"\\'},
    "a = 9223372036854775807\nb = -9223372036854775808": {"a": 2**63 - 1, "b": -2**63},
    "[a.b]\n[a]\nc = 1": {"a": {"b": {}, "c": 1}},
}
REFUSED = (
    "a =", "= 1", "a = 1 b = 2", "a = 01", "a = 1__0", "a = _1", "a = 1_", "a = .5", "a = 5.", "a = 1e", "a = +0x1", "a = 0X1", "a = 0x",
    "a = tru", "a = 1\na = 2", "a = 1\n[a]", "[a]\n[a]", "[a]\nb = 1\n[a.b]", "a = {b = 1}\n[a.c]", "a = {b = 1}\na.c = 2", "a = [{}]\n[[a]]",
    "[[a]]\n[a]", "[a.b]\nc = 1\n[a]\nb.d = 2", "a = {b = 1, b = 2}", "a = {,}", "a = {b = 1,,}", "a = [,]", "a = [1", "a = {b = 1", "[a", "[[a]",
    "[]", "[ [a]]", 'a = "x', 'a = "x\ny"', "a = 'x\x01'", "a = 1 # \x7f", "a = 1\r", "\r", "a = 1\rb = 2", r'a = "\q"', r'a = "\ud800"',
    r'a = "\x4"', r'a = "\u004"', r'a = "\U0001F60"', r'a = "\U00110000"', 'a = """a""""""', "a = 2021-02-29", "a = 1900-02-29", "a = 2021-13-01", "a = 24:00", "a = 23:60", "a = 07:32.5", "a = 1979-05-27T07:32+24:00",
    "a = 1\0", "a\n= 1", "a = \n1", "a b = 1", "a..b = 1", ".a = 1", "a. = 1", "{}", "a = 1, b = 2")
# The longest key, the deepest array, and days of leap years.
LONGEST = (".".join("a" * 80) + " = 1", "a = " + "[" * 80 + "]" * 80, "a = 2000-02-29", "a = 2024-02-29")
# What tomllib takes and the program's reader refuses.
ONLY_TOMLLIB = ("a = 9223372036854775808", "a = -9223372036854775809", "a = 1e999", "a = " + "[" * 81 + "]" * 81, ".".join("a" * 81) + " = 1")


def plain(value):
    """A value of tomllib in the terms of the other reader, as far as they can be compared."""
    if isinstance(value, dict):
        return {key: plain(inner) for key, inner in value.items()}
    if isinstance(value, list):
        return [plain(inner) for inner in value]
    return value if type(value) in (int, str) else "other"


def without_scalars(value):
    if isinstance(value, dict):
        return {key: without_scalars(inner) for key, inner in value.items()}
    if isinstance(value, list):
        return [without_scalars(inner) for inner in value]
    return "other" if isinstance(value, Scalar) else value


def is_toml(read, text):
    try:
        return read(text)
    except (TomlFault, ValueError, RecursionError):
        return None


class Toml(unittest.TestCase):
    def test_takes_what_only_1_1_takes(self):
        for text, wanted in ONLY_1_1.items():
            self.assertEqual(read_toml(text.encode()), wanted, text)
            self.assertIsNone(is_toml(tomllib.loads, text), text)

    def test_takes_what_both_take(self):
        for text, wanted in BOTH.items():
            self.assertEqual(read_toml(text.encode()), wanted, text)
            self.assertEqual(tomllib.loads(text), wanted, text)

    def test_takes_the_longest_key_and_the_deepest_array(self):
        for text in LONGEST:
            self.assertEqual(without_scalars(read_toml(text.encode())), plain(tomllib.loads(text)))

    def test_refuses(self):
        for text in REFUSED:
            self.assertRaises(TomlFault, read_toml, text.encode())
        self.assertRaises(TomlFault, read_toml, b"a = '\xff'")

    def test_refuses_what_only_tomllib_takes(self):
        for text in ONLY_TOMLLIB:
            self.assertRaises(TomlFault, read_toml, text.encode())
            self.assertIsNotNone(is_toml(tomllib.loads, text), text)
        self.assertEqual(len(read_toml(("a = " + "[" * 80 + "]" * 80).encode())), 1)

    def test_a_number_of_thousands_of_digits(self):
        for text in ("a = " + "9" * 5000, "a = -" + "1_" * 5000 + "1", "a = 0x" + "f" * 5000, "a = " + "9" * 5000 + ".0"):
            with self.assertRaisesRegex(TomlFault, r"^line 1: .{40}\.\. (does not fit 64 bits|is no value)$"):
                read_toml(text.encode())
        self.assertEqual(read_toml(b"a = 0b" + b"0" * 5000 + b"1"), {"a": 1})

    def test_names_the_line(self):
        with self.assertRaisesRegex(TomlFault, "^line 3: "):
            read_toml(b"a = 1\n\nb = \n")

    def test_agrees_with_tomllib_on_random_texts(self):
        """Where tomllib takes a text, the value is the same; where it does not, the text has what only 1.1 has."""
        draw = module("bench/soak").Draw(11)
        taken = refused = 0
        only_1_1 = r'\e', r'\x', "{", ":", "\ufeff"
        for _ in range(4000):
            text = draw.mutated(draw.configuration(draw.settings()))
            ours, theirs = is_toml(lambda text: read_toml(text.encode()), text), is_toml(tomllib.loads, text)
            if theirs is not None and ours is not None:
                self.assertEqual(without_scalars(ours), plain(theirs), text)
                taken += 1
            elif theirs is None and ours is None:
                refused += 1
            elif ours is not None:
                self.assertTrue(any(piece in text for piece in only_1_1), text)
            else:
                self.assertRegex(text, "[0-9]{10}|e[0-9]{3}", "only tomllib takes it")
        self.assertGreater(taken, 350)
        self.assertGreater(refused, 400)
