"""tools/keys.py: every other place that names the numbers of a configuration or of a state has those of its table, and no other."""
import json
import os
import re
import shutil
import subprocess
import unittest

import counting
from common import TOP, module

keys = module("tools/keys.py")
OPTIONAL = {key.name for key in keys.CONFIGURATION if key.may_be_left_out}
GRIDS = ("gs", "vs", "alt")


def text_of(path):
    with open(os.path.join(TOP, path), encoding="utf-8") as file:
        return file.read()


def names(table):
    return [key.name for key in keys.of_table(table)]


def fields_of_struct(text, name):
    """The numbers of a struct of C, in their order."""
    body = re.search(rf"struct {name} \{{\n(.*?)\n\}};", text, re.S)[1]
    return [name for _, listed in re.findall(r"^\s*(u?int\d+_t|struct \w+) ([^;]+);", body, re.M) for name in re.findall(r"\w+", listed.split("[")[0])]


class InTheEngine(unittest.TestCase):
    """The rows that the proved reader walks, with their ranges where these are plain numbers."""

    ROW = re.compile(r'(number|optional)\("(\w+)", ((?:[\w.()&-]+, )*)[*\w.]+\)')

    def rows(self, function):
        body = re.search(rf"fn {function}\(.*?\n\}}\n", text_of("crates/daa_config/src/rows.rt"), re.S)[0]
        return [(name, kind == "optional", [number for number in numbers.split(", ") if number]) for kind, name, numbers in self.ROW.findall(body)]

    def test_its_rows_are_those_of_the_table(self):
        for function, table in (("document_rows", ""), ("level_rows", "level"), ("recovery_rows", "recovery")):
            rows = self.rows(function)
            self.assertEqual([(name, optional) for name, optional, _ in rows], [(key.name, key.may_be_left_out) for key in keys.of_table(table)], table)
            for (_, optional, numbers), key in zip(rows, keys.of_table(table)):
                self.assertEqual([int(number) for number in numbers], [key.high] if optional else [key.low, key.high], key)

    def test_a_kind_has_the_same_rows(self):
        for kind in GRIDS:
            self.assertEqual([name for name, _, _ in self.rows("grid_rows")], names(kind))

    def test_the_bounds_of_the_kinds(self):
        text = text_of("crates/daa_config/src/limits.rt")
        for constant, kind in (("SPEEDS", "gs"), ("CLIMBS", "vs"), ("HEIGHTS", "alt")):
            low, high = map(int, re.search(rf"{constant}: Bounds = Bounds \{{\s*low: (-?\d+),\s*high: (-?\d+),", text).groups())
            of_kind = {key.name: (key.low, key.high) for key in keys.of_table(kind)}
            self.assertEqual(of_kind, {"min": (low, high), "max": (low, high), "step": (1, high - low), "rate": (1, 10000)}, kind)

    def test_the_ranges_of_states(self):
        text = text_of("crates/daa_state/specs/Ranges.antt")
        ranges = {}
        for name, low, high in re.findall(r"^(\w+) = record \{ low = (.*?); high = (.*?) \}", text, re.M):
            ranges[name] = tuple(-int(it.split("pos ")[1].strip(")")) if "neg" in it else int(it.split("pos ")[1]) for it in (low, high))
        for key in keys.BOUNDS:
            self.assertEqual(ranges["error_bounds"], (key.low, key.high), key)
        of_key = {"x": "positions", "y": "positions", "alt": "altitudes", "trk": "tracks", "gs": "ground_speeds", "vs": "vertical_speeds", "vx": "speeds",
                  "vy": "speeds", "age": "ages"}
        for key in keys.STATE:
            self.assertEqual(ranges[of_key[key.name]], (key.low, key.high), key)


class ForCallers(unittest.TestCase):
    def test_the_structs_of_the_header(self):
        header = text_of("crates/daa_c/include/daidalus.h")
        self.assertEqual(fields_of_struct(header, "daa_grid"), names("gs"))
        self.assertEqual(fields_of_struct(header, "daa_level"), names("level"))
        self.assertEqual(fields_of_struct(header, "daa_own"), names("own"))
        self.assertEqual(fields_of_struct(header, "daa_traffic"), names("traffic"))
        top = [name for name in fields_of_struct(header, "daa_config") if name not in (*GRIDS, "level", "recovery", "count")]
        self.assertEqual(sorted(top), sorted(names("") + names("recovery")))

    def test_the_structs_of_python(self):
        text = text_of("examples/python/daidalus.py")
        for struct, table in (("Grid", "gs"), ("Level", "level"), ("Own", "own")):
            self.assertEqual(re.search(rf'^    {struct} = struct\(\("([^"]*)"', text, re.M)[1].split(), names(table))
        traffic = re.search(r"^    Traffic = struct\((.*)\)$", text, re.M)[1]
        self.assertEqual(" ".join(re.findall(r'\("([^"]*)", c_u?int', traffic)).split(), names("traffic"))
        config = re.search(r"^    Config = struct\((.*?)\)\)$", text, re.M | re.S)[1]
        found = " ".join(re.findall(r'\("([^"]*)", c_int64\)', config)).split()
        self.assertEqual(sorted(found), sorted(names("") + names("recovery")))

    def test_the_structs_of_rust(self):
        text = text_of("examples/rust/src/raw.rs") + text_of("examples/rust/src/lib.rs")

        def fields(struct):
            body = re.search(rf"pub struct {struct} \{{(.*?)\n\}}", text, re.S)[1]
            return re.findall(r"pub (\w+): [iu]\d+,", body)

        for struct, table in (("Grid", "gs"), ("Level", "level"), ("Own", "own"), ("Traffic", "traffic")):
            self.assertEqual(fields(struct), names(table), struct)
        self.assertEqual(sorted(set(fields("Config")) - {"recovery", "count"}), sorted(names("") + names("recovery")))


class OnThePage(unittest.TestCase):
    def lists(self, *listed):
        """Constants of the page's scripts, as node computes them."""
        if not shutil.which("node"):
            self.skipTest(counting.lacking("node"))
        found = {}
        for path, name in listed:
            text = text_of(f"page/{path}")
            value = re.search(rf"const {name} = ([\[{{].*?[\]}}]);", text, re.S)[1]
            ran = subprocess.run(["node", "-e", f"console.log(JSON.stringify({value}))"], capture_output=True, text=True, check=True)
            found[name] = json.loads(ran.stdout)
        return found

    def test_the_lists_of_the_engine_in_the_page(self):
        found = self.lists(("core.js", "FIRST"), ("core.js", "AFTER_RECOVERY"), ("core.js", "GRID"), ("core.js", "LEVEL"), ("core.js", "RECOVERY"),
                           ("core.js", "OPTIONAL"), ("core.js", "OWN"), ("core.js", "TRAFFIC"))
        self.assertEqual(found["FIRST"] + found["AFTER_RECOVERY"], names(""))
        for name, table in (("GRID", "gs"), ("LEVEL", "level"), ("RECOVERY", "recovery"), ("OWN", "own"), ("TRAFFIC", "traffic")):
            self.assertEqual(found[name], names(table), name)
        self.assertEqual(set(found["OPTIONAL"]), OPTIONAL)

    def test_the_ranges_of_its_reader(self):
        found = self.lists(("toml.js", "RANGES"))["RANGES"]
        self.assertEqual(found, {**{key.name: [key.low, key.high, key.unit] for key in keys.of_table("")},
                                 **{table.name: {key.name: [key.low, key.high, key.unit] for key in keys.of_table(table.name)} for table in keys.TABLES}})


class InFormats(unittest.TestCase):
    def test_the_ranges_of_its_tables(self):
        """Each key has one row, which begins with its range; the exact words after it are free."""
        rows = {}
        for keyed, told in re.findall(r"(?m)^\| (`.*?) \| (.*?) \|", text_of("docs/FORMATS.md").partition("## Configuration")[2].partition("\n## ")[0]):
            table, _, listed = keyed.rpartition("` ")
            for name in (listed or keyed).strip("`").split(", "):
                rows[table.strip("`[]"), name] = told
        self.assertEqual(set(rows), {(key.table, key.name) for key in keys.CONFIGURATION})
        for key in keys.CONFIGURATION:
            said = "0 or 1; 0 if it is left out" if key.may_be_left_out else f"{key.low} to {key.high}"
            self.assertIn(said, rows[key.table, key.name].replace("a divisor of 360 from", "").strip(), key)

    def test_the_ranges_of_the_fields_of_a_state(self):
        part = text_of("docs/FORMATS.md").partition("| Field | Range |")[2].partition("\n\n")[0]
        rows = {name: told for names, told in re.findall(r"(?m)^\| (.*?) \| (.*?) \|", part) for name in re.findall(r"\b[A-Z]+\b", names)}
        for key in keys.STATE + keys.BOUNDS:
            self.assertEqual(rows[key.name.upper()], f"{key.low} to {key.high}", key)


class Versions(unittest.TestCase):
    def test_each_is_since_a_version_that_changes_tells(self):
        versions = re.findall(r"(?m)^## (\d+\.\d+\.\d+)", text_of("CHANGES.md"))
        for key in keys.CONFIGURATION + keys.STATE + keys.BOUNDS:
            self.assertIn(key.since, versions, key)


if __name__ == "__main__":
    unittest.main()
