"""The crates daa_c and daa_web: each of their functions is a call of one function below, and states that function's contract."""
import glob
import os
import re
import unittest

from common import TOP

FUNCTION = re.compile(r'pub (?:extern "C" )?fn (\w+)\(.*?\)(?: -> [^\n{]*?)?\n(.*?)\n\{\n(.*?)\n\}\n', re.S)
ITSELF = {"daa_version"}  # the functions that call none


def functions(*crates):
    """The clauses and the body of each public function of some crates that states a contract, by name."""
    found = {}
    for crate in crates:
        for path in glob.glob(os.path.join(TOP, "crates", crate, "src", "*.rt")):
            with open(path, encoding="utf-8") as file:
                for name, clauses, body in FUNCTION.findall(file.read()):
                    found[name] = " ".join(clauses.split()), body.strip()
    return found


class Wrappers(unittest.TestCase):
    def test_each_states_the_contract_of_what_it_calls(self):
        below = functions("daa_numbers", "daa_plane", "daa_steady")
        for crate, least in (("daa_c", 20), ("daa_web", 4)):
            wrappers = functions(crate)
            self.assertGreaterEqual(len(wrappers), least, crate)
            for name in wrappers.keys() - ITSELF:
                clauses, body = wrappers[name]
                called = re.fullmatch(r"daa_\w+::(\w+)\([\w\s,&*]*\)", body)
                self.assertTrue(called, f"{crate}: {name} is more than one call: {body}")
                self.assertEqual(clauses, below[called[1]][0], f"{crate}: {name} states another contract than {called[1]}")


if __name__ == "__main__":
    unittest.main()
