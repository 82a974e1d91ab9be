"""Wrong pages, part 1."""
import glob
import os

from mutants import MUTANTS, PARTS, WrongPages, is_there, of_part


class Part(WrongPages):
    part = 1

    def test_each_wrong_page_fails(self):
        self.check_each()

    def test_each_named_test_is_there(self):
        for *_, test in MUTANTS:
            self.assertTrue(is_there(test), test)

    def test_each_wrong_page_is_of_one_part(self):
        tried = [bug for part in range(1, PARTS + 1) for bug, *_ in of_part(part)]
        self.assertEqual(sorted(tried), sorted({bug for bug, *_ in MUTANTS}))
        here = os.path.dirname(os.path.realpath(__file__))
        self.assertEqual([f"test_mutants_{part}.py" for part in range(1, PARTS + 1)], sorted(glob.glob("test_mutants_*.py", root_dir=here)))
