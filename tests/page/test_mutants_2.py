"""Wrong pages, part 2."""
from mutants import WrongPages


class Part(WrongPages):
    part = 2

    def test_each_wrong_page_fails(self):
        self.check_each()
