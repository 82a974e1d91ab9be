"""Wrong pages, part 4."""
from mutants import WrongPages


class Part(WrongPages):
    part = 4

    def test_each_wrong_page_fails(self):
        self.check_each()
