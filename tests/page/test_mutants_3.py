"""Wrong pages, part 3."""
from mutants import WrongPages


class Part(WrongPages):
    part = 3

    def test_each_wrong_page_fails(self):
        self.check_each()
