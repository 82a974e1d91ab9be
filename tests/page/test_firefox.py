"""The page in Firefox: where labels stand among twenty aircraft. All of the page's tests in a browser run there by `tests/page/run --firefox`."""
import os
import subprocess
import sys
import unittest

import counting
from shared import HERE

TESTS = ("test_layout.Layout.test_twenty_aircraft",)


class InFirefox(unittest.TestCase):
    def test_labels_stand_on_nothing_there_either(self):
        """In windows of four sizes."""
        counting.need("firefox-esr")
        counting.need_module("selenium")
        words = [sys.executable, os.path.join(HERE, "run"), "--firefox", *TESTS]
        done = subprocess.run(words, stdin=subprocess.DEVNULL, capture_output=True, text=True, timeout=600)
        self.assertEqual(done.stdout.rstrip().rpartition("\n")[2], f"{len(TESTS)} passed, 0 failed", done.stdout)
