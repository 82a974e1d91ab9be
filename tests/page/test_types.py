"""Types: the page's scripts are checked by TypeScript with its strict rules, by their JSDoc and by typed/page.d.ts."""
import json
import os
import re
import subprocess
import tempfile
import unittest

import counting
from shared import HERE, Page
from test_files import MADE, files

OPTIONS = {"allowJs": True, "checkJs": False, "noEmit": True, "strict": True, "target": "es2022", "lib": ["es2022", "dom", "dom.iterable"], "types": [], "moduleDetection": "legacy",
           "skipDefaultLibCheck": True}  # (TypeScript's own declarations are not what is tested)


def scripts():
    return {name: text for name, text in files().items() if name.endswith(".js") and name not in MADE}


class Types(unittest.TestCase):
    def test_each_script_is_checked(self):
        """It says so in its first line, and tsc finds nothing."""
        for name, text in scripts().items():
            self.assertTrue(text.startswith("// @ts-check\n"), name)
        counting.need("tsc")
        with tempfile.TemporaryDirectory() as folder:
            path = os.path.join(folder, "tsconfig.json")
            with open(path, "w", encoding="utf-8") as file:
                json.dump({"compilerOptions": OPTIONS, "files": [os.path.join(HERE, "typed", "page.d.ts"), *(os.path.join(Page.folder, name) for name in scripts())]}, file)
            checked = subprocess.run(["tsc", "-p", path], capture_output=True, text=True, timeout=600)
        self.assertEqual((checked.returncode, checked.stdout), (0, ""))

    def test_no_argument_is_a_bare_boolean(self):
        """What true or false means where it is handed over has a name, as in { isLast: true }."""
        for name, text in scripts().items():
            code = re.sub(r"\[[^\[\]]*\]", "[]", re.sub(r"(?m)^\s*(//|/?\*).*$", "", text))
            self.assertEqual(re.findall(r"(?m)^.*[(,] ?(?:true|false)[,)].*$", code), [], name)
