"""Answers of the script itself."""
import re
import subprocess

from checkout import Checkout
from common import text_of


class Answers(Checkout):
    def test_the_version_is_that_of_the_header(self):
        self.write("crates/daa_c/include/daidalus.h", "#define DAA_VERSION 12345 /* a comment */\n")
        self.assertEqual(self.call("--version"), (0, b"daidalus 1.23.45\n", ""))

    def test_what_help_says_of_options_is_what_the_formats_say(self):
        said = self.call("--help")[1].decode()
        options = re.findall(r"^\| `--(\w+)` \| (\d+) to (\d+); (\d+) if it is left out \|", text_of("docs/FORMATS.md"), re.M)
        self.assertEqual([name for name, *_ in options], ["workers", "ahead"])
        for name, low, high, default in options:
            self.assertRegex(said, rf"(?m)^--{name} .*, {low} to {high} \({default}\)$")
        for name, low, high in re.findall(r"^\| `--(\w+)` \| (\d+) to (\d+) \|", text_of("docs/FORMATS.md"), re.M):
            self.assertRegex(said, rf"(?m)^--{name} .*, {low} to {high}$")
        named = re.findall(r"^\| `--(\w+)` \| ", text_of("docs/FORMATS.md"), re.M)
        self.assertEqual(re.findall(r"(?m)^--(\w+) ", said), named)
        self.assertEqual(len(named), 6)
        usage = re.search("^usage: (.*)\n", text_of("docs/FORMATS.md"), re.M)[1]
        for part in usage.removeprefix("daidalus ").split(" | "):
            self.assertIn(f" daidalus {part}", said)
        self.assertEqual(self.proved(), [])

    def test_an_answer_that_cannot_be_written_ends_with_5(self):
        self.write("crates/daa_c/include/daidalus.h", "#define DAA_VERSION 12345\n")
        for word in ("--version", "--help"):
            for into in (">/dev/full", ">&-"):
                ran = subprocess.run(["bash", "-c", f"'{self.top}/daidalus' {word} {into}"], env=self.words, stderr=subprocess.PIPE)
                self.assertEqual((ran.returncode, ran.stderr), (5, b"daidalus: standard output could not be written\n"))
        self.assertEqual(self.proved(), [])
