"""The readers of configurations, state lines and reports in node, against the program and the tools."""
import os
import random
import re
import sys
import tempfile
import unittest

from nodes import HOW, NODE, STATES, in_node, on_page
from shared import EXAMPLES, RECOVERY, THREE_LEVELS, bytes_of, moments_of, replayed, tool
from daidalus_files import X, examine_config, read_report  # noqa: E402 (after shared, which says where it is)

sys.path.append(os.path.join(os.path.dirname(EXAMPLES), "tests", "tools"))
import test_toml  # noqa: E402 (the folder is no package)
from exports import numbers_of, rust_structs  # noqa: E402 (the folder is no package)


# Wrong configurations and lines.

VALUES = [b"0", b"1", b"-1", b"4", b"5", b"7", b"360", b"513", b"10001", b"99999999999999999999", b"1.5", b"true", b'"x"', b"0x10",
          b"1_000", b"0b1", b"1e3", b"1979-05-27", b"[1]", b"{a = 1}", b"+3", b"00", b"inf", b"07:32", b"'a'", b'"""a"""',
          b"9223372036854775807", b"-9223372036854775808"]
LEVEL = b"[[level]]\ndthr = 660\nzthr = 700\ntthr = 35\ntcoa = 0\nlookahead = 75\nalert = 55\ntcpa = 1\n"
EXTRA = [b"last_times = 1\n", b"last_times = 2\n", b"last_times = true\n", b"tau = 1\n", b"tep = 0\n", b"tep = 1\n", b"tau = 2\n", b"tau = true\n", LEVEL.replace(b"tcpa", b"tau"), LEVEL + b"tep = 1\n",
         b"\n[x]\n", b"\n[[level]]\n", b"\nresolve = 1\n", b"\n[recovery]\nhdist = 5\nvdist = 0\n", b"\nrecovery.hdist = 1\n",
         b"\ngs.min = 3\n", b"\xef\xbb\xbf", b"\xff", b"\r\n", b"# c\n", LEVEL, LEVEL.replace(b"660", b"0"), b"\x00", b"\t",
         b"alt = {min=0, max=10, step=1, rate=1}\n", b"[level]\n", b"[gs.sub]\n", b'"resolve" = 2\n', b"a.b.c = 1\n"]
LINES = [b"moment 5", b"end", b"own 0 0 0 0 0 0", b"traffic X 0 0 0 0 0 0", b"traffic X 0 0 0 0 0 0 5", b"format 1", b"format 2",
         b"format 4", b"moment 99999999999", b"moment +7", b"moment -0", b"own 0 0 1 360 0 0", b"traffic TOOLONGID 0 0 0 0 0 0",
         b"  # c", b"\xef\xbb\xbfend", b"x" * 256, b"#" + b"y" * 255, b"end\r", b"end \r\r", b"traffic a_-9 200001 0 0 0 0 0",
         b"own 1 2 3", b"__proto__", b"constructor 1", b"moment 4294967295", b"moment 4294967296",
         b"traffic AMBER 1 2 3 4 5 6 -0", b"own\t0\t 0 0 0 0 00", b"x" * 255, b"# " + b"z" * 252 + b"\r", b"# " + b"z" * 253 + b"\r"]


def wrong_config(draw, text):
    for _ in range(draw.randint(1, 3)):
        kind, at, lines = draw.randrange(6), draw.randrange(len(text)), text.split(b"\n")
        line = draw.randrange(len(lines))
        if kind == 0:
            text = text[:at] + text[at + 1:]
        elif kind == 1:
            text = text[:at] + bytes([draw.choice(b'=[]{}".,#_-+ \n\t01aZ\\\r')]) + text[at:]
        elif kind == 2:
            line = draw.choice([i for i, words in enumerate(lines) if b" = " in words and not words.startswith(b"#")] or [line])
            lines[line] = lines[line].split(b" = ")[0] + b" = " + draw.choice(VALUES)
            text = b"\n".join(lines)
        elif kind == 3:
            text = draw.choice([text + draw.choice(EXTRA), draw.choice(EXTRA) + text])
        elif kind == 4:
            text = b"\n".join(lines[:line] + lines[line + 1:])
        else:
            text = b"\n".join(lines[:line] + [draw.choice(lines)] + lines[line:])
        text = text or b"x"
    return text


def wrong_states(draw, text):
    lines = text.split(b"\n")
    for _ in range(draw.randint(1, 5)):
        i, kind = draw.randrange(len(lines)), draw.randrange(5)
        if kind == 0:
            lines[i:i + 1] = []
        elif kind == 1:
            lines.insert(i, draw.choice(LINES))
        elif kind == 2:
            lines.insert(i, draw.choice(lines))
        elif kind == 3 and lines[i]:
            at = draw.randrange(len(lines[i]))
            lines[i] = lines[i][:at] + bytes([draw.choice(b"0123456789-+ \t#A\xe9\r")]) + lines[i][at + draw.randrange(2):]
        else:
            fields = lines[i].split(b" ")
            if len(fields) > 1:
                fields[draw.randrange(1, len(fields))] = draw.choice([b"-1", b"300000", b"x", b"+0", b"12345678901", b"0000000001", b"", b"-0"])
                lines[i] = b" ".join(fields)
        lines = lines or [b""]
    return b"\n".join(lines)


@unittest.skipUnless(NODE, HOW)
class Readers(unittest.TestCase):
    maxDiff = 2000
    CONFIGS = [bytes_of(path) for path in (THREE_LEVELS, RECOVERY)]
    STATES = [bytes_of(os.path.join(EXAMPLES, f"{name}.states")) for name in ("encounter", "lines", "closed")]

    def compare(self, cases):
        """Each configuration with its states: the page's report, and the program's; the codes that came."""
        came = set()
        with tempfile.TemporaryDirectory() as folder:
            path = os.path.join(folder, "c.toml")
            for (config, states), report in zip(cases, in_node([["replay", *case] for case in cases])):
                with open(path, "wb") as file:
                    file.write(config)
                self.assertEqual(report, replayed(path, states), (config, states))
                came |= set(re.findall(r"(?m)^config \d+$", report))
                came |= {f"refused {code}" for code in re.findall(r"(?m)^refused \d+ (\d+)$", report)}
        return came

    def test_states_with_wrong_lines(self):
        draw = random.Random(5)
        came = self.compare([(self.CONFIGS[0], wrong_states(draw, draw.choice(self.STATES))) for _ in range(300)])
        self.assertLessEqual({f"refused {code}" for code in (1, 2, 3, 4, 5, 6, 7, 8, 9, 10, 11, 13, 14)}, came)

    def test_too_many_aircraft(self):
        lines = [f"traffic A{i} {i} 0 0 0 0 0" for i in range(66)]
        states = "\n".join(["moment 1", "own 0 0 0 0 0 0", *lines, "end", ""]).encode()
        self.assertIn("refused 12", self.compare([(self.CONFIGS[0], states)]))

    def test_wrong_configurations(self):
        draw = random.Random(9)
        texts = [wrong_config(draw, draw.choice(self.CONFIGS)) for _ in range(300)]
        texts.append(self.CONFIGS[0].replace(b"step = 500", b"step = 1"))
        texts.append(self.CONFIGS[0].replace(b"resolve = 2", b"resolve = 4"))
        came = self.compare([(text, self.STATES[2]) for text in texts])
        self.assertLessEqual({f"config {code}" for code in range(2, 9)}, came)

    def test_a_missing_key_is_told_at_its_table(self):
        text = self.CONFIGS[0].replace(b"[gs]\n", b"[gs]\n# here\n")
        table = text[text.index(b"[gs]"):].partition(b"[vs]")[0]
        text = text.replace(table, b"\n".join(line for line in table.split(b"\n") if not line.startswith(b"rate")))
        line = text[:text.index(b"[gs]")].count(b"\n") + 1
        self.assertEqual(in_node([["read", text]])[0], [[4, "gs.rate is missing", line]])

    def test_a_configuration_that_is_too_long(self):
        """By a byte; one of 65536 bytes is not."""
        texts = [self.CONFIGS[0].ljust(size, b"#") for size in (65536, 65537)]
        self.assertEqual([fault and fault[0] for fault in in_node([["faults", text] for text in texts])], [None, 1])
        self.assertEqual(self.compare([(text, self.STATES[2]) for text in texts]), {"config 1"})

    def test_sentences_of_codes_have_the_numbers_of_the_limits(self):
        causes = on_page("return daa.CAUSES;")
        numbers = {int(code): [int(number) for number in re.findall("[0-9]+", words)] for code, words in causes.items()}
        self.assertEqual({code: some for code, some in numbers.items() if some}, {1: [65536], 7: [1, 4], 8: [512], 18: [64], 21: [1, 8]})

    def test_a_number_of_each_of_many_levels_counts(self):
        """Of nine; out of its range it comes before their count."""
        many = self.CONFIGS[0] + 5 * LEVEL
        self.assertEqual(many.count(b"[[level]]"), 8)
        texts = [many + last for last in (LEVEL, LEVEL.replace(b"660", b"0"))]
        self.assertEqual([fault[0] for fault in in_node([["faults", text] for text in texts])], [7, 6])
        self.assertEqual(self.compare([(text, b"") for text in texts]), {"config 6", "config 7"})

    def test_the_texts_of_toml_are_those_that_the_program_takes(self):
        """Those by hand of the tools' reader: code 2 where it is no TOML, and another one where it is."""
        texts = [text.encode() for some in (test_toml.ONLY_1_1, test_toml.BOTH, test_toml.REFUSED, test_toml.LONGEST, test_toml.ONLY_TOMLLIB) for text in some]
        self.assertLessEqual({"config 2", "config 3"}, self.compare([(text, b"") for text in texts]))
        escaped = self.CONFIGS[0].replace(b"resolve = 2", b'"resolv\\u0065" = 2')
        self.assertEqual((escaped != self.CONFIGS[0], self.compare([(escaped, self.STATES[2])])), (True, set()))

    def test_the_key_of_last_times(self):
        """It may be left out, and is 0 or 1; the codes are the program's."""
        keys, range_of = [b"", b"last_times = 0\n", b"last_times = 1\n"], "is outside 0 to 1 (0 or 1)"
        wrong = [(b"last_times = 2\n", 6, f"last_times = 2 {range_of}"), (b"last_times = -1\n", 6, f"last_times = -1 {range_of}"),
                 (b"last_times = true\n", 5, "last_times = true is no whole number (0 or 1)")]
        texts = [key + self.CONFIGS[1] for key in (*keys, *(key for key, *_ in wrong))]
        self.assertEqual(in_node([["read", it] for it in texts]), [[]] * 3 + [[[code, why, 1]] for _, code, why in wrong])
        came = self.compare([(it, self.STATES[2]) for it in texts])
        self.assertEqual({it for it in came if it.startswith("config")}, {"config 5", "config 6"})

    def test_a_level_has_one_model(self):
        """Of its three keys each may be left out, each is 0 or 1, and one at most is 1; the codes are the program's."""
        text = self.CONFIGS[1]
        level = text.index(b"[[level]]") + len(b"[[level]]\n")
        line = text[:level].count(b"\n") + 1
        range_of = "is outside 0 to 1 (0 or 1)"
        cases = [(b"", b"tcpa = 1", None), (b"tau = 1\n", b"tcpa = 0", None), (b"tep = 1\n", b"", None), (b"tep = 0\ntau = 0\n", b"tcpa = 1", None),
                 (b"tau = 1\ntep = 1\n", b"", [6, "level 1, tau and tep are 1, and at most one may be", line + 1]),
                 (b"tau = 1\n", b"tcpa = 1", [6, "level 1, tcpa and tau are 1, and at most one may be", line]),
                 (b"tau = 2\n", b"", [6, f"level 1, tau = 2 {range_of}", line]), (b"tep = -1\n", b"", [6, f"level 1, tep = -1 {range_of}", line]),
                 (b"tau = true\n", b"", [5, "level 1, tau = true is no whole number (0 or 1)", line])]
        texts = [text[:level] + added + text[level:].replace(b"tcpa = 0", tcpa) for added, tcpa, _ in cases]
        self.assertEqual(in_node([["faults", it] for it in texts]), [told for *_, told in cases])
        came = self.compare([(it, self.STATES[0]) for it in texts])
        self.assertEqual({it for it in came if it.startswith("config")}, {"config 5", "config 6"})

    def test_all_faults_are_those_of_the_tools(self):
        """Of documents that can be read, each fault's code and sentence; without the engine."""
        draw, codes = random.Random(19), set()
        texts = [wrong_config(draw, draw.choice(self.CONFIGS)) for _ in range(400)]
        texts += [key + self.CONFIGS[1].replace(b"nearest = 1", nearest).replace(b"tcpa = 0", models) for key in (b"", b"last_times = 1\n", b"last_times = 2\n")
                  for nearest in (b"", b"nearest = 0", b"nearest = 2") for models in (b"tep = 1", b"tau = 1", b"tau = 1\ntep = 1", b"tep = 1\ntcpa = 1", b"")]
        found = [(text, [(fault.code, fault.why) for fault in examine_config(text)[1]]) for text in texts]
        found = [(text, faults) for text, faults in found if not faults or faults[0][0] > 2]
        self.assertGreater(len(found), 200)
        for (text, wanted), got in zip(found, in_node([["read", text] for text, _ in found])):
            said = lambda faults: sorted((code, why.split("; known")[0]) for code, why, *_ in faults)
            self.assertEqual(said(got), said(wanted), text)
            codes |= {code for code, _ in wanted}
        self.assertLessEqual({3, 4, 5, 6}, codes)

    def test_a_report_is_read_as_the_tools_do(self):
        """Each line of the reports of aimed moments, with last times, of 0 and of none too, and recoveries; without the engine."""
        with tempfile.TemporaryDirectory() as folder:
            path, report = (os.path.join(folder, name) for name in ("c.toml", "a.report"))
            with open(path, "wb") as file:
                file.write(b"last_times = 1\n" + bytes_of(RECOVERY))
            text = replayed(path, tool("moments", "--seed", "5", "--moments", "60", "--aimed"))
            with open(report, "w", encoding="utf-8") as file:
                file.write(text)
            wanted = read_report(report).moments
        last = [seconds for moment in wanted for seconds in moment.last.values()]
        self.assertTrue({0, None} <= set(last) and any(moment.recover for moment in wanted))
        for moment, said in zip(wanted, in_node([["report", one.encode()] for one in moments_of(text)]), strict=True):
            self.assertEqual(said["time"], moment.time)
            self.assertEqual([(it["id"], it["now"], it["level"], it["first"]) for it in said["aircraft"]], [(name, *it) for name, it in moment.alerts.items()])
            self.assertEqual({kind: [(it["from"], it["upto"], it["level"]) for it in bands] for kind, bands in said["bands"].items()}, moment.bands)
            self.assertEqual({kind: (it["lower"], it["upper"]) for kind, it in said["resolve"].items()}, moment.answers)
            self.assertEqual(said["last"], {kind: "none" if it is None else it for kind, it in moment.last.items()})
            self.assertEqual(said["recover"], {kind: "none" if it is None else {"after": it[0], "value": it[1]} for kind, it in moment.recover.items()})

    def test_a_configurations_struct_is_read_as_the_exports_have_it(self):
        """Each number is its place but for the count of levels, 4; without the engine."""
        rows, size, _ = numbers_of(rust_structs(), "DaaConfig")
        numbers = {path: 4 if path == "count" else place for place, (path, *_) in enumerate(rows, 1)}
        self.assertEqual(size, 8 * len(rows))
        config, other = in_node([["config", b"".join(it.to_bytes(8, "little") for it in {**numbers, "last_times": last}.values())] for last in (1, 0)])
        some = lambda head: {path.removeprefix(head): number for path, number in numbers.items() if path.startswith(head)}
        self.assertEqual((config["resolve"], config["lastTimes"], other["lastTimes"]), (numbers["resolve"], True, False))
        self.assertEqual(config["grids"], {**{kind: some(f"{kind}.") for kind in ("gs", "vs", "alt")}, "track": {
            "min": 0, "max": 360 - numbers["track_step"], "step": numbers["track_step"], "rate": numbers["turn_rate"]}})
        self.assertEqual(config["recovery"], {key: numbers[key] for key in ("hdist", "vdist", "nearest")})
        self.assertEqual(config["levels"], [some(f"level[{place}].") for place in range(4)])

    def test_the_sentence_of_a_fault_names_its_key(self):
        """The code and the sentence are those of tools/check, and the line has the key."""
        draw = random.Random(17)
        texts = [wrong_config(draw, draw.choice(self.CONFIGS)) for _ in range(300)]
        named = 0
        for text, got in zip(texts, in_node([["faults", text] for text in texts])):
            faults = examine_config(text)[1]
            self.assertEqual(got is None, not faults, text)
            if not faults or faults[0].code == 2:
                continue
            least = [fault.why for fault in faults if fault.code == faults[0].code]
            self.assertEqual(got[0], faults[0].code, text)
            self.assertIn(got[1].split("; known")[0], [why.split("; known")[0] for why in least])
            key = "step" if " candidates, " in got[1] else got[1].split(" ")[0].split(".")[-1].strip(",")
            if got[2] and got[0] != 4 and key.isidentifier() and key not in ("level", "there"):
                self.assertIn(key, text.decode().split("\n")[got[2] - 1])
                named += 1
        self.assertGreater(named, 25)
