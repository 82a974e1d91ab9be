"""When the script builds the program, and when not."""
import os
import re
import shutil
import subprocess

from checkout import Checkout, FILES, NEEDED


class Building(Checkout):
    def test_the_first_call_builds_and_runs(self):
        status, wrote, said = self.call("words", "a b", "", "--c=*")
        self.assertEqual((status, wrote), (0, b"<a b><><--c=*>"), said)
        count = len(NEEDED)
        lines = [f"there is no kept program: proving and building the program first, from TIME on: up to {count} crates, which takes minutes "
                 "(the first time ten to thirty on four processors)",
                 *(f"crate {number} of at most {count}: {crate}, done at TIME (since TIME)" for number, crate in enumerate(NEEDED, 1)),
                 "built after N min N s"]
        told = re.sub(r"\b\d+(?= (min|s)\b)", "N", re.sub(r"\d\d:\d\d:\d\d", "TIME", said))
        # (either of the first two may be done first)
        told = re.sub("(?<=crate [12] of at most 4: )(low|beside)", "A", told)
        self.assertEqual(told, "".join(f"daidalus: {line}\n" for line in lines).replace(": low", ": A").replace(": beside", ": A"))
        with open(f"{self.top}/crates/daa_program/out/build.log", encoding="utf-8") as log:
            self.assertIn("says the prover", log.read())

    @staticmethod
    def nicer(at):
        """By how much the priority of the proof at a place of the row is lower than that of these tests."""
        return min(5 * at, 19 - os.nice(0))

    def test_the_longest_chain_is_proved_first_by_the_processors_that_others_leave(self):
        self.assertEqual(self.call("words")[0], 0)
        every = len(os.sched_getaffinity(0))
        beside = f"beside 1 {self.nicer(1)}" if every > 1 else "beside 1 0"
        self.assertEqual(sorted(self.called()), sorted([f"low {max(1, every - 1)} 0", beside, f"daa_middle {every} 0", f"daa_program {every} 0"]))
        self.write("crates/beside/src/lib.rt", "a body that is longer than all that low is made of\n")
        self.assertEqual(self.call("words")[0], 0)
        self.assertEqual(self.called(), [f"beside {every} 0", f"daa_middle {every} 0", f"daa_program {every} 0"])

    def test_a_long_row_is_proved_by_one_processor_each(self):
        crates = "low:\nbeside:\nthird:\nfourth:\nfifth:\ndaa_program: low beside third fourth fifth\n"
        self.write("crates.txt", crates)
        for at, name in enumerate(("low", "beside", "third", "fourth", "fifth")):
            self.write(f"crates/{name}/src/lib.rt", "a body of some length\n" * (5 - at))
        asked = f"import runpy; it = runpy.run_path('{self.top}/tools/prove'); it['Proving'](it['Crates'](), it['HERE'], 4).all(['daa_program'])"
        subprocess.run(["python3", "-c", asked], env=self.words, cwd=self.top, stdout=subprocess.DEVNULL, check=True)
        wanted = {f"{name} 1 {self.nicer(at)}" for at, name in enumerate(("low", "beside", "third", "fourth"))}
        self.assertLessEqual(wanted, set(self.called()))

    def test_the_programs_status_is_not_the_builds(self):
        self.words["STATUS"] = "2"
        status, wrote, said = self.call("replay")
        self.assertEqual((status, wrote), (2, b""), said)
        self.assertEqual(self.proved(), sorted(NEEDED))
        self.assertEqual(self.call()[:2], (2, b"usage\n"))
        self.assertEqual(self.proved(), [])

    def test_nothing_is_built_for_who_asks_for_nothing(self):
        """A program that is there refuses these words itself."""
        for words, why in (((), "there is no command word"), (("",), "there is no command word"), *(((word,), f"the word {word} is not replay, exercise or judge")
                                                                                 for word in ("-h", "--config", "help")),
                           *((("exercise", word), f"the word {word} is not allowed there") for word in ("--help", "-h"))):
            self.refused(self.call(*words), f"there is no kept program, no program is built yet, and {why}; daidalus --help lists what is accepted")
        self.assertEqual(self.proved(), [])

    def test_a_new_date_builds_nothing(self):
        self.built()
        for path in FILES:
            os.utime(f"{self.top}/{path}")
            self.assertEqual(self.call("words", "w"), (0, b"<w>", ""), path)
        self.assertEqual(self.proved(), [])

    def test_a_source_that_is_written_anew_as_it_was_builds_nothing(self):
        self.built()
        for path, text in FILES.items():
            os.remove(f"{self.top}/{path}")
            self.write(path, text)
        self.assertEqual(self.call("words"), (0, b"<>", ""))
        self.assertEqual(self.proved(), [])

    def test_a_source_with_other_text_is_built_also_with_its_old_date_and_size(self):
        self.built()
        for path in FILES:
            if "crates/" in path and "other" not in path:
                was = os.stat(f"{self.top}/{path}")
                self.write(path, FILES[path].swapcase())
                os.utime(f"{self.top}/{path}", ns=(was.st_atime_ns, was.st_mtime_ns))
                self.assertEqual(self.call("words")[:2], (0, b"<>"))
                self.assertEqual(self.proved(), self.above(path.split("/")[1]), path)

    def test_a_source_that_goes_or_comes_and_another_row_are_built(self):
        self.built()
        os.remove(f"{self.top}/crates/low/proofs/Low.antt")
        self.call("words")
        self.assertEqual(self.proved(), self.above("low"))
        self.write("crates/daa_middle/specs/New.antt")
        self.call("words")
        self.assertEqual(self.proved(), self.above("daa_middle"))
        self.write("crates.txt", FILES["crates.txt"].replace("low: arrayvec", "low: arrayvec itoa"))
        self.call("words")
        self.assertEqual(self.proved(), self.above("low"))

    def test_another_toolchain_proves_all(self):
        self.built()
        self.write("../kit/KIT-ID", "another toolchain\n")
        os.remove(f"{self.top}/crates/daa_program/out/daa_program")
        self.call("words")
        self.assertEqual(self.proved(), sorted(NEEDED))

    def test_a_crate_that_the_program_does_not_need_builds_nothing(self):
        self.built()
        self.write("crates/other/src/lib.rt", "other text\n")
        self.write("crates.txt", FILES["crates.txt"] + "one_more: low\n")
        self.assertEqual(self.call("words"), (0, b"<>", ""))
        self.assertEqual(self.proved(), [])

    def test_another_program_in_its_place_is_built_again(self):
        self.built()
        self.write("crates/daa_program/out/daa_program", "#!/bin/sh\necho another\n")
        self.assertEqual(self.call("words")[:2], (0, b"<>"))
        self.assertEqual(self.proved(), ["daa_program"])

    def test_a_program_that_the_gate_has_noted_is_not_built_again(self):
        os.makedirs(f"{self.top}/crates/daa_program/out")
        shutil.copy(f"{self.place}/program", f"{self.top}/crates/daa_program/out/daa_program")
        subprocess.run(["bash", "-c", "source ./daidalus && note_program"], cwd=self.top, check=True)
        self.assertEqual(self.call("words"), (0, b"<>", ""))
        self.assertEqual(self.proved(), [])

    def test_it_runs_from_another_folder_and_through_a_link(self):
        os.symlink(f"{self.top}/daidalus", f"{self.place}/link")
        self.assertEqual(self.call("words", script=f"{self.place}/link", cwd="/")[:2], (0, b"<>"))
        self.assertEqual(self.call("words", script="../link", cwd=self.top), (0, b"<>", ""))
