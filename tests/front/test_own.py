"""Words, bytes, status and signals are the program's own."""
import os
import resource
import signal
import subprocess
import tempfile

from checkout import Checkout
from common import LONG, LONG_STATES


class Own(Checkout):
    def told(self, status, *words, **how):
        """What the script says where the program ends with this status."""
        self.words["STATUS"] = str(status)
        ended, _, said = self.call(*words, **how)
        self.assertEqual(ended, status)
        return said

    def test_each_status_is_passed_on_and_told_in_its_sentence(self):
        self.built()
        told = {0: "", 1: self.line(1, "lines of the states are refused: tools/check a.toml STATES says why", "Faults of lines"),
                2: self.not_taken("these command words are not accepted"),
                3: self.line(3, "the configuration a.toml is refused: tools/check a.toml says why", "Configuration"),
                4: self.line(4, "standard input could not be read to its end"), 5: self.line(5, "standard output could not be written"),
                6: self.line(6, "there was not enough memory to start"), 7: self.line(7, "a.toml cannot be read"),
                8: self.line(8, "standard input has more than 2^40 bytes")}
        with tempfile.TemporaryFile() as out:
            for status, said in told.items():
                self.assertEqual(self.told(status, "replay", "--config", "a.toml", stdout=out), said)
        judge = {**told, 1: "", 7: self.line(7, "a.toml or b.states cannot be read"),
                 9: self.line(9, f"the states b.states {LONG_STATES}", "Command words")}
        with tempfile.TemporaryFile() as out:
            for status, said in judge.items():
                self.assertEqual(self.told(status, "judge", "--config", "a.toml", "--states=b.states", stdout=out), said)
        for status in (10, 70, 128):
            self.assertEqual(self.told(status, "replay", "--config", "a.toml"), "")
        self.assertEqual(self.proved(), [])

    def test_a_pipe_that_takes_no_more_is_no_matter(self):
        self.built()
        self.assertEqual(self.told(5, "replay", "--config", "a.toml"), "")

    def test_a_line_names_the_word(self):
        self.built()
        nowhere, twice, missing = "the word {} is not allowed there", "--{} is given twice", "--{} is missing"
        cases = {
            (): "there is no command word",
            ("replya", "--config", "c"): "the word replya is not replay, exercise or judge",
            ("replay", "--confg", "c"): nowhere.format("--confg"),
            ("replay", "--config", "c", "more"): nowhere.format("more"),
            ("replay", "--config", "c", "a b"): nowhere.format("a\\ b"),
            ("replay", "--config", "c", "--seed", "7"): nowhere.format("--seed"),
            ("exercise", "--config", "c", "--ahead", "7"): nowhere.format("--ahead"),
            ("judge", "--config", "c", "--moments", "7"): nowhere.format("--moments"),
            ("replay",): missing.format("config"),
            ("exercise", "--config", "c", "--moments", "7"): missing.format("seed"),
            ("exercise", "--config", "c", "--seed", "7"): missing.format("moments"),
            ("judge", "--config", "c"): missing.format("states"),
            ("replay", "--config", "c", "--config=d"): twice.format("config"),
            ("judge", "--states=a", "--config", "c", "--states", "b"): twice.format("states"),
            ("replay", "--config"): "--config has no value",
            ("judge", "--config", "c", "--states", "--workers=1"): "--states has no value (--workers=1 is not one)",
            ("exercise", "--config", "c", "--seed", "7", "--moments", "-1"): "--moments has no value (-1 is not one)",
            ("replay", "--workers", "17", "--config", "c"): "--workers must be 1 to 16, not 17",
            ("replay", "--workers=0", "--config", "c"): "--workers must be 1 to 16, not 0",
            ("judge", "--workers=two", "--config", "c", "--states=d"): "--workers must be 1 to 16, not two",
            ("replay", "--config", "c", "--ahead", "1025"): "--ahead must be 0 to 1024, not 1025",
            ("exercise", "--config", "c", "--seed", "4294967296", "--moments", "5"):
                "--seed must be 0 to 4294967295, not 4294967296",
            ("exercise", "--config", "c", "--seed", "7", "--moments=0"): "--moments must be 1 to 10000, not 0",
            ("exercise", "--config", "c", "--seed", "7", "--moments=10001"): "--moments must be 1 to 10000, not 10001",
            ("replay", "--config", b"\xff"): "the word $'\\377' is not UTF-8",
        }
        for words, why in cases.items():
            self.assertEqual(self.told(2, *words), self.not_taken(why))

    def test_the_scripts_own_words_stand_alone(self):
        self.built()
        for words in (("--version", "more"), ("--help", "replay"), ("replay", "--help")):
            why = f"the word {words[0]} is not replay, exercise or judge" if words[0] != "replay" else "the word --help is not allowed there"
            self.assertEqual(self.told(2, *words), self.not_taken(why))

    def test_words_that_are_taken_are_not_blamed(self):
        self.built()
        for words in (
            ("replay", "--workers=+016", "--config", "c", "--ahead", "0", "--"),
            ("replay", "--workers=1", "--config", "c", "--ahead", "1024"),
            ("exercise", "--moments", "10000", "--seed=4294967295", "--config", "c", "--workers", "1"),
            ("exercise", "--moments", "1", "--seed=0", "--config", "c"),
            ("judge", "--states=--x", "--config", "c"),
        ):
            self.assertEqual(self.told(2, *words), self.not_taken("these command words are not accepted"))

    def test_a_line_names_the_file(self):
        self.built()
        self.write("../there.toml", "x = 1\n")
        there, gone, other = (f"{self.place}/{name}.toml" for name in ("there", "gone", "other"))
        refused = self.line(3, f"the configuration {there} is refused with code 6: tools/check {there} says why", "Configuration")
        self.assertEqual(self.told(3, "replay", "--config", there), refused)
        self.assertEqual(self.told(3, "judge", f"--config={there}", "--states", gone), refused)
        for states, config, named in ((gone, there, gone), (there, gone, gone), (gone, other, f"{other} or {gone}"),
                                      (there, there, f"{there} or {there}"), (there, self.place, self.place)):
            said = self.told(7, "judge", "--states", states, "--config", config)
            self.assertEqual(said, self.line(7, f"{named} cannot be read"))
        os.mkfifo(f"{self.place}/pipe")
        said = self.line(3, f"the configuration {self.place}/pipe is refused: tools/check {self.place}/pipe says why", "Configuration")
        self.assertEqual(self.told(3, "replay", "--config", f"{self.place}/pipe"), said, "a pipe can't be read once more")
        self.assertEqual(self.told(9, "judge", "--states", there, "--config", "c"),
                         self.line(9, f"the states {there} {LONG_STATES}", "Command words"))

    def test_a_line_names_a_file_such_that_it_can_be_pasted(self):
        self.built()
        self.write("../two words.toml", "x = 1\n")
        there, gone = (f"{self.place}/{name}.toml" for name in ("two words", "it's $gone"))
        pasted, lost = (name.replace("\\", "\\\\").replace(" ", "\\ ").replace("'", "\\'").replace("$", "\\$") for name in (there, gone))
        self.assertEqual(self.told(3, "replay", "--config", there),
                         self.line(3, f"the configuration {pasted} is refused with code 6: tools/check {pasted} says why", "Configuration"))
        self.assertEqual(self.told(1, "replay", "--config", there),
                         self.line(1, f"lines of the states are refused: tools/check {pasted} STATES says why", "Faults of lines"))
        self.assertEqual(self.told(7, "judge", "--config", gone, "--states="), self.line(7, f"{lost} or a file without a name cannot be read"))
        self.assertEqual(self.told(9, "judge", "--config", "c", "--states", gone), self.line(9, f"the states {lost} {LONG_STATES}", "Command words"))

    def test_an_end_by_a_signal_is_handed_on(self):
        self.built()
        for number in (signal.SIGTERM, signal.SIGKILL, signal.SIGSEGV, signal.SIGINT, signal.SIGHUP, signal.SIGPIPE):
            self.assertEqual(self.call("die", str(int(number))), (-number, b"", ""))

    def test_a_signal_ends_the_program_and_the_script(self):
        self.built()
        for number in (signal.SIGTERM, signal.SIGINT, signal.SIGHUP, signal.SIGQUIT, signal.SIGUSR1, signal.SIGUSR2):
            started = self.start("stay")
            self.assertEqual(started.stdout.readline(), b"here\n")
            started.send_signal(number)
            # (the pipe is at its end once the program has ended too, which it would by itself after 60 seconds)
            self.assertEqual(started.communicate(timeout=LONG / 4), (b"", b""))
            self.assertEqual(started.returncode, -number)

    def test_a_signal_to_the_process_group_ends_both_alike(self):
        """As Ctrl-C does: the program may have ended before the script hands it on."""
        self.built()
        for number in (signal.SIGINT, signal.SIGTERM, signal.SIGHUP, signal.SIGQUIT):
            for _ in range(5):
                started = self.start("stay", start_new_session=True)
                self.assertEqual(started.stdout.readline(), b"here\n")
                os.killpg(started.pid, number)
                self.assertEqual(started.communicate(timeout=LONG / 4), (b"", b""))
                self.assertEqual(started.returncode, -number)

    def test_a_signal_that_comes_first_is_kept_for_the_program(self):
        """It comes while the script looks whether the program is built."""
        self.built()
        self.hold_find()
        for _ in range(20):
            started = self.start("stay")
            self.until(lambda: os.path.exists(f"{self.place}/looks"))
            started.send_signal(signal.SIGTERM)
            self.write("../go")
            started.communicate(timeout=LONG)
            self.assertEqual(started.returncode, -signal.SIGTERM)
            for name in ("go", "looks"):
                os.remove(f"{self.place}/{name}")

    def test_an_end_by_a_signal_leaves_no_core_of_the_script(self):
        self.built()
        most = resource.getrlimit(resource.RLIMIT_CORE)[1]
        started = os.posix_spawn("/bin/bash", ["bash", "-c", f"ulimit -c {'unlimited' if most < 0 else most}; cd '{self.place}'; exec '{self.top}/daidalus' die 11"],
                                 self.words)
        ended = os.waitpid(started, 0)[1]
        with open("/proc/sys/kernel/core_pattern", encoding="ascii") as pattern:
            is_piped = pattern.read().startswith("|")  # (then no limit counts)
        self.assertEqual((os.WTERMSIG(ended), os.WCOREDUMP(ended) and not is_piped), (signal.SIGSEGV, False))

    def test_a_program_that_runs_holds_up_no_build(self):
        started = self.start("stay")
        self.assertEqual(started.stdout.readline(), b"here\n")
        self.proved()
        self.write("crates/low/src/lib.rt", "another body\n")
        second = self.start("words", "2")
        self.assertIn(b"there is no kept program: proving and building the program first", second.stderr.readline())
        self.assertEqual(second.communicate(timeout=LONG)[0], b"<2>")
        self.assertEqual(self.proved(), self.above("low"))

    def test_pipes_carry_the_programs_bytes(self):
        self.built()
        given = bytes(range(256)) * 20000
        self.assertEqual(self.call("copy", given=given), (0, given, ""))
        with tempfile.TemporaryFile() as file:
            file.write(b"read\nleft\n")
            file.seek(5)
            self.assertEqual(self.call("copy", stdin=file)[:2], (0, b"left\n"))

    def test_a_reader_that_goes_ends_the_program(self):
        self.built()
        started = self.start("flood")
        started.stdout.read(10)
        started.stdout.close()
        self.assertEqual(started.wait(timeout=LONG), -signal.SIGPIPE)

    def test_standard_input_may_be_closed(self):
        self.built()
        ran = subprocess.run(["bash", "-c", f"'{self.top}/daidalus' words w <&-"], env=self.words, stdout=subprocess.PIPE)
        self.assertEqual((ran.returncode, ran.stdout), (0, b"<w>"))
