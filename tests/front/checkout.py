"""The script over stand-ins for rt, the program and the machine's memory, in a checkout of its own."""
import contextlib
import os
import shutil
import subprocess
import tempfile
import time
import unittest

from common import LONG, TOP, text_of

SCRIPT = os.path.join(TOP, "daidalus")  # the script that is tested

FILES = {
    "crates.txt": "# a row each\nlow: arrayvec\nbeside:\ndaa_middle: low beside\nother: low\ndaa_program: daa_middle io # the last\n",
    "crates/low/src/lib.rt": "a body\n",
    "crates/low/specs/Low.antt": "a statement\n",
    "crates/low/proofs/Low.antt": "a proof\n",
    "crates/beside/src/lib.rt": "a body beside it\n",
    "crates/daa_middle/src/lib.rt": "another body\n",
    "crates/other/src/lib.rt": "of no use to the program\n",
    "crates/daa_program/src/main.rt": "the program\n",
}
NEEDED = ("low", "beside", "daa_middle", "daa_program")
# The toolchain. The compiler notes what it is called for, with how many processors and at which priority, says what the prover
# would, and makes what it is asked for.
RT = """#!/bin/sh
[ "$1" != doc ] || echo "$PLACE/kit/START-HERE.md"
[ "$1" != version ] || echo "a toolchain of stand-ins"
"""
COMPILER = """#!/bin/bash
name=$4 to=${!#} all=$*
jobs=${all##*--jobs } jobs=${jobs%% *}
echo "$name $jobs $(($(nice) - NICE))" >>"$PLACE/calls"
echo "$*" >>"$PLACE/words"
if [ "$(cat "$PLACE/hold" 2>/dev/null)" = "$name" ]; then
  echo $$ >"$PLACE/holding"
  while [ -e "$PLACE/hold" ]; do sleep 0.05; done
fi
[ "$(cat "$PLACE/edit" 2>/dev/null)" != "$name" ] || echo more >>../low/src/lib.rt
[ "$(cat "$PLACE/refuse" 2>/dev/null)" != "$name" ] || exit 1
echo 'fn f: proved, says the prover' && echo 'fn g: is proved low'
case $to in
*.rlib) mkdir -p "$to" && : >"$to/format" ;;
*) : >"$to" ;;
esac
"""
LINKER = """#!/bin/bash
[ ! -e "$PLACE/no_link" ] || exit 2
while [ "$1" != -o ]; do shift; done
cp "$PLACE/program" "$2"
"""

# The toolchain's other programs: one that keeps archives, and one that writes its words into a file.
AR = """#!/bin/sh
case $1 in
x) echo 'the heap' >"$3" ;;
*) cat "$3" >>"$2" ;;
esac
"""
TO_FILE = """#!/bin/bash
all=$*
while [ "$1" != -o ]; do shift; done
echo "$all" | sed "s|/tmp/[^ ]*/||g; s| -o .*||" >"$2"
"""

# Its first word says what it does; without words it ends as the program does, with the usage line and 2.
PROGRAM = """#!/bin/sh
case ${1-} in
'') echo usage; exit 2 ;;
words) shift; printf '<%s>' "$@" ;;
copy) exec cat ;;
flood) exec yes ;;
die) kill -"$2" $$ ;;
stay) exec sh -c 'echo here; exec sleep 60' ;;
*) [ "${STATUS-0}" != 3 ] || echo config 6; exit "${STATUS-0}" ;;
esac
"""


class Checkout(unittest.TestCase):
    """The script, in a checkout of four crates that the program needs and one that it does not."""

    def setUp(self):
        self.place = tempfile.mkdtemp(prefix="daidalus-front-")
        self.addCleanup(shutil.rmtree, self.place, ignore_errors=True)
        self.top = f"{self.place}/checkout"
        for path, text in FILES.items():
            self.write(path, text)
        shutil.copy(SCRIPT, f"{self.top}/daidalus")
        shutil.copytree(f"{TOP}/tools/front", f"{self.top}/tools/front")
        self.write("../meminfo", "MemAvailable: 99999999 kB\n")  # (the machine's own may be little)
        self.write("tools/prove", text_of("tools/prove").replace('"/proc/meminfo"', repr(f"{self.place}/meminfo")))
        os.chmod(f"{self.top}/tools/prove", 0o755)
        self.write("../kit/KIT-ID", "a toolchain\n")
        for name, text in (("bin/rt", RT), ("kit/bin/rattle", COMPILER), ("kit/bin/rattle-link", LINKER), ("program", PROGRAM)):
            self.write(f"../{name}", text)
            os.chmod(f"{self.place}/{name}", 0o755)
        self.words = {**os.environ, "PLACE": self.place, "NICE": str(os.nice(0)), "PATH": f"{self.place}/bin:/usr/local/bin:/usr/bin:/bin"}

    def write(self, path, text=""):
        os.makedirs(os.path.dirname(f"{self.top}/{path}"), exist_ok=True)
        with open(f"{self.top}/{path}", "w", encoding="utf-8") as file:
            file.write(text)

    def start(self, *words, **how):
        how = {"stdin": subprocess.DEVNULL, "stdout": subprocess.PIPE, "stderr": subprocess.PIPE, "env": self.words, **how}
        started = subprocess.Popen([how.pop("script", f"{self.top}/daidalus"), *words], **how)
        self.addCleanup(self.finish, started)
        return started

    def finish(self, started):
        with contextlib.suppress(ProcessLookupError):
            started.kill()
        started.communicate()

    def call(self, *words, given=None, **how):
        """Calls the script and returns its status, standard output and standard error."""
        if given is not None:
            how["stdin"] = subprocess.PIPE
        started = self.start(*words, **how)
        wrote, said = started.communicate(given, timeout=LONG)
        return started.returncode, wrote, (said or b"").decode()

    def called(self):
        """For which crates the compiler was called since this was asked last, with how many processors and at which priority."""
        file = f"{self.place}/calls"
        if not os.path.exists(file):
            return []
        with open(file, encoding="utf-8") as it:
            found = it.read().splitlines()
        os.remove(file)
        return found

    def proved(self):
        """The crates that were proved since this was asked last."""
        return sorted(it.split()[0] for it in self.called())

    def built(self):
        self.assertEqual(self.call("words")[0], 0)
        self.assertEqual(self.proved(), sorted(NEEDED))

    def refused(self, ended, sentence):
        """Status 70, nothing written, and the last line is this sentence."""
        status, wrote, said = ended
        self.assertEqual((status, wrote), (70, b""), said)
        self.assertEqual(said.splitlines()[-1], f"daidalus: {sentence}")

    def not_built(self, why):
        return f"the program was not built: {why}. What was said of it is in {self.top}/crates/daa_program/out/build.log"

    def until(self, holds):
        end = time.monotonic() + LONG
        while not holds():
            self.assertLess(time.monotonic(), end, "it did not come to it")
            time.sleep(0.02)

    def read_only(self):
        """Has calls made by nobody, who may not write here."""
        os.chmod(self.place, 0o755)
        for at, _, names in os.walk(self.place):
            os.chmod(at, 0o555)
            for name in names:
                os.chmod(f"{at}/{name}", 0o555)
        self.addCleanup(lambda: [os.chmod(at, 0o755) for at, _, _ in os.walk(self.place)])
        return {"user": 65534, "group": 65534, "extra_groups": []} if os.geteuid() == 0 else {}

    NO_RT = ("and there is no rt on the PATH to prove and build one: "
             "install the toolchain (docs/CONTRIBUTING.md), or add its folder bin to the PATH")

    def not_taken(self, why):
        return self.line(2, f"{why}; daidalus --help lists what is accepted", "Command words")

    def line(self, status, why, section="Statuses"):
        self.assertIn(f"\n## {section}\n", text_of("docs/FORMATS.md"))
        return f'daidalus: status {status}: {why} (docs/FORMATS.md, "{section}")\n'

    def hold_find(self):
        """Has each look at the sources wait until there is a file `go`."""
        self.write("../bin/find", '#!/bin/sh\necho >>"$PLACE/looks"\nwhile [ ! -e "$PLACE/go" ]; do sleep 0.01; done\nexec /usr/bin/find "$@"\n')
        os.chmod(f"{self.place}/bin/find", 0o755)

    def above(self, crate):
        """A crate and those that stand on it."""
        return sorted({crate, *(NEEDED[2:] if crate in NEEDED[:2] else NEEDED[3:])})

    def change(self, text="another body\n"):
        self.write("crates/low/src/lib.rt", text)
