"""The whole chain: a simulated sky, a real decoder, tools/from_sbs, tools/show_live with the program, and the page in Chromium. Each part is
ended once and begun anew; meanwhile no band is ever shown of a moment that is not the present one; and the log is judged."""
import glob
import os
import re
import signal
import socket
import subprocess
import sys
import tempfile
import threading
import time
import unittest

import browser
import counting
from common import CONFIG, TOP, program
from live_server import child_of, wait_for
from test_shown import LOOK, OLD

HERE = os.path.dirname(os.path.realpath(__file__))
PYTHON = [sys.executable, "-B"]


def free_port():
    with socket.create_server(("127.0.0.1", 0)) as found:
        return found.getsockname()[1]


class Chain:
    """The parts under way, each by its name; what from_sbs writes goes to the server that there is now."""

    def __init__(self, folder):
        self.folder, self.runs, self.ports = folder, {}, {name: free_port() for name in ("frames", "lines", "page")}
        self.is_over = False
        for name in ("decoder", "sky", "server", "feed"):
            self.begin(name)
        threading.Thread(target=self.carry, daemon=True).start()

    def command(self, name):
        frames, lines, page = (str(self.ports[it]) for it in ("frames", "lines", "page"))
        if name == "decoder":
            return ["dump1090-mutability", "--net-only", "--net-bind-address", "127.0.0.1", "--net-ri-port", frames, "--net-ro-port", "0", "--net-sbs-port", lines, "--net-bi-port", "0",
                    "--net-bo-port", "0", "--lat", "47", "--lon", "8", "--quiet", "--write-json", self.folder]
        if name == "sky":
            return [*PYTHON, os.path.join(HERE, "sky.py"), frames, "600", "8"]
        if name == "server":
            return [*PYTHON, os.path.join(TOP, "tools", "show_live"), "--config", CONFIG, "--port", page, "--log", os.path.join(self.folder, "logs"), "--program", program()]
        return [*PYTHON, os.path.join(TOP, "tools", "from_sbs"), "--own", "4B0001", "--json", os.path.join(self.folder, "aircraft.json"), f"127.0.0.1:{lines}"]

    def begin(self, name):
        pipes = {"stdin": subprocess.PIPE if name == "server" else subprocess.DEVNULL, "stdout": subprocess.PIPE if name == "feed" else subprocess.DEVNULL}
        with open(os.path.join(self.folder, f"{name}.told"), "ab") as told:
            self.runs[name] = subprocess.Popen(self.command(name), stderr=told, **pipes)

    def carry(self):
        while not self.is_over:
            line = self.runs["feed"].stdout.readline()
            if not line:
                time.sleep(0.05)
                continue
            try:
                self.runs["server"].stdin.write(line)
                self.runs["server"].stdin.flush()
            except (OSError, ValueError):
                time.sleep(0.01)  # it is gone: what comes meanwhile is lost

    def kill(self, name):
        self.runs[name].kill()
        self.runs[name].wait()

    def program(self):
        """The number of the program's process beside the server."""
        return child_of(self.runs["server"].pid)

    def close(self):
        self.is_over = True
        for name in ("sky", "decoder", "feed"):
            self.kill(name)
        self.runs["server"].stdin.close()
        try:
            self.runs["server"].wait(20)
        except subprocess.TimeoutExpired:
            self.kill("server")
        self.runs["feed"].stdout.close()

    def told(self):
        texts = []
        for path in sorted(glob.glob(os.path.join(self.folder, "*.told"))):
            with open(path, encoding="utf-8", errors="replace") as file:
                texts.append(f"{os.path.basename(path)}: {file.read()[-600:]}")
        return "\n".join(texts)


class Session(unittest.TestCase):
    def setUp(self):
        counting.need("dump1090-mutability", "chromium", "chromedriver")
        counting.need_module("selenium")
        folder = tempfile.TemporaryDirectory()
        self.addCleanup(folder.cleanup)
        self.folder = folder.name
        self.chain = Chain(self.folder)
        self.addCleanup(self.chain.close)
        self.browser = browser.Chromium()
        self.addCleanup(self.browser.close)
        self.browser.size(1440, 900)
        wait_for(self.is_served, "the server answers")
        self.browser.driver.get(f"http://127.0.0.1:{self.chain.ports['page']}/")

    def is_served(self):
        try:
            socket.create_connection(("127.0.0.1", self.chain.ports["page"]), 1).close()
        except OSError:
            return False
        return True

    def look(self):
        """What the page shows; nothing of it is of a moment that is not the present one."""
        try:
            seen = self.browser.js(LOOK)
        except Exception as fault:  # the page is being loaded anew
            self.assertRegex(str(fault), "document|undefined|null|daa|javascript")
            return None
        if seen["is"] != "past" and seen["time"] and seen["now"] - seen["time"] > OLD:
            self.assertEqual((seen["said"], seen["lines"], seen["chips"], seen["answers"]), (False, 0, 0, 0), seen)
        return seen

    def await_banner(self, what, words=""):
        def found():
            seen = self.look()
            return seen if seen and seen["is"] == what and words in seen["words"] else None
        return wait_for(found, f"the banner is {what} {words}: {self.look()}\n{self.chain.told()}")

    def ended(self, name, words):
        """Ends a part, and waits until the page says why nothing is current; then begins it anew, and waits until it is again."""
        self.chain.kill(name)
        self.await_banner("stale", words)
        self.chain.begin(name)
        self.await_banner("live")

    def test_each_part_ended_once(self):
        def often():
            told = re.search(r"the same (\d+) times", (seen := self.await_banner("live", "the program's report was the same"))["words"])
            return seen if told and int(told[1]) >= 5 else None
        seen = wait_for(often, "the program's report was the same 5 times")
        self.assertTrue(seen["said"] and seen["bands"] and seen["answers"], seen)
        with self.subTest("what is shown is what the log has"):
            self.assert_logged()
        with self.subTest("the decoder"):
            self.ended("decoder", "The decoder is gone.")
        with self.subTest("the reader of its lines"):
            self.ended("feed", "No moment came for ")
        with self.subTest("the sky"):
            self.ended("sky", "No report of the ownship for ")
        with self.subTest("the program"):
            before = self.await_banner("live", "the program's report was the same")["now"]
            os.kill(self.chain.program(), signal.SIGKILL)
            wait_for(lambda: self.browser.js("return daa.live.compared") > before + 1 and self.look(), "the program reports again")
        with self.subTest("a program that stands"):
            number = self.chain.program()
            os.kill(number, signal.SIGSTOP)
            self.await_banner("live", "NO REPORT OF THE PROGRAM since ")
            os.kill(number, signal.SIGCONT)
            self.await_banner("live", "the program's report was the same")
        with self.subTest("the server"):
            session = self.browser.js("return daa.live.session")
            self.chain.kill("server")
            self.await_banner("stale", "The server of this page does not answer.")
            self.chain.begin("server")
            wait_for(lambda: self.look() and self.browser.js("return daa.live.session") not in ("", session), "the page is loaded anew")
            self.await_banner("live")
        with self.subTest("looking back"):
            wait_for(lambda: self.look()["length"] > 2, "there is a moment before")
            self.browser.js("document.getElementById('back').click()")
            time.sleep(2)
            self.await_banner("past", "NOT LIVE: ")
            self.browser.js("document.getElementById('go-live').click()")
            self.await_banner("live")
        self.assertEqual(self.browser.js("return daa.live.differing"), 0)
        self.chain.close()
        self.assert_judged()

    def assert_logged(self):
        """The shown report is the program's of that moment, as the log has it."""
        told = self.browser.js("""return [daa.page.current.time, [...document.querySelectorAll("#report .line")]
            .map((it) => [Number(it.dataset.line), it.querySelector("span").textContent])]""")
        shown = "".join(line + "\n" for _, line in sorted(told[1])).encode()
        self.assertGreater(len(shown), 300)
        [path] = glob.glob(os.path.join(self.folder, "logs", "*", "001.report"))

        def logged():
            with open(path, "rb") as file:
                return shown in file.read()
        wait_for(logged, f"the log has the report of {told[0]}")

    def assert_judged(self):
        folders = sorted(glob.glob(os.path.join(self.folder, "logs", "*")))
        self.assertEqual(len(folders), 2)
        judged = 0
        for folder in folders:
            run = subprocess.run([*PYTHON, os.path.join(TOP, "tools", "judge_session"), "--program", program(), folder], capture_output=True, text=True)
            self.assertEqual((run.returncode, run.stderr), (0, ""), run.stdout)
            judged += sum(int(line.split(": ")[1].split()[0]) for line in run.stdout.splitlines())
            self.assertNotIn("refused", run.stdout)
        self.assertGreater(judged, 25)


if __name__ == "__main__":
    unittest.main()
