"""tools/show_live and tools/judge_session: what the server refuses, what browsers are told, and that a log can be judged."""
import os
import re
import signal
import socket
import time

import unittest

from common import CONFIG, TOP, ToolTest, program, replayed
from live_server import LINES, Listener, Live, child_of, moment, wait_for


def asked(port, text, wait=0.4):
    """The first line of what a server answers, and all of it."""
    with socket.create_connection(("127.0.0.1", port), 5) as there:
        there.settimeout(wait)
        there.sendall(text.encode())
        got = b""
        try:
            while piece := there.recv(65536):
                got += piece
        except (TimeoutError, ConnectionResetError):
            pass
    return got.split(b"\r\n")[0].decode(), got


class LiveTest(ToolTest):
    def live(self, *words, **how):
        made = Live(*words, **how)
        self.addCleanup(made.stop)
        return made

    def listener(self, port):
        made = Listener(port)
        self.addCleanup(made.close)
        return made

    def judged(self, folder, *words):
        return self.tool("judge_session", *words, folder)


class Refused(LiveTest):
    def test_who_is_answered(self):
        live = self.live("--alone")
        host = f"Host: 127.0.0.1:{live.port}\r\n"
        rows = [("GET / HTTP/1.1\r\n" + host, 200), (f"GET / HTTP/1.1\r\nHost: localhost:{live.port}\r\n", 200), ("GET /feed HTTP/1.1\r\n" + host, 200), ("GET /core.js HTTP/1.1\r\n" + host, 200),
                ("GET / HTTP/1.1\r\n", 403), ("GET / HTTP/1.1\r\n" + host + host, 403), (f"GET / HTTP/1.1\r\nHost: rebound.example:{live.port}\r\n", 403),
                ("GET / HTTP/1.1\r\nHost: 127.0.0.1\r\n", 403), ("GET /feed HTTP/1.1\r\n" + host + "Origin: http://other.example\r\n", 403),
                ("GET /feed HTTP/1.1\r\n" + host + "Origin: null\r\n", 403), ("GET /feed HTTP/1.1\r\n" + host + f"Origin: http://127.0.0.1:{live.port}\r\n", 200),
                ("GET /feed HTTP/1.1\r\n" + host + "Sec-Fetch-Site: cross-site\r\n", 403), ("GET /feed HTTP/1.1\r\n" + host + "Sec-Fetch-Site: same-site\r\n", 403),
                ("GET /core.js HTTP/1.1\r\n" + host + "Sec-Fetch-Site: cross-site\r\nSec-Fetch-Mode: no-cors\r\n", 403),
                ("GET / HTTP/1.1\r\n" + host + "Sec-Fetch-Site: cross-site\r\nSec-Fetch-Mode: navigate\r\nSec-Fetch-Dest: document\r\n", 200),
                ("GET / HTTP/1.1\r\n" + host + "Sec-Fetch-Site: cross-site\r\nSec-Fetch-Mode: navigate\r\nSec-Fetch-Dest: iframe\r\n", 403),
                ("GET /feed HTTP/1.1\r\n" + host + "Sec-Fetch-Site: cross-site\r\nSec-Fetch-Mode: navigate\r\n", 403),
                ("GET /../tools/show_live HTTP/1.1\r\n" + host, 404), ("GET /%2e%2e/README.md HTTP/1.1\r\n" + host, 404), ("GET /live/live.js HTTP/1.1\r\n" + host, 404),
                ("GET /?x HTTP/1.1\r\n" + host, 404), ("GET http://other.example/ HTTP/1.1\r\n" + host, 404),
                ("HEAD / HTTP/1.1\r\n" + host, 501), ("POST / HTTP/1.1\r\n" + host + "Content-Length: 3\r\n", 501), ("OPTIONS / HTTP/1.1\r\n" + host, 501),
                ("GET /feed HTTP/1.0\r\n", 403), ("GET /" + "a" * 70000 + " HTTP/1.1\r\n" + host, 414), ("GET / HTTP/1.1\r\n" + host + "X: y\r\n" * 200, 431), ("\0\r\n", 400)]
        for text, status in rows:
            first, whole = asked(live.port, text + "\r\n")
            self.assertIn(f" {status} ", first + " ", text[:200])
            if status == 200:
                for header in (b"Content-Security-Policy: default-src 'none'; ", b"X-Content-Type-Options: nosniff\r\n", b"Cross-Origin-Resource-Policy: same-origin\r\n", b"Cache-Control: no-store\r\n"):
                    self.assertIn(header, whole)
            self.assertNotIn(b"Access-Control", whole)

    def test_it_listens_on_one_address(self):
        live = self.live("--alone")
        socket.create_connection(("127.0.0.1", live.port), 5).close()
        self.assertRaises(OSError, socket.create_connection, ("127.0.0.2", live.port), 5)

    def test_a_few_browsers(self):
        live = self.live("--alone")
        answers = [self.listener(live.port).answer.status for _ in range(12)]
        self.assertEqual(answers, [200] * 8 + [503] * 4)

    def test_the_page_is_changed_as_told(self):
        """The served markup is that of page/ with the live part; every other file is as it stands there."""
        live = self.live("--alone")
        body = lambda path: asked(live.port, f"GET {path} HTTP/1.1\r\nHost: 127.0.0.1:{live.port}\r\nConnection: close\r\n\r\n", 5)[1].split(b"\r\n\r\n", 1)[1]
        with open(os.path.join(TOP, "page", "index.html"), "rb") as file:
            kept = file.read()
        served = body("/")
        for added in (b"; connect-src 'self'", b'<link rel="stylesheet" href="live.css">\n', b'<script src="live.js"></script>\n'):
            self.assertEqual((served.count(added), kept.count(added)), (1, 0))
            served = served.replace(added, b"")
        self.assertEqual(served, kept)
        for folder, name in (("page", "core.js"), ("page", "style.css"), ("tools/live", "live.js")):
            with open(os.path.join(TOP, folder, name), "rb") as file:
                self.assertEqual(body(f"/{name}"), file.read())

    def test_words_that_are_not_taken(self):
        with socket.create_server(("127.0.0.1", 0)) as taken:
            port = str(taken.getsockname()[1])
            for words, status, part in ((("--config", CONFIG, "--alone", "--port", port), 7, f"port {port}: "), (("--alone",), 2, "--config"),
                                        (("--config", "none.toml", "--alone"), 7, "none.toml"), (("--config", self.write("a.toml", "x = 1"), "--alone"), 2, "a.toml: "),
                                        (("--config", CONFIG, "--program", "/none"), 7, "/none can't be run"),
                                        (("--config", CONFIG, "--alone", "--log", self.write("file", "")), 7, "file")):
                self.assertEqual(self.tool("show_live", *words)[0], status, words)
                self.assertIn(part, self.tool("show_live", *words)[2])


class Shown(LiveTest):
    def test_a_session(self):
        """What comes is shown and logged, the log first; a browser that comes late gets the newest moment; the log is judged."""
        live = self.live("--log", os.path.join(self.folder, "logs"))
        first = self.listener(live.port)
        begin = first.until("begin")
        with open(CONFIG, encoding="utf-8") as file:
            self.assertEqual((begin["toml"], begin["name"], begin["compares"]), (file.read(), "three_levels", True))
        live.write(b"format 2\n# clock utc\n# ownship 4B0001\n")
        for second in range(100, 105):
            live.write(moment(second))
            shown = first.until("moment")
            self.assertEqual(shown["text"], moment(second).decode())
            self.assertTrue(live.log("001.states").endswith(moment(second)))
            report = first.until("report", time=second)["text"]
            self.assertIn(report.encode(), live.log("001.report"))
        self.assertEqual(live.log("001.states"), b"format 2\n# clock utc\n# ownship 4B0001\n" + b"".join(map(moment, range(100, 105))))
        self.assertEqual(live.log("001.report"), replayed(CONFIG, live.log("001.states"))[1])
        late = self.listener(live.port)
        self.assertEqual(late.until("begin")["head"], "format 2\n# clock utc\n# ownship 4B0001\n")
        self.assertEqual(late.until("moment"), {"text": moment(104).decode(), "number": 5})
        live.write(b"# no moment: the decoder is gone\n")
        self.assertEqual(first.until("quiet")["why"], "The decoder is gone.")
        live.write(moment(200))
        first.until("moment", number=6)
        status, told = live.end()
        self.assertEqual(first.until("quiet", why="The feed has ended.")["why"], "The feed has ended.")
        self.assertEqual(status, 0, told)
        self.assertIn(b"# no moment: the decoder is gone\nmoment 200\n", live.log("001.states"))
        self.assertEqual(self.judged(live.folder)[:2], (0, f"{live.folder}/001.states: 6 moments judged\n"))

    def test_silence_is_told(self):
        live = self.live("--alone")
        there = self.listener(live.port)
        live.write(moment(1))
        there.until("moment")
        begun = time.monotonic()
        self.assertRegex(there.until("quiet")["why"], r"No moment came for [12] s\.")
        self.assertGreater(time.monotonic() - begun, 1)

    def test_hostile_lines(self):
        """Lines of any kind: each moment reaches the browser by itself, what is refused is refused by the program, and the log is judged."""
        live = self.live("--log", self.folder)
        there = self.listener(live.port)
        live.write(moment(1))
        live.write(b"moment 2\nown 0 0 10000 0 3600 0\n" + moment(3))  # its writer was stopped
        live.write(b"end\nnonsense \xff\0\n" + moment(4, LINES + "traffic AMBER 1 2 3 4 5 6 7\n"))
        live.write(b"x" * 100000 + b"\n" + moment(4) + moment(5))
        live.write(b"moment 6\n" + b"traffic A 1 1 1 1 1 1 1\n" * 4000 + moment(7))
        live.write(b"# no moment: " + b"\xff" * 5000 + b"\n" + moment(9))
        while True:
            name, data = there.next()
            if name == "moment" and "moment 9\n" in data["text"]:
                break
        shown = [data["text"] for name, data in there.events if name == "moment"]
        self.assertTrue(all(text.count("\nend\n") == 1 for text in shown), shown)
        wait_for(lambda: b"\ndone 9\n" in live.log("001.report"), "the last moment is reported")
        status, told = live.end()
        self.assertEqual(status, 0, told)
        self.assertIn("a moment without its end is left out", told)
        self.assertIn("lines without an end are left out", told)
        status, out, _ = self.judged(live.folder)
        self.assertEqual(status, 0, out)
        status, report = replayed(CONFIG, live.log("001.states"))
        self.assertEqual((live.log("001.states").count(b"x" * 256 + b"\n"), max(map(len, live.log("001.states").split(b"\n")))), (1, 256))
        done, refused = report.count(b"\ndone "), report.count(b"refused ")
        self.assertTrue(status == 1 and done >= 6 and refused > 4, report)
        self.assertIn(f"{done} moments judged, {refused} lines refused\n", out)

    def test_a_program_that_is_killed_and_one_that_stands(self):
        """It is started anew, in a new part of the log; of what it did not report the log says so."""
        live = self.live("--log", self.folder)
        there = self.listener(live.port)
        live.write(b"format 2\n# clock utc\n" + moment(1))
        there.until("report", time=1)
        time.sleep(1.1)
        os.kill(child_of(live.run.pid), signal.SIGKILL)
        wait_for(lambda: "the program ended with -9" in "".join(live.told), "the end is told")
        live.write(moment(2))
        there.until("report", time=2)
        self.assertTrue(live.log("002.states").startswith(b"format 2\n# clock utc\nmoment 2\n"))
        time.sleep(1.1)
        os.kill(child_of(live.run.pid), signal.SIGSTOP)
        for second in range(3, 900):
            live.write(moment(second))
        wait_for(lambda: "the program is behind by 200 moments" in "".join(live.told), "it is told that the program is behind")
        time.sleep(1.1)
        live.write(moment(1000))
        there.until("report", time=1000)
        live.end()
        status, out, _ = self.judged(live.folder)
        self.assertEqual(status, 0, out)
        first, second, *_, last = out.splitlines()
        self.assertTrue(first.endswith("001.states: 1 moment judged") and re.search(r"states: \d+ moments? judged$", last), out)
        self.assertRegex(second, r"002.states: \d+ moments? judged, \d+ without a report$")
        logged = b"".join(live.log(name) for name in os.listdir(live.folder) if name.endswith(".states"))
        self.assertEqual(logged.count(b"\nend\n"), 900)

    def test_a_false_program(self):
        """Its reports are told as they are, and the log is not judged the same."""
        false = self.write("false", f"#!/bin/sh\n'{program()}' \"$@\" | sed -u 's/^alert AMBER 2/alert AMBER 3/'\n")
        os.chmod(false, 0o755)
        live = self.live("--log", self.folder, beside=false)
        there = self.listener(live.port)
        live.write(moment(1) + moment(2))
        there.until("report", time=1)
        there.until("report", time=2)
        live.end()
        status, out, _ = self.judged(live.folder)
        self.assertEqual(status, 1, out)
        self.assertIn("0 moments judged, NOT THE SAME: between the lines 1 and 11 of the states; the rest is not judged\n", out)


class Judged(LiveTest):
    """Logs that are longer than one judgement, written by hand."""

    def session(self, states, change=lambda report: report):
        folder = os.path.join(self.folder, "session")
        os.makedirs(folder, exist_ok=True)
        with open(CONFIG, "rb") as file:
            self.write("session/configuration.toml", file.read())
        report = replayed(CONFIG, states)[1]
        self.write("session/001.states", states)
        self.write("session/001.report", change(report))
        return folder

    def test_in_pieces(self):
        """Of 200 KB; with lines that are refused, also such as are refused by what came before them."""
        states = b"format 2\n"
        for second in range(1, 1700):
            states += moment(second) + b"nonsense\n" * (second % 97 == 0) + moment(second) * (second % 101 == 0)
        self.assertGreater(len(states), 3 * 65536)
        refused = 17 + 16 * 5
        self.assertEqual(self.judged(self.session(states))[:2], (0, f"{self.folder}/session/001.states: 1699 moments judged, {refused} lines refused\n"))
        for at in (b"done 1\n", b"done 600\n", b"done 1699\n"):
            status, out, _ = self.judged(self.session(states, lambda report: report.replace(b"\nalert AMBER 2", b"\nalert AMBER 3", 1) if at == b"done 1\n"
                                                      else report.replace(b"\n" + at, b"\nlast gs 3\n" + at)))
            self.assertEqual(status, 1, out)
            self.assertIn("NOT THE SAME", out)

    def test_a_report_that_ends_early(self):
        states = b"format 2\n" + b"".join(map(moment, range(1, 11)))
        folder = self.session(states, lambda report: report[:report.index(b"done 8\n")])
        self.assertRegex(self.judged(folder)[1], r"001.states: 7 moments judged, 3 without a report, \d\d+ bytes after the last whole report\n")

    def test_more_refused_lines_than_one_judgement_takes(self):
        states = b"format 2\n" + moment(1) + b"nonsense\n" * 8000 + moment(2)
        self.assertEqual(self.judged(self.session(states))[:2], (0, f"{self.folder}/session/001.states: 2 moments judged, 8000 lines refused\n"))

    def test_each_moment_comes_twice(self):
        """The second time it is refused, with its five lines, for what came before it: where no piece may begin."""
        states = b"format 2\n" + b"".join(moment(second) * 2 for second in range(1, 601))
        self.assertGreater(len(states), 2 * 65536)
        self.assertEqual(self.judged(self.session(states))[:2], (0, f"{self.folder}/session/001.states: 600 moments judged, 3000 lines refused\n"))

    def test_no_log(self):
        self.assertEqual(self.judged(self.folder)[0], 3)


if __name__ == "__main__":
    unittest.main()
