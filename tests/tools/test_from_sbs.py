"""tools/from_sbs over recordings and over loopback: moments each second of what a decoder says, and what is told where nothing is known."""
import argparse
import contextlib
import datetime
import http.server
import json
import math
import os
import random
import re
import socket
import subprocess
import sys
import threading
import time
import unittest
import unittest.mock

from common import CONFIG, TOP, ToolTest, module, replayed
from daidalus_files import Moment, Reader

import feeds
from test_ellipsoid import geodesic

from_sbs = module("tools/from_sbs")
BEGIN = time.time()


def miles(lat, other):
    """How far two latitudes are from each other, in NM, by Vincenty's formulas."""
    return geodesic(math.radians(lat), math.radians(other), 1e-13)[0]


def lines_of(address, lat, lon, alt=3000, gs=360, trk=0, vs=0, at=None, parts="43"):
    """A velocity and a position, as a decoder writes them, at a time of a recording or now."""
    when = datetime.datetime.now(datetime.timezone.utc) if at is None else datetime.datetime.fromtimestamp(at, datetime.timezone.utc)
    stamp = when.strftime("%Y/%m/%d,%H:%M:%S.%f")[:-3]
    head = f"1,1,{address},1,{stamp},{stamp}"
    lines = {"4": f"MSG,4,{head},,,{gs},{trk},,,{vs},,0,0,0,0\r\n", "3": f"MSG,3,{head},,{alt},,,{lat:.6f},{lon:.6f},,,0,0,0,0\r\n"}
    return "".join(lines[part] for part in parts)


class Server:
    """A decoder on loopback: what `said` gives is written four times a second to whoever is connected."""

    def __init__(self, said, port=0):
        self.said, self.socket, self.clients, self.is_over = said, socket.create_server(("127.0.0.1", port)), [], False
        self.port = self.socket.getsockname()[1]
        threading.Thread(target=self.accept, daemon=True).start()
        threading.Thread(target=self.write, daemon=True).start()

    def accept(self):
        with contextlib.suppress(OSError):
            while True:
                self.clients.append(self.socket.accept()[0])

    def write(self):
        while not self.is_over:
            for client in list(self.clients):
                with contextlib.suppress(OSError):
                    client.sendall(self.said(time.time() - BEGIN).encode("latin-1"))
            time.sleep(0.25)

    def close(self):
        self.is_over = True
        self.socket.shutdown(socket.SHUT_RDWR)
        self.socket.close()
        for client in self.clients:
            client.close()


class FromSbs(ToolTest):
    def opened(self, server, *words):
        run = subprocess.Popen([sys.executable, "-B", os.path.join(TOP, "tools", "from_sbs"), *words, f"127.0.0.1:{server.port}"], stdout=subprocess.PIPE,
                               stderr=subprocess.PIPE, text=True)
        self.addCleanup(lambda: (run.kill(), run.wait(), run.stdout.close(), run.stderr.close()))
        return run

    def test_moments_of_what_is_heard(self):
        """The ownship flies north at 360 knots, 0.1 NM a second; A stands a degree of latitude ahead, B says no velocity, the ground nothing."""
        def said(second):
            hostile = "MSG,3\n" + "x" * 3000 + "\nMSG,3,1,1,ZZZZZZ,1,,,,,,1,,,1,1,,,0,0,0,0\n"
            return (hostile + lines_of("4B0001", 47 + second / 600, 8) + lines_of("4B0002", 48, 8, gs=0) + lines_of("4B0003", 47.1, 8).split("\n")[1] + "\n"
                    + lines_of("4B0004", 47.01, 8).replace("0,0,0,0\r", "0,0,0,-1\r"))
        server = Server(said)
        self.addCleanup(server.close)
        out, told = self.opened(server, "--own", "4b0001", "--seconds", "5").communicate(timeout=60)
        reader = Reader()
        events = reader.read(out.encode())
        self.assertTrue(events and all(isinstance(event, Moment) for event in events), out + told)
        self.assertEqual((reader.clock, reader.ownship, out.split("\n")[0]), ("utc", "4B0001", "format 2"))
        for moment in events[1:]:
            self.assertEqual([aircraft.id for aircraft in moment.traffic], ["4B0002"], told)
            truth = 47 + (moment.time - BEGIN) / 600
            self.assertLess(abs(moment.origin.lat - truth) * 60, 0.05)  # half a second at 0.1 NM a second
            ahead = (moment.traffic[0].y - moment.own.y) / 1000
            self.assertLess(abs(ahead - (48 - truth) * 60), 0.05)
            self.assertEqual((moment.own.trk, moment.own.gs, moment.traffic[0].vy), (0, 3600, 0))
            self.assertEqual([(name, why.split(",")[0]) for name, why in moment.lacks], [("4B0003", "no velocity")])
        self.assertRegex(told, r"left out: [1-9]\d* lines that can't be read, [1-9]\d* reports of aircraft on the ground, 0 of too many addresses")

    def test_a_decoder_that_goes_and_comes(self):
        """While it is gone, and while the ownship is not heard, there is no moment, and a comment says why; nothing old is shown."""
        server = Server(lambda second: lines_of("4B0002", 47, 8))
        run = self.opened(server, "--own", "4B0001")
        wanted = ["the ownship 4B0001 is not heard"]
        self.wait_for(run, f"# no moment: {wanted[0]}\n")
        port = server.port
        server.close()
        self.wait_for(run, "# no moment: the decoder is gone\n")
        again = Server(lambda second: lines_of("4B0001", 47, 8) + lines_of("4B0002", 47, 8), port)
        self.addCleanup(again.close)
        self.wait_for(run, "end\n")
        again.said = lambda second: lines_of("4B0002", 47, 8)
        self.wait_for(run, "# no moment: no report of the ownship for 4 s\n")

    def wait_for(self, run, wanted):
        begun = time.monotonic()
        for line in run.stdout:
            if line == wanted:
                return
            self.assertLess(time.monotonic() - begun, 30, line)
        self.fail(wanted)

    def test_a_place_that_stays_and_more_than_64_aircraft(self):
        """The nearest 64 stay, and the others are named."""
        server = Server(lambda second: "".join(lines_of(f"4B{number:04X}", 47 + number / 600, 8, gs=0) for number in range(1, 68)))
        self.addCleanup(server.close)
        out, told = self.opened(server, "--at", "47,8,3000", "--seconds", "4").communicate(timeout=60)
        moments = [event for event in Reader().read(out.encode()) if isinstance(event, Moment)]
        self.assertEqual(len(moments[-1].traffic), 64, told)
        self.assertEqual([(name, why) for name, why in moments[-1].lacks],
                         [(f"4B{number:04X}", f"more than 64 aircraft, {number / 10:.1f} NM away") for number in (65, 66, 67)])
        self.assertEqual([aircraft.id for aircraft in moments[-1].traffic], [f"4B{number:04X}" for number in range(1, 65)])
        self.assertTrue(all(math.isclose(moments[-1].traffic[at].y, 1000 * miles(47, 47 + (at + 1) / 600), abs_tol=1) for at in range(64)))

    def test_lines_that_waited_are_as_old_as_they_are(self):
        """From the third second on each line is written five seconds before it comes."""
        def said(second):
            late = 0 if second < begin + 3 else 5
            return lines_of("4B0001", 47, 8, gs=0) + lines_of("4B0002", 48, 8, gs=0, at=time.time() - late)
        begin = time.time() - BEGIN
        server = Server(said)
        self.addCleanup(server.close)
        out, told = self.opened(server, "--own", "4B0001", "--seconds", "9").communicate(timeout=60)
        ages = [moment.traffic[0].age for moment in Reader().read(out.encode()) if isinstance(moment, Moment) and moment.traffic]
        self.assertEqual(ages[0], 0, told)
        self.assertIn(ages[-1], (4, 5, 6), told)

    def test_gpsd_and_the_own_transponder(self):
        """The ownship by GPS at 4000 ft above the ellipsoid, 150 ft more than by its barometer; its own transponder is heard as well."""
        def gps(second):
            tpv = {"class": "TPV", "mode": 3, "lat": 47, "lon": 8, "altHAE": 4000 * 0.3048, "altMSL": 3900 * 0.3048, "speed": 0.0, "climb": 0.0}
            return f'{{"class":"VERSION"}}\n[1]\n{{"class":"TPV","mode":NaN}}\n{json.dumps(tpv)}\n'
        decoder = Server(lambda second: lines_of("4B0001", 47, 8, alt=3850, gs=0) + lines_of("4B0002", 47.1, 8, gs=0))
        gpsd = Server(gps)
        for server in (decoder, gpsd):
            self.addCleanup(server.close)
        runs = [self.opened(decoder, "--gpsd", f"127.0.0.1:{gpsd.port}", "--above", "150", "--seconds", "8", *words) for words in ((), ("--own", "4B0001"))]
        said = [run.communicate(timeout=60) for run in runs]
        last = [[event for event in Reader().read(out.encode()) if isinstance(event, Moment)][-1] for out, _ in said]
        self.assertEqual([moment.own.alt for moment in last], [3850, 3850])
        self.assertEqual([[it.id for it in moment.traffic] for moment in last], [["4B0001", "4B0002"], ["4B0002"]])
        self.assertEqual([told.count("4B0001 flies where the ownship does: its own transponder? --own 4B0001 takes it out") for _, told in said], [1, 0])
        self.assertIn("heights are those of GPS above the ellipsoid, less 150 ft", said[0][1])
        self.assertIn("# heights barometric, the ownship's by GPS less 150 ft\n", said[0][0])

    def test_aircraft_json_has_what_the_lines_leave_out(self):
        """The first text tells nothing, since it may be old. B is in the texts alone, C has no vertical speed there; and texts that are none."""
        path, stop = os.path.join(self.folder, "aircraft.json"), threading.Event()
        texts = ['{"now":NaN}', "[" * 5000, '{"now":1,"aircraft":[{"hex":"4B0009","lat":1e999,"lon":2}]}', "\0", '{"now":1e400,"aircraft":[]}']

        def write():
            number = 0
            while not stop.wait(0.3):
                number += 1
                now = time.time() + 5000  # the clock of another machine
                aircraft = [{"hex": "4b0002", "lat": 47.1, "lon": 8, "seen_pos": 1.0, "altitude": 5000, "speed": 0, "track": 0, "vert_rate": 0},
                            {"hex": "4b0003", "lat": 47.2, "lon": 8, "seen_pos": 0.1, "altitude": 5000, "speed": 0, "track": 0},
                            {"hex": "4b0004", "lat": 47.1, "lon": 8, "seen_pos": -900, "altitude": 5000, "speed": 0, "track": 0, "vert_rate": 0},
                            {"hex": "x y", "lat": 47.1, "lon": 8, "altitude": 5000, "speed": 0, "track": 0, "vert_rate": 0}, 7, {"hex": ["4B0005"]}]
                text = texts[number % 5] if number % 2 else json.dumps({"now": now, "aircraft": aircraft})
                with open(path + ".new", "w", encoding="latin-1") as file:
                    file.write(text)
                os.replace(path + ".new", path)

        threading.Thread(target=write, daemon=True).start()
        self.addCleanup(stop.set)
        server = Server(lambda second: lines_of("4B0001", 47, 8, gs=0))
        self.addCleanup(server.close)
        out, told = self.opened(server, "--own", "4B0001", "--json", path, "--seconds", "6").communicate(timeout=60)
        last = [event for event in Reader().read(out.encode()) if isinstance(event, Moment)][-1]
        self.assertEqual([(it.id, it.y, it.alt) for it in last.traffic], [("4B0002", round(1000 * miles(47, 47.1)), 5000)], told)
        self.assertIn(last.traffic[0].age, (1, 2))
        self.assertEqual(last.lacks, [("4B0003", "no vertical speed, 12.0 NM away")])

    def test_a_decoder_that_says_nothing(self):
        """It is there, and heard at first; after five seconds of silence each moment says that it lacks something."""
        begin = time.time()
        server = Server(lambda second: lines_of("4B0002", 47.1, 8) if time.time() < begin + 2 else "")
        self.addCleanup(server.close)
        out, told = self.opened(server, "--at", "47,8,3000", "--seconds", "10").communicate(timeout=60)
        last = [event for event in Reader().read(out.encode()) if isinstance(event, Moment)][-1]
        self.assertRegex(str(last.lacks), r"^\[\('\*', 'the decoder says nothing for [6-9] s'\)\]$", told)

    def test_the_last_word_of_a_decoder_that_ended(self):
        """An aircraft.json whose time stands tells nothing, whatever is in it, also where it is written again and again."""
        aircraft = {"hex": "4b0002", "lat": 47.1, "lon": 8, "seen_pos": 0.0, "altitude": 5000, "speed": 0, "track": 0, "vert_rate": 0}
        path, stop = self.write("aircraft.json", json.dumps({"now": time.time(), "aircraft": [aircraft]})), threading.Event()
        self.addCleanup(stop.set)

        def touch():
            while not stop.wait(0.3):
                os.utime(path)

        threading.Thread(target=touch, daemon=True).start()
        server = Server(lambda second: lines_of("4B0001", 47, 8, gs=0))
        self.addCleanup(server.close)
        out, told = self.opened(server, "--own", "4B0001", "--json", path, "--seconds", "4").communicate(timeout=60)
        found = [event for event in Reader().read(out.encode()) if isinstance(event, Moment)]
        self.assertTrue(found and not any(moment.traffic for moment in found), out + told)

    def test_aircraft_json_by_http_alone(self):
        """The ownship is in it; when it is not written any more, there is no moment."""
        begin = time.time()

        class Answers(http.server.BaseHTTPRequestHandler):
            def do_GET(self):
                now = min(time.time(), begin + 4)
                body = json.dumps({"now": now, "aircraft": [{"hex": "4b0001", "lat": 47, "lon": 8, "seen_pos": 0, "alt_baro": 5000, "gs": 0.0, "track": 0, "baro_rate": 0}]}).encode()
                self.send_response(200)
                self.end_headers()
                self.wfile.write(body)

            def log_message(self, *words):
                pass

        server = http.server.ThreadingHTTPServer(("127.0.0.1", 0), Answers)
        threading.Thread(target=server.serve_forever, daemon=True).start()
        self.addCleanup(server.shutdown)
        run = subprocess.run([sys.executable, "-B", os.path.join(TOP, "tools", "from_sbs"), "--own", "4B0001", "--json", f"http://127.0.0.1:{server.server_port}/a.json", "--seconds", "12"],
                             capture_output=True, text=True, timeout=60)
        found = [event for event in Reader().read(run.stdout.encode()) if isinstance(event, Moment)]
        self.assertTrue(found and found[-1].own.alt == 5000 and found[-1].time <= begin + 8, run.stdout + run.stderr)
        self.assertTrue(run.stdout.endswith("# no moment: the decoder is gone\n"), run.stdout)

    def test_words_that_are_not_taken(self):
        for words, part in ((("--own", "4B0001"), "give HOST:PORT, a file or --json"), (("x",), "one of --own, --at and --gpsd"),
                            (("--own", "4B0001", "x"), "x does not have the form HOST:PORT"),
                            (("--gpsd", "x:1", "x:1"), "--gpsd and --above go together"), (("--own", "4B0001", "--json", "http://192.0.2.1/a", "x:1"), "no address by http of this"),
                            (("--own", "4B0001", "--as-now", "x:1"), "--as-now needs a file"), (("--own", "4B0001", "--at", "1,2,3", "x:1"), "give one of --own"),
                            (("--own", "4B", "x:1"), "4B is no address"), (("--at", "1,2", "x:1"), "1,2 does not have the form LAT,LON,FEET"),
                            (("--at", "1,2,3", "--oldest", "61", "x:1"), "--oldest is from 0 to 60"), (("--at", "91,2,3", "x:1"), "91,2,3 is no place")):
            status, out, told = self.tool("from_sbs", *words)
            self.assertEqual((status, out), (2, ""))
            self.assertIn(part, told)


T = 1764590400  # a whole second of 2025


class Recorded(ToolTest):
    """Recordings of lines, whose own times are the clock."""

    def moments(self, text, *words, own="4B0001"):
        """What is made of a recording: its moments by their seconds from T on, all that is written, and what is told."""
        status, out, told = self.tool("from_sbs", "--own", own, *words, self.write("heard.sbs", text.encode("latin-1")))
        self.assertEqual(status, 0, told)
        events = Reader().read(out.encode())
        self.assertTrue(all(isinstance(event, Moment) for event in events), out)
        return {event.time - T: event for event in events}, out, told

    def test_ages(self):
        """The ownship flies north at 360 knots; B stands still 30 NM ahead and is heard at 2.25 and at 3.5 s: its age counts from there."""
        own = [(second, lines_of("4B0001", 47 + second / 600, 8, at=T + second)) for second in range(20)]
        b = [(second, lines_of("4B0002", 47.5, 8, gs=0, at=T + second)) for second in (2.25, 3.5)]
        found, out, told = self.moments("".join(text for _, text in sorted(own + b)))
        self.assertEqual(sorted(found), list(range(1, 20)))
        self.assertEqual([len(found[second].traffic) for second in (1, 2, 3, 4)], [0, 0, 1, 1])
        for second in range(3, 14):
            [aircraft] = found[second].traffic
            self.assertEqual(aircraft.age, math.floor(second - (2.25 if second == 3 else 3.5)), second)
            self.assertAlmostEqual(aircraft.y - found[second].own.y, 1000 * miles(47 + second / 600, 47.5), delta=1)
        self.assertEqual([found[second].lacks for second in (13, 14, 19)],
                         [[], [("4B0002", "no report for 10 s, 28.6 NM away")], [("4B0002", "no report for 15 s, 28.1 NM away")]])
        self.assertEqual([len(found[second].traffic) for second in (14, 19)], [0, 0])
        self.assertEqual(out.split("\n")[:4], ["format 2", "# clock utc", "# ownship 4B0001", "# heights barometric"])
        self.assertIn("from_sbs: heights are barometric\n", told)

    def test_the_ownship_is_lost(self):
        """It is heard until 5 s and from 14.5 s on; its velocity alone is not heard from 20 s on."""
        heard = [*range(6), 14.5, *range(15, 30)]
        text = "".join(lines_of("4B0002", 47.1, 8, gs=0, at=T + second)
                       + lines_of("4B0001", 47, 8, at=T + second, parts="43" if second < 20 else "3") * (second in heard) for second in [*range(15), 14.5, *range(15, 30)])
        found, out, _ = self.moments(text)
        self.assertEqual(sorted(found), [*range(1, 9), *range(15, 23)])
        why = re.findall("^# no moment: (.*)$", out, re.M)
        self.assertEqual(why, [f"no report of the ownship for {age} s" for age in range(4, 10)]
                         + ["of the ownship no velocity within 3 s"] * 5 + ["of the ownship no velocity within 5 s"] * 2)

    def test_more_than_64_those_that_matter(self):
        """Of 63 that come slowly from 6 to 13 NM the farthest is left out, for one that comes fast from 30 NM stays, and so does one that goes
        away at 3 NM; one that goes away at 30 NM does not. The ownship stands."""
        def all_of(second):
            standing = "".join(lines_of(f"4C{number:04X}", 47 + (6 + number / 10) / 60, 8, gs=60, trk=180, at=T + second) for number in range(63))
            return (standing + lines_of("4B0001", 47, 8, gs=0, at=T + second) + lines_of("4D0001", 47.5, 8, gs=450, trk=180, at=T + second)
                    + lines_of("4D0002", 46.95, 8, gs=450, trk=180, at=T + second) + lines_of("4D0003", 46.5, 8, gs=450, trk=180, at=T + second))
        found, _, _ = self.moments(all_of(0) + all_of(0.5) + lines_of("4B0001", 47, 8, gs=0, at=T + 1.5))
        names = {aircraft.id for aircraft in found[1].traffic}
        self.assertEqual(len(names), 64)
        self.assertLessEqual({"4D0001", "4D0002", "4C0000", "4C003D"}, names)
        self.assertEqual([name for name, _ in found[1].lacks], ["4C003E", "4D0003"])
        self.assertTrue(all(why.startswith("more than 64 aircraft, ") for _, why in found[1].lacks))

    def test_an_ownship_on_the_ground(self):
        """From 5 s on."""
        text = "".join(lines_of("4B0001", 47, 8, at=T + second).replace("0,0,0,0\r", "0,0,0,-1\r" if second >= 5 else "0,0,0,0\r") for second in range(12))
        found, out, _ = self.moments(text)
        self.assertEqual((sorted(found), out.count("# no moment: the ownship is on the ground\n")), ([1, 2, 3, 4, 5], 6))

    def test_a_long_way(self):
        """The plane's middle goes with the ownship once that is more than 100 NM away; another aircraft stays where it is beside it."""
        text = "".join(lines_of("4B0001", lat, 8, gs=0, at=T + second) + lines_of("4B0002", lat + 0.1, 8, gs=0, at=T + second)
                       for second, lat in enumerate((47, 47, 48.5, 49.5, 49.5, 49.6, 49.6)))
        found, _, _ = self.moments(text)
        for second, (start, lat) in enumerate(((47, 47), (47, 47), (47, 48.5), (49.5, 49.5), (49.5, 49.5), (49.5, 49.6)), 1):
            own_y = round(1000 * miles(start, lat)) if start != lat else 0
            self.assertEqual((found[second].own.y, found[second].traffic[0].y), (own_y, own_y + round(1000 * miles(lat, lat + 0.1))), second)

    def test_addresses_without_end(self):
        """Of 4100 that are heard within a second those beyond the first 4000 are not kept, and are counted."""
        text = lines_of("4B0001", 47, 8, at=T) + "".join(lines_of(f"{number:06X}", 47.5, 8, at=T) for number in range(4100)) + lines_of("4B0001", 47, 8, at=T + 2)
        found, _, told = self.moments(text)
        self.assertEqual(len(found[1].traffic), 64)
        self.assertRegex(told, r" [12]\d\d of too many addresses\n")

    def test_the_own_address_is_no_traffic_and_small_letters_are_none(self):
        text = "".join(lines_of("4b0001", 47, 8, at=T + second) + lines_of("~4B0002", 47.1, 8, at=T + second) + lines_of("4B0002", 47.2, 8, at=T + second) for second in range(4))
        found, _, _ = self.moments(text)
        self.assertEqual([aircraft.id for aircraft in found[3].traffic], ["T4B0002", "4B0002"])

    def test_hostile_lines(self):
        """Whatever a line says, the tool ends well, and the program refuses none of what it writes."""
        drawn = random.Random(5)
        odd = ["nan", "inf", "-inf", "1e308", "1e5", "1_0", "9" * 400, "-", "+", "", " ", "0x10", "91", "-181", "\0", "\xe9", "a" * 300, "\ttraffic", "end", "-0", "1.", ".5", "#"]
        lines = []
        for second in range(40):
            for address in ("4B0001", "4B0002", "4B0003"):
                for line in lines_of(address, 47 + int(address[-1]) / 100, 8, at=T + second).split("\r\n")[:2]:
                    cells = line.split(",")
                    lines.append(line)
                    cells[drawn.choice([0, 1, 4, 6, 7, 8, 9, 10, 11, 12, 13, 14, 15, 16, 21])] = drawn.choice(odd)
                    lines.append(",".join(cells))
                    lines.append(drawn.choice(["", "," * 21, "MSG," * 100, "x" * 70000, "\xff" * 30, line[:drawn.randrange(len(line))], line + line, "moment 5", "end", "format 1", "MSG"]))
            far = ([-5000, 70000, 10000], [0, 5000, 300], [0, 360, 720, -90], [47, -90, 90, 46.9], [8, 180, -180, 7.9], [0, 30000, -99999])
            alt, gs, trk, lat, lon, vs = map(drawn.choice, far)
            lines.append(lines_of(f"{drawn.randrange(1 << 24):06X}", lat, lon, alt, gs, trk, vs, at=T + second).rstrip())
        found, out, _ = self.moments("\n".join(lines))
        self.assertGreater(len(found), 20)
        status, report = replayed(CONFIG, out.encode())
        self.assertEqual((status, report.count(b"\ndone "), report.count(b"refused ")), (0, len(found), 0))
        self.assertLess(max(map(len, out.split("\n"))), 256)

    def test_what_the_decoder_rounds_is_counted(self):
        """Whole knots and degrees: half of each, at 360 knots hypot(0.5, 360 sin 0.5 degrees)."""
        _, _, told = self.moments("".join(lines_of("4B0001", 47, 8, at=T + second) for second in range(4)))
        self.assertIn("a velocity may be 3.2 knots off, which moves an aircraft 0.053 NM in a minute", told)
        _, _, told = self.moments("".join(lines_of("4B0001", 47, 8, gs=360.5, at=T + second) for second in range(4)))
        self.assertNotIn("knots off", told)

    def test_a_recording_is_played_as_if_it_were_heard_now(self):
        text = "".join(lines_of("4B0001", 47, 8, at=T + second) for second in range(9))
        begun = time.time()
        status, out, told = self.tool("from_sbs", "--own", "4B0001", "--as-now", "--seconds", "3", self.write("heard.sbs", text))
        took = time.time() - begun
        times = [moment.time for moment in Reader().read(out.encode())]
        self.assertEqual((status, len(times)), (0, 3), told)
        self.assertTrue(begun < times[0] < begun + 3 and times[2] - times[0] == 2 and 2 < took < 8, (begun, times, took))

    def test_the_example(self):
        """A moment at each second between the first and the last line; 4B1005 alerts, at last at level 3. Whoever is on the ground is in none."""
        with open(os.path.join(TOP, "examples", "receiver.sbs"), encoding="ascii") as file:
            text = file.read()
        stamps = [feeds.stamps_of(line)[0] for line in text.splitlines()]
        found, out, _ = self.moments(text)
        self.assertEqual([second + T for second in found], list(range(math.floor(min(stamps)) + 1, math.floor(max(stamps)) + 1)))
        self.assertNotIn("4BF001", out)
        self.assertEqual([len(it.traffic) for it in found.values()][-1], 4)
        _, report = replayed(CONFIG, out.encode())
        self.assertEqual(set(re.findall(rb"^alert 4B1005 ([1-4]) ", report, re.M)), {b"1", b"2", b"3"})

    def test_a_recording_without_the_ownship(self):
        status, out, told = self.tool("from_sbs", "--own", "4B0001", self.write("heard.sbs", lines_of("4B0002", 47, 8, at=T) + lines_of("4B0002", 47, 8, at=T + 3)))
        self.assertEqual(status, 3)
        self.assertIn("no moment is left: the ownship 4B0001 is not heard", told)
        self.assertEqual(self.tool("from_sbs", "--own", "4B0001", self.write("empty.sbs", ""))[0], 3)


class Kept(unittest.TestCase):
    """What is kept of what was heard, and reports of the second that has begun."""

    def setUp(self):
        self.sky = from_sbs.Sky(argparse.Namespace(bounds=None, own_bounds=None, own="4B0001", at=None, gpsd=None, oldest=10))

    def hear(self, second, *addresses, lat=47.1):
        for address in addresses:
            for line in lines_of(address, 47 if address == "4B0001" else lat, 8, gs=0 if address == "4B0001" else 360, at=T).split("\r\n")[:2]:
                self.sky.take_line(line, T + second)

    def test_a_report_of_the_second_that_has_begun(self):
        """It is flown back to its beginning: 0.04 NM in 0.4 s at 360 knots, of the 6.0028 NM of a tenth of a degree there."""
        self.hear(0.4, "4B0001", "4B0002")
        self.assertIn("traffic 4B0002 0 5963 3000 0 3600 0 0", self.sky.lines_at(T, True))

    def test_what_was_heard_long_ago_is_forgotten(self):
        """After a day with a new aircraft each minute only those of the last minutes are kept, and of what is told at the end so many as may be."""
        self.addCleanup(setattr, from_sbs, "SMALL_STEP", from_sbs.SMALL_STEP)
        from_sbs.SMALL_STEP = 100
        for minute in range(1440):
            self.hear(60 * minute, "4B0001", f"{minute + 1:06X}")
            self.sky.lines_at(T + 60 * minute + 1, True)
        maker, heard = self.sky.maker, self.sky.heard
        self.assertLess(max(map(len, (heard.heard, heard.labels, maker.latest, maker.incomplete, maker.used, maker.ids))), 10)
        self.assertLessEqual(max(map(len, (maker.unused, maker.lacking, maker.steps))), 101)

    def test_a_line_without_an_end_is_not_kept(self):
        one, other = socket.socketpair()
        lines = feeds.Lines("x:1", print)
        lines.there = one
        one.setblocking(False)
        for _ in range(50):
            other.sendall(b"x" * 10000)
            self.assertEqual(lines.lines(0), [])
            self.assertLessEqual(len(lines.rest), 512 + 10000)
        other.sendall(b"\nMSG\n")
        self.assertEqual(lines.lines(0), ["MSG"])
        one.close()
        other.close()


class Clock(unittest.TestCase):
    def test_it_steps_forward_and_never_back(self):
        """The machine's clock runs, is put back by an hour, runs, and is put forward by a minute more than it was."""
        with unittest.mock.patch("feeds.time") as machine:
            machine.time.return_value, machine.monotonic.return_value = 5000, 10
            clock, found = feeds.Clock(), []
            for seconds, since in ((5001, 11), (1402, 12), (1403, 13), (5064, 14), (5065, 15)):
                machine.time.return_value, machine.monotonic.return_value = seconds, since
                found.append(clock.now())
        self.assertEqual(found, [5001, 5002, 5003, 5064, 5065])


class Lateness(unittest.TestCase):
    def test_the_least_difference_counts_as_none(self):
        late = feeds.Lateness()
        self.assertEqual([round(late.of(stamp, now), 2) for stamp, now in ((100, 5100), (101, 5101.5), (102, 5102), (103, 5110))], [0, 0.5, 0, 7])

    def test_two_clocks_may_drift(self):
        """After a day at 20 parts of a million the other clock is 1.7 s off: that is no lateness."""
        late = feeds.Lateness()
        self.assertLess(max(late.of(second * (1 - 2e-5), 1e6 + second) for second in range(0, 86400, 60)), 0.01)


if __name__ == "__main__":
    unittest.main()
