"""What is drawn of a moment and over time, in node: bands, marks, letters and numbers stand at the values that they are of."""
import colorsys
import math
import os
import re
import tempfile
import unittest

from nodes import HOW, NODE, TURNED, in_node, numbers_in, on_page, xml_of
from shared import (ENCOUNTER, RECOVERY, THREE_LEVELS, Page, bytes_of, candidates_of, levels_of, moments_in, moments_of, places_of,
                   replayed, text_of, values_of)


class Display(unittest.TestCase):
    """A display that is shown, and what is found in it."""

    maxDiff = 2000

    def show(self, config, states, report, **look):
        shown = in_node([["display", bytes_of(config) if isinstance(config, str) else config, states, report.encode(), look]])[0]
        self.g, self.up = shown["g"], look.get("up", 0)
        self.layers = {name: xml_of(text) for name, text in shown["layers"].items()}
        self.handles = {it["data-key"]: it for it in shown["handles"]}
        self.places = {key: numbers_in(it["transform"]) for key, it in self.handles.items()}
        self.back = shown["back"]

    def bearing(self, x, y):
        return (self.up + math.degrees(math.atan2(x - self.g["centre"]["x"], self.g["centre"]["y"] - y))) % 360

    def radius(self, x, y):
        return math.hypot(x - self.g["centre"]["x"], y - self.g["centre"]["y"])

    def texts(self, layer, *styles):
        """The words of a class, each with its middle."""
        found = [it for it in self.layers[layer].iter("text") if set(styles) <= set((it.get("class") or "").split())]
        return [(it.text, float(it.get("x")), float(it.get("y")) - float(it.get("font-size")) * 0.36) for it in found]

    def marks(self, layer, attribute, colour):
        """Where the paths of a colour begin."""
        return [tuple(numbers_in(it.get("d"))[:2]) for it in self.layers[layer].iter("path") if it.get(attribute) == f"var(--{colour})"]

    def assert_bearings(self, points, wanted):
        found = [self.bearing(x, y) for x, y in points]
        self.assertEqual(len(found), len(wanted), (found, wanted))
        for one, other in zip(found, wanted):
            self.assertLess(abs((one - other + 180) % 360 - 180), 1.5, (found, wanted))

    def sector(self, path):
        """The bearing at which a sector of the ring begins, how far it turns to the right, and its paint."""
        steps = "".join(re.findall("[A-Z]", path.get("d")))
        if steps == "MAAZMAAZ":  # the whole ring
            return 0, 360, path.get("fill")
        self.assertEqual(steps, "MALAZ")
        x, y, *outer = numbers_in(path.get("d"))[:9]
        begin, turn = self.bearing(x, y), (self.bearing(*outer[5:]) - self.bearing(x, y)) % 360
        self.assertEqual(outer[2:5], [0, float(turn > 180), 1])
        self.assertAlmostEqual(self.radius(x, y), self.g["outer"], delta=0.2)
        return begin, turn, path.get("fill")

    def check_ring(self, moment):
        """The paint at each candidate, the numbers of levels, the answers' marks with their words, and the letters of the compass."""
        wanted = candidates_of(moment, "track")
        sectors = [self.sector(it) for it in self.layers["ring"].iter("path") if it.get("data-level")]
        paints = {track: [paint for begin, turn, paint in sectors if (track - begin) % 360 <= turn] for track in wanted}
        self.assertEqual(paints, {track: [f"url(#level{level})" if level else "var(--l0-fill)"] for track, level in wanted.items()})
        numbers = self.texts("ring", "level")
        self.assertTrue(numbers or not any(wanted.values()))
        for level, x, y in numbers:
            self.assertEqual([paint for begin, turn, paint in sectors if (self.bearing(x, y) - begin) % 360 <= turn], [f"url(#level{level})"])
        answers, recovery = values_of(moment, "resolve", "track"), values_of(moment, "recover", "track")
        self.assert_bearings(self.marks("ring", "fill", "open"), answers)
        self.assert_bearings([(x, y + 8) for x, y in self.marks("ring", "stroke", "recover")], recovery)
        words = [*self.texts("ring", "open"), *self.texts("ring", "recover")]
        self.assertEqual([int(text.split("°")[0]) for text, *_ in words], answers + recovery)
        self.assert_bearings([at for _, *at in words], answers + recovery)
        letters = sorted([*self.texts("ring", "mid", "bold"), *self.texts("ring", "mid", "small")], key=lambda it: round(self.bearing(*it[1:])) % 360)
        self.assertEqual([text for text, *_ in letters], ["N", "3", "6", "E", "12", "15", "S", "21", "24", "W", "30", "33"])
        self.assert_bearings([at for _, *at in letters], range(0, 360, 30))

    def check_tapes(self, moment, own):
        """By each tape's own numbers: the paint at each candidate, the numbers of levels, the ownship's pointer, and the answers' marks with
        their words; between two bands nothing is left free."""
        for kind, title in (("gs", "GS kt"), ("vs", "VS ft/min"), ("alt", "ALT ft")):
            tape, each = self.g["tapes"][kind], 10 if kind == "gs" else 1
            labels = [(int(text.replace("−", "-")) * each, y + 0.36) for text, x, y in self.texts("tapes", "small", "end") if abs(x - tape["x"] + 9) < 1]
            (low, at_low), (high, at_high) = labels[0], labels[-1]
            self.assertTrue(low < high and at_low > at_high, labels)
            y = lambda value: at_low + (value - low) / (high - low) * (at_high - at_low)
            self.assertAlmostEqual(self.places[kind][1], y(getattr(own, kind)), delta=1)
            bands = [(float(it.get("y")), float(it.get("height")), it.get("fill")) for it in self.layers["tapes"].iter("rect")
                     if it.get("data-level") and abs(float(it.get("x")) - tape["x"]) < 1]
            wanted = {value: level for value, level in candidates_of(moment, kind).items() if tape["top"] + 3 < y(value) < tape["bottom"] - 3}
            self.assertGreater(len(wanted), 10)
            paints = {value: [paint for top, tall, paint in bands if top <= y(value) <= top + tall] for value in wanted}
            self.assertEqual(paints, {value: [f"url(#level{level})" if level else "var(--l0-fill)"] for value, level in wanted.items()}, kind)
            lowest_first = sorted(bands, reverse=True)
            for (top, *_), (above, tall, _) in zip(lowest_first, lowest_first[1:]):
                self.assertLess(abs(above + tall - top), 2.1, kind)
            for level, x, at in self.texts("tapes", "level"):
                if abs(x - tape["x"] - tape["band"] / 2) < 1:
                    self.assertEqual([paint for top, tall, paint in bands if top <= at <= top + tall], [f"url(#level{level})"], kind)
            self.assertEqual([text for text, x, _ in self.texts("tapes", "small", "mid") if abs(x - tape["left"] - tape["width"] / 2) < 1], [title])
            right, answers, recovery = tape["x"] + tape["band"], values_of(moment, "resolve", kind), values_of(moment, "recover", kind)
            marks = [at for x, at in self.marks("tapes", "fill", "open") if abs(x - right - 2) < 1]
            marks += [at + 8 for x, at in self.marks("tapes", "stroke", "recover") if abs(x - right - 10) < 1]
            for found, value in zip(marks, answers + recovery, strict=True):
                self.assertAlmostEqual(found, y(value), delta=1)
            words = [text for text, x, _ in [*self.texts("tapes", "open"), *self.texts("tapes", "recover")] if abs(x - right - 15) < 1]
            self.assertEqual([int(text.replace("−", "-")) * each for text in words], answers + recovery)

    def check_places(self, moment):
        turn, compared = math.radians(self.up), 0
        for key, (east, north) in places_of(moment, 60).items():
            right, ahead = (part * self.g["radius"] / 12 for part in (east * math.cos(turn) - north * math.sin(turn), east * math.sin(turn) + north * math.cos(turn)))
            if math.hypot(right, ahead) < self.g["radius"] - 12:
                x, y = self.places[key]
                self.assertTrue(abs(x - self.g["centre"]["x"] - right) < 1 and abs(self.g["centre"]["y"] - y - ahead) < 1, (key, x, y))
                self.assertLess(math.dist(self.back[key], (moment.own.x + 1000 * east, moment.own.y + 1000 * north)), 10)
                compared += 1
        self.assertGreaterEqual(compared, 4)
        for kind in ("gs", "vs", "alt"):
            self.assertAlmostEqual(self.back[kind], getattr(moment.own, kind), delta=12)


@unittest.skipUnless(NODE, HOW)
class Drawn(Display):
    """Bands, marks, letters and numbers stand at the values that they are of, whatever is written on them; without a browser."""

    def test_bands_marks_and_letters(self):
        """Of moments with answers on one side and on both, and with recoveries; the ownship's values are those of the pointers."""
        report = moments_of(replayed(RECOVERY, bytes_of(ENCOUNTER)))
        for place in (0, 2, 4, 7):
            text, moment = moments_in(bytes_of(ENCOUNTER))[place]
            self.show(RECOVERY, text.encode(), report[place])
            self.check_ring(report[place])
            self.check_tapes(report[place], moment.own)
            self.check_places(moment)

    def test_with_the_track_up(self):
        report, moment = replayed(RECOVERY, TURNED), moments_in(TURNED)[0][1]
        for up in (0, 40):
            self.show(RECOVERY, TURNED, report, up=up)
            self.check_ring(report)
            self.check_tapes(report, moment.own)
            self.check_places(moment)
            self.assert_bearings([self.places["track"]], [40])
            self.assertIn(f'rotate({40 - up})', self.handles["p:"]["inside"])
        self.assertAlmostEqual(self.places["track"][0], self.g["centre"]["x"], delta=0.2)

    def test_rings_of_the_range_and_dthr(self):
        """A third and two thirds of 9 NM, and the 0.4 NM of level 2, which is the corrective one."""
        config = bytes_of(THREE_LEVELS).replace(b"dthr = 660", b"dthr = 800", 1)
        config = config[:config.rindex(b"dthr = 660")].replace(b"dthr = 660", b"dthr = 400") + config[config.rindex(b"dthr = 660"):]
        with tempfile.NamedTemporaryFile(suffix=".toml") as file:
            file.write(config)
            file.flush()
            self.show(config, TURNED, replayed(file.name, TURNED), range=9)
        names = self.texts("trails", "small")
        self.assertEqual([text for text, *_ in names], ["3 NM", "6 NM"])
        for share, (_, x, y) in zip((1 / 3, 2 / 3), names):
            self.assertAlmostEqual(self.radius(x, y), share * self.g["radius"], delta=1)
        radii = [float(it.get("r")) / self.g["radius"] for it in self.layers["rose"].iter("circle") if it.get("fill") == "none"]
        self.assertTrue(len(radii) == 2 and abs(radii[0] - 1 / 3) < 0.001 and abs(radii[1] - 2 / 3) < 0.001, radii)
        circle, = self.layers["trails"].iter("circle")
        self.assertEqual((circle.find("title").text, circle.get("stroke")), ("dthr of level 2", "var(--own)"))
        self.assertAlmostEqual(float(circle.get("r")), 0.4 / 9 * self.g["radius"], delta=0.1)

    def test_symbols_and_labels(self):
        """Of a report with an aircraft at each level, of which two violate one now; the first two have climbed and sunk for half a minute."""
        aircraft = "".join(f"traffic A{level} {3000 * level - 6000} {(-1) ** level * 4000} {10000 + above} 0 100 {climb} {age}\n"
                           for level, (above, climb, age) in enumerate(((0, 0, 0), (0, 600, 30), (-900, -600, 30), (50, 99, 0), (-49, -100, 0))))
        alerts = "".join(f"now A{level} {now}\nalert A{level} {level} {first}\n" for level, (now, first) in enumerate(((0, "-"), (0, 7), (1, 14), (0, 21), (4, 0))))
        report = moments_of(replayed(THREE_LEVELS, bytes_of(ENCOUNTER)))[0]
        states = f"format 2\nmoment 0\nown 0 0 10000 0 3600 0\n{aircraft}end\n"
        self.show(THREE_LEVELS, states.encode(), re.sub(r"(?m)(^(now|alert) .*\n)+", alerts, report, count=1))
        old = ", its report is 30 seconds old"
        for level, told in enumerate(("0 hundred feet above, no alert", f"3 hundred feet above, climbing, alert level 1 in 7 seconds{old}",
                                      f"12 hundred feet below, sinking, alert level 2 in 14 seconds, level 1 now{old}", "1 hundred feet above, alert level 3 in 21 seconds",
                                      "0 hundred feet above, sinking, alert level 4 in 0 seconds, level 4 now")):
            handle, colour = self.handles[f"p:A{level}"], f"var(--l{level}-edge)" if level else "var(--ink)"
            inside = xml_of(handle["inside"])
            self.assertEqual([it.get("stroke") for it in inside.iter("path") if re.match("M0 0L.*[0-9]$", it.get("d")) and it.get("stroke-width") == "2"], [colour])
            self.assertEqual([it.get("stroke") for it in xml_of(self.handles[f"v:A{level}"]["inside"]).iter("circle") if it.get("r") == "4.5"], [colour])
            self.assertEqual([it.get("style") for it in inside.iter("text") if it.text.startswith("L")], [f"fill:{colour};font-weight:bold"] * bool(level))
            fills = [it.get("fill") for it in inside.iter() if it.get("stroke") == "var(--rim)" and it.get("fill")]
            self.assertEqual(fills, [f"var(--l{level}-fill)"] * bool(level))
            self.assertEqual([it.get("style") for it in inside.iter("text") if it.get("class") == "level mid"], [f"fill:var(--l{level}-ink)"] * bool(level))
            self.assertTrue(handle["aria-valuetext"].endswith(f" NM away, {told}"), handle["aria-valuetext"])
        shapes = {"M0 -9l8 9l-8 9l-8 -9z": "open diamond", "M0 -11l10 11l-10 11l-10 -11z": "diamond", "M-10 -10l20 20M10 -10l-20 20": "cross"}
        found = []
        for level in range(5):
            inside = xml_of(self.handles[f"p:A{level}"]["inside"])
            marks = [shapes[it.get("d")] for it in inside.iter("path") if it.get("d") in shapes] + ["square" for _ in inside.iter("rect")]
            marks += [{"10": "disc", "16": it.get("stroke")}[it.get("r")] for it in inside.iter("circle") if it.get("r") in ("10", "16")][::-1]
            words = [it.text for it in inside.iter("text")]
            found.append((marks, words))
            self.assertEqual(self.handles[f"p:A{level}"]["data-level"], str(level))
        self.assertEqual(found, [(["open diamond"], ["A0", "+00"]), (["diamond"], ["1", "A1", "+03↑ · 30 s", "L1 7 s"]),
                                 (["disc", "var(--l1-edge)"], ["2", "A2", "−12↓ · 30 s", "L2 14 s"]), (["square"], ["3", "A3", "+01", "L3 21 s"]),
                                 (["cross", "square", "var(--l4-edge)"], ["4", "A4", "+00↓", "L4 now"])])

    def test_what_a_screen_reader_is_told_of_places_and_velocities(self):
        """B's report is 15 seconds old: 3.414 NM away now."""
        self.show(RECOVERY, TURNED, replayed(RECOVERY, TURNED))
        told = {key: it["aria-valuetext"] for key, it in self.handles.items()}
        self.assertEqual({key: told[key] for key in ("v:A", "v:B", "v:", "p:", "track", "gs", "vs", "alt")}, {
            "v:A": "east −90, north −140 knots", "v:B": "east 120, north 30 knots", "v:": "track 40, 300 knots", "p:": "east 0.5, north −0.7 NM",
            "track": "40 degrees", "gs": "300 kt", "vs": "300 ft/min", "alt": "10000 ft"})
        self.assertRegex(told["p:B"], "^3.4 NM away, 12 hundred feet below, sinking, ")
        numbers = {key: float(self.handles[key]["aria-valuenow"]) for key in ("v:B", "v:", "p:B", "track", "gs", "vs", "alt")}
        self.assertEqual(numbers, {"v:B": 123.7, "v:": 300, "p:B": 3.4, "track": 40, "gs": 300, "vs": 300, "alt": 10000})

    def test_how_far_ahead_velocities_are_drawn(self):
        """300 knots are 1.25 NM in 15 seconds; the head tells for how many."""
        for range_nm, seconds in ((0.9, 5), (1.5, 15), (3, 30), (6, 60), (12, 60)):
            self.show(RECOVERY, TURNED, replayed(RECOVERY, TURNED), range=range_nm)
            self.assertAlmostEqual(self.radius(*self.places["v:"]), 300 * seconds / 3600 / range_nm * self.g["radius"], delta=1)
            self.assertIn(f"{range_nm} NM · north up · {seconds} s ahead", [text for text, *_ in self.texts("head")])
        keys = " ".join(text_of(os.path.join(Page.folder, "index.html")).split())
        self.assertIn("where each aircraft will be after 60 seconds; 30 at a range below 6 NM, 15 below 3 NM, 5 below 1.5 NM", keys)

    def test_an_aircraft_out_of_range_stands_at_the_rim(self):
        """In its direction, 141.4 NM away, small and without a velocity; one just within the range is as all others."""
        states = "moment 0\nown 0 0 10000 0 3600 0\ntraffic FAR 100000 100000 10000 0 0 0\ntraffic NEAR -11000 0 10000 0 -100 0\n" \
                 "traffic OFF 10000 -10000 10000 0 0 0\nend\n"
        self.show(THREE_LEVELS, states.encode(), replayed(THREE_LEVELS, states.encode()), chosen="p:FAR")
        far, near = self.handles["p:FAR"], self.handles["p:NEAR"]
        self.assert_bearings([self.places[f"p:{name}"] for name in ("FAR", "NEAR", "OFF")], [45, 270, 135])
        for name in ("FAR", "OFF"):
            self.assertAlmostEqual(self.radius(*self.places[f"p:{name}"]), self.g["radius"] - 13, delta=1)
        self.assertAlmostEqual(self.radius(*self.places["p:NEAR"]), 11 / 12 * self.g["radius"], delta=1)
        self.assertEqual([it.text for it in xml_of(far["inside"]).iter("text")], ["FAR", "+00 141.4 NM"])
        self.assertEqual(["scale(.8)" in it["inside"] for it in (far, near)], [True, False])
        self.assertEqual(["v:FAR" in self.handles, "v:NEAR" in self.handles], [False, True])

    def test_a_label_away_from_its_symbol_has_a_leader(self):
        """Of 16 aircraft close to each other."""
        rows = "".join(f"traffic AIRCR{i:03} {700 * (i % 4) - 1000} {700 * (i // 4) - 1000} 10000 0 -3600 0\n" for i in range(16))
        states = f"moment 0\nown 0 -6000 10000 0 3600 0\n{rows}end\n".encode()
        self.show(THREE_LEVELS, states, replayed(THREE_LEVELS, states))
        led = []
        for key, it in self.handles.items():
            inside = xml_of(it["inside"])
            words = [text for text in inside.iter("text") if "halo" in text.get("class")]
            if not key.startswith("p:AIRCR") or not words:
                continue
            first, last, font = float(words[0].get("y")), float(words[-1].get("y")), float(words[0].get("font-size"))
            away = max(first - font, -last, abs(float(words[0].get("x"))))
            led.append((away > 40, any(path.get("d").startswith("M0 0L") and path.get("stroke-dasharray") for path in inside.iter("path"))))
        self.assertTrue(all(has for is_away, has in led if is_away) and any(is_away for is_away, _ in led), led)

    def test_a_levels_colour_and_pattern_are_its_own(self):
        """Yellow with dots, orange with stripes, red with a lattice, purple with bars, as the page and docs/PAGE.md say: fills, marks and edges
        on both grounds. What is open is green, a recovery blue, and nothing open red."""
        sheet = text_of(os.path.join(Page.folder, "style.css"))
        wanted = {f"l{level}-{part}": hues for level, hues in enumerate(((45, 65), (25, 40), (0, 15), (290, 320)), 1) for part in ("fill", "mark", "edge")}
        for name, (low, high) in {**wanted, "open": (140, 160), "recover": (210, 230), "bad": (0, 15)}.items():
            colours = re.findall("#(..)(..)(..)", re.search(rf"--{name}: ([^;]+);", sheet)[1])
            hues = [colorsys.rgb_to_hsv(*(int(part, 16) / 255 for part in colour))[0] * 360 for colour in colours]
            self.assertTrue(hues and all(low <= hue <= high for hue in hues), (name, hues))
        for level in (1, 2, 3, 4):
            self.assertIn(f".l{level} {{ background: var(--l{level}-fill); color: var(--l{level}-ink); }}", sheet)
        patterns = list(xml_of(on_page("return daa.patterns();")).iter("pattern"))
        shapes = ({"circle"}, {"M-2 2l4 -4M0 10L10 0M8 12l4 -4"}, {"M0 0l9 9M9 0l-9 9"}, {"M0 3h9"})
        for level, (pattern, shape) in enumerate(zip(patterns, shapes, strict=True), 1):
            ground, mark = pattern
            self.assertEqual((pattern.get("id"), ground.get("fill")), (f"level{level}", f"var(--l{level}-fill)"))
            self.assertEqual({mark.get("d") or mark.tag}, shape)
            self.assertIn(f"var(--l{level}-mark)", (mark.get("fill"), mark.get("stroke")))

    def test_a_tape_beyond_its_candidates_is_not_clear(self):
        """Of speeds to 200 knots, for an ownship of 360: above them the tape is as grey as where there is no answer."""
        config = bytes_of(THREE_LEVELS).replace(b"max = 7000", b"max = 2000")
        self.assertNotEqual(config, bytes_of(THREE_LEVELS))
        text, _ = moments_in(bytes_of(ENCOUNTER))[0]
        with tempfile.NamedTemporaryFile(suffix=".toml") as file:
            file.write(config)
            file.flush()
            self.show(config, text.encode(), replayed(file.name, text.encode()))
        tape = self.g["tapes"]["gs"]
        rects = [it for it in self.layers["tapes"].iter("rect") if abs(float(it.get("x")) - tape["x"]) < 1]
        self.assertEqual((rects[0].get("fill"), float(rects[0].get("height"))), ("var(--unknown)", round(tape["bottom"] - tape["top"], 1)))
        share = (2000 - 500) / (3600 - 500)
        self.assertAlmostEqual(min(float(it.get("y")) for it in rects[1:]), tape["bottom"] - share * (tape["bottom"] - tape["top"]), delta=1)

    def test_between_two_candidates_the_colour_is_that_of_the_nearer_one(self):
        """On the ring and on a tape, at two fifths of a step from each candidate; below the least and above the greatest speed is none."""
        text, report = moments_in(bytes_of(ENCOUNTER))[0][0], moments_of(replayed(THREE_LEVELS, bytes_of(ENCOUNTER)))[0]
        self.show(THREE_LEVELS, text.encode(), report)
        paint, (tracks, speeds) = lambda level: f"url(#level{level})" if level else "var(--l0-fill)", (candidates_of(report, kind) for kind in ("track", "gs"))
        sectors = [self.sector(it) for it in self.layers["ring"].iter("path") if it.get("data-level")]
        for track, level in tracks.items():
            for near in (track - 2, track + 2):
                self.assertEqual([fill for begin, turn, fill in sectors if (near - begin) % 360 <= turn], [paint(level)], near)
        tape = self.g["tapes"]["gs"]
        bands = [it for it in self.layers["tapes"].iter("rect") if it.get("data-level") and abs(float(it.get("x")) - tape["x"]) < 1]
        self.assertEqual((min(speeds), max(speeds), len(set(speeds.values())) > 2), (500, 7000, True))
        for speed, level in speeds.items():
            for near in (speed - 40, speed + 40):
                at = tape["bottom"] - (near - 500) / 6500 * (tape["bottom"] - tape["top"])
                fills = [it.get("fill") for it in bands if float(it.get("y")) <= at <= float(it.get("y")) + float(it.get("height"))]
                self.assertEqual(fills, [paint(level)] if 500 <= near <= 7000 else [], near)

    def test_answers_beyond_a_tape(self):
        """Of a report whose altitudes lie 5000 feet from the ownship's: they stand at the ends, and say where to look."""
        text, _ = moments_in(bytes_of(ENCOUNTER))[0]
        report = moments_of(replayed(THREE_LEVELS, bytes_of(ENCOUNTER)))[0]
        self.show(THREE_LEVELS, text.encode(), report.replace("resolve alt down 9500 up 10500", "resolve alt down 5000 up 15000"))
        tape = self.g["tapes"]["alt"]
        found = [(text, round(y)) for text, x, y in self.texts("tapes", "open") if abs(x - tape["x"] - tape["band"] - 15) < 1]
        self.assertEqual(found, [("5000 ▼", round(tape["bottom"])), ("15000 ▲", round(tape["top"]))])

    def test_head_and_legend(self):
        self.show(RECOVERY, TURNED, replayed(RECOVERY, TURNED))
        self.assertEqual([text for text, *_ in self.texts("head")], ["0 s", "NOTE", "NAME", "12 NM · north up · 60 s ahead"])
        self.assertEqual([text for text, *_ in self.texts("legend")], ["clear", "level 1", "level 2, corrective", "level 3", "nearest open", "recovery"])
        self.assertEqual([it.get("fill") for it in self.layers["legend"].iter("rect")], ["var(--l0-fill)", "url(#level1)", "url(#level2)", "url(#level3)"])


@unittest.skipUnless(NODE, HOW)
class Strip(unittest.TestCase):
    """The strip over time, of 1000 times 150 points: 912 are of times."""

    # Of the encounter four moments 10 seconds apart, the last of which comes 160 seconds after the one before.
    GAP = "".join(text for text, moment in moments_in(bytes_of(ENCOUNTER)) if moment.time in (0, 10, 20, 180)).encode()

    def over_time(self, states=bytes_of(ENCOUNTER), *more):
        return in_node([["over_time", bytes_of(THREE_LEVELS), states, *more]])[0]

    @staticmethod
    def x(time):
        return 78 + time / 190 * 912

    def boxes(self, fills, paint):
        return [fill[1:] for fill in fills if fill[0] == paint]

    def test_levels_bands_and_tracks(self):
        """At each moment the level of each aircraft in its row, the bands at each track, and the ownship's track and the open ones."""
        shown = self.over_time()
        g, fills = shown["g"], shown["first"]
        self.assertEqual([words for words, x, _ in shown["texts"] if x == 4], ["AMBER"])
        levels_at = [(int(paint[5:]), *box) for paint, *box in fills if paint.startswith("level")]
        y = lambda track: g["top"] + g["tall"] - (track - g["foot"]) % 360 / 360 * g["tall"]
        moments = moments_of(replayed(THREE_LEVELS, bytes_of(ENCOUNTER)))
        own = self.boxes(fills, "own")
        for moment, (_, state), (_, at, _, _) in zip(moments, moments_in(bytes_of(ENCOUNTER)), own, strict=True):
            x = self.x(state.time + 5)
            levels = lambda at: [level for level, left, top, wide, tall in levels_at if left <= x <= left + wide and top <= at <= top + tall]
            level = levels_of(moment)["AMBER"]
            self.assertEqual(levels(20.5), [level] if level else [], moment)
            self.assertEqual(levels(21 - 11 * level / 4 - 1), [], moment)
            self.assertEqual({track: levels(y(track)) for track in candidates_of(moment, "track")},
                             {track: [level] if level else [] for track, level in candidates_of(moment, "track").items()})
            self.assertAlmostEqual(at + 1, y(state.own.trk), delta=0.1)
        self.assertEqual([round(top + 2, 1) for _, top, _, _ in self.boxes(fills, "open")],
                         [round(y(track), 1) for moment in moments for track in values_of(moment, "resolve", "track")])

    def test_a_gap_is_left_free(self):
        """The moment before it is drawn for 40 seconds. Between two columns there is no seam."""
        clear = self.boxes(self.over_time(self.GAP)["first"], "clear")
        self.assertEqual([(left, left + wide) for left, _, wide, _ in clear], [(round(self.x(begin)), round(self.x(end))) for begin, end in ((0, 10), (10, 20), (20, 60), (180, 190))])

    def test_nothing_is_clear_that_is_not_decided(self):
        """The ground is that of what has no answer; on it stand the columns of what is decided, and those alone that are new when more is."""
        for states, decided, wanted in ((bytes_of(ENCOUNTER), None, [(0, 190)]), (bytes_of(ENCOUNTER), 8, [(0, 80)]), (bytes_of(ENCOUNTER), 0, []), (self.GAP, None, [(0, 60), (180, 190)])):
            shown = self.over_time(states, decided)
            (left, top, wide, tall), = self.boxes(shown["first"], "unknown")
            self.assertEqual((left, wide, top + tall), (78, 912, 132))
            runs = []
            for left, at, wide, high in self.boxes(shown["first"], "clear"):
                self.assertEqual((at, high), (top, tall))
                if runs and left == runs[-1][1]:
                    runs[-1][1] = left + wide
                else:
                    runs.append([left, left + wide])
            self.assertEqual(runs, [[round(self.x(end)) for end in run] for run in wanted])
            self.assertEqual(len(self.boxes(shown["then"], "clear")), 0 if decided is None else 19 - decided)
            self.assertEqual(self.boxes(shown["then"], "unknown"), [])

    def test_no_level_is_told_of_moments_that_are_not_decided(self):
        """Of the first two of 19 moments the greatest level is 2; it comes to 3 later."""
        for decided, told in ((0, "0 of 19 moments are decided"), (2, "2 of 19 moments are decided, the greatest alert level of these is 2"),
                              (19, "19 moments, the greatest alert level is 3")):
            self.assertEqual(self.over_time(bytes_of(ENCOUNTER), decided)["told"], told)

    def test_where_two_configurations_differ_is_marked(self):
        """In a row of its own: at each moment at which the reports alert or answer otherwise, and at no other one."""
        other = bytes_of(THREE_LEVELS).replace(b"alert = 55", b"alert = 30").replace(b"alert = 25", b"alert = 10")
        with tempfile.NamedTemporaryFile(suffix=".toml") as file:
            file.write(other)
            file.flush()
            reports = [[re.findall("(?m)^(?:alert|resolve) (.*)$", moment) for moment in moments_of(replayed(config, bytes_of(ENCOUNTER)))] for config in (THREE_LEVELS, file.name)]
        level = lambda line: re.sub(r"^(\w+ \d) (\d+|-)$", r"\1", line)  # of an alert without its second
        wanted = [place for place, pair in enumerate(zip(*reports)) if [level(line) for line in pair[0]] != [level(line) for line in pair[1]]]
        self.assertTrue(1 < len(wanted) < 19)
        shown = self.over_time(bytes_of(ENCOUNTER), None, other)
        self.assertIn("differs", [words for words, x, _ in shown["texts"] if x == 4])
        marks = [left for left, _, wide, _ in self.boxes(shown["first"], "ink")]
        self.assertEqual(marks, [round(self.x(10 * place)) for place in wanted])

    def test_incomplete_moments_are_hatched_at_the_top(self):
        hatches = self.boxes(self.over_time(bytes_of(ENCOUNTER), None, None, [3])["first"], "bad")
        self.assertEqual({(top, tall) for _, top, _, tall in hatches}, {(0, 5)})
        self.assertEqual((min(left for left, *_ in hatches), len(hatches)), (round(self.x(30)), 12))


@unittest.skipUnless(NODE, HOW)
class Ends(Display):
    """What stands at the very end of a tape, at the rim, and at a value of 0; and circles, no two kinds of which look alike."""

    def config(self, old, new):
        """The configuration of three levels with one change, and the program's report of the first moment of the encounter under it."""
        text = bytes_of(THREE_LEVELS).replace(old, new, 1)
        self.assertNotEqual(text, bytes_of(THREE_LEVELS))
        with tempfile.NamedTemporaryFile(suffix=".toml") as file:
            file.write(text)
            file.flush()
            return text, moments_of(replayed(file.name, bytes_of(ENCOUNTER)))[0]

    STATES = moments_in(bytes_of(ENCOUNTER))[0][0].encode()

    def test_the_most_urgent_last_time_is_shown(self):
        """A manoeuvre that may wait 0 seconds must begin now: of each kind, with the words of the others beside it."""
        config, report = self.config(b"resolve = 2", b"last_times = 1\nresolve = 2")
        report = re.sub(r"(?m)^last .*\n", "", report).replace("done 0", "last track 0\nlast gs 0\nlast vs 0\nlast alt 0\ndone 0")
        self.show(config, self.STATES, report)
        told = {it.get("data-kind"): it.text for it in self.layers["answers"].iter("text") if it.get("data-what") == "last"}
        self.assertEqual(told, {"track": "a turn may wait 0 s", "gs": "may wait 0 s", "vs": "may wait 0 s", "alt": "may wait 0 s"})

    def test_a_tape_ends_at_its_greatest_candidate(self):
        """Where no step leads to the greatest value: of speeds from 50 to 705 knots in steps of 10 the greatest candidate is 700."""
        self.show(*(lambda config, report: (config, self.STATES, report))(*self.config(b"max = 7000", b"max = 7050")))
        tape = self.g["tapes"]["gs"]
        tops = [float(it.get("y")) for it in self.layers["tapes"].iter("rect") if it.get("data-level") and abs(float(it.get("x")) - tape["x"]) < 1]
        self.assertAlmostEqual(min(tops), tape["top"] + 50 / 6550 * (tape["bottom"] - tape["top"]), delta=0.11)

    def test_answers_at_the_very_ends_of_a_tape_are_not_beyond_it(self):
        report = moments_of(replayed(THREE_LEVELS, bytes_of(ENCOUNTER)))[0]
        changed = re.sub(r"(?m)^resolve gs (\w+) \S+ (\w+) \S+$", r"resolve gs \1 500 \2 7000", report)
        self.assertNotEqual(changed, report)
        self.show(THREE_LEVELS, self.STATES, changed)
        tape = self.g["tapes"]["gs"]
        right = tape["x"] + tape["band"]
        self.assertEqual([text for text, x, _ in self.texts("tapes", "open") if abs(x - right - 15) < 1], ["50", "700"])
        marks = [y for x, y in self.marks("tapes", "fill", "open") if abs(x - right - 2) < 1]
        self.assertEqual([round(y) for y in marks], [round(tape["bottom"]), round(tape["top"])])

    def test_an_aircraft_on_the_ring_is_out_of_range(self):
        """Its symbol would stand on the ring's bands: 11.85 of 12 NM away."""
        states = b"moment 0\nown 0 0 10000 0 3600 0\ntraffic ON 11850 0 10000 0 -100 0\ntraffic IN 11400 0 20000 0 -100 0\nend\n"
        self.show(THREE_LEVELS, states, replayed(THREE_LEVELS, states))
        self.assertGreater(11.85 / 12 * self.g["radius"] + 10, self.g["radius"])
        self.assertLess(11.4 / 12 * self.g["radius"] + 10, self.g["radius"])
        self.assertEqual(["scale(.8)" in self.handles[f"p:{name}"]["inside"] for name in ("ON", "IN")], [True, False])
        self.assertEqual(["v:ON" in self.handles, "v:IN" in self.handles], [False, True])
        self.assertAlmostEqual(self.radius(*self.places["p:ON"]), self.g["radius"] - 13, delta=1)

    def test_an_old_report_looks_old(self):
        """From 5 seconds on: a paler symbol, a dotted way from where it was reported, and its age in the label."""
        rows = "".join(f"traffic A{age} {3000 - 100 * age} {5000 + 900 * place} 20000 360 0 0 {age}\n" for place, age in enumerate((0, 4, 5, 60)))
        states = f"format 2\nmoment 0\nown 0 0 10000 0 3600 0\n{rows}end\n".encode()
        self.show(THREE_LEVELS, states, replayed(THREE_LEVELS, states))
        for age in (0, 4, 5, 60):
            inside = xml_of(self.handles[f"p:A{age}"]["inside"])
            isold = age >= 5
            self.assertEqual(sum(it.get("class") == "old" for it in inside.iter("g")), int(isold))
            self.assertEqual([it.text for it in inside.iter("text") if it.text.startswith("+")], ["+100" + f" · {age} s" * isold])
            ways = [numbers_in(it.get("d"))[0] for it in inside.iter("path") if it.get("class") == "way-back"]
            self.assertEqual([round(way) for way in ways], [round(-age * 0.01 / 12 * self.g["radius"])] * isold)
            self.assertEqual(f"its report is {age} seconds old" in self.handles[f"p:A{age}"]["aria-valuetext"], isold)
        self.assertIn(".old{opacity:.5;stroke-dasharray:3 2}", on_page("return daa.STYLE;"))

    def test_the_dashed_circle_is_the_threshold_of_the_corrective_level(self):
        """And no other: not the rings of the range, not what is chosen, not what is violated now. It is never hidden by the ownship's symbol, which
        shrinks within it; where it would be smaller than that may become there is none."""
        for range_nm, is_there in ((3, True), (12, True), (24, False)):
            self.show(RECOVERY, TURNED, replayed(RECOVERY, TURNED), range=range_nm, chosen="p:A")
            parts = [*self.layers.values(), *(xml_of(it["inside"]) for it in self.handles.values())]
            circles = [it for part in parts for it in part.iter("circle")]
            self.assertGreater(len(circles), 10)
            dashed = [it for it in circles if it.get("stroke-dasharray")]
            self.assertEqual([it.find("title").text for it in dashed], ["dthr of level 2"] * is_there)
            size = float(re.search(r"scale\(([.0-9]+)\)", self.handles["p:"]["inside"])[1])
            if is_there:
                self.assertGreater(float(dashed[0].get("r")), 18 * size)
            self.assertTrue(0.55 < size <= 1)
        focus = [it for it in circles if it.get("class") == "focus"]
        self.assertTrue(focus and all(it.get("pathLength") == "400" for it in focus))
        self.assertIn("circle.focus{stroke-dasharray:50 50;", on_page("return daa.STYLE;"))
