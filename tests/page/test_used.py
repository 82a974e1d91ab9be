"""The page over stand-ins for a browser: what the panel says, and what keys, pointers and typed numbers do."""
import math
import os
import re
import unittest

from nodes import FAR, HOW, NODE, OPEN, STATES, TURNED, on_page, xml_of
from shared import ENCOUNTER, THREE_LEVELS, Page, bytes_of, moments_in, moments_of, replayed, text_of
from daidalus_files import AGE, ALT, GS, TRK, VS, VX, VY, X, Y  # noqa: E402 (after shared, which says where it is)


@unittest.skipUnless(NODE, HOW)
class Used(unittest.TestCase):
    maxDiff = 3000

    def test_the_table_the_clock_and_the_lines_of_the_report(self):
        """8.544 NM at 20.6 degrees, and 1.237 NM at 256.0. Each line of a level is marked with its number, and no other line is."""
        first, fifth = on_page("""
            const read = () => [$("aircraft").tBodies[0].innerHTML, $("report").innerHTML, $("clock").textContent, $("axis").getAttribute("aria-valuetext")];
            const first = read();
            daa.ui.goTo(Number("5"));
            await settle();
            return [first, read()];""")
        for _, report, *_ in (first, fifth):
            for it in [*xml_of(report).iter("b"), *(chip for html, *_ in (first, fifth) for chip in xml_of(html).iter("span"))]:
                self.assertEqual(it.get("class").split()[-1:], [f"l{it.text}"] if it.text else [])
        rows = [["".join(cell.itertext()) for cell in row] for row in xml_of(first[0])]
        self.assertEqual(rows, [["ownship", "000° · 360 kt · 10000 ft"], ["AMBER", "2 43\u00a0s", "8.54", "021", "0"], ["BRAVO", "0", "1.24", "256", "+600"]])
        self.assertEqual(["".join(row[1].itertext()) for row in xml_of(fifth[0])][1:], ["3 now", "0"])
        self.assertEqual([it.get("aria-pressed") for it in xml_of(first[0]).iter("button")], ["true", "false", "false"])
        self.assertEqual((first[2:], fifth[2:]), (["0 s · 1 of 19", "0 seconds, moment 1 of 19"], ["50 s · 6 of 19", "50 seconds, moment 6 of 19"]))
        level = re.compile(r"(?:now \S+|alert \S+|(?:track|gs|vs|alt) \S+ \S+) ([1-4])\b")
        for place, (_, report, *_) in ((0, first), (5, fifth)):
            marks = {line.find("span").text: line.find("b").text or "" for line in xml_of(report).iter("div") if line.get("class") == "line"}
            moment = moments_of(replayed(THREE_LEVELS, bytes_of(ENCOUNTER)))[place]
            self.assertEqual(marks, {line: level.match(line)[1] if level.match(line) else "" for line in moment.splitlines()})

    def test_a_line_of_answers_has_the_colour_of_what_it_says(self):
        """Green where something is open on a side, and red where nothing is."""
        found = on_page("""
            $("example").value = "encounter, with recoveries";
            await fire($("example"), "change");
            const found = [];
            for (const value of given) {
              daa.ui.goTo(Number(value));
              await settle();
              found.push($("report").innerHTML);
            }
            return found;""", "0", "6", "18")
        styles = {}
        for report in found:
            spans = [line.find("span") for line in xml_of(report).iter("div") if line.get("class") == "line"]
            styles.update({it.text: it.get("class") for it in spans if it.text.split(" ")[0] in ("resolve", "recover")})
        self.assertEqual({line: style for line, style in styles.items() if " gs " in line or " track " in line}, {
            "resolve track left none right 10": "resolve", "resolve gs down 2600 up none": "resolve", "resolve track left none right none": "none",
            "recover track 11 35": "recover", "resolve gs down none up none": "none", "recover gs none": "none",
            "resolve track left keep right keep": "", "resolve gs down keep up keep": ""})

    def test_the_table_tells_a_level_that_is_violated_now_beside_a_greater_one(self):
        report = moments_of(replayed(THREE_LEVELS, bytes_of(ENCOUNTER)))[0].replace("now AMBER 0", "now AMBER 1")
        table = on_page("""
            page.views[0].desk.ask = async () => ({ text: given[0] });
            page.views[0].edition += 1;
            await fire(screen, "resize");
            await settle();
            return $("aircraft").tBodies[0].innerHTML;""", report)
        cell = xml_of(table)[1][1]
        self.assertEqual(("".join(cell.itertext()), [it.get("class") for it in cell]), ("2 43\u00a0s, 1\u00a0now", ["chip l2", "chip l1"]))

    def test_the_table_flies_an_old_report_on(self):
        """15 seconds old, B is 2.5 NM west and 2.325 NM north of the ownship, and 1175 feet below: 3.414 NM at 312.9 degrees."""
        rows = on_page("""
            await fire(screen, "drop", { dataTransfer: { types: ["Files"], files: [{ name: "turned.states", arrayBuffer: async () => daa.bytesOf(given[0]).buffer }] } });
            await settle();
            return $("aircraft").tBodies[0].innerHTML;""", TURNED.decode())
        row, = [["".join(cell.itertext()) for cell in row] for row in xml_of(rows) if "".join(row[0].itertext()) == "B"]
        self.assertEqual(row[2:], ["3.41", "313", "−1175"])

    def test_the_sentence_tells_recoveries(self):
        told = on_page("""
            $("example").value = "encounter, with recoveries";
            await fire($("example"), "change");
            daa.ui.goTo(Number("6"));
            await settle();
            return $("summary").textContent;""")
        self.assertEqual(told, "Alerts: AMBER level 3 now. Clear again: track 035° after 11 s; vertical speed 4600 ft/min after 11 s; "
                         "altitude 10500 ft after 14 s. Nothing open: ground speed.")

    def test_the_sentence_of_a_flight_that_may_be_kept(self):
        told = on_page('daa.ui.goTo(Number("18")); await settle(); return $("summary").textContent;')
        self.assertEqual(told, "No alert. The present flight may be kept.")

    def test_the_sentence_names_each_side(self):
        """Of the encounter's first moment, and of the same in a mirror."""
        text = moments_in(bytes_of(ENCOUNTER))[0][0]
        found = on_page(OPEN + """
            const found = [];
            for (const text of given) {
              await open(["a.states", text]);
              found.push($("summary").textContent);
            }
            return found;""", text, text.replace("AMBER 3000 8000 10000 -1350", "AMBER -3000 8000 10000 1350").replace("BRAVO -1200", "BRAVO 1200"))
        for told, side in zip(found, ("right to 010°", "left to 350°")):
            self.assertEqual(told, f"Alerts: AMBER level 2 in 43 s. Open: track {side}; ground speed down to 260 kt; vertical speed down to −700 ft/min "
                             "or up to 700 ft/min; altitude down to 9500 ft or up to 10500 ft.")

    def test_the_sentence_of_many_alerts_counts_the_rest(self):
        """Four are told, those of the greatest levels, the first of them first, as in the table; how a display is named has the greatest level
        of all."""
        rows = "".join(f"traffic A{i} {60 * i} {3000 + 600 * i} 10000 0 -1500 0\n" for i in range(7)) + "traffic LAST 9000 0 30000 0 0 0\n"
        states = f"moment 0\nown 0 0 10000 0 1500 0\n{rows}end\n"
        told, label, table = on_page(OPEN + """
            await open(["many.states", given[0]]);
            return [$("summary").textContent, display().getAttribute("aria-label"), $("aircraft").tBodies[0].innerHTML];""", states)
        alerts = re.findall(r"(?m)^alert (\S+) ([1-4]) (\d+)$", replayed(THREE_LEVELS, states.encode()))
        alerts.sort(key=lambda it: (-int(it[1]), int(it[2])))
        self.assertGreaterEqual(len(alerts), 6)
        self.assertEqual(["".join(row[0].itertext()) for row in xml_of(table)][1:], [name for name, *_ in alerts] + ["LAST"])
        words = [f"{name} level {level} {'now' if first == '0' else f'in {first} s'}" for name, level, first in alerts[:4]]
        self.assertTrue(told.startswith(f"Alerts: {', '.join(words)}, {len(alerts) - 4} more. "), told)
        self.assertEqual(label, f"Display under three_levels: 8 aircraft, the greatest alert level is {alerts[0][1]}")

    def test_the_sentence_beside_two_displays_names_its_own(self):
        alone, beside = on_page("""
            const alone = $("summary").textContent;
            await fire($("compare"), "change", { target: { checked: true } });
            await settle();
            return [alone, $("summary").textContent];""")
        self.assertEqual(beside, f"Under three_levels: {alone}")

    def test_the_sentence_is_that_of_what_is_held(self):
        """And of no older moment; a screen reader is told of it when it is let go."""
        found = on_page("""
            const { x, y } = page.views[0].drawn.g.centre, [left, top] = handle("p:AMBER").getAttribute("transform").match(/[-.0-9]+/g).map(Number);
            const told = () => [$("summary").textContent, $("summary").getAttribute("aria-busy")];
            const found = [told()];
            fire(display(), "pointerdown", { target: handle("p:AMBER"), clientX: left, clientY: top, pointerId: 1, button: 0, isPrimary: true });
            fire(display(), "pointermove", { clientX: x + 5, clientY: y - 5, pointerId: 1, buttons: 1 });
            await settle();
            found.push(told());
            fire(display(), "pointerup", { pointerId: 1 });
            await settle();
            return [...found, told()];""")
        self.assertEqual([busy for _, busy in found], ["false", "true", "false"])
        self.assertRegex(found[0][0], "^Alerts: AMBER level 2 in 43 s")
        self.assertRegex(found[1][0], "^Alerts: AMBER level 3 now")
        self.assertEqual(found[1][0], found[2][0])

    def test_what_comes_within_the_first_second_is_not_told_as_now(self):
        """Under the model of the entry point A is no violation as the moment begins, and is one before its first second is over."""
        head = text_of(THREE_LEVELS).partition("[[level]]")[0].replace("resolve = 2", "resolve = 1")
        config = f"{head}[[level]]\ndthr = 660\nzthr = 700\ntthr = 9\ntcoa = 0\nlookahead = 1\nalert = 1\ntep = 1\n"
        found = on_page(OPEN + """
            await open(["entry.toml", given[0]]);
            const found = [];
            for (const states of given.slice(1)) {
              await open(["a.states", states]);
              found.push([page.views[0].said.aircraft[0], handle("p:A").innerHTML, $("aircraft").tBodies[0].innerHTML, $("summary").textContent]);
            }
            return found;""", config, *(f"moment 0\nown 0 0 1000 0 3600 0\ntraffic A 0 {north} 1000 0 0 0\nend\n" for north in (1660, 600)))
        self.assertEqual([said for said, *_ in found], [{"id": "A", "now": now, "level": 1, "first": 0} for now in (0, 1)])
        for (_, inside, table, summary), label, cell, words in zip(found, ("L1 0 s", "L1 now"), ("1 0\u00a0s", "1 now"), ("in 0 s", "now")):
            self.assertEqual([it.text for it in xml_of(inside).iter("text") if it.text.startswith("L1")], [label])
            self.assertEqual(["".join(row[1].itertext()) for row in xml_of(table)][1:], [cell])
            self.assertTrue(summary.startswith(f"Alerts: A level 1 {words}. "), summary)

    def test_a_tooltip_is_not_that_of_an_older_state(self):
        """Of each handle it is what a screen reader is told, also where nothing else of the handle has changed: of the ownship's place in
        other moments, and of an aircraft's velocity that was turned."""
        found = on_page("""
            page.views[0].look.auto = false; // so that each velocity ends within the range
            const told = () => [...display().daa.handles.values()].map((it) => [it.innerHTML, `${it.getAttribute("aria-label")}: ${it.getAttribute("aria-valuetext")}`]);
            const found = [told()];
            for (const value of ["1", "7"]) {
              daa.ui.goTo(Number(value));
              await settle();
              found.push(told());
            }
            for (const step of [["p:", "ArrowUp"], ["v:BRAVO", "ArrowLeft"], ["p:AMBER", "PageUp"], ["gs", "ArrowUp"]]) {
              await press(...step);
              found.push(told());
            }
            return found;""")
        self.assertEqual(len({words for handles in found for _, words in handles if words.startswith("ownship: ")}), 4)
        for handles in found:
            self.assertEqual([xml_of(inside).find("title").text for inside, _ in handles], [words for _, words in handles])

    def test_each_number_is_in_the_unit_that_is_told(self):
        """Places in NM, speeds in knots, of the ownship and of an aircraft; and whose number is out of its range."""
        own, typed, fault, other, last = on_page(f"""
            const shown = () => Object.fromEntries($("state").querySelectorAll("input").map(({{ dataset, value }}) => [dataset.field, value]));
            const type = async (values) => {{
              for (const [field, value] of Object.entries(values)) {{
                const {{ dataset }} = $("state").querySelectorAll("input").find((it) => it.dataset.field === field);
                await fire($("state"), "input", {{ target: {{ dataset, value }} }});
                await settle();
              }}
              return {STATES};
            }};
            const own = shown(), typed = await type({{ x: "1.5", y: "-2.25", trk: "7", gs: "361.5", vs: "-300" }});
            await type({{ alt: "70000" }});
            const fault = $("fault").textContent;
            await fire($("restore"), "click");
            await fire($("aircraft"), "click", {{ target: {{ dataset: {{ choose: "AMBER" }} }} }});
            await settle();
            return [own, typed, fault, shown(), await type({{ x: "2.5", y: "7.75", vx: "-120.5", vy: "10", vs: "200", age: "3" }})];""")
        self.assertEqual(own, {"x": "0", "y": "0", "alt": "10000", "trk": "0", "gs": "360", "vs": "0"})
        self.assertIn("own 1500 -2250 10000 7 3615 -300\n", typed)
        self.assertEqual(fault, "altitude of the ownship is not within -2000 and 60000 ft")
        self.assertEqual(other, {"id": "AMBER", "x": "3", "y": "8", "alt": "10000", "vx": "-135", "vy": "0", "vs": "0", "age": "0"})
        self.assertIn("traffic AMBER 2500 7750 10000 -1205 100 200 3\n", last)

    def test_a_fault_has_the_name_and_the_unit_of_the_form(self):
        """And its range in that unit, of each number."""
        found = on_page("""
            const found = [], form = /<label>(\\S+) (\\S+?)<input[^>]* data-field="(\\w+)"[^>]* min="(\\S+)" max="(\\S+)"/g;
            for (const choose of ["", "AMBER"]) {
              await fire($("aircraft"), "click", { target: { dataset: { choose } } });
              await settle();
              for (const [, name, unit, field, least, most] of [...$("state").innerHTML.matchAll(form)]) {
                const { dataset } = $("state").querySelectorAll("input").find((it) => it.dataset.field === field);
                await fire($("state"), "input", { target: { dataset, value: String(Number(most) + 1) } });
                await settle();
                found.push([`${name} of ${choose || "the ownship"} is not within ${least} and ${most} ${unit}`, $("fault").textContent]);
                await fire($("restore"), "click");
              }
            }
            return found;""")
        self.assertEqual(len(found), 13)
        for wanted, told in found:
            self.assertEqual(told, wanted.replace(" °", "°"))

    def test_each_number_has_its_name_and_unit(self):
        own, other = on_page("""
            const named = () => [...$("state").innerHTML.matchAll(/<label>([^<]*?) ?<input[^>]*data-field="(\\w+)"/g)].map(([, words, field]) => [field, words]);
            const own = named();
            await fire($("aircraft"), "click", { target: { dataset: { choose: "AMBER" } } });
            await settle();
            return [own, named()];""")
        some = [["x", "east NM"], ["y", "north NM"], ["alt", "altitude ft"]]
        self.assertEqual(own, [*some, ["trk", "track °"], ["gs", "speed kt"], ["vs", "vertical ft/min"]])
        self.assertEqual(other, [["id", "name"], *some, ["vx", "east kt"], ["vy", "north kt"], ["vs", "vertical ft/min"], ["age", "age s"]])

    def test_a_number_beyond_all_is_told(self):
        """And not left as it was some letters ago."""
        for value in ("1e21", "-1e21"):
            told = on_page("""
                await fire($("state"), "input", { target: { dataset: { field: given[0], scale: given[1] }, value: given[2] } });
                await settle();
                return $("fault").textContent;""", "x", "1000", value)
            self.assertEqual(told, "east of the ownship is not within -200 and 200 NM")

    def test_escape_takes_back_what_is_being_typed(self):
        typed, after = on_page("""
            const input = $("state").querySelectorAll("input").find((it) => it.dataset.field === "alt");
            document.activeElement = input;
            input.value = "9000.0";
            await fire($("state"), "input", { target: input });
            await settle();
            const typed = input.value;
            await fire(document, "keydown", { target: input, key: "Escape" });
            await settle();
            return [typed, input.value];""")
        self.assertEqual((typed, after), ("9000.0", "10000"))

    def test_a_field_that_is_left_shows_what_counts(self):
        """Of a place that was written too finely, and of an altitude that was taken away."""
        found = on_page("""
            const found = [];
            for (const [field, value] of given) {
              const input = $("state").querySelectorAll("input").find((it) => it.dataset.field === field);
              document.activeElement = input;
              input.value = value;
              await fire($("state"), "input", { target: input });
              await settle();
              found.push(input.value);
              document.activeElement = $("axis");
              await fire($("state"), "change", { target: input });
              await frame();
              await settle();
              found.push(input.value);
            }
            return found;""", ("x", "1.23456"), ("alt", ""))
        self.assertEqual(found, ["1.23456", "1.235", "", "10000"])

    def test_the_limits_are_those_of_state_lines(self):
        wanted = {field.name.lower(): [field.low, field.high] for field in (X, Y, ALT, TRK, GS, VX, VY, VS, AGE)}
        self.assertEqual(on_page("return daa.ui.LIMITS;"), wanted)

    def test_keys(self):
        """With Shift an aircraft goes a mile and 1000 feet, a velocity turns by a degree, and bug and pointers go ten times as far. 5
        degrees to the right of 135 knots westward are 135 cos 5 west and 135 sin 5 north."""
        steps = (("p:AMBER", "ArrowUp", True, "traffic AMBER 3000 9000 10000 -1350 0 0"), ("p:AMBER", "PageUp", True, "traffic AMBER 3000 9000 11000 -1350 0 0"),
                 ("v:", "ArrowRight", True, "own 0 0 10000 1 3600 0"), ("track", "ArrowRight", True, "own 0 0 10000 11 3600 0"),
                 ("gs", "ArrowDown", True, "own 0 0 10000 11 3100 0"), ("vs", "ArrowUp", True, "own 0 0 10000 11 3100 1000"),
                 ("alt", "ArrowUp", True, "own 0 0 11000 11 3100 1000"), ("v:AMBER", "ArrowRight", False, "traffic AMBER 3000 9000 11000 -1345 118 0"),
                 ("v:BRAVO", "ArrowUp", False, "traffic BRAVO -1200 -300 10600 0 3700 -600"),
                 ("p:BRAVO", "PageDown", False, "traffic BRAVO -1200 -300 10500 0 3700 -600"))
        found = on_page(f"const found = []; for (const step of given) {{ await press(...step); found.push({STATES}); }} return found;", *(step[:3] for step in steps))
        for (*_, line), states in zip(steps, found, strict=True):
            self.assertIn(line + "\n", states)

    def test_page_up_and_down_change_altitudes_alone(self):
        found = on_page("""
            const found = [];
            for (const key of given) {
              await press(key, "PageUp");
              found.push([page.current.own.alt, page.current.traffic[0].alt, page.edited]);
            }
            return found;""", "track", "gs", "vs", "alt", "v:AMBER")
        self.assertEqual(found, [[10000, 10000, False]] * 3 + [[10100, 10000, True], [10100, 10100, True]])

    def test_a_step_past_the_ends_keeps_what_was_changed_by_hand(self):
        """By keys and by buttons, and by the space bar where there is one moment."""
        found = on_page(OPEN + """
            const found = [], key = (key) => () => fire(document, "keydown", { target: { closest: () => null }, key });
            const change = async (...steps) => {
              await press("p:AMBER", "ArrowUp");
              for (const step of steps) {
                await step();
                await settle();
                found.push(page.edited);
              }
            };
            await change(key(","), () => fire($("back"), "click"));
            daa.ui.goTo(Number("18"));
            await settle();
            await change(key("."), () => fire($("forward"), "click"));
            await open(["one.states", given[0]]);
            await change(key(" "));
            return [...found, Boolean(page.playing)];""", moments_in(bytes_of(ENCOUNTER))[0][0])
        self.assertEqual(found, [True] * 5 + [False])

    def test_keys_with_the_track_up(self):
        """An arrow goes where it points on the display: ahead and to the right of a track of 40 degrees."""
        places = on_page(OPEN + """
            await open(["turned.states", given[0]]);
            await fire(caption, "click", { target: { dataset: { do: "up" } } });
            await settle();
            const places = [];
            for (const key of ["ArrowUp", "ArrowRight"]) {
              await press("p:A", key, true);
              places.push([page.current.traffic[0].x, page.current.traffic[0].y]);
            }
            return places;""", TURNED.decode())
        self.assertEqual(places, [[4500 + 643, 4000 + 766], [4500 + 643 + 766, 4000 + 766 - 643]])

    def test_keys_at_what_was_just_removed(self):
        """They come before it is gone from the display, and move nothing."""
        states = on_page(f"""
            const gone = handle("p:AMBER");
            for (const key of ["Delete", "Delete", "ArrowUp", "PageUp"]) fire(display(), "keydown", {{ target: gone, key }});
            await settle();
            return {STATES};""")
        self.assertEqual(re.findall("(?m)^(?:traffic|own) .*$", states), ["own 0 0 10000 0 3600 0", "traffic BRAVO -1200 -300 10600 0 3600 -600"])

    def named(self, script):
        """What a script returns that types at the chosen aircraft, which is BRAVO."""
        return on_page("""
            const type = async (field, value) => {
              await fire($("state"), "input", { target: { dataset: { field, scale: "1" }, value } });
              await settle();
            };
            await fire($("aircraft"), "click", { target: { dataset: { choose: "BRAVO" } } });
            """ + script)

    def test_a_name_is_written_past_that_of_another_aircraft(self):
        """At AMBER two have one name, and each has a symbol; the last letter goes to the one that is named."""
        keys, states = self.named(f'await type("id", "AMBER"); const keys = [...display().daa.handles.keys()]; await type("id", "AMBER2"); return [keys, {STATES}];')
        self.assertEqual(len({key for key in keys if key.startswith("p:")}), 3)
        self.assertEqual(re.findall("(?m)^traffic (.*)$", states), ["AMBER 3000 8000 10000 -1350 0 0", "AMBER2 -1200 -300 10600 0 3600 -600"])

    def test_an_aircraft_without_a_name_stays_chosen(self):
        """What is typed then is its number and not the ownship's, and both have a symbol."""
        places, names, states = self.named(f"""
            await type("id", "");
            await type("alt", "9000");
            const symbols = [...display().daa.handles].filter(([key]) => key.startsWith("p:"));
            const names = ["p:", "v:"].map((what) => handle(`${{what}}aircraft 1`).getAttribute("aria-label"));
            return [symbols.map(([, it]) => it.getAttribute("transform")), names, {STATES}];""")
        self.assertEqual(len(set(places)), 3)
        self.assertEqual(names, ["an aircraft without a name", "velocity of an aircraft without a name"])
        self.assertIn("own 0 0 10000 0 3600 0\n", states)
        self.assertIn("traffic  -1200 -300 9000 0 3600 -600\n", states)

    def test_a_letter_of_another_alphabet_is_none_of_a_name(self):
        """Also one whose last byte is that of a letter: Cyrillic Ё, U+0401, and Polish Ł, U+0141, which would be an A."""
        for name in ("\u0401", "\u0141MBER"):
            told = self.named(f'await type("id", "{name}"); return [$("fault").textContent, page.views[0].said];')
            self.assertEqual(told, [f"an identifier is not 1 to 8 letters, digits, _ or -: {name}", None])

    def test_a_name_with_a_colon_is_moved(self):
        """Also one whose first part is another aircraft's name."""
        for name in ("AMBER:1", "X:Y"):
            states = self.named(f'await type("id", "{name}"); await press("p:{name}", "ArrowUp"); await drag("p:{name}", -30, 0); return {STATES};')
            amber, other = re.findall("(?m)^traffic (.*)$", states)
            self.assertEqual(amber, "AMBER 3000 8000 10000 -1350 0 0")
            self.assertRegex(other, f"^{name} -2[0-9]{{3}} -20[0-9] 10600 0 3600 -600$")

    def test_what_is_held_goes_with_the_pointer(self):
        """North up and with the track up: a handle stands where it is let go, but for whole numbers; the track bug at the pointer's
        bearing, a tape's pointer at its height."""
        moves = (("p:A", -30, 25), ("v:A", 20, -15), ("p:B", 25, -30), ("v:B", -15, -20), ("p:", 15, -25), ("v:", 25, 30), ("track", 60, 40), ("gs", 0, 40), ("vs", 0, -50), ("alt", 0, 40))
        centre, *found = on_page("""
            const file = { name: "turned.states", arrayBuffer: async () => daa.bytesOf(given[0]).buffer };
            await fire(screen, "drop", { dataTransfer: { types: ["Files"], files: [file] } });
            await settle();
            const found = [page.views[0].drawn.g.centre];
            for (const up of [false, true]) {
              page.views[0].look.trackUp = up;
              for (const move of given[1]) {
                await fire($("restore"), "click");
                await settle();
                found.push(await drag(...move));
              }
            }
            return found;""", TURNED.decode(), moves)
        bearing = lambda x, y: math.degrees(math.atan2(x - centre["x"], centre["y"] - y))
        self.assertEqual(len(found), 2 * len(moves))
        for (key, right, down), ((x, y), held) in zip(2 * moves, found):
            to = x + right, y + down
            if key == "track":
                self.assertLess(abs((bearing(*held) - bearing(*to) + 180) % 360 - 180), 1, key)
            elif ":" in key:
                self.assertLess(math.dist(held, to), 4, key)
            else:
                self.assertLess(abs(held[1] - to[1]), 5, key)

    def test_the_first_button_alone_holds(self):
        """And the first pointer; what is held is let go where its release was not told, and where it was removed."""
        before, found = on_page(f"""
            const hold = (values) => fire(display(), "pointerdown", {{ target: handle("p:AMBER"), clientX: 0, clientY: 0, button: 0, isPrimary: true, ...values }});
            const move = async (buttons) => {{
              await fire(display(), "pointermove", {{ clientX: 9, clientY: 9, buttons }});
              return [Boolean(page.held), {STATES}];
            }};
            const before = {STATES}, found = [];
            for (const [values, buttons] of [[{{ button: 2 }}, 2], [{{ isPrimary: false }}, 1], [{{}}, 0]]) {{
              await hold(values);
              found.push(await move(buttons));
            }}
            await hold({{}});
            await press("p:AMBER", "Delete");
            found.push(await move(1));
            return [before, found];""")
        self.assertEqual(found, [[False, before]] * 3 + [[False, re.sub("traffic AMBER .*\n", "", before)]])

    def test_a_click_that_slips_moves_nothing(self):
        """Also at an aircraft out of range, which stands at the rim; once it is moved, it goes with the pointer to each point."""
        found = on_page(OPEN + f"""
            await open(["far.states", given[0]]);
            await drag("p:FAR", 2, -2);
            const found = [{STATES}, page.edited, page.chosen], [x, y] = handle("p:A").getAttribute("transform").match(/[-.0-9]+/g).map(Number);
            fire(display(), "pointerdown", {{ target: handle("p:A"), clientX: x, clientY: y, pointerId: 1, button: 0, isPrimary: true }});
            for (const right of [9, 1]) fire(display(), "pointermove", {{ clientX: x + right, clientY: y, pointerId: 1, buttons: 1 }});
            await settle();
            return [...found, page.current.traffic[1].x];""", FAR)
        self.assertEqual(found[:3], [FAR, False, "p:FAR"])
        self.assertTrue(1000 < found[3] < 1100, found[3])


    def test_a_second_finger_neither_moves_nor_drops_what_is_held(self):
        found = on_page(f"""
            const found = [], [x, y] = handle("p:AMBER").getAttribute("transform").match(/[-.0-9]+/g).map(Number);
            const touch = async (event, pointerId, right) => {{
              await fire(display(), event, {{ target: handle("p:AMBER"), clientX: x + right, clientY: y, pointerId, buttons: 1, button: 0, isPrimary: pointerId === 1 }});
              found.push([{STATES}, Boolean(page.held)]);
            }};
            for (const [event, pointerId, right] of given) await touch(event, pointerId, right);
            return found;""", ("pointerdown", 1, 0), ("pointermove", 1, 20), ("pointerdown", 2, -200), ("pointermove", 2, -150), ("pointerup", 2, -150),
            ("pointercancel", 2, -150), ("pointermove", 1, 40), ("pointerup", 1, 40))
        places, held = zip(*found)
        self.assertEqual(held, (True,) * 7 + (False,))
        self.assertEqual(len({*places[1:6]}), 1)
        self.assertEqual(len({places[0], places[1], places[6]}), 3)

    def test_escape_lets_go_of_what_is_held(self):
        before, held, *after = on_page(f"""
            const before = {STATES}, [x, y] = handle("p:AMBER").getAttribute("transform").match(/[-.0-9]+/g).map(Number);
            const move = (right) => fire(display(), "pointermove", {{ clientX: x + right, clientY: y, pointerId: 1, buttons: 1 }});
            fire(display(), "pointerdown", {{ target: handle("p:AMBER"), clientX: x, clientY: y, pointerId: 1, button: 0, isPrimary: true }});
            await move(30);
            const held = {STATES};
            await fire(document, "keydown", {{ target: {{ closest: () => null }}, key: "Escape" }});
            await move(60);
            await settle();
            return [before, held, {STATES}, page.edited];""")
        self.assertNotEqual(held, before)
        self.assertEqual(after, [before, False])

    def test_a_wheel_that_turns_sideways_keeps_the_range(self):
        """And one with Ctrl, which is the browser's. It counts by how much it is turned, in points or in lines, and not by how often that is told."""
        found = on_page("""
            const found = [];
            for (const [deltaY, ctrlKey, deltaMode] of given) {
              let taken = false;
              await fire(display(), "wheel", { deltaY, ctrlKey, deltaMode, preventDefault() { taken = true; } });
              found.push([page.views[0].look.range, taken]);
            }
            return found;""", [0, False, 0], *[[30, False, 0]] * 3, [-60, False, 0], [-60, False, 0], [200, True, 0], [4, False, 1], [-200, False, 0])
        self.assertEqual(found, [[12, True], [12, True], [12, True], [18, True], [18, True], [12, True], [12, False], [24, True], [12, True]])

    def test_playing_goes_to_the_last_moment(self):
        """And begins anew from there."""
        found = on_page("""
            $("speed").value = "400";
            const found = [];
            for (const time of [1, 2]) {
              await fire($("play"), "click");
              found.push($("play").textContent, $("play").getAttribute("aria-label"), page.index);
              for (let frames = 0; frames < 2000 && page.playing; frames++) await frame();
              found.push($("play").textContent, $("play").getAttribute("aria-label"), page.index);
            }
            return found;""")
        self.assertEqual(found, ["❚❚", "Pause", 0, "▶", "Play", 18] * 2)

    def test_another_speed_counts_from_when_it_is_chosen(self):
        """5 seconds after the first moment is shown, which is then shown for two more."""
        found = on_page("""
            $("speed").value = "1";
            await fire($("play"), "click");
            page.playing.since -= 5000;
            $("speed").value = "5";
            await fire($("speed"), "change");
            await settle();
            return [page.index, Boolean(page.playing)];""")
        self.assertEqual(found, [0, True])

    def test_what_alerts_is_drawn_over_the_rest(self):
        """Also where it alerts later, with the focus anywhere: in the first moment nothing alerts, in the second LOUD, in the third QUIET."""
        one = "moment {}\nown 0 0 10000 0 3600 0\ntraffic LOUD 0 {} {} 0 -3600 0\ntraffic QUIET 0 {} {} 0 -3600 0\nend\n"
        states = one.format(0, 20000, 10000, 20000, 30000) + one.format(10, 4000, 10000, 4000, 30000) + one.format(20, 4000, 30000, 4000, 10000)
        found = on_page(OPEN + """
            await open(["order.states", given[0]]);
            const found = [];
            for (const focused of [null, "p:LOUD", "p:QUIET", "track"]) {
              document.activeElement = focused ? handle(focused) : $("axis");
              for (const value of ["1", "2", "0"]) {
                daa.ui.goTo(Number(value));
                await settle();
                const group = display().querySelector("[data-layer=handles]");
                found.push(group.children.map((it) => it.dataset.key).filter((key) => key.startsWith("p:") && key.length > 2));
              }
            }
            return found;""", states)
        for loud, quiet, _ in (found[place:place + 3] for place in range(0, 12, 3)):
            self.assertEqual((loud, quiet), (["p:QUIET", "p:LOUD"], ["p:LOUD", "p:QUIET"]))

    def test_the_buttons_step_by_one_and_stop_at_the_ends(self):
        found = on_page("""
            const found = [];
            for (const [button, times] of [["forward", 3], ["back", 1], ["back", 3], ["forward", 30]]) {
              for (let time = 0; time < times; time++) await fire($(button), "click");
              found.push(page.index);
            }
            return found;""")
        self.assertEqual(found, [3, 2, 0, 18])
        named = re.findall(r'<button id="(back|play|forward)" title="([^"]*)" aria-label="([^"]*)"', text_of(os.path.join(Page.folder, "index.html")))
        self.assertEqual(named, [("back", "Moment before (,)", "Moment before"), ("play", "Play or pause (space)", "Play"),
                                 ("forward", "Moment after (.)", "Moment after")])

    def test_as_recorded_can_be_pressed_where_something_was_changed(self):
        found = on_page("""
            const found = [$("restore").disabled];
            await press("p:AMBER", "ArrowUp");
            found.push($("restore").disabled);
            await fire($("restore"), "click");
            await settle();
            return [...found, $("restore").disabled];""")
        self.assertEqual(found, [True, False, True])

    def test_how_long_a_moment_took(self):
        told = on_page("""
            const told = [];
            for (const took of given) {
              page.times = new Array(200).fill(took);
              await press("p:AMBER", "ArrowUp");
              told.push($("engine").textContent.split(" · ")[1]);
            }
            return told;""", 0.25, 2.5)
        self.assertEqual(told, ["250 µs a moment", "2.5 ms a moment"])

    def test_the_buttons_under_a_display(self):
        buttons, found = on_page("""
            const found = [], tell = () => found.push([caption.querySelector("[data-is=range]").textContent, caption.querySelector("[data-do=up]").getAttribute("aria-pressed")]);
            tell();
            for (const what of ["wide", "near", "near", "up"]) {
              await fire(caption, "click", { target: { dataset: { do: what } } });
              await settle();
              tell();
            }
            return [[...caption.innerHTML.matchAll(/<button data-do="(\\w+)" aria-label="([^"]*)"[^>]*>([^<]*)</g)].map((it) => it.slice(1)), found];""")
        self.assertEqual(buttons, [["wide", "Greater range", "−"], ["near", "Smaller range", "+"], ["fit", "The range that shows all aircraft (0)", "Fit"],
                                   ["high", "More altitudes", "−"], ["low", "Fewer altitudes", "+"],
                                   ["svg", "Picture of lines (SVG)", "SVG"], ["png", "Picture of points (PNG)", "PNG"]])
        self.assertEqual(found, [["12 NM", "false"], ["18 NM", "false"], ["12 NM", "false"], ["9 NM", "false"], ["9 NM", "true"]])

    def test_each_speed_is_what_it_says(self):
        options = re.findall(r'<option\s+value="(\d+)"[^>]*>×(\d+)</option>', text_of(os.path.join(Page.folder, "index.html")))
        self.assertEqual([value for value, _ in options], [words for _, words in options])
        self.assertEqual(len(options), 4)

    def test_the_range_that_fits(self):
        """It has the traffic of the encounter in it: both aircraft, at most 8.54 NM away; 9 NM would leave AMBER at the rim."""
        found = on_page("""
            await fire(document, "keydown", { target: { closest: () => null }, key: "-" });
            const wide = page.views[0].look.range;
            await fire(document, "keydown", { target: { closest: () => null }, key: "0" });
            return [wide, page.views[0].look.range];""")
        self.assertEqual(found, [18, 12])

    def test_the_trail_has_the_moments_before(self):
        found = on_page("""
            daa.ui.goTo(Number("3"));
            return daa.ui.modelOf(page.views[0]).trail.map(({ x, y, own }) => [x, y, own]);""")
        before = [moment for _, moment in moments_in(bytes_of(ENCOUNTER))[:3]]
        self.assertEqual(found, [[one.x, one.y, one is moment.own] for moment in before for one in (moment.own, *moment.traffic)])

    def test_the_range_of_altitudes(self):
        steps = (("high", 6000), ("high", 12000), ("low", 6000), ("low", 3000), ("low", 1500))
        found = on_page("""
            const found = [];
            for (const what of given) {
              await fire(caption, "click", { target: { dataset: { do: what } } });
              await settle();
              found.push([caption.querySelector("[data-is=heights]").textContent, page.views[0].drawn.heights]);
            }
            return found;""", *(what for what, _ in steps))
        self.assertEqual(found, [[f"± {heights} ft", heights] for _, heights in steps])

    def test_an_aircraft_is_chosen_as_the_mouse_goes_down(self):
        """While it plays another row stands there when it is let go. A finger that begins to scroll chooses nothing, nor does another button."""
        found = on_page("""
            const found = [];
            for (const [pointerType, button] of [["touch", 0], ["mouse", 2], ["mouse", 0]]) {
              await fire($("aircraft"), "pointerdown", { target: { dataset: { choose: "BRAVO" } }, pointerType, button });
              found.push(page.chosen);
            }
            return found;""")
        self.assertEqual(found, ["p:", "p:", "p:BRAVO"])

    def test_a_screen_reader_waits_while_it_plays(self):
        found = on_page("""
            const found = [];
            for (let time = 0; time < 2; time++) {
              await fire($("play"), "click");
              await settle();
              found.push($("summary").getAttribute("aria-busy"));
            }
            return found;""")
        self.assertEqual(found, ["true", "false"])

    def test_what_would_be_read_otherwise_has_no_link(self):
        """A name that ends with a blank is refused, and read from state lines without it."""
        found = self.named('await type("id", "BRAVO "); await fire($("link"), "click"); return [$("link").textContent, location.hash];')
        self.assertEqual(found, ["No link: an identifier is not 1 to 8 letters, digits, _ or -: BRAVO ", ""])

    def test_a_range_fits_17_of_20_aircraft(self):
        """Of which 17 are within 10 NM, 12 NM is the least of the list; the 18th is 17 NM away."""
        rows = "".join(f"traffic T{number} 0 {far} 40000 0 0 0\n" for number, far in enumerate([10000] * 17 + [17000] * 3))
        found = on_page(OPEN + 'await open(["a.states", given[0]]); return page.views[0].look.range;', f"moment 0\nown 0 0 1000 0 1000 0\n{rows}end\n")
        self.assertEqual(found, 12)

    def test_an_altitude_is_dragged_in_steps_of_50_feet(self):
        found = on_page("""
            const found = [];
            for (let down = 4; down < 16; down++) {
              await drag("alt", 0, down);
              found.push(page.current.own.alt);
            }
            return found;""")
        self.assertEqual({alt % 50 for alt in found}, {0})
        self.assertEqual({alt % 100 for alt in found}, {0, 50})
