"""Time in the hand: what was changed stays and is undone, the clock, the axis and its window, the next alert, and long files in pieces."""
import re
import unittest

from nodes import HOW, NODE, OPEN, STATES, on_page
from shared import ENCOUNTER, EXAMPLES, RECOVERY, THREE_LEVELS, bytes_of, levels_of, moments_of, replayed, text_of

NOW = "const altitude = () => page.current.own.alt, at = async (index) => { daa.ui.goTo(index); await settle(); return [altitude(), page.edited]; };"
MANY = "".join(f"moment {second}\nown 0 {60 * second} 10000 0 3600 0\ntraffic A 3000 {8000 + 60 * second} 10000 0 3600 0\nend\n" for second in range(400))


@unittest.skipUnless(NODE, HOW)
class Time(unittest.TestCase):
    def test_what_was_changed_stays_with_its_moment_and_is_marked(self):
        """Whatever is shown meanwhile; the moments round it are as they were recorded, and so is it where that is asked for."""
        found, marks = on_page(NOW + """
            const marks = [], mark = () => marks.push(/class="edits"[^>]* d="([^"]*)"/.exec($("marks").innerHTML)[1]);
            await at(3);
            await press("alt", "ArrowUp");
            const found = [await at(4), await at(3)];
            mark();
            await fire($("restore"), "click");
            await settle();
            mark();
            return [[...found, await at(3)], [...marks, page.axis.x(35)]];""")
        self.assertEqual(found, [[10000, False], [10100, True], [10000, False]])
        self.assertAlmostEqual(float(re.match("M([-.0-9]+) ", marks[0])[1]) + 4, marks[2], delta=1)
        self.assertEqual(marks[1], "")

    def test_changes_are_undone_and_made_again(self):
        """By buttons and by keys, each in the moment that it was made in; a drag is one change; after a new one nothing is made again."""
        found = on_page(NOW + """
            const found = [], note = async () => { await settle(); found.push([page.index, altitude(), $("undo").disabled, $("redo").disabled]); };
            const key = (key, shiftKey = false) => fire(document, "keydown", { target: { closest: () => null }, key, ctrlKey: true, shiftKey });
            await press("alt", "ArrowUp");
            await at(2);
            await press("alt", "ArrowDown");
            await drag("alt", 0, -40);
            const dragged = altitude();
            await note();
            for (const one of [() => fire($("undo"), "click"), () => key("z"), () => key("z"), () => key("y"), () => key("Z", true), () => fire($("redo"), "click")]) {
              await one();
              await note();
            }
            await key("z");
            await press("alt", "ArrowUp");
            await note();
            return [dragged, found];""")
        dragged, steps = found
        self.assertNotIn(dragged, (9900, 10000))
        self.assertEqual(steps, [[2, dragged, False, True], [2, 9900, False, False], [2, 10000, False, False], [0, 10000, True, False],
                                 [0, 10100, False, False], [2, 9900, False, False], [2, dragged, False, True], [2, 10000, False, True]])

    def test_the_clock(self):
        """Seconds, since the start, of the day and in UTC; a recording says what its times are, and each moment is told so."""
        told = on_page(OPEN + """
            const told = [];
            for (const [text, forms] of given) {
              await open(["a.states", text]);
              told.push($("clock-form").value);
              daa.ui.goTo(1);
              for (const form of forms) {
                $("clock-form").value = form;
                await fire($("clock-form"), "change");
                await settle();
                told.push($("clock").textContent, $("axis").getAttribute("aria-valuetext"));
              }
            }
            return told;""", *([f"{head}moment {first}\nown 0 0 0 0 0 0\nend\nmoment {first + 3725}\nown 0 0 0 0 0 0\nend\n", forms] for head, first, forms in (
                ("", 7, ["s", "since"]), ("# clock utc\n", 1700000000, ["utc"]), ("# clock day\n", 86000, ["day"]))))
        self.assertEqual(told, ["s", "3732 s · 2 of 2", "3732 seconds, moment 2 of 2", "+1:02:05 · 2 of 2", "+1:02:05, moment 2 of 2",
                                "utc", "2023-11-14 23:15:25Z · 2 of 2", "2023-11-14 23:15:25Z, moment 2 of 2", "day", "1 d 00:55:25 · 2 of 2", "1 d 00:55:25, moment 2 of 2"])

    def test_the_axis_by_keys_and_pointer(self):
        found = on_page("""
            const found = [], key = (key) => fire($("axis"), "keydown", { key });
            for (const one of ["End", "Home", "ArrowRight", "PageUp", "ArrowLeft", "PageDown", "ArrowUp", "ArrowDown"]) {
              await key(one);
              found.push(page.index);
            }
            await settle();
            const at = (time) => ({ clientX: page.axis.x(time), pointerId: 1, button: 0, buttons: 1 });
            await fire($("axis"), "pointerdown", { ...at(75), pointerType: "touch" });
            found.push(page.index);
            for (const [event, time, more] of [["click", 75, {}], ["pointerdown", 125, {}], ["pointermove", 31, {}], ["pointermove", 99, { buttons: 0 }]]) {
              await fire($("axis"), event, { ...at(time), ...more });
              found.push(page.index);
            }
            await settle();
            return [found, ...["min", "now", "max"].map((part) => $("axis").getAttribute(`aria-value${part}`))];""")
        self.assertEqual(found, [[18, 0, 1, 11, 10, 0, 1, 0, 0, 7, 12, 3, 3], "0", "30", "180"])

    def test_the_next_alert_is_where_one_begins_or_becomes_greater(self):
        levels = [max(levels_of(moment).values()) for moment in moments_of(replayed(THREE_LEVELS, bytes_of(ENCOUNTER)))]
        wanted = [place for place in range(1, 19) if levels[place] > levels[place - 1]]
        forth, back = on_page("""
            const walk = async (name, from) => {
              const found = [];
              daa.ui.goTo(from);
              for (let before = -1; page.index !== before;) {
                before = page.index;
                await fire(document, "keydown", { target: { closest: () => null }, key: name });
                if (page.index !== before) found.push(page.index);
              }
              return found;
            };
            for (let frames = 0; frames < 5000 && page.surveys[0].decided < 19; frames++) await frame();
            return [await walk("n", 0), await walk("N", 18)];""")
        self.assertTrue(wanted)
        self.assertEqual((forth, back), (wanted, [*wanted[::-1], 0]))

    def test_the_window_of_the_axis(self):
        """Half the time, round the moment that is shown, and all of it again; it goes along with the moment, and a wheel zooms round its pointer."""
        found = on_page(OPEN + """
            await open(["many.states", given[0]]);
            const found = [], note = async () => { await settle(); found.push(page.window && page.window.map(Math.round)); };
            daa.ui.goTo(100);
            await fire($("zoom-in"), "click");
            await note();
            daa.ui.goTo(390);
            await note();
            await fire($("axis"), "wheel", { deltaY: -240, deltaMode: 0, clientX: page.axis.x(390) });
            await note();
            await fire($("zoom-out"), "click");
            await fire($("zoom-out"), "click");
            await note();
            return found;""", MANY)
        (low, high), (low_after, high_after), (low_near, high_near), whole = found
        self.assertEqual((low, high), (50, 250))
        self.assertTrue(low_after <= 390 <= high_after <= 399 and abs(high_after - low_after - 200) < 2, found)
        self.assertTrue(low_near <= 390 <= high_near and abs(high_near - low_near - 100) < 2, found)
        self.assertIsNone(whole)

    def test_the_axis_of_a_recording_that_is_read_grows_by_steps(self):
        """Each time all of it is drawn anew: of 100,000 moments 19 times. Once it is read all are there."""
        shown, whole = on_page("""
            const { shownOf } = daa.ui, shown = [];
            page.reading = { stop() {} };
            for (let count = 1; count <= 100000; count++) shown.push(shownOf(count));
            page.reading = null;
            return [[...new Set(shown)], shownOf(777)];""")
        self.assertEqual(whole, 777)
        steps = [count for count in shown if count >= 64]
        self.assertEqual(len(steps), 19)
        self.assertEqual(shown[:64], list(range(1, 65)))
        self.assertGreater(steps[-1], 50000)

    def test_a_long_strip_is_drawn_in_parts(self):
        """At a stretch no longer than there is patience; what comes of it is what is drawn at once, and that all is decided is told after it."""
        parts, same, told = on_page(OPEN + """
            const { draw } = daa.Strip.prototype, cuts = [];
            daa.Strip.prototype.draw = function (...words) {
              const before = this.canvas.calls.length, now = performance.now;
              let tick = 0;
              performance.now = () => (tick += 4);
              const answer = draw.apply(this, words);
              performance.now = now;
              cuts.push([this.isCut, this.canvas.calls.slice(before).filter(([name, paint]) => name === "fillRect" && paint === "clear").length, document.body.dataset.surveyed]);
              return answer;
            };
            await open(["many.states", given[0]]);
            while (document.body.dataset.surveyed !== "400") await frame();
            daa.Strip.prototype.draw = draw;
            const { calls } = $("strip"), clears = (some) => some.filter(([name, paint]) => name === "fillRect" && paint === "clear").map(([, , ...box]) => String(box));
            const cut = clears(calls.slice(calls.findLastIndex(([name]) => name === "clearRect"))).sort();
            page.paper = true;
            daa.ui.paintTime();
            page.paper = false;
            daa.ui.paintTime();
            for (let frames = 0; frames < 50; frames++) await frame();
            const whole = clears(calls.slice(calls.findLastIndex(([name]) => name === "clearRect"))).sort();
            return [cuts.map(([isCut, count]) => [isCut, count]), String(cut) === String(whole), cuts.filter(([isCut]) => isCut).every(([, , surveyed]) => surveyed === "")];""", MANY)
        self.assertTrue(any(is_cut for is_cut, _ in parts), parts)
        self.assertLessEqual(max(count for _, count in parts), 4)
        self.assertTrue(same and told)

    def test_a_long_file_is_read_in_pieces_by_the_page_itself_where_there_is_no_worker(self):
        """Its moments are those of the file, whatever the pieces; the first is shown before the last is read; what is opened after it ends it."""
        text = "nothing\n" + MANY
        shown, lines, told, left = on_page("""
            const bytes = daa.bytesOf(given[0]), shown = [];
            const file = (name, wait) => ({ name, size: 2000000, slice: () => ({ arrayBuffer: async () => bytes.slice(0, 1000).buffer }), stream: () => new ReadableStream({
              async pull(control) {
                this.at ??= 0;
                if (this.at) shown.push(page.name === name && page.current.time === 0);
                if (wait && this.at > 9000) await new Promise((done) => setTimeout(done, 50));
                control.enqueue(bytes.slice(this.at, this.at += 4999));
                if (this.at >= bytes.length) control.close();
              } }) });
            const drop = (some) => fire(screen, "drop", { dataTransfer: { types: ["Files"], files: [some] } });
            await drop(file("long.states", false));
            for (let frames = 0; frames < 5000 && (page.name !== "long.states" || page.reading); frames++) await frame();
            await settle();
            const lines = daa.stateLines(page.moments), told = $("notes").textContent;
            await drop(file("other.states", true));
            for (let frames = 0; frames < 5000 && page.name !== "other.states"; frames++) await frame();
            $("example").value = "all closed, with recoveries";
            await fire($("example"), "change");
            await settle();
            return [shown.slice(0, 8), lines, told, [page.name, page.moments.length, page.reading]];""", text)
        self.assertEqual(lines, MANY)
        self.assertTrue(shown[-1], shown)
        self.assertTrue(told.startswith("long.states: 1 line was refused"), told)
        self.assertEqual(left, ["closed.states", 1, None])
