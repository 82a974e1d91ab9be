"""The page is never dead for long: it is painted in parts, and labels look for a place for a while only."""
import unittest

from nodes import HOW, NODE, on_page


@unittest.skipUnless(NODE, HOW)
class Parts(unittest.TestCase):
    # On a clock on which each look takes 20 ms, longer than is painted at a stretch: what is painted in which task, and what was said of it then.
    WATCHED = """
        const { setTimeout: later } = globalThis, seen = [];
        let [task, tick] = [0, 0];
        globalThis.setTimeout = (act, ...more) => later((...words) => { task += 1; act(...words); }, ...more);
        performance.now = () => (tick += 20);
        const note = (name) => seen.push([name, task, document.body.dataset.settled]);
        for (const name of ["paintTime", "paintSummary", "paintTable", "paintReport", "paintWhatIf"]) {
          const act = daa.ui[name];
          daa.ui[name] = () => { note(name); act(); };
        }
        const svg = display(), { setAttribute } = svg;
        let after = () => {};
        svg.setAttribute = (name, value) => {
          if (name === "viewBox") { note("display"); queueMicrotask(after); }
          setAttribute.call(svg, name, value);
        };
        const isSeen = (name) => seen.some(([it]) => it === name);"""

    def test_what_takes_long_is_painted_in_parts(self):
        """The axis, the sentence and the display come first and at once, then each part in a task of its own; before the last nothing is settled."""
        seen = on_page(self.WATCHED + """
            daa.ui.goTo(5);
            while (!isSeen("paintWhatIf")) await frame();
            await settle();
            return seen;""")
        tasks = {name: task for name, task, _ in reversed(seen)}
        self.assertEqual(tasks["paintTime"], tasks["paintSummary"])
        self.assertEqual(tasks["paintTime"], tasks["display"])
        order = [tasks[name] for name in ("display", "paintTable", "paintReport", "paintWhatIf")]
        self.assertEqual(order, sorted(set(order)))
        self.assertEqual({settled for name, _, settled in seen if name in ("paintTable", "paintReport", "paintWhatIf")}, {"no"})

    def test_each_part_has_its_turn_however_fast_moments_change(self):
        """Each moment is left for the next one as soon as its display is painted."""
        seen = on_page(self.WATCHED + """
            let count = 0;
            after = () => { if (count++ < 12) daa.ui.goTo(count); };
            daa.ui.goTo(18);
            while (count < 12) await frame();
            return seen.slice(0, seen.findLastIndex(([name]) => name === "display"));""")
        self.assertGreaterEqual({name for name, *_ in seen}, {"paintTable", "paintReport", "paintWhatIf"})

    def test_labels_look_for_a_place_for_a_while_only(self):
        """Of 64 that have no room all have one within the ring, and about a hundred places are tried for each."""
        tried, off = on_page("""
            const labels = new daa.Labels({ x: 300, y: 300, radius: 280 }, [], []), { cost } = labels;
            let [tried, off] = [0, 0];
            labels.cost = function (...words) { tried += 1; return cost.apply(this, words); };
            for (let i = 0; i < 64; i++) {
              const symbol = { x: 150 + (i * 7919) % 300, y: 150 + (i * 104729) % 300 }, spot = labels.place(symbol, 80, 45, 11, true);
              labels.take(symbol, spot);
              off += labels.cornersOff(spot);
            }
            return [tried, off];""")
        self.assertEqual(off, 0)
        self.assertLess(tried, 64 * 200)
