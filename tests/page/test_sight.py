"""What matters is in sight: the range follows what alerts, and what alerts is drawn over the ownship."""
import unittest

from nodes import HOW, NODE, OPEN, on_page
from shared import tool

PASSING = "moment {}\nown 0 0 10000 0 3600 0\ntraffic A 0 {} 10000 0 -3600 0\ntraffic FAR 80000 0 30000 0 0 0\nend\n"
STEP = """const ranges = async () => {
  const found = [];
  for (let index = 0; index < page.moments.length; index++) {
    daa.ui.goTo(index);
    await settle();
    found.push(page.views[0].drawn.range);
  }
  return found;
};"""


@unittest.skipUnless(NODE, HOW)
class Sight(unittest.TestCase):
    # An aircraft comes nearer, head on, and is gone; one that never alerts is 80 NM away, so that 96 NM is the range that fits.
    AWAY = (30000, 9000, 8000, 7000, 6000, 4000, 2000, 1000, 500, 200, -9000)
    STATES = "".join(PASSING.format(10 * place, away) for place, away in enumerate(AWAY))

    def test_the_range_follows_what_alerts_and_changes_rarely(self):
        """It is the least that has room for the aircraft where that is a half of the one before or less; at the end nothing alerts any more."""
        found = on_page(OPEN + STEP + 'await open(["a.states", given[0]]); return ranges();', self.STATES)
        self.assertEqual(found, [96, 12, 12, 12, 12, 6, 3, 1.5, 0.6, 0.3, 0.3])

    def test_it_grows_where_what_alerts_would_be_out_of_it(self):
        found = on_page(OPEN + STEP + 'await open(["a.states", given[0]]); return ranges();', PASSING.format(0, 1000) + PASSING.format(10, 9000))
        self.assertEqual(found, [1.5, 12])

    def test_a_range_that_is_chosen_is_fixed_until_it_may_follow_again(self):
        found = on_page(OPEN + STEP + """
            await open(["a.states", given[0]]);
            const press = (what) => fire(caption, "click", { target: { dataset: { do: what } } });
            await press("near");
            const found = [await ranges(), caption.querySelector("[data-do=auto]").getAttribute("aria-pressed")];
            daa.ui.goTo(5);
            await press("fit");
            await settle();
            found.push(page.views[0].drawn.range);
            daa.ui.goTo(6);
            await press("auto");
            await settle();
            return [...found, page.views[0].drawn.range, caption.querySelector("[data-do=auto]").getAttribute("aria-pressed")];""", self.STATES)
        self.assertEqual(found, [[48] * 11, "false", 96, 3, "true"])

    def test_what_alerts_is_in_the_range_and_over_the_ownship(self):
        """Of aimed moments: each aircraft that alerts is within the ring, and its symbol drawn after the ownship's, which is drawn after all others;
        of those at level 2 or 3 few lie so near that the symbols touch."""
        states = tool("moments", "--seed", "5", "--moments", "60", "--aimed").decode()
        found = on_page(OPEN + """
            await open(["a.states", given[0]]);
            const found = [];
            for (let index = 0; index < page.moments.length; index++) {
              daa.ui.goTo(index);
              await settle();
              const [{ said, drawn: { g } }] = page.views, keys = display().querySelector("[data-layer=handles]").children.map((it) => it.dataset.key);
              const order = (key) => keys.indexOf(key) - keys.indexOf("p:");
              for (const { id, level, now } of said.aircraft) {
                const [x, y] = handle(`p:${id}`).getAttribute("transform").match(/[-.0-9]+/g).map(Number);
                found.push([Math.max(level, now), order(`p:${id}`) > 0, Math.hypot(x - g.centre.x, y - g.centre.y), g.radius - 12]);
              }
            }
            return found;""", states)
        loud = [(away, rim) for level, _, away, rim in found if level]
        self.assertGreater(len(loud), 60)
        self.assertEqual({is_over for level, is_over, *_ in found if level}, {True})
        self.assertEqual({is_over for level, is_over, *_ in found if not level}, {False})
        self.assertEqual([pair for pair in loud if pair[0] > pair[1]], [])
        near = [away for level, _, away, _ in found if level >= 2]
        self.assertLess(sum(away < 20 for away in near), len(near) / 10)


ANSWERS = """
const wide = (words, font) => 0.6 * words.length * font; // as the stand-in for a browser measures letters
const answers = () => [...display().daa.layers.ring.matchAll(/<text x="([-.0-9]+)" y="([-.0-9]+)" class="(?:open|recover) mid halo" font-size="([.0-9]+)">([^<]+)</g)]
  .map(([, x, y, font, words]) => ({ x: x - wide(words, font) / 2, y: y - 0.8 * font, wide: wide(words, font), tall: Number(font) }));
const label = (key) => {
  const [atX, atY] = placeOf(key);
  return [...handle(key).innerHTML.matchAll(/<text x="([-.0-9]+)" y="([-.0-9]+)" class="halo ?(end|mid|)" font-size="([.0-9]+)"[^>]*>([^<]+)</g)]
    .map(([, x, y, anchor, font, words]) => ({ x: atX + Number(x) - wide(words, font) * { end: 1, mid: 0.5, "": 0 }[anchor], y: atY + Number(y) - 0.8 * font,
      wide: wide(words, font), tall: Number(font) }));
};
const overlap = (a, b) => Math.max(0, Math.min(a.x + a.wide, b.x + b.wide) - Math.max(a.x, b.x)) * Math.max(0, Math.min(a.y + a.tall, b.y + b.tall) - Math.max(a.y, b.y));
"""


@unittest.skipUnless(NODE, HOW)
class Answers(unittest.TestCase):
    """No label covers an answer of the ring."""

    STATES = "moment 0\nown 0 0 10000 0 3600 0\ntraffic LOUD 0 8000 10000 0 -3600 0\ntraffic FREE 0 0 30000 0 0 0\nend\n"

    def test_a_label_beside_an_answer_stands_elsewhere(self):
        """Of an aircraft that is moved round each answer: its label is always there, and never on the answer."""
        told = on_page(OPEN + ANSWERS + """
            await open(["near.states", given[0]]);
            daa.ui.choose("p:FREE");
            await settle();
            const [free] = page.current.traffic.slice(1), first = answers(), told = [];
            for (const { x, y, wide, tall } of first) for (const [right, down] of [[-40, 0], [40, 0], [-36, 14], [36, -14], [0, 34], [0, -30], [-60, 5], [20, 20]]) {
              const { x: east, y: north } = daa.unplan({ ...page.views[0].drawn, ...daa.ui.lookOf(page.views[0]) }, { x: x + wide / 2 + right, y: y + tall / 2 + down });
              Object.assign(free, { x: Math.round(east), y: Math.round(north) });
              daa.ui.touched();
              await settle();
              const rows = label("p:FREE");
              told.push([rows.length, Math.max(...rows.flatMap((row) => answers().map((box) => overlap(row, box))))]);
            }
            return [first.length, told];""", self.STATES)
        count, moved = told
        self.assertEqual(count, 2)
        self.assertEqual([(rows > 0, covered < 5) for rows, covered in moved], [(True, True)] * 16, moved)

    def test_an_answer_costs_more_than_other_texts(self):
        """Where there is no free place, a label stands rather on five other texts than on an answer."""
        spot, answer = on_page(OPEN + """
            await open(["near.states", given[0]]);
            const { art } = daa, view = { ...page.views[0].drawn, ...daa.ui.lookOf(page.views[0]) }, [answer] = art.answerBoxes(view, daa.ui.modelOf(page.views[0]));
            const { centre, radius } = view.g, left = centre.x - radius, top = centre.y - radius, all = 2 * radius;
            const round = [[left, top, all, answer.y - top], [left, answer.y + answer.tall, all, all], [left, answer.y, answer.x - left, answer.tall],
              [answer.x + answer.wide, answer.y, all, answer.tall]].map(([x, y, wide, tall]) => ({ x, y, wide, tall }));
            const labels = new daa.Labels({ ...centre, radius }, [answer, ...Array.from({ length: 5 }, () => round).flat()], []);
            return [labels.place({ x: answer.x + answer.wide / 2, y: answer.y + answer.tall / 2 }, 30, 14, 4, true), answer];""", self.STATES)
        covered = max(0, min(spot["x"] + spot["wide"], answer["x"] + answer["wide"]) - max(spot["x"], answer["x"])) \
            * max(0, min(spot["y"] + spot["tall"], answer["y"] + answer["tall"]) - max(spot["y"], answer["y"]))
        self.assertLess(covered, 30 * 14 / 4)
