"""Two configurations side by side: where they differ, in the table, in words and over time; and each by a file."""
import re
import tempfile
import unittest

from nodes import HOW, NODE, OPEN, on_page
from shared import ENCOUNTER, RECOVERY, THREE_LEVELS, bytes_of, moments_of, replayed, text_of

# Alerts come later, and level 3 is the corrective one.
OTHER = text_of(THREE_LEVELS).replace("resolve = 2", "resolve = 3").replace("alert = 55", "alert = 30").replace("alert = 25", "alert = 10")
COMPARE = """
    const compare = async () => {
      $("compare").checked = true;
      await fire($("compare"), "change", { target: { checked: true } });
      await settle();
      for (let frames = 0; frames < 5000 && page.surveys.some((one) => one.decided < page.moments.length); frames++) await frame();
    };"""
KINDS = {"track": ("track", "left", "right", "°"), "gs": ("ground speed", "down", "up", " kt"), "vs": ("vertical speed", "down", "up", " ft/min"),
         "alt": ("altitude", "down", "up", " ft")}


def reports():
    """The moments of the encounter under the configuration of three levels and under the other one."""
    with tempfile.NamedTemporaryFile("w", suffix=".toml") as file:
        file.write(OTHER)
        file.flush()
        return [moments_of(replayed(config, bytes_of(ENCOUNTER))) for config in (THREE_LEVELS, file.name)]


def answers_of(moment):
    return re.findall(r"(?m)^resolve (\w+) \w+ (\S+) \w+ (\S+)$", moment)


def alerts_of(moment):
    return dict(re.findall(r"(?m)^alert (\S+) (\d) ", moment))


@unittest.skipUnless(NODE, HOW)
class Compared(unittest.TestCase):
    def test_which_answers_differ_is_told_in_words(self):
        pairs = list(zip(*reports()))
        place = next(place for place, (one, other) in enumerate(pairs) if answers_of(one) != answers_of(other))
        one, other = pairs[place]
        told = on_page(OPEN + COMPARE + """
            await open(["a.toml", given[0]], ["b.toml", given[1]]);
            daa.ui.goTo(given[2]);
            await settle();
            const before = $("differs").textContent;
            await compare();
            return [before, $("differs").textContent];""", text_of(THREE_LEVELS), OTHER, place)
        written = lambda kind, value: value if value in ("keep", "none") else f"{int(value) / (10 if kind == 'gs' else 1):g}{KINDS[kind][3]}"
        wanted = [f"{KINDS[kind][0]} {KINDS[kind][1 + side]} {written(kind, pair[side])} ≠ {written(kind, pairs[side])}"
                  for (kind, *pair), (_, *pairs) in zip(answers_of(one), answers_of(other)) for side in (0, 1) if pair[side] != pairs[side]]
        self.assertTrue(wanted)
        self.assertEqual(told, ["", "Answers that differ: " + "; ".join(wanted)])

    def test_the_table_has_the_alerts_of_both_where_they_differ(self):
        found = on_page(OPEN + COMPARE + """
            await open(["a.toml", given[0]], ["b.toml", given[1]]);
            await compare();
            const found = [];
            for (let index = 0; index < page.moments.length; index++) {
              daa.ui.goTo(index);
              await settle();
              const row = $("aircraft").tBodies[0].innerHTML.split("<tr").find((text) => text.includes(">AMBER<"));
              found.push([row.includes("≠"), [...row.matchAll(/chip l(\\d)/g)].map((it) => it[1])]);
            }
            return found;""", text_of(THREE_LEVELS), OTHER)
        pairs = [tuple(alerts_of(moment)["AMBER"] for moment in both) for both in zip(*reports())]
        self.assertTrue(any(one != other for one, other in pairs))
        for (is_marked, levels), (one, other) in zip(found, pairs, strict=True):
            if one != other:
                self.assertTrue(is_marked and one in levels and other in levels, (levels, one, other))

    def test_the_next_difference_is_where_one_begins(self):
        level = lambda moment: (alerts_of(moment), answers_of(moment))
        differs = [level(one) != level(other) for one, other in zip(*reports())]
        wanted = [place for place in range(1, 19) if differs[place] and not differs[place - 1]]
        found = on_page(OPEN + COMPARE + """
            await open(["a.toml", given[0]], ["b.toml", given[1]]);
            await compare();
            const found = [];
            for (const key of ["d", "D"]) {
              for (let before = -1; page.index !== before;) {
                before = page.index;
                await fire(document, "keydown", { target: { closest: () => null }, key });
                if (page.index !== before) found.push(page.index);
              }
              daa.ui.goTo(18);
            }
            return found;""", text_of(THREE_LEVELS), OTHER)
        self.assertEqual(found, wanted + [place for place in range(17, -1, -1) if differs[place] and not (place and differs[place - 1])])

    def test_each_display_has_a_configuration_by_a_file(self):
        """Two at once are one for each; of one the display that is chosen, where both are shown, and else the first; a third one is named."""
        found = on_page(OPEN + COMPARE + """
            const found = [], note = () => found.push([...page.views.map(({ name }) => name), $("fault").textContent]);
            await open(["a.toml", given[0]], ["b.toml", given[1]], ["c.toml", given[0]]);
            note();
            $("which").value = "1";
            await open(["d.toml", given[1]]);
            note();
            await compare();
            $("which").value = "1";
            await open(["e.toml", given[0]]);
            note();
            return found;""", text_of(THREE_LEVELS), OTHER)
        self.assertEqual(found, [["a.toml", "b.toml", "not shown: c.toml (two configurations at a time)"], ["d.toml", "b.toml", ""], ["d.toml", "e.toml", ""]])

    def test_both_compasses_have_one_size_and_one_height(self):
        """Though one configuration asks for recoveries and last times, and the other for nothing."""
        one, other = on_page(OPEN + COMPARE + """
            await open(["a.toml", given[0]], ["b.toml", given[1]]);
            await compare();
            return page.views.map(({ drawn: { g } }) => [g.centre, g.radius, g.answers, g.foot]);""", text_of(THREE_LEVELS), "last_times = 1\n" + text_of(RECOVERY))
        self.assertEqual(one, other)
