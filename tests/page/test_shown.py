"""What the page shows in a browser, opened as a file, compared with the program's report."""
import re

from browser import ActionChains
from page_test import FOUR_LEVELS, PageTest, crowd, setUpModule  # noqa: F401 (unittest calls the last one)
from shared import ENCOUNTER, RECOVERY, THREE_LEVELS, bytes_of, levels_of, moments_of, moments_in, replayed, text_of, tool


class Shown(PageTest):
    def test_each_moment_of_the_encounter(self):
        """States, places, lines, symbols' levels, ring, tapes, answers, table and sentence, at each step of the slider."""
        moments = moments_of(replayed(THREE_LEVELS, bytes_of(ENCOUNTER)))
        recorded = moments_in(bytes_of(ENCOUNTER))
        self.assertEqual(self.page.js("return daa.page.moments.length"), len(moments))
        compared = 0
        for place, moment in enumerate(moments):
            self.page.step_to(place)
            self.assertEqual(self.page.states().removeprefix("format 2\n"), recorded[place][0])
            compared += self.check_places(recorded[place][1])
            self.check_moment(moment)
            rows = self.page.js("return [...document.querySelectorAll('#aircraft tbody tr')].slice(1).map((it) => [it.cells[0].textContent, Number(it.querySelector('.chip').textContent)])")
            self.assertEqual(dict(rows), levels_of(moment))
            for name, level in levels_of(moment).items():
                self.assertEqual(level > 0, f"{name} level {level}" in self.page.text("#summary"))
        self.assertGreaterEqual(compared, 50)
        self.page.shot("encounter")

    def test_each_moment_with_recoveries(self):
        self.page.select("#example", "encounter, with recoveries")
        moments = moments_of(replayed(RECOVERY, bytes_of(ENCOUNTER)))
        self.assertTrue(any("recover track" in moment for moment in moments))
        for place, moment in enumerate(moments):
            self.page.step_to(place)
            self.check_moment(moment)

    def test_a_level_is_told_by_colour_by_pattern_and_by_number(self):
        """Under four levels: what shows a level has that level's pattern, wide runs its number, and no two patterns are alike."""
        self.page.open_files(self.page.file("four.toml", FOUR_LEVELS), self.page.file("crowd.states", crowd()))
        self.check_shown(self.page.file("four.toml", FOUR_LEVELS))
        paints = self.page.js("return [...document.querySelectorAll('[data-layer=ring] [data-level], [data-layer=tapes] [data-level]')].map((it) => [Number(it.dataset.level), it.getAttribute('fill')])")
        for level, fill in paints:
            self.assertEqual(fill, f"url(#level{level})" if level else "var(--l0-fill)")
        self.assertGreaterEqual(len({level for level, _ in paints if level}), 3)
        marks = self.page.js("return [1, 2, 3, 4].map((level) => document.querySelector(`#level${level}`).innerHTML.replace(/<rect[^>]*>(<.rect>)?|--l./g, ''))")
        self.assertEqual(len({mark.split("fill=")[0].split("stroke=")[0] for mark in marks}), 4, marks)
        shapes = self.page.js("""return [...document.querySelectorAll("figure[data-view='0'] .handle[data-level]")].map((it) => [it.dataset.level, it.querySelector(":scope > path[fill]:not([stroke-dasharray]), :scope > rect, :scope > circle:not(.focus):not(.grip), :scope g > path, :scope g > rect, :scope g > circle").outerHTML.replace(/\\d+/g, "").slice(0, 30)])""")
        self.assertGreaterEqual(len({level for level, _ in shapes}), 2)
        numbers = self.page.js("return [...document.querySelectorAll('[data-layer=ring] .level')].map((it) => Number(it.textContent))")
        self.assertGreaterEqual(len(numbers), 2)
        self.assertLessEqual(set(numbers), {level for level, _ in paints})

    def test_moments_by_the_workers_of_the_page(self):
        """300 aimed moments, asked of a desk as the displays ask."""
        states = tool("moments", "--seed", "31", "--moments", "300", "--aimed")
        got = self.page.driver.execute_async_script("""
            const [toml, states, done] = arguments, { engine } = daa.page, desk = new daa.Desk(daa.wasm());
            const config = { bytes: engine.read(daa.bytesOf(toml)).bytes };
            const moments = engine.readStates(daa.bytesOf(states)).map((it) => it.moment);
            Promise.all(moments.map((moment) => desk.ask({ config, moment }))).then((answers) => done([Boolean(desk.worker), answers.map((it) => it.text).join("")]));
            """, text_of(RECOVERY), states.decode())
        self.assertEqual(got, [True, replayed(RECOVERY, states)])

    def test_last_times_are_shown(self):
        """Lines `last` of a report, which the desk is made to answer, stand under the tapes and in the sentence."""
        report = moments_of(replayed(THREE_LEVELS, bytes_of(ENCOUNTER)))[0]
        report = report.replace("done 0\n", "last track 3\nlast gs none\nlast vs 12\nlast alt 0\ndone 0\n")
        self.page.js("""const [view] = daa.page.views;
            view.config.lastTimes = true;
            view.desk.ask = () => Promise.resolve({ text: arguments[0] });
            view.edition += 1;
            dispatchEvent(new Event("resize"));""", report)
        self.page.settle()
        self.check_moment(report)
        self.assertEqual([self.page.answers()[kind, "last"] for kind in ("track", "gs", "vs", "alt")],
                         ["a turn may wait 3 s", "too late", "may wait 12 s", "may wait 0 s"])
        self.assertIn("May wait: track 3 s; vertical speed 12 s; altitude 0 s.", self.page.text("#summary"))
        self.page.shot("last_times")

    def test_each_moment_with_last_times(self):
        """The engine's own: of some moments each kind may wait, of some one comes too late, and of some there is nothing to tell."""
        config = self.page.file("last.toml", "last_times = 1\n" + text_of(RECOVERY))
        self.page.open_files(config, ENCOUNTER)
        moments = moments_of(replayed(config, bytes_of(ENCOUNTER)))
        told = [dict(re.findall(r"(?m)^last (\w+) (\S+)", moment)) for moment in moments]
        self.assertEqual({len(lasts) for lasts in told}, {0, 4})
        self.assertTrue(any("none" in lasts.values() for lasts in told) and any("none" not in lasts.values() for lasts in told if lasts))
        for place, moment in enumerate(moments):
            self.page.step_to(place)
            self.check_moment(moment)

    def test_the_strip_over_time(self):
        """At each moment the points in AMBER's row have the colour of its level and of no other one; a click goes to a moment, and a drag along."""
        self.page.wait("document.body.dataset.surveyed === '19'")
        moments = moments_of(replayed(THREE_LEVELS, bytes_of(ENCOUNTER)))
        levels = self.page.js("return daa.page.surveys[0].notes.map(({ levels }) => levels)")
        self.assertEqual([dict(pairs) for pairs in levels], [{name: level for name, level in levels_of(moment).items() if level} for moment in moments])
        seen = self.page.js("""
            const { axis: g } = daa.page, canvas = document.querySelector("#strip"), context = canvas.getContext("2d"), scale = canvas.width / g.width;
            const probe = document.body.appendChild(document.createElement("i"));
            const colour = (level) => { probe.style.color = `var(--l${level}-fill)`; return getComputedStyle(probe).color.match(/[0-9]+/g).slice(0, 3).join(); };
            const fills = [0, 1, 2, 3, 4].map(colour);
            return daa.page.surveys[0].notes.map(({ time }) => {
              const { data } = context.getImageData(Math.round(g.x(time + 5) * scale) - 6, Math.round((g.rowOf(0) - 2) * scale), 12, 1);
              const found = Array.from({ length: 12 }, (_, i) => [...data.slice(4 * i, 4 * i + 3)].join());
              return fills.flatMap((fill, level) => (found.includes(fill) ? [level] : []));
            });""")
        self.assertEqual(seen, [[levels_of(moment)["AMBER"]] for moment in moments])
        box = self.page.js("const { x, y } = document.querySelector('#axis').getBoundingClientRect(); return [x, y, daa.page.axis.x(75), daa.page.axis.x(125)]")
        actions = ActionChains(self.page.driver)
        actions.w3c_actions.pointer_action.move_to_location(round(box[0] + box[2]), round(box[1] + 20))
        actions.click_and_hold().perform()
        self.page.settle()
        self.check_moment(moments[7])
        ActionChains(self.page.driver).move_by_offset(round(box[3] - box[2]), 0).release().perform()
        self.page.settle()
        self.check_moment(moments[12])

    def test_a_long_file_is_read_by_a_worker(self):
        """Of 1.3 MB: its first moment is shown while the rest is read; at the end all are there, and decided as the program does."""
        states = "".join(f"moment {second}\nown 0 {60 * second % 90000} 10000 0 3600 0\n" + "".join(
            f"traffic A{i} {3000 * i + 500} {60 * second % 90000 + 4000 - 11 * second % 8000} 10000 0 1800 0\n" for i in range(8)) + "end\n" for second in range(4000))
        self.assertGreater(len(states), 1000000)
        begun = self.page.driver.execute_async_script("""
            const done = arguments[0], { load } = daa.ui, look = () => (daa.page.name === "long.states"
              ? done([daa.page.index, Boolean(daa.page.reading), daa.page.moments.length < 4000]) : setTimeout(look, 1));
            document.querySelector("#file").addEventListener("change", () => look(), { once: true });
            const transfer = new DataTransfer();
            transfer.items.add(new File([arguments[1]], "long.states"));
            const file = document.querySelector("#file");
            file.files = transfer.files;
            file.dispatchEvent(new Event("change"));""".replace("const done = arguments[0]", "const done = arguments[1]").replace("[arguments[1]]", "[arguments[0]]"), states)
        self.assertEqual(begun, [0, True, True])
        self.page.wait("!daa.page.reading && document.body.dataset.surveyed === '4000'", "all is read and decided")
        self.page.js("daa.ui.goTo(3456)")
        self.page.settle()
        self.check_shown()
        moment = moments_of(replayed(THREE_LEVELS, self.page.states().encode()))[0]
        self.assertEqual(dict(self.page.js("return daa.page.surveys[0].notes.at(3456).levels")), {name: level for name, level in levels_of(moment).items() if level})

    def test_refused_lines_are_told(self):
        """With the moment after which they stand."""
        states = "own 1 2 3\n" + text_of(ENCOUNTER).replace("moment 20\n", "moment 20\nmoment 21\ntraffic TOOLONGID 0 0 0 0 0 0\n") + "moment 7\n"
        self.page.open_files(self.page.file("wrong.states", states))
        moments = re.split(r"(?m)^moment .*?^done \d+\n", replayed(THREE_LEVELS, states.encode()), flags=re.S)
        self.assertEqual([len(refused.split()) for refused in moments[:4]], [3, 0, 6, 0])
        self.assertIn("wrong.states: 4 lines were refused", self.page.text("#notes"))
        for place in range(4):
            self.page.step_to(place)
            told = re.findall(r"line (\d+) was refused with code (\d+)", self.page.text("#notes"))
            self.assertEqual(told, re.findall(r"(?m)^refused (\d+) (\d+)", moments[place]))
