"""The page over stand-ins for a browser: how the engine is asked, in a worker or in the page itself, and what an answer is taken for."""
import re
import tempfile
import unittest

from nodes import FAR, HOW, NODE, OPEN, on_page, xml_of
from shared import ENCOUNTER, THREE_LEVELS, bytes_of, levels_of, moments_of, replayed, text_of


@unittest.skipUnless(NODE, HOW)
class Asked(unittest.TestCase):
    maxDiff = 3000

    def test_a_late_answer_to_an_older_moment_is_not_shown(self):
        """The answers to two changes come one after the other, and nothing is shown before the second: no band, no mark, no level in a symbol
        or in the table, no line of the report, and no sentence."""
        found = on_page("""
            const [view] = page.views, answers = [], layer = (name) => display().querySelector(`[data-layer=${name}]`).innerHTML;
            const shown = () => [layer("ring").includes("data-level"), layer("tapes").includes("data-level"), layer("answers") !== "",
              $("aircraft").tBodies[0].innerHTML.includes("chip"), $("report").innerHTML.includes("data-line"), $("summary").textContent.startsWith("Alerts"),
              display().getAttribute("aria-label").includes("greatest"), handle("p:AMBER").getAttribute("aria-valuetext").includes("alert level")];
            view.desk.ask = () => new Promise((answer) => answers.push(answer));
            for (const key of ["ArrowUp", "ArrowRight"]) {
              fire(display(), "keydown", { target: handle("p:AMBER"), key });
              for (let frames = 0; frames < 30; frames++) await frame();
            }
            const { text } = view.said, found = [answers.length, shown()];
            for (const answer of answers) {
              answer({ text });
              for (let frames = 0; frames < 30; frames++) await frame();
              found.push(shown());
            }
            return found;""")
        self.assertEqual(found, [2, [False] * 8, [False] * 8, [True] * 8])

    def test_an_answer_to_a_moment_that_was_changed_meanwhile_is_left(self):
        """It tells a fault of an aircraft that was removed in the same frame."""
        found = on_page("""
            const { desk } = page.views[0], answers = [];
            desk.ask = () => new Promise((answer) => answers.push(answer));
            fire(display(), "keydown", { target: handle("p:BRAVO"), key: "ArrowUp" });
            while (!answers.length) await frame();
            delete desk.ask;
            fire(display(), "keydown", { target: handle("p:BRAVO"), key: "Delete" });
            answers[0]({ code: 17, fault: { code: 17, place: 1, field: "alt", least: -2000, greatest: 60000 } });
            await settle();
            return [$("fault").textContent, $("summary").textContent.startsWith("Alerts: AMBER")];""")
        self.assertEqual(found, ["", True])

    def test_nothing_of_a_refused_moment_looks_clear(self):
        """Ring and tapes are grey, and each aircraft has a ? in place of a level; nothing of the moment before is left, and nothing
        of it after it."""
        layers, symbols, table, summary, label, fault = on_page("""
            await fire($("state"), "input", { target: { dataset: { field: "alt", scale: "1" }, value: "70000" } });
            await settle();
            const layers = ["ring", "tapes", "answers", "head"].map((name) => display().querySelector(`[data-layer=${name}]`).innerHTML);
            const symbols = [...display().daa.handles.values()].filter((it) => /^p:./.test(it.dataset.key)).map((it) => [it.innerHTML, it.getAttribute("aria-valuetext")]);
            const answer = [layers, symbols, $("aircraft").tBodies[0].innerHTML, $("summary").textContent, display().getAttribute("aria-label")];
            await fire($("restore"), "click");
            await settle();
            return [...answer, $("fault").textContent];""")
        self.assertEqual(fault, "")
        ring, tapes, answers, head = map(xml_of, layers)
        self.assertEqual([it.get("fill") for it in ring.iter("path") if it.get("fill")], ["var(--unknown)"])
        self.assertEqual([it.get("fill") for it in tapes.iter("rect")], ["var(--unknown)"] * 3)
        self.assertEqual(list(answers), [])
        words = [it.text for it in head]
        self.assertEqual(" ".join(words[words.index("no answer") + 1:]), summary)
        self.assertEqual(len(symbols), 2)
        for inside, told in symbols:
            words = [it.text for it in xml_of(inside).iter("text")]
            self.assertTrue(words[0] == "?" and told.endswith(", no answer"), (words, told))
        self.assertEqual(["".join(row[1].itertext()) for row in xml_of(table)][1:], ["–"] * 2)
        self.assertEqual((summary, label), ("altitude of the ownship is not within -2000 and 60000 ft",
                                            "Display under three_levels: altitude of the ownship is not within -2000 and 60000 ft"))

    def test_aircraft_without_an_answer_are_not_called_those_without_an_alert(self):
        """Where they are many and folded: of a moment, and of it with an altitude that is refused."""
        found = on_page(OPEN + """
            await open(["far.states", given[0]]);
            const found = [$("rest").textContent];
            await fire($("state"), "input", { target: { dataset: { field: "alt", scale: "1" }, value: "70000" } });
            await settle();
            found.push($("rest").textContent);
            await fire($("rest"), "click");
            await settle();
            return [...found, $("rest").textContent];""", re.sub("(?m)^traffic [A-G].* 3000 ", lambda it: it[0].replace(" 3000 ", " 90000 "), FAR))
        self.assertEqual(found, ["8 more without an alert", "8 more without an answer", "Fold those without an answer"])

    def test_an_engine_that_stopped_is_told(self):
        told = on_page("""
            page.views[0].desk.ask = async () => ({ stopped: "The engine stopped." });
            await press("p:AMBER", "ArrowUp");
            return [$("fault").textContent, $("summary").textContent, $("report").innerHTML.includes("data-line")];""")
        self.assertEqual(told, ["The engine stopped."] * 2 + [False])

    def test_a_stopped_worker_answers_no_later_question(self):
        """What it had sent before it was stopped comes after the next question was asked."""
        found = on_page("""
            const workers = [], found = [];
            globalThis.Worker = class { constructor() { workers.push(this); } postMessage(it) { (this.asked ??= []).push(it); } terminate() {} };
            const desk = new daa.Desk(null);
            workers[0].onmessage({ data: { ready: true } });
            desk.ask("first").then((answer) => found.push(["first", answer]));
            await new Promise((done) => setTimeout(done, 300));
            desk.forget();
            desk.ask("second").then((answer) => found.push(["second", answer]));
            workers[1].onmessage({ data: { ready: true } });
            workers[0].onmessage({ data: { number: workers[0].asked[1].number, answer: "old" } });
            await frame();
            workers[1].onmessage({ data: { number: workers[1].asked[1].number, answer: "new" } });
            await frame();
            return [found, workers.length];""")
        self.assertEqual(found, [[["first", None], ["second", "new"]], 2])

    WORKERS = """
        const workers = [];
        globalThis.Worker = class { constructor() { workers.push(this); } postMessage(it) { (this.asked ??= []).push(it); } terminate() { this.ended = true; } };
        const question = { config: { bytes: page.views[0].config.bytes }, moment: page.current };"""

    def test_the_page_answers_in_place_of_a_worker_that_fails(self):
        """Which cannot open the engine, or whose script cannot run, or which ends while it decides; what an older one tells counts no more."""
        reports = on_page(self.WORKERS + """
            const reports = [], { asked } = given;
            for (const fail of [(it) => it.onmessage({ data: { failed: true } }), (it) => it.onerror({}),
              (it) => { it.onmessage({ data: { ready: true } }); it.onerror({}); }]) {
              const desk = new daa.Desk(daa.wasm()), answer = desk.ask(question);
              fail(workers.at(-1));
              reports.push((await answer).text, (await desk.ask(question)).text, desk.worker, workers.at(-1).ended);
            }
            const desk = new daa.Desk(daa.wasm()), [older] = [workers.at(-1)];
            older.onmessage({ data: { ready: true } });
            desk.ask(question);
            await new Promise((done) => setTimeout(done, 300));
            desk.forget();
            older.onerror({});
            return [...reports, desk.worker === workers.at(-1) && desk.worker !== older];""")
        report = moments_of(replayed(THREE_LEVELS, bytes_of(ENCOUNTER)))[0]
        self.assertEqual(reports, [report, report, None, True] * 3 + [True])

    def test_a_worker_that_cannot_open_the_engine_says_so(self):
        posted = on_page("""
            const posted = [], scope = { postMessage: (it) => posted.push(it) };
            daaWorker(scope);
            for (const module of [new Uint8Array(8), daa.wasm()]) await scope.onmessage({ data: { module } });
            return posted;""")
        self.assertEqual(posted, [{"failed": True}, {"ready": True}])

    def test_an_engine_that_cannot_be_opened_is_told(self):
        """To each question, in a worker and on the page."""
        told = on_page(self.WORKERS + """
            daa.Engine.open = async () => { throw new Error("no memory"); };
            const [desk, other] = [new daa.Desk(null), new daa.Desk(null)];
            workers[0].onmessage({ data: { failed: true } });
            const told = [await desk.ask(question), await desk.ask(question)];
            globalThis.Worker = class { constructor() { throw new Error("none"); } };
            page.views[0].desk = new daa.Desk(null);
            await press("p:AMBER", "ArrowUp");
            return [told.map((it) => it.stopped), $("fault").textContent, $("report").innerHTML.includes("data-line")];""")
        self.assertEqual(told, [["The engine can't be opened: no memory."] * 2, "The engine can't be opened: no memory.", False])

    def test_whatever_an_engine_throws_is_an_answer(self):
        told = on_page("""
            page.views[0].desk.engine = { report() { throw new RangeError("too deep"); } };
            await press("p:AMBER", "ArrowUp");
            return [$("fault").textContent, $("report").innerHTML.includes("data-line")];""")
        self.assertEqual(told, ["The engine stopped (RangeError: too deep).", False])

    def test_a_moment_that_stopped_the_engine_stays_unknown_over_time(self):
        """It alone: the others are decided. So does each of a part for which there is no engine."""
        notes, none = on_page("""
            const [survey] = page.surveys, [desk] = survey.desks, { engine } = desk, report = engine.report.bind(engine);
            engine.report = (config, moment) => { if (moment.time === 30) throw new daa.Stopped("The engine stopped."); return report(config, moment); };
            await daa.ui.survey();
            const notes = survey.notes.map((note) => note && note.time);
            desk.ask = async () => ({ stopped: "The engine can't be opened." });
            await daa.ui.survey();
            return [notes, survey.notes.map((note) => note)];""")
        self.assertEqual(notes, [0, 10, 20, None, *range(40, 190, 10)])
        self.assertEqual(none, [None] * 19)

    def test_a_slow_strip_leaves_time_to_decide(self):
        """Where drawing it takes long it is drawn now and then, and at the end."""
        drawn = on_page("""
            const { draw } = daa.Strip.prototype;
            let drawn = 0;
            await settle();
            daa.Strip.prototype.draw = function (...words) {
              drawn += 1;
              for (const end = performance.now() + 260; performance.now() < end;);
              return draw.apply(this, words);
            };
            await daa.ui.survey();
            return drawn;""")
        self.assertIn(drawn, range(1, 6))

    def test_what_is_known_over_time_is_of_the_configuration(self):
        """Under another one all moments are asked for anew, and the strip is drawn anew; under the second one only where both are shown."""
        config = text_of(THREE_LEVELS).replace("alert = 55", "alert = 20").replace("alert = 25", "alert = 5")
        levels, others, drawn = on_page("""
            const [survey, second] = page.surveys;
            const surveyed = async (one) => { for (let frames = 0; frames < 5000 && one.decided < page.moments.length; frames++) await frame(); };
            await surveyed(survey);
            $("toml").value = given[0];
            await fire($("toml"), "input");
            await settle();
            await surveyed(survey);
            const others = [second.decided];
            $("compare").checked = true;
            await fire($("compare"), "change", { target: { checked: true } });
            await surveyed(second);
            others.push(second.decided);
            await surveyed(survey);
            await settle();
            const { calls } = $("strip"), from = calls.findLastIndex(([name]) => name === "clearRect");
            return [survey.notes.map((note) => Object.fromEntries(note.levels)), others, calls.slice(from).filter(([name, paint]) => name === "fillRect" && paint === "clear").length];""", config)
        with tempfile.NamedTemporaryFile("w", suffix=".toml") as file:
            file.write(config)
            file.flush()
            loud = lambda moment: {name: level for name, level in levels_of(moment).items() if level}
            wanted = [loud(moment) for moment in moments_of(replayed(file.name, bytes_of(ENCOUNTER)))]
        self.assertNotEqual(wanted, [loud(moment) for moment in moments_of(replayed(THREE_LEVELS, bytes_of(ENCOUNTER)))])
        self.assertEqual((levels, others, drawn), (wanted, [0, 19], 19))
