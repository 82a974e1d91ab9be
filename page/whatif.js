// @ts-check
/* What if an answer is flown from here: the ownship's flight is replaced by the candidate's, the traffic goes on as recorded, and what comes of it
 * stands beside what was recorded. The flown recording is shown, saved and judged as any other. */
"use strict";
(function () {
  const { ui } = daa;
  const { Moments, KINDS, SIDES, must, closest, flown: moved, escape, shownWords, numberOf } = daa;
  const { $, state, setText, setHtml, saidOf, changed, shownAt } = ui;
  const [BEFORE, AFTER] = [200, 1000]; // moments that are taken over before and after this one
  const NAMES = { track: "track", gs: "ground speed", vs: "vertical speed", alt: "altitude" };
  /** @type {("question" | "meaning" | "followed")[]} */
  const PARTS = ["question", "meaning", "followed"];

  /** The answers that may be flown, in words by what they are; first the present flight.
   *  @type {(said: Said) => Map<string, string>} */
  function answersIn(said) {
    const found = new Map([["keep", "the present flight"]]);
    for (const kind of KINDS) {
      const { lower, upper } = said.resolve[kind];
      [lower, upper].forEach((to, side) => {
        if (typeof to === "number") found.set(`${kind} ${to}`, `${NAMES[kind]} ${SIDES[kind][side]} to ${shownWords(kind, to)}`);
      });
      const back = said.recover[kind];
      if (back && back !== "none") found.set(`${kind} ${back.value}`, `${NAMES[kind]} ${shownWords(kind, back.value)}, clear after ${back.after} s`);
    }
    return found;
  }

  /** What a lesson follows, as answers are called.
   *  @type {(said: Said) => string} */
  function followed(said) {
    const { lesson } = state;
    if (!lesson || state.current.time !== lesson.at) return "";
    const [kind, side] = lesson.follow;
    const back = said.recover[kind];
    const to = side !== "recover" ? said.resolve[kind][side] : back && back !== "none" ? back.value : "none";
    return typeof to === "number" ? `${kind} ${to}` : "";
  }

  // ---- flying

  function fly() {
    const said = saidOf(state.views[0]);
    const chosen = $("answer").value;
    if (!said || state.reading || !answersIn(said).has(chosen)) return;
    const words = answersIn(said).get(chosen);
    const [kind, value] = chosen === "keep" ? [null, 0] : chosen.split(" ");
    const { moments, index, views: [view], surveys: [survey], name, told, alone, silence, lesson, edits } = state;
    const first = Math.max(0, index - BEFORE);
    const indices = Array.from({ length: Math.min(moments.length, index + AFTER) - first }, (_, i) => first + i);
    const list = indices.map((at) => ({ ...shownAt(at), silence: moments.silence(at), recorded: moments.at(at).own }));
    const here = index - first;
    const made = [...list.slice(0, here), ...daa.flownFrom(list.slice(here), view.config.grids, kind, Number(value))];
    const recorded = state.flown?.recorded ?? { moments, notes: survey.notes, name, told, alone, silence, lesson, edits, recording: state.recording };
    const from = list[here].time;
    const flight = { recorded, from, words: `${words} from ${from} s` };
    const more = { flown: flight, lesson, recording: state.recording, told: [`flown: ${flight.words}`] };
    ui.begin(Moments.of(made, indices.map((at) => moments.fault(at))), `${recorded.name}, flown`, more);
    ui.go(here);
  }

  /** The recording as it was, at the moment from which another flight was flown. */
  function goBack() {
    const { recorded, from } = must(state.flown); // its button is shown with it
    const { moments, name, told, alone, silence, lesson, edits, recording } = recorded;
    ui.begin(moments, name, { told, alone, silence, lesson, edits, recording });
    ui.go(moments.indexAt(from));
  }

  // ---- what came of it

  /** How near the aircraft come from a time on, and the greatest alert level; `decided` tells whether all of it is known.
   *  @type {(moments: any, notes: any, from: number, upto: number) => Outcome} */
  function outcomeOf(moments, notes, from, upto) {
    /** @type {Outcome["least"]} */
    let least = null;
    let [level, alerting, isDecided] = [0, 0, true];
    for (let index = moments.indexAt(from); index < moments.length && moments.time(index) <= upto; index++) {
      const { time, own, traffic } = moments.at(index);
      const step = index + 1 < moments.length ? moments.time(index + 1) - time : 0;
      for (const one of traffic) {
        const seconds = Math.min(closest(own, one).seconds, step);
        const [a, b] = [moved(own, seconds), moved(one, one.age + seconds)];
        const miles = Math.hypot(a.x - b.x, a.y - b.y) / 1000;
        const above = one.alt + (one.vs * (one.age + seconds)) / 60 - own.alt - (own.vs * seconds) / 60;
        if (!least || miles < least.miles) least = { miles, above, time: time + seconds, id: one.id };
      }
      isDecided &&= notes.has(index);
      level = Math.max(level, notes.greatest(index));
      alerting += Number(notes.greatest(index) > 0);
    }
    return { least, level, alerting, isDecided };
  }

  /** @type {{ key: string, outcomes: Outcome[] }} */
  let told = { key: "", outcomes: [] };

  /** What was recorded and what was flown, over the time that both have. */
  function outcomes() {
    const { moments, surveys: [survey] } = state;
    const { recorded, from } = must(state.flown); // else none are asked for
    const upto = Math.min(moments.time(moments.length - 1), recorded.moments.time(recorded.moments.length - 1));
    const key = [from, upto, survey.decided, survey.job].join(" ");
    if (told.key !== key) {
      told = { key, outcomes: [outcomeOf(recorded.moments, recorded.notes, from, upto), outcomeOf(moments, survey.notes, from, upto)] };
    }
    return told.outcomes;
  }

  /** @type {(name: string, outcome: Outcome) => string} */
  function rowHtml(name, { least, level, alerting, isDecided }) {
    /** @type {(least: NonNullable<Outcome["least"]>) => (string | number)[]} */
    const nearOf = ({ miles, above, time, id }) => [miles.toFixed(2), numberOf(Math.round(above)), Math.round(time), escape(id)];
    const cells = [...(least ? nearOf(least) : ["–", "–", "–", "–"]), ...(isDecided ? [level, alerting] : ["…", "…"])];
    return `<tr><th scope="row">${name}</th>${cells.map((cell) => `<td>${cell}</td>`).join("")}</tr>`;
  }

  function paintWhatIf() {
    const { flown, lesson } = state;
    $("unfly").hidden = $("outcome").hidden = !flown;
    setText($("flown"), flown ? `Flown: ${flown.words}.` : "");
    $("lesson").hidden = !lesson;
    if (lesson) for (const part of PARTS) setText($(`lesson-${part}`), lesson[part]);
    if (!$("whatif").open) return;
    const said = saidOf(state.views[0]);
    const answers = said ? answersIn(said) : new Map();
    const list = [...answers].map(([value, words]) => `<option value="${value}">${escape(words)}</option>`).join("");
    const before = $("answer").value;
    if (setHtml($("answer"), list)) {
      const first = [...answers.keys()][1] ?? "keep";
      $("answer").value = (said && followed(said)) || (answers.has(before) && before !== "keep" ? before : first);
    }
    $("fly").disabled = !said;
    if (flown) setHtml($("outcome").tBodies[0], ["as recorded", "flown"].map((name, i) => rowHtml(name, outcomes()[i])).join(""));
  }

  $("fly").addEventListener("click", fly);
  $("unfly").addEventListener("click", goBack);
  $("whatif").addEventListener("toggle", changed);

  /** Shows a lesson, at the moment that it asks of.
   *  @type {(name: string) => void} */
  function takeLesson(name) {
    const lesson = daa.lessons[name];
    ui.configure(0, daa.examples.configs[lesson.config], lesson.config);
    ui.begin(Moments.of(daa.momentsOfLesson(lesson)), name, { lesson });
    ui.finish({ told: [], alone: "", clock: "s", names: null, own: null });
    for (const part of ["lesson-meaning-part", "lesson-followed-part"]) $(part).open = false;
    $("whatif").open = true;
    ui.go(lesson.at);
  }

  Object.assign(ui, { paintWhatIf, takeLesson });
})();
