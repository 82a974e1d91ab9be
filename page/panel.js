// @ts-check
/* The panel: the aircraft and their numbers, the lines of the report, and the report in a sentence. */
"use strict";
(function () {
  const { ui } = daa;
  const { KINDS, SIDES, must, clamp, wrap, flown, escape, angleOf, numberOf, shownWords, calledIn, isNow, isOld } = daa;
  const { $, LIMITS, OWN_FIELDS, FIELDS, state, within, shownViews, setText, setHtml, download, changed, saidOf, faultOf, edited, choose,
    aircraftOf, lackOf } = ui;
  const MOST_QUIET = 5; // so many aircraft without an alert are listed before they are folded
  const MOST_TYPED = 1e6; // out of the range of each number, and within the engine's

  // ---- the table

  /** @type {() => Aircraft | undefined} */
  const chosenAircraft = () => aircraftOf(state.chosen);
  /** @type {(level: number) => string} */
  const chip = (level) => `<span class="chip l${level}">${level}</span>`;

  /** The aircraft, those that alert first, each with its place in the input.
   *  @type {(said: Said | null) => TableRow[]} */
  function rowsOf(said) {
    const { own, traffic } = state.current;
    const rows = traffic.map((one, place) => {
      const here = flown(one, one.age);
      const [east, north] = [(here.x - own.x) / 1000, (here.y - own.y) / 1000];
      const other = state.compare && saidOf(state.views[1])?.aircraft[place];
      return { one, place, alert: said ? said.aircraft[place] : null, other, miles: Math.hypot(east, north),
        bearing: wrap(Math.round((Math.atan2(east, north) * 180) / Math.PI)), above: Math.round(one.alt + (one.vs * one.age) / 60 - own.alt) };
    });
    /** @type {(row: TableRow) => number} */
    const urgency = ({ alert }) => (alert ? 1000 * Math.max(alert.level, alert.now) - (alert.first || 0) : 0);
    return rows.sort((a, b) => urgency(b) - urgency(a) || a.miles - b.miles);
  }

  /** @type {(alert: Alert | null | undefined) => boolean} */
  const isLoud = (alert) => Boolean(alert && alert.level + alert.now > 0);
  /** @type {(row: TableRow) => boolean} */
  const isQuiet = ({ alert, other }) => !isLoud(alert) && !isLoud(other);

  /** @type {(alert: Alert | null | undefined) => string} */
  function wordsOfAlert(alert) {
    if (!alert) return "–";
    const first = alert.first === null ? "" : isNow(alert) ? " now" : ` ${alert.first}\u00a0s`;
    return `${chip(alert.level)}${first}${alert.now && alert.now !== alert.level ? `, ${chip(alert.now)}\u00a0now` : ""}`;
  }

  /** The button that chooses an aircraft, or where none is given the ownship.
   *  @type {(words: string, isChosen: boolean, one: Aircraft | null) => string} */
  function choiceHtml(words, isChosen, one) {
    const called = one ? calledIn(state.current.traffic, one) : "";
    return `<td><button type="button" data-choose="${escape(called)}" aria-pressed="${isChosen}">${escape(words)}</button></td>`;
  }

  /** @type {(one: Aircraft) => string} */
  const wordsOfAge = (one) => (isOld(one) ? ` <small>report ${one.age}\u00a0s old</small>` : "");

  /** What the second configuration says of an aircraft, where that is something else.
   *  @type {(alert: Alert | null, other: Alert | null | undefined) => string} */
  const wordsOfOther = (alert, other) => (alert && other && wordsOfAlert(alert) !== wordsOfAlert(other) ? ` ≠ ${wordsOfAlert(other)}` : "");

  /** @type {(row: TableRow, chosen: Aircraft | undefined) => string} */
  function rowHtml({ one, alert, other, miles, bearing, above }, chosen) {
    const sign = above > 0 ? "+" : above < 0 ? "−" : "";
    const button = choiceHtml(one.id || "(no name)", one === chosen, one);
    return `<tr class="${one === chosen ? "chosen" : ""}">${button}<td>${wordsOfAlert(alert)}${wordsOfOther(alert, other)}${wordsOfAge(one)}</td>`
      + `<td>${miles.toFixed(2)}</td><td>${String(bearing).padStart(3, "0")}</td><td>${sign}${Math.abs(above)}</td></tr>`;
  }

  function paintTable() {
    const { own, traffic } = state.current;
    const chosen = chosenAircraft();
    const said = saidOf(state.views[0]);
    const rows = rowsOf(said);
    const quiet = rows.filter(isQuiet);
    const folds = quiet.length > MOST_QUIET;
    const shown = folds && !state.unfolded ? rows.filter((row) => !isQuiet(row) || row.one === chosen) : rows;
    const climb = own.vs ? ` · ${numberOf(own.vs)} ft/min` : "";
    const first = `<tr class="own ${chosen ? "" : "chosen"}">${choiceHtml("ownship", !chosen, null)}`
      + `<td colspan="4">${angleOf(own.trk)} · ${own.gs / 10} kt · ${numberOf(own.alt)} ft${climb}</td></tr>`;
    setText($("differs"), wordsOfDifference(said, state.compare ? saidOf(state.views[1]) : null));
    const focused = /** @type {any} */ (document.activeElement).dataset.choose;
    const isNew = setHtml($("aircraft").tBodies[0], first + shown.map((row) => rowHtml(row, chosen)).join(""));
    const again = isNew && focused !== undefined && document.querySelector(`[data-choose="${CSS.escape(focused)}"]`);
    if (again) again.focus();
    $("rest").hidden = !folds;
    const without = `without an ${said ? "alert" : "answer"}`;
    setText($("rest"), state.unfolded ? `Fold those ${without}` : `${traffic.length - shown.length} more ${without}`);
  }

  /** Which answers of two configurations differ.
   *  @type {(one: Said | null, other: Said | null) => string} */
  function wordsOfDifference(one, other) {
    if (!one || !other) return "";
    /** @type {(kind: Kind, to: Answer) => string} */
    const words = (kind, to) => (typeof to === "number" ? shownWords(kind, to) : to);
    /** @type {(kind: Kind) => [Kind, string, Answer, Answer][]} */
    const sides = (kind) => [[kind, SIDES[kind][0], one.resolve[kind].lower, other.resolve[kind].lower],
      [kind, SIDES[kind][1], one.resolve[kind].upper, other.resolve[kind].upper]];
    const pairs = KINDS.flatMap(sides);
    const found = pairs.filter(([, , first, second]) => first !== second)
      .map(([kind, side, first, second]) => `${NAMES[kind]} ${side} ${words(kind, first)} ≠ ${words(kind, second)}`);
    return found.length ? `Answers that differ: ${found.join("; ")}` : "All answers are the same";
  }

  /** @type {(event: { target: HTMLElement }) => void} */
  const pick = ({ target }) => { if (target.dataset.choose !== undefined) choose(`p:${target.dataset.choose}`); };
  $("aircraft").addEventListener("click", pick);
  $("aircraft").addEventListener("pointerdown", (event) => { // while it plays, another row stands there when the button is let go
    if (event.pointerType === "mouse" && event.button === 0) pick(event);
  });
  $("rest").addEventListener("click", () => {
    state.unfolded = !state.unfolded;
    changed();
  });

  // ---- the numbers of the chosen aircraft

  function paintForm() {
    const one = chosenAircraft();
    const fields = (one ? FIELDS : OWN_FIELDS).map(([field, name, unit, scale]) => {
      const [low, high] = LIMITS[field];
      return `<label>${name} ${unit}<input type="number" data-field="${field}" data-scale="${scale}"`
        + ` min="${low / scale}" max="${high / scale}" step="${1 / scale}"></label>`;
    });
    const named = '<label>name <input data-field="id" maxlength="8" spellcheck="false"></label>';
    const title = one ? `${named}<button type="button" data-remove>Remove</button>` : "Ownship";
    setHtml($("state"), `<h2>${title}</h2><div class="fields">${fields.join("")}</div>`);
    /** @type {Record<string, any>} */
    const from = one || state.current.own;
    for (const input of $("state").querySelectorAll("input")) {
      const { field, scale } = input.dataset;
      const shown = field === "id" ? from.id : String(from[field] / Number(scale));
      if (document.activeElement !== input || !state.edited) input.value = shown; // what is being typed stays
    }
  }

  $("state").addEventListener("submit", (event) => event.preventDefault());
  $("state").addEventListener("input", ({ target }) => {
    /** @type {Record<string, any>} */
    const one = chosenAircraft() || state.current.own;
    const { field, scale } = target.dataset;
    const number = Number(target.value);
    if (field === "id") {
      one.id = target.value;
      state.chosen = `p:${calledIn(state.current.traffic, one)}`;
    } else if (target.value !== "" && Number.isFinite(number)) one[field] = Math.round(clamp(number, -MOST_TYPED, MOST_TYPED) * Number(scale));
    edited();
  });
  $("state").addEventListener("change", changed); // what was typed and is left is shown as it was taken
  $("state").addEventListener("click", ({ target }) => {
    if (!target.matches("[data-remove]")) return;
    remove(state.current.traffic.findIndex((one) => one === chosenAircraft()));
    document.querySelector('#aircraft [data-choose=""]')?.focus(); // what had the focus is no more
  });

  /** @type {(place: number) => void} */
  function remove(place) {
    if (place < 0) return;
    state.current.traffic.splice(place, 1);
    state.chosen = "p:";
    edited();
  }

  $("add").addEventListener("click", () => {
    const { own, traffic } = state.current;
    let number = 1;
    while (traffic.some((one) => one.id === `NEW${number}`)) number += 1;
    const far = state.views[0].look.range * 500;
    traffic.push({ id: `NEW${number}`, x: within(own.x + far, "x"), y: within(own.y + far, "y"), alt: own.alt, vx: -1500, vy: 0, vs: 0, age: 0 });
    state.chosen = `p:NEW${number}`;
    edited();
  });

  /** @type {(text: string, button: HTMLElement, name: string) => Promise<void>} */
  async function give(text, button, name) {
    const words = (button.dataset.words ??= must(button.textContent)); // which may say by now what came of a click before this one
    try {
      await navigator.clipboard.writeText(text);
      button.textContent = "Copied";
    } catch {
      download(new Blob([text], { type: "text/plain" }), name);
      button.textContent = "Saved";
    }
    setTimeout(() => { button.textContent = words; }, 1500);
  }

  $("copy").addEventListener("click", ({ target }) => give(daa.stateLines([state.current]), target, `moment-${state.current.time}.states`));

  // ---- from the side

  const SIDE = { width: 320, height: 190 };
  const MOST_APPROACHES = 4;

  /** How all come closest, if they fly straight on: from the side, and of the first few in words. */
  function paintProfile() {
    if (!$("profile").open) return;
    const model = ui.modelOf(state.views[0]);
    $("side").setAttribute("viewBox", `0 0 ${SIDE.width} ${SIDE.height}`);
    setHtml($("side"), daa.side(model, state.chosen, SIDE));
    const some = daa.ranked(model, state.chosen).slice(0, MOST_APPROACHES);
    setHtml($("approaches"), some.map((it) => `<li>${escape(daa.nameOf(it.one))}: closest ${daa.wordsOfClosest(it.closest)}</li>`).join(""));
  }

  $("profile").addEventListener("toggle", changed);

  // ---- the report

  /** The level that a report line tells, or null.
   *  @type {(line: string) => number | null} */
  function levelOfLine(line) {
    const [word, ...rest] = line.split(" ");
    if (word === "now" || KINDS.some((kind) => kind === word)) return Number(rest[rest.length - 1]);
    return word === "alert" ? Number(rest[1]) : null;
  }

  /** @type {(line: string, number: number) => string} */
  function lineHtml(line, number) {
    const level = levelOfLine(line);
    const [word] = line.split(" ");
    const isAnswer = ["resolve", "recover", "last"].includes(word);
    const style = isAnswer ? (/\d/.test(line) ? word : line.includes("none") ? "none" : "") : level === null ? "faint" : "";
    const mark = `<b class="${level ? `l${level}` : ""}">${level || ""}</b>`;
    return `<div class="line" data-line="${number}">${mark}<span class="${style}">${escape(line)}</span></div>`;
  }

  /** The lines of a report: the aircraft that alert before the others, which are folded where they are many.
   *  @type {(said: Said) => string} */
  function reportHtml(said) {
    const lines = said.text.split("\n").slice(0, -1).map((line, number) => ({ line, number }));
    const pairs = said.aircraft.map((one, place) => ({ one, lines: lines.slice(1 + 2 * place, 3 + 2 * place) }));
    /** @type {(some: { line: string, number: number }[]) => string} */
    const html = (some) => some.map(({ line, number }) => lineHtml(line, number)).join("");
    const loud = pairs.filter(({ one }) => one.level || one.now).sort((a, b) => b.one.level - a.one.level);
    const quiet = pairs.filter(({ one }) => !one.level && !one.now);
    const rest = html(quiet.flatMap((it) => it.lines));
    const title = `<summary>${quiet.length} aircraft at level 0</summary>`;
    const folded = `<details ${state.linesOpen ? "open" : ""}>${title}${rest}</details>`;
    const aircraft = html(loud.flatMap((it) => it.lines)) + (quiet.length > MOST_QUIET ? folded : rest);
    return html(lines.slice(0, 1)) + aircraft + html(lines.slice(1 + 2 * pairs.length));
  }

  function paintReport() {
    const parts = shownViews().map((view, place) => {
      const title = state.compare ? `<h3>${escape(view.name)}</h3>` : "";
      const said = saidOf(view);
      return `<div data-report="${place}">${title}${said ? reportHtml(said) : `<div class="faint">${escape(faultOf(view))}</div>`}</div>`;
    });
    const focused = [...$("report").querySelectorAll("summary")].indexOf(document.activeElement);
    if (setHtml($("report"), parts.join("")) && focused >= 0) $("report").querySelectorAll("summary")[focused]?.focus();
  }

  $("report").addEventListener("toggle", ({ target }) => { state.linesOpen = target.open; }, { capture: true });

  // ---- the report in a sentence

  const NAMES = { track: "track", gs: "ground speed", vs: "vertical speed", alt: "altitude" };

  /** It is never older than the display; while something is held, or a recording plays, a screen reader waits with it. */
  function paintSummary() {
    const said = saidOf(state.views[0]);
    const under = state.compare ? `Under ${state.views[0].name}: ` : ""; // as the table and the strip, it is the first display's alone
    $("summary").setAttribute("aria-busy", String(Boolean(state.held || state.playing)));
    setText($("summary"), under + (said ? summaryOf(said, lackOf(state.index)) : faultOf(state.views[0])));
  }

  /** A report in a sentence. Where the moment lacks something, that comes first; and that the flight may be kept is said only of a
   *  moment that lacks nothing and has an aircraft: of what is not known nothing is clear.
   *  @type {(said: Said, lack: string) => string} */
  function summaryOf(said, lack) {
    const firstOf = (/** @type {Alert} */ { first }) => Number(first); // which each that alerts has
    const loud = said.aircraft.filter((one) => one.level).sort((a, b) => b.level - a.level || firstOf(a) - firstOf(b));
    const alerts = loud.slice(0, 4).map((one) => `${one.id} level ${one.level} ${isNow(one) ? "now" : `in ${one.first} s`}`);
    if (loud.length > 4) alerts.push(`${loud.length - 4} more`);
    const [open, back, none, last] = [[], [], [], []];
    for (const kind of KINDS) sortAnswers(said, kind, open, back, none, last);
    /** @type {(front: string, parts: string[], mark?: string) => string} */
    const list = (front, parts, mark = "; ") => (parts.length ? `${front}${parts.join(mark)}. ` : "");
    const isKept = open.length + back.length + none.length === 0 && !lack && said.aircraft.length > 0;
    const quiet = !said.aircraft.length ? "No other aircraft is known. " : lack ? "None of the known aircraft alerts. " : "No alert. ";
    const front = (lack ? `Incomplete: ${lack}. ` : "") + (alerts.length ? list("Alerts: ", alerts, ", ") : quiet);
    const kept = isKept ? "The present flight may be kept. " : "";
    return (front + kept + list("Open: ", open) + list("Clear again: ", back) + list("Nothing open: ", none, ", ")
      + list("May wait: ", last)).trim();
  }

  /** @type {(said: Said, kind: Kind, open: string[], back: string[], none: string[], last: string[]) => void} */
  function sortAnswers(said, kind, open, back, none, last) {
    const { lower, upper } = said.resolve[kind];
    const again = said.recover[kind];
    if (lower === "keep") return;
    const sides = [lower, upper].flatMap((to, side) => (to === "none" ? [] : [`${SIDES[kind][side]} to ${shownWords(kind, to)}`]));
    if (sides.length) open.push(`${NAMES[kind]} ${sides.join(" or ")}`);
    else if (again && again !== "none") back.push(`${NAMES[kind]} ${shownWords(kind, again.value)} after ${again.after} s`);
    else none.push(NAMES[kind]);
    if (typeof said.last[kind] === "number") last.push(`${NAMES[kind]} ${said.last[kind]} s`);
  }

  /** What keys call the aircraft, in the order of the table. */
  const aircraftInOrder = () => rowsOf(saidOf(state.views[0])).map(({ one }) => calledIn(state.current.traffic, one));

  Object.assign(ui, { remove, aircraftInOrder, chip, paintProfile, paintTable, paintForm, paintReport, paintSummary });
})();
