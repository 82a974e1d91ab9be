// @ts-check
/* Time in the hand: which moment is shown, what was changed by hand of it, playing, and the axis, which is slider and strip in one. */
"use strict";
(function () {
  const { ui } = daa;
  const { clamp, must } = daa;
  const { $, state, setText, changed, touched, copy } = ui;
  const PAPER = { width: 1100, height: 150 };
  const MOST_UNDONE = 200;
  const FAR = 10; // moments that page up and down go
  const ZOOM = 2;
  const LEAST_WINDOW = 8; // seconds that the axis shows at least
  const DAY = 86400;
  const PATIENCE = 15; // ms that the strip is drawn at a stretch
  const [LEAST_SHOWN, GROWTH] = [64, 1.5]; // moments that the axis shows of a recording that is read, and by how much that grows

  // ---- the moments, as they were recorded and as they were changed by hand

  /** What a moment lacks in words, or nothing.
   *  @type {(index: number) => string} */
  function lackOf(index) {
    if (index >= state.moments.length) return "";
    const missing = daa.lacksOf({ comments: state.moments.comments(index) }).map(({ id, why }) => `without ${id === "*" ? "" : `${id}: `}${why}`);
    return [state.moments.fault(index), state.alone, daa.wordsOfLack(missing, missing.length, "are missing")].filter(Boolean).join("; ");
  }

  /** @type {(index: number) => boolean} */
  const lacks = (index) => Boolean(state.alone || state.moments.fault(index))
    || state.moments.comments(index).some((/** @type {string} */ text) => daa.lacksOf({ comments: [text] }).length > 0);

  /** Why nothing is known before a moment, or after it, in words; or nothing.
   *  @type {(index: number) => string} */
  function silenceOf(index) {
    const { moments } = state;
    if (index >= moments.length) return "";
    const [before, after] = [moments.silence(index), index + 1 < moments.length ? moments.silence(index + 1) : state.silence];
    const upto = index + 1 < moments.length ? ` until ${clockOf(moments.time(index + 1))}` : "";
    return [before && `no moment before this one: ${before}`, after && `no moment after this one${upto}: ${after}`].filter(Boolean).join("; ");
  }

  /** @type {(index: number) => void} */
  function go(index) {
    const edit = state.edits.get(index);
    Object.assign(state, { index, current: edit ? copy(edit) : state.moments.at(index), edited: Boolean(edit) });
    touched();
  }

  /** Goes to another moment by hand; where there is none on that side, the one that is shown stays.
   *  @type {(index: number) => void} */
  function goTo(index) {
    pause();
    const to = clamp(index, 0, state.moments.length - 1);
    if (to !== state.index) go(to);
  }

  /** @type {any} */
  let gesture = null; // what is held, or typed in, makes one step

  /** What is shown was changed by hand: it stays changed until it is taken back. */
  function edited() {
    pause();
    const now = state.held ?? (document.activeElement?.matches?.("#state input") ? document.activeElement : null);
    if (!now || now !== gesture) remember(state.undone, state.index);
    gesture = now;
    state.redone.length = 0;
    state.edits.set(state.index, copy(state.current));
    state.edited = true;
    touched();
  }

  /** @type {(list: Change[], index: number) => void} */
  const remember = (list, index) => {
    list.push({ index, edit: state.edits.get(index) ?? null });
    if (list.length > MOST_UNDONE) list.shift();
  };

  /** @type {(index: number, edit: Moment | null) => void} */
  function putEdit(index, edit) {
    if (edit) state.edits.set(index, edit);
    else state.edits.delete(index);
    gesture = null;
    go(index);
  }

  /** The moment as it was recorded. */
  function restore() {
    if (state.edits.has(state.index)) {
      remember(state.undone, state.index);
      state.redone.length = 0;
    }
    putEdit(state.index, null);
  }

  /** Takes the last change back, or makes it again.
   *  @type {(from: Change[], to: Change[]) => void} */
  function undo(from, to) {
    const last = from.pop();
    if (!last) return;
    pause();
    remember(to, last.index);
    putEdit(last.index, last.edit);
  }

  const undoLast = () => undo(state.undone, state.redone);
  const redoLast = () => undo(state.redone, state.undone);

  // ---- playing, at the recording's own times, as many times as fast as is chosen

  function play() {
    if (state.playing) {
      pause();
      return;
    }
    if (state.index === state.moments.length - 1) goTo(0);
    beginPlaying();
    tellPlaying();
  }

  function beginPlaying() {
    state.playing = { since: performance.now(), from: state.moments.time(state.index), frame: requestAnimationFrame(tick) };
  }

  function tick() {
    const { moments, playing } = state;
    if (!playing) return;
    const time = playing.from + ((performance.now() - playing.since) / 1000) * Number($("speed").value);
    const index = Math.max(moments.indexAt(time), state.index);
    if (index !== state.index) go(index);
    if (index === moments.length - 1 && !state.reading) pause();
    else playing.frame = requestAnimationFrame(tick);
  }

  function pause() {
    if (!state.playing) return;
    cancelAnimationFrame(state.playing.frame);
    state.playing = null;
    tellPlaying();
  }

  function tellPlaying() {
    $("play").textContent = state.playing ? "❚❚" : "▶";
    $("play").setAttribute("aria-label", state.playing ? "Pause" : "Play");
    changed();
  }

  // ---- the clock

  /** @type {(number: number) => string} */
  const two = (number) => String(Math.floor(number)).padStart(2, "0");
  /** @type {(time: number) => string} */
  const ofDay = (time) => `${two((time % DAY) / 3600)}:${two((time % 3600) / 60)}:${two(time % 60)}`;
  /** @type {Record<string, (time: number) => string>} */
  const CLOCKS = {
    s: (time) => `${time} s`,
    since: (time) => {
      const past = time - state.moments.time(0);
      return `+${past >= 3600 ? `${Math.floor(past / 3600)}:${two((past % 3600) / 60)}` : Math.floor(past / 60)}:${two(past % 60)}`;
    },
    day: (time) => (time >= DAY ? `${Math.floor(time / DAY)} d ${ofDay(time)}` : ofDay(time)),
    utc: (time) => `${new Date(1000 * time).toISOString().slice(0, 19).replace("T", " ")}Z`,
  };

  /** A time as the clock tells it.
   *  @type {(time: number) => string} */
  const clockOf = (time) => (CLOCKS[$("clock-form").value] ?? CLOCKS.s)(time);
  /** The same beside a tick, where the date would take too much room.
   *  @type {(time: number) => string} */
  const tickOf = (time) => ($("clock-form").value === "utc" ? `${ofDay(time)}Z` : clockOf(Math.round(time)));

  // ---- the axis

  /** The stretch of time that the axis shows, from a second on to another; null where it is all.
   *  @type {(window: Pair | null) => void} */
  function setWindow(window) {
    const [first, last] = wholeOf();
    if (!window || window[1] - window[0] >= last - first) state.window = null;
    else {
      const wide = Math.max(window[1] - window[0], LEAST_WINDOW);
      const from = clamp(window[0], first, Math.max(first, last - wide));
      state.window = [from, Math.min(from + wide, last)];
    }
    changed();
  }

  /** @type {() => Pair} */
  const wholeOf = () => [state.moments.time(0), Math.max(state.moments.time(state.moments.length - 1), state.moments.time(0) + 1)];

  /** Shows less time, or more, round a second.
   *  @type {(factor: number, at?: number) => void} */
  function zoom(factor, at = state.current.time) {
    const [from, upto] = state.window ?? wholeOf();
    setWindow([at - (at - from) / factor, at + (upto - at) / factor]);
  }

  /** A moment that is gone to is in sight. */
  function seePresent() {
    if (!state.window || state.current.time >= state.window[0] && state.current.time <= state.window[1]) return;
    const wide = state.window[1] - state.window[0];
    const from = clamp(state.current.time - wide / 3, wholeOf()[0], Math.max(wholeOf()[0], wholeOf()[1] - wide));
    state.window = [from, from + wide];
  }

  /** @type {any} */
  let strip = null;
  let times = new Float64Array(0);
  /** @type {any[]} */
  let timesOf = []; // the moments whose times they are, and how many
  let goesOn = false; // where drawing was cut
  /** @type {(() => void)[]} */
  const waiting = [];

  function paintTime() {
    if (!state.current || !state.moments.length) return;
    const canvas = $("strip");
    const { width, height } = state.paper ? PAPER : must(canvas.parentElement).getBoundingClientRect();
    if (width < 120 || height < 40) return;
    strip ??= new daa.Strip(canvas);
    const { moments, surveys: [first, second], views } = state;
    const isOf = [moments, moments.blocks.length, moments.length];
    if (isOf.some((it, place) => it !== timesOf[place])) [times, timesOf] = [moments.times(), isOf];
    const shown = times.subarray(0, shownOf(times.length));
    seePresent();
    const size = { width: Math.round(width), height: Math.round(height) };
    const model = { times: shown, notes: first.notes, others: state.compare ? second.notes : null, most: mostOf(), ids: moments.ids, lacks,
      window: state.window, trk: moments.at(0).own.trk, step: views[0].config.grids.track.step };
    const paints = daa.stripPaints(strip.context, state.paper);
    paints.key += ` ${$("clock-form").value}`;
    const scale = state.paper ? 2 : globalThis.devicePixelRatio || 1;
    paintMarks(strip.draw(size, scale, model, paints, tickOf, state.paper ? Infinity : PATIENCE), size);
    if (strip.isCut && !goesOn) {
      goesOn = true;
      setTimeout(() => {
        goesOn = false;
        paintTime();
      });
    } else if (!strip.isCut) for (const act of waiting.splice(0)) act();
  }

  /** Acts once all that is known is drawn.
   *  @type {(act: () => void) => void} */
  const onceDrawn = (act) => { if (goesOn) waiting.push(act); else act(); };

  /** How many moments the axis shows of a recording that is still read: it grows by steps, since each time all is drawn anew.
   *  @type {(count: number) => number} */
  function shownOf(count) {
    let shown = LEAST_SHOWN;
    while (state.reading && shown * GROWTH <= count) shown = Math.floor(shown * GROWTH);
    return state.reading ? Math.min(shown, count) : count;
  }

  /** The greatest level of each that alerts under a configuration that is shown.
   *  @type {() => Map<string, number>} */
  function mostOf() {
    const [first, second] = state.surveys;
    if (!state.compare) return first.most;
    const both = new Map(first.most);
    for (const [id, level] of second.most) both.set(id, Math.max(level, both.get(id) || 0));
    return both;
  }

  /** The present moment, from its time to the next one, and the moments that were changed by hand.
   *  @type {(g: StripPlaces, size: Size) => void} */
  function paintMarks(g, { width, height }) {
    /** @type {(value: number) => string} */
    const n = (value) => String(Math.round(value * 10) / 10);
    /** @type {(index: number) => Pair} */
    const wideOf = (index) => {
      const x = g.x(state.moments.time(index));
      const next = index + 1 < state.moments.length ? state.moments.time(index + 1) : g.last;
      return [x, Math.max(g.x(Math.min(next, state.moments.time(index) + 4 * g.step)) - x, 3)];
    };
    const [x, wide] = wideOf(state.index);
    /** @type {(at: number) => boolean} */
    const isIn = (at) => at >= daa.stripMargin.left - 3 && at <= g.width - daa.stripMargin.right + 3;
    const changes = [...state.edits.keys()].map(wideOf).filter(([at]) => isIn(at))
      .map(([at, long]) => `M${n(at + long / 2 - 4)} 0h8l-4 7z`).join("");
    $("marks").setAttribute("viewBox", `0 0 ${width} ${height}`);
    const box = `M${n(x - 0.5)} 1h${n(wide + 1)}v${n(g.top + g.tall - 1)}h${n(-wide - 1)}z`;
    ui.setHtml($("marks"), `<path class="edits" fill="var(--own)" stroke="var(--ground)" d="${changes}"/>`
      + `<path class="now" fill="none" stroke="var(--focus)" stroke-width="1.5" d="${isIn(x) ? box : ""}"/>`);
    state.axis = g;
  }

  function paintBar() {
    const { current, moments, index, surveys: [first] } = state;
    const axis = $("axis");
    const told = daa.toldOfStrip(moments.length, first.decided, first.most);
    const shown = clockOf(current.time);
    axis.setAttribute("aria-valuenow", String(current.time));
    axis.setAttribute("aria-valuemin", moments.time(0));
    axis.setAttribute("aria-valuemax", moments.time(moments.length - 1));
    const spoken = $("clock-form").value === "s" ? `${current.time} seconds` : shown;
    axis.setAttribute("aria-valuetext", `${spoken}, moment ${index + 1} of ${moments.length}`);
    axis.setAttribute("aria-description", `Alert levels and track bands over time: ${told}`);
    setText($("clock"), `${shown} · ${index + 1} of ${moments.length}`);
    $("restore").disabled = !state.edited;
    $("undo").disabled = !state.undone.length;
    $("redo").disabled = !state.redone.length;
    $("difference").hidden = !state.compare;
    $("zoom-out").disabled = !state.window;
    const reading = state.reading ? `reading${state.share === null ? "" : ` ${Math.round(100 * state.share)} %`}` : "";
    const deciding = first.decided < moments.length ? `${first.decided} of ${moments.length} moments are decided` : "";
    setText($("progress"), [reading, deciding].filter(Boolean).join("; "));
  }

  /** @type {(event: MouseEvent) => number} */
  const axisTime = (event) => must(state.axis).time(event.clientX - $("axis").getBoundingClientRect().left);
  /** @type {(event: MouseEvent) => void} */
  const scrub = (event) => goTo(state.moments.indexAt(axisTime(event)));

  $("axis").addEventListener("pointerdown", (event) => {
    if (event.button !== 0 || !state.axis) return;
    $("axis").setPointerCapture(event.pointerId);
    if (event.pointerType !== "touch") scrub(event);
  });
  $("axis").addEventListener("pointermove", (event) => { if (event.buttons && state.axis) scrub(event); });
  $("axis").addEventListener("click", (event) => { if (state.axis && event.detail !== 0) scrub(event); });
  $("axis").addEventListener("wheel", (event) => {
    if (event.ctrlKey || ui.scrolls() || !event.deltaY || !state.axis) return;
    event.preventDefault();
    zoom(2 ** (-(event.deltaMode ? 40 * event.deltaY : event.deltaY) / 240), axisTime(event));
  }, { passive: false });
  $("axis").addEventListener("keydown", (event) => {
    if (event.ctrlKey || event.metaKey || event.altKey) return;
    const last = state.moments.length - 1;
    /** @type {Record<string, number>} */
    const places = { ArrowRight: state.index + 1, ArrowUp: state.index + 1, ArrowLeft: state.index - 1, ArrowDown: state.index - 1,
      PageUp: state.index + FAR, PageDown: state.index - FAR, Home: 0, End: last };
    const to = places[event.key];
    if (to === undefined) return;
    event.preventDefault();
    goTo(to);
  });

  /** @type {(index: number) => void} */
  const goToFound = (index) => { if (index >= 0) goTo(index); };
  const alertAfter = () => goToFound(ui.nextAlert(1));
  const alertBefore = () => goToFound(ui.nextAlert(-1));
  const differenceAfter = () => goToFound(ui.nextDifference(1));
  const differenceBefore = () => goToFound(ui.nextDifference(-1));

  const PRESSED = { play, back: () => goTo(state.index - 1), forward: () => goTo(state.index + 1), restore, undo: undoLast, redo: redoLast,
    "alert-before": alertBefore, "alert-after": alertAfter, difference: differenceAfter, "zoom-in": () => zoom(ZOOM),
    "zoom-out": () => zoom(1 / ZOOM) };
  for (const [name, does] of Object.entries(PRESSED)) $(name).addEventListener("click", does);
  $("clock-form").addEventListener("change", changed);
  $("speed").addEventListener("change", () => { if (state.playing) { cancelAnimationFrame(state.playing.frame); beginPlaying(); } });

  Object.assign(ui, { lackOf, silenceOf, clockOf, go, goTo, edited, restore, undoLast, redoLast, play, pause, paintTime, onceDrawn, shownOf,
    paintBar, alertAfter, alertBefore, differenceAfter, differenceBefore, zoom, setWindow });
})();
