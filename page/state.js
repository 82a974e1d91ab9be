// @ts-check
/* The state of the page, and how it comes to what is shown.
 *
 * One state. Whoever changes the moment or a configuration calls `touched`, whoever changes a view alone `changed`. Then
 * each display's desk is asked for the report of the moment under the display's configuration, and all is drawn from the
 * state and the reports. Bands are shown only with the states that they are the answer to. */
"use strict";
(function () {
  const { VIEW_HEIGHTS, must, element, clamp, flown, escape, draw, calledIn, nameOf } = daa;
  const ui = (daa.ui = /** @type {Ui} */ ({})); // what the page's scripts share
  const $ = element;
  const RANGES_NM = [0.3, 0.6, 0.9, 1.5, 3, 6, 9, 12, 18, 24, 36, 48, 96, 192]; // so that their thirds are short numbers
  /** @type {Record<string, Pair>} */
  const LIMITS = { x: [-200000, 200000], y: [-200000, 200000], alt: [-2000, 60000], trk: [0, 359], gs: [0, 10000],
    vx: [-10000, 10000], vy: [-10000, 10000], vs: [-10000, 10000], age: [0, 60] };
  // The numbers of the ownship and of an aircraft: each one's name and unit on the page, and how many of the engine's that is.
  /** @type {Field[]} */
  const OWN_FIELDS = [["x", "east", "NM", 1000], ["y", "north", "NM", 1000], ["alt", "altitude", "ft", 1], ["trk", "track", "°", 1],
    ["gs", "speed", "kt", 10], ["vs", "vertical", "ft/min", 1]];
  /** @type {Field[]} */
  const FIELDS = [["x", "east", "NM", 1000], ["y", "north", "NM", 1000], ["alt", "altitude", "ft", 1], ["vx", "east", "kt", 10],
    ["vy", "north", "kt", 10], ["vs", "vertical", "ft/min", 1], ["age", "age", "s", 1]];
  const PAPER = { width: 1100, height: 680 };
  const ROOM = 1.15; // so much farther the range is than the farthest aircraft that alerts
  const CHANGED = 2000; // ms: so long a range that changed is marked
  const SOON = 60; // ms: an answer that takes longer is waited for with the bands hidden

  /** @type {PageState} */
  const state = { engine: null, surveys: [], views: [], name: "", told: [], untaken: "", alone: "", recording: null, times: [],
    moments: null, reading: null, share: null, // the recording: what of it is read, and the worker that reads more
    silence: "", // why there is no moment after the last one
    stale: "", // why no answer may be shown: of a live feed, that the last moment is not the present one any more
    flown: null, lesson: null, // what is flown in place of what was recorded; what is taught
    index: 0, current: /** @type {any} */ (null), edited: false, edits: new Map(), undone: [], redone: [], window: null, axis: null, playing: null,
    version: 0, chosen: "p:", held: null, compare: false, paper: false, unfolded: false, linesOpen: false };
  daa.page = state;

  /** @type {(value: number, field: string) => number} */
  const within = (value, field) => clamp(Math.round(value), ...LIMITS[field]);
  /** @type {(moment: Moment) => Moment} */
  const copy = (moment) => ({ time: moment.time, own: { ...moment.own }, traffic: moment.traffic.map((one) => ({ ...one })),
    comments: [...moment.comments] });
  /** @type {() => Display[]} */
  const shownViews = () => state.views.filter((_, place) => place === 0 || state.compare);
  /** @type {(element: HTMLElement, words: string) => void} */
  const setText = (element, words) => { if (element.textContent !== words) element.textContent = words; };
  /** @type {(element: HTMLElement, html: string) => boolean} */
  const setHtml = (element, html) => {
    if (element.daaHtml === html) return false;
    element.daaHtml = html;
    element.innerHTML = html;
    return true;
  };
  /** Puts names to choose from; each is a value of its own, since the words of an option lose blanks.
   *  @type {(select: HTMLElement, names: string[]) => void} */
  const fill = (select, names) => {
    select.innerHTML = names.map((name) => `<option value="${escape(name)}">${escape(name)}</option>`).join("");
  };

  /** @type {(blob: Blob, name: string) => void} */
  function download(blob, name) {
    const link = Object.assign(document.createElement("a"), { href: URL.createObjectURL(blob), download: name });
    link.click();
    setTimeout(() => URL.revokeObjectURL(link.href), 10000);
  }

  /** Makes an element a toolbar: the tabulator reaches one of its buttons, and the arrow keys go from one to the next. */
  ui.makeToolbar = (/** @type {PageElement} */ bar) => {
    const buttons = [...bar.querySelectorAll("button")];
    /** @type {(button: HTMLElement) => void} */
    const reach = (button) => buttons.forEach((other) => { other.tabIndex = other === button ? 0 : -1; });
    bar.setAttribute("role", "toolbar");
    bar.setAttribute("aria-label", "View");
    reach(buttons[0]);
    bar.addEventListener("focusin", ({ target }) => { if (buttons.includes(target)) reach(target); });
    bar.addEventListener("keydown", (event) => {
      const by = Number(event.key === "ArrowRight") - Number(event.key === "ArrowLeft");
      if (!by || !buttons.includes(event.target)) return;
      event.preventDefault();
      buttons[(buttons.indexOf(event.target) + by + buttons.length) % buttons.length].focus();
    });
  };

  // ---- asking

  /** Names the moment as it is now under a view's configuration.
   *  @type {(view: Display) => string} */
  const stampOf = (view) => `${state.version}/${view.edition}`;
  /** @type {(view: Display) => boolean} */
  const isAnswered = (view) => view.answered === stampOf(view);

  let waits = false;
  function changed() {
    if (waits) return;
    waits = true;
    requestAnimationFrame(() => {
      waits = false;
      if (!state.current) return;
      for (const view of shownViews()) askFor(view);
      paintWhenAnswered();
    });
  }

  function touched() {
    state.version += 1;
    changed();
  }

  /** @type {(view: Display) => void} */
  function askFor(view) {
    const stamp = stampOf(view);
    if (view.asked === stamp) return;
    view.asked = stamp;
    view.desk.forget();
    view.desk.ask({ config: { bytes: view.config.bytes }, moment: copy(state.current) }).then((/** @type {Told | null} */ answer) => {
      if (!answer || stampOf(view) !== stamp) return; // it is the answer to what is no more
      view.answered = stamp;
      takeAnswer(view, answer);
      paintWhenAnswered();
    });
  }

  /** Takes the answer to the present moment under a view's configuration, where it is known already.
   *  @type {(view: Display, answer: Told) => void} */
  function giveAnswer(view, answer) {
    view.asked = stampOf(view);
    view.answered = view.asked;
    takeAnswer(view, answer);
  }

  /** @type {(view: Display, answer: Told) => void} */
  function takeAnswer(view, answer) {
    view.said = answer.text === undefined ? null : daa.readReport(answer.text);
    view.fault = answer.text !== undefined ? "" : answer.stopped || sentenceOf(answer);
    if (answer.took !== undefined) state.times = [...state.times.slice(-199), answer.took];
  }

  /** @type {(answer: Told) => string} */
  function sentenceOf({ code, fault }) {
    const cause = daa.CAUSES[Number(code)] || `code ${code}`;
    if (!fault || fault.code === 18) return cause;
    const isOwn = fault.code === 16;
    const who = isOwn ? "the ownship" : nameOf(state.current.traffic[fault.place]);
    if (!fault.field) return `${cause}: ${who}`;
    const [, name, unit, scale] = must((isOwn ? OWN_FIELDS : FIELDS).find(([field]) => field === fault.field)); // the engine names one of these
    return `${name} of ${who} is not within ${fault.least / scale} and ${fault.greatest / scale}${unit === "°" ? "" : " "}${unit}`;
  }

  addEventListener("beforeprint", () => {
    state.paper = true;
    paint();
    if (due) paintParts(Infinity); // a sheet waits for nothing
  });
  addEventListener("afterprint", () => {
    state.paper = false;
    changed();
  });

  let late = 0;
  function paintWhenAnswered() {
    if (shownViews().every(isAnswered)) {
      clearTimeout(late);
      late = 0;
      paint();
    } else if (!late) late = setTimeout(() => { late = 0; paint(); }, SOON);
  }

  // ---- painting: the clock, the axis, the sentence and the first display at once, then the rest part by part. Where time is up, what is left is
  // painted after the next frame, so that the page is never dead for long.

  const AT_ONCE = 15; // ms after which no further part is begun

  const PARTS = [() => paintDisplay(1), () => { paintTold(); ui.paintTable(); ui.paintForm(); }, () => ui.paintReport(),
    () => { ui.paintProfile(); ui.prepareSheet(); ui.paintWhatIf(); }];
  let [due, next] = [0, 0]; // how many parts are to be painted, and which comes next: each has its turn, however fast moments change
  let of = ""; // what is painted
  let goesOn = false;
  /** @type {Size[]} */
  let sizes = [];

  const stampOfAll = () => shownViews().map(stampOf).join(" ");

  function paint() {
    if (!state.current) return;
    const end = performance.now() + AT_ONCE;
    document.querySelector("main").classList.toggle("compare", state.compare);
    const figures = [...document.querySelectorAll("figure")];
    figures[1].hidden = !state.compare; // before any is measured
    follow();
    shownViews().forEach((view, place) => paintCaption(figures[place], view));
    sizes = figures.map((figure) => sizeOf(figure.querySelector("svg"))); // while little is changed, since all of that has to be laid out
    ui.paintTime();
    ui.paintBar();
    ui.paintSummary();
    paintDisplay(0);
    const isBehind = due > 0;
    [due, of] = [PARTS.length, stampOfAll()];
    if (isBehind) paintPart();
    if (!goesOn) paintParts(end);
  }

  function paintPart() {
    PARTS[next]();
    next = (next + 1) % PARTS.length;
    due -= 1;
  }

  /** Paints the parts that are due until a time, and goes on later with those that are left.
   *  @type {(end: number) => void} */
  function paintParts(end) {
    while (due && performance.now() < end) paintPart();
    document.body.dataset.settled = !due && shownViews().every(isAnswered) ? "yes" : "no";
    if (!due) ui.painted?.();
    else if (!goesOn) {
      goesOn = true;
      requestAnimationFrame(() => setTimeout(() => { // the browser shows first what is painted
        goesOn = false;
        if (!due || of !== stampOfAll()) return; // what came since is painted with its answer
        const end = performance.now() + AT_ONCE;
        paintPart();
        paintParts(end);
      }));
    }
  }

  /** How large a picture is drawn: as large as its place, and on paper in a shape of its own.
   *  @type {(svg: SVGSVGElement) => Size} */
  function sizeOf(svg) {
    if (state.paper) return PAPER;
    const { width, height } = svg.getBoundingClientRect();
    return { width: Math.round(width), height: Math.round(height) };
  }

  /** A range that is not fixed follows what alerts under a shown configuration: it grows where an aircraft that alerts would be out of it, and
   *  shrinks where half of it would do, so that it changes rarely. Where nothing alerts it stays. */
  function follow() {
    const all = shownViews().map(saidOf);
    if (state.held || !all.every(Boolean)) return;
    const { own, traffic } = state.current;
    /** @type {(one: Aircraft, place: number) => boolean} */
    const isLoud = (_, place) => all.some((said) => said && Math.max(said.aircraft[place].level, said.aircraft[place].now) > 0);
    const far = traffic.filter(isLoud).map((one) => distance(own, flown(one, one.age)));
    if (!far.length) return;
    const least = leastRange(Math.max(...far) * ROOM);
    for (const { look } of shownViews()) if (look.auto && (least > look.range || least <= look.range / 2)) look.range = least;
  }

  /** @type {(one: Point, other: Point) => number} */
  const distance = (one, other) => Math.hypot(other.x - one.x, other.y - one.y) / 1000;
  /** @type {(moment: Moment) => number} */
  const farthest = ({ own, traffic }) => Math.max(0, ...traffic.map((one) => distance(own, flown(one, one.age)))) || 5;
  /** @type {(most: number) => number} */
  const leastRange = (most) => RANGES_NM.find((range) => range > most) || RANGES_NM[RANGES_NM.length - 1];

  /** @type {(place: number) => void} */
  function paintDisplay(place) {
    const view = shownViews()[place];
    if (!view) return;
    const svg = document.querySelectorAll("figure")[place].querySelector("svg");
    const size = sizes[place];
    if (size.width < 50 || size.height < 50) return;
    view.drawn = draw(svg, lookOf(view), modelOf(view), size);
    const said = saidOf(view);
    const most = said ? Math.max(0, ...said.aircraft.map((one) => one.level)) : 0;
    const told = said ? `${said.aircraft.length} aircraft, the greatest alert level is ${most}` : faultOf(view);
    svg.setAttribute("aria-label", `Display under ${view.name}: ${told}`);
  }

  /** @type {(view: Display) => Said | null} */
  const saidOf = (view) => (isAnswered(view) && !state.stale ? view.said : null);
  /** @type {(view: Display) => string} */
  const faultOf = (view) => state.stale || (isAnswered(view) ? view.fault : "a long moment: it is being decided …");

  /** @type {(view: Display) => Look} */
  function lookOf(view) {
    const { own } = state.current;
    const { held } = state;
    return { ...view.look, up: view.look.trackUp ? (held ? held.trk : own.trk) : 0, middle: held ? held.middle : { x: own.x, y: own.y },
      chosen: state.chosen, held: held ? held.own : null };
  }

  /** @type {(view: Display) => Model} */
  function modelOf(view) {
    const { time, own, traffic } = state.current;
    return { time, clock: ui.clockOf(time), own, traffic, config: view.config, configs: shownViews().map((it) => it.config), said: saidOf(view),
      fault: saidOf(view) ? "" : faultOf(view), name: view.name, trail: trail(),
      note: state.edited ? "changed by hand" : state.name, lacks: Boolean(ui.lackOf(state.index)) };
  }

  /** Where the ownship and the aircraft were in the moments before.
   *  @type {() => Model["trail"]} */
  function trail() {
    const first = Math.max(0, state.index - 12);
    /** @type {Moment[]} */
    const before = Array.from({ length: state.index - first }, (_, i) => state.moments.at(first + i));
    return before.flatMap((moment, i) => {
      const share = 0.2 + (0.6 * (i + 1)) / before.length;
      return [{ ...moment.own, own: true, share }, ...moment.traffic.map((one) => ({ ...flown(one, one.age), own: false, share }))];
    });
  }

  /** @type {(figure: HTMLElement, view: Display) => void} */
  function paintCaption(figure, view) {
    const caption = figure.querySelector("figcaption");
    if (!caption.children.length) {
      /** @type {(what: string, words: string, name: string) => string} */
      const button = (what, words, name) => `<button data-do="${what}" aria-label="${name}" title="${name}">${words}</button>`;
      caption.innerHTML = `<button data-do="up" aria-pressed="false">Track up</button>
        <button data-do="paths" aria-pressed="false" title="The ways to the closest approach, if all fly straight on: of the aircraft that
          alert, and of the chosen one">Paths</button>
        <button data-do="auto" aria-pressed="true" title="The range follows the aircraft that alert">Auto</button>
        ${button("wide", "−", "Greater range")}<span data-is="range"></span>${button("near", "+", "Smaller range")}
        ${button("fit", "Fit", "The range that shows all aircraft (0)")}
        ${button("high", "−", "More altitudes")}<span data-is="heights"></span>${button("low", "+", "Fewer altitudes")}
        <span class="gap"></span>${button("svg", "SVG", "Picture of lines (SVG)")}${button("png", "PNG", "Picture of points (PNG)")}`;
      ui.makeToolbar(caption);
    }
    caption.querySelector("[data-do=up]").setAttribute("aria-pressed", String(view.look.trackUp));
    caption.querySelector("[data-do=paths]").setAttribute("aria-pressed", String(view.look.paths));
    caption.querySelector("[data-do=auto]").setAttribute("aria-pressed", String(view.look.auto));
    const range = caption.querySelector("[data-is=range]");
    const isOther = range.textContent !== "" && range.textContent !== `${view.look.range} NM`;
    if (isOther) range.animate?.([{ background: "var(--own)", color: "var(--ground)" }, {}], CHANGED); // it is seen to change
    setText(range, `${view.look.range} NM`);
    setText(caption.querySelector("[data-is=heights]"), `± ${view.look.heights} ft`);
  }

  /** What is told of the recording and of the moment, beside the sentence. */
  function paintTold() {
    const { index, times, told } = state;
    const median = [...times].sort((a, b) => a - b)[Math.floor(times.length / 2)];
    const took = !times.length ? "" : median < 1 ? ` · ${Math.round(median * 1000)} µs a moment` : ` · ${median.toFixed(1)} ms a moment`;
    setText($("engine"), `engine ${Math.round(state.engine.size / 1024)} KB${took}`);
    const lack = ui.lackOf(index);
    setText($("notes"), [...told, lack, ui.silenceOf(index)].filter(Boolean).join("; "));
    $("notes").className = lack ? "problem" : "quiet"; // an aircraft may be missing, whatever was changed by hand since
    const fault = shownViews().filter(isAnswered).map((view) => view.fault).find(Boolean);
    const kept = shownViews().filter((view) => view.refusal).map((view) => `a configuration is refused, and ${view.name} is shown in its place`);
    setText($("fault"), [state.untaken, ...kept, fault].filter(Boolean).join("; "));
  }

  // ---- what is chosen

  /** The parts of a key: what is moved, and of which aircraft; of the ownship where none is called.
   *  @type {(key: string) => string[]} */
  const partsOf = (key) => must(/^([^:]*):?(.*)$/s.exec(key)).slice(1); // which each text has
  /** @type {(key: string) => Aircraft | undefined} */
  function aircraftOf(key) {
    const [, called] = partsOf(key);
    const { traffic } = state.current;
    return traffic.find((one) => calledIn(traffic, one) === called);
  }

  /** @type {(key: string) => void} */
  function choose(key) {
    state.chosen = key;
    changed();
  }

  // ---- views

  /** @type {(what: string | undefined, view: Display) => void} */
  function act(what, view) {
    /** @type {(list: number[], value: number, by: number) => number} */
    const step = (list, value, by) => list[clamp(list.indexOf(value) + by, 0, list.length - 1)];
    const { look } = view;
    if (what === "up") look.trackUp = !look.trackUp;
    if (what === "auto") look.auto = !look.auto;
    if (what === "paths") look.paths = !look.paths;
    if (what === "near" || what === "wide" || what === "fit") look.auto = false; // a range that is chosen is fixed
    if (what === "near" || what === "wide") look.range = step(RANGES_NM, look.range, what === "wide" ? 1 : -1);
    if (what === "fit") look.range = leastRange(farthest(state.current) * ROOM);
    if (what === "low" || what === "high") look.heights = step(VIEW_HEIGHTS, look.heights, what === "high" ? 1 : -1);
    if (what === "svg" || what === "png") ui.save(view, what);
    if (what) changed();
  }

  /** The least range of the list in which most of the traffic lies, at the first moment and in all of some.
   *  @type {(moments: Moment[]) => number} */
  function fitting(moments) {
    /** @type {(moment: Moment) => number[]} */
    const farOf = ({ own, traffic }) => traffic.map((one) => distance(own, one));
    /** @type {(far: number[]) => number} */
    const mostOf = (far) => (far.length ? far.sort((a, b) => a - b)[Math.ceil(far.length * 0.85) - 1] : 0);
    const most = Math.max(mostOf(moments.flatMap(farOf)), mostOf(farOf(moments[0]))) || 6;
    return leastRange(most * 1.12);
  }

  Object.assign(ui, { $, LIMITS, OWN_FIELDS, FIELDS, state, within, copy, shownViews, setText, setHtml, fill, download, changed, touched, saidOf,
    faultOf, giveAnswer, choose, partsOf, aircraftOf, lookOf, modelOf, act, RANGES_NM, fitting });
})();
