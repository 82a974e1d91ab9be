// @ts-check
/* What can be moved by hand: by the pointer, and by the keys. */
"use strict";
(function () {
  const { ui } = daa;
  const { must, wrap, unplan, scaleOf, vectorSeconds } = daa;
  const { state, within, shownViews, changed, lookOf, restore, edited, choose, partsOf, aircraftOf, play, goTo, act, remove,
    undoLast, redoLast, alertAfter, alertBefore, differenceAfter, differenceBefore } = ui;

  // ---- moving things: by the pointer

  const SLACK = 3; // points: a click that slips no farther chooses, and moves nothing

  /** @type {(svg: SVGSVGElement, event: MouseEvent) => DOMPoint} */
  const pointIn = (svg, event) => new DOMPoint(event.clientX, event.clientY).matrixTransform(must(svg.getScreenCTM()).inverse());
  /** @type {(key: string) => State | undefined} */
  const whose = (key) => (partsOf(key)[1] ? aircraftOf(key) : state.current.own);

  /** Moves what a key names to a point of a display.
   *  @type {(key: string, point: Point, view: Display) => void} */
  function moveTo(key, point, view) {
    const { own } = state.current;
    const [what] = partsOf(key);
    const one = whose(key);
    if (!one) return;
    const look = { ...view.drawn, ...lookOf(view) };
    if (what === "p") movePlace(one, unplan(look, point));
    else if (what === "v") {
      const to = unplan(look, point);
      const seconds = flightOf(one).age + vectorSeconds(look);
      setVelocity(one, ((to.x - one.x) * 36) / seconds, ((to.y - one.y) * 36) / seconds);
    } else if (what === "track") {
      const { x, y } = look.g.centre;
      own.trk = wrap(Math.round(look.up + (Math.atan2(point.x - x, y - point.y) * 180) / Math.PI));
    } else {
      const kind = /** @type {TapeKind} */ (what);
      const grid = { gs: 10, vs: 50, alt: 50 }[kind];
      own[kind] = within(Math.round(scaleOf(look, { config: view.config, own }, kind).value(point.y) / grid) * grid, kind);
    }
  }

  /** How old a report is, and how it flew on; the ownship's is of now.
   *  @type {(one: State) => { vx: number, vy: number, age: number }} */
  const flightOf = (one) => ("trk" in one ? { vx: 0, vy: 0, age: 0 } : one);

  /** Puts a state so that it is at a place now: the report of an aircraft is where it was before.
   *  @type {(one: State, to: Point) => void} */
  function movePlace(one, to) {
    const { vx, vy, age } = flightOf(one);
    one.x = within(to.x - (vx * age) / 36, "x");
    one.y = within(to.y - (vy * age) / 36, "y");
  }

  /** @type {(one: State, vx: number, vy: number) => void} */
  function setVelocity(one, vx, vy) {
    if ("trk" in one) {
      one.gs = within(Math.hypot(vx, vy), "gs");
      if (one.gs) one.trk = wrap(Math.round((Math.atan2(vx, vy) * 180) / Math.PI));
    } else {
      one.vx = within(vx, "vx");
      one.vy = within(vy, "vy");
    }
  }

  /** @type {(svg: SVGSVGElement, event: PointerEvent) => void} */
  function hold(svg, event) {
    const handle = event.target?.closest(".handle");
    if (!handle || event.button !== 0 || !event.isPrimary) return;
    event.preventDefault();
    const { key } = handle.dataset;
    const { own } = state.current;
    const point = pointIn(svg, event);
    const [, x, y] = must(/translate\((\S+) (\S+)\)/.exec(handle.getAttribute("transform"))); // which each handle has
    state.held = { key, pointer: event.pointerId, from: point, middle: { x: own.x, y: own.y }, trk: own.trk,
      own: { gs: own.gs, vs: own.vs, alt: own.alt }, off: { x: Number(x) - point.x, y: Number(y) - point.y } };
    svg.setPointerCapture(event.pointerId);
    handle.focus({ preventScroll: true });
    choose(key);
  }

  /** What happens to a pointer means something only where it holds something: a second finger neither moves nor drops it.
   *  @type {(event: PointerEvent) => boolean} */
  const isHolding = ({ pointerId }) => state.held?.pointer === pointerId;

  function drop() {
    state.held = null;
    changed();
  }

  /** The moment as it was recorded; what is held moves no more. */
  function giveUp() {
    drop();
    restore();
  }

  const NOTCH = 80; // points: so far a wheel turns for the next range
  const LINE = 40; // points of a line, where a wheel tells of lines
  let rolled = 0;

  /** Takes by how much a wheel was turned, which a touchpad tells in many small parts; how many ranges farther that is.
   *  @type {(event: WheelEvent) => number} */
  function rangesRolled({ deltaY, deltaMode }) {
    const by = deltaMode ? LINE * deltaY : deltaY;
    if (by * rolled < 0) rolled = 0; // the other way
    rolled += by;
    const ranges = Math.trunc(rolled / NOTCH);
    rolled -= ranges * NOTCH;
    return ranges;
  }

  /** Where the page is higher than the window a wheel scrolls it. */
  function scrolls() {
    const { scrollHeight, clientHeight } = document.documentElement;
    return scrollHeight > clientHeight;
  }
  ui.scrolls = scrolls;

  for (const figure of document.querySelectorAll("figure")) {
    /** @type {SVGSVGElement & PageElement} */
    const svg = figure.querySelector("svg");
    const view = () => state.views[Number(figure.dataset.view)];
    figure.querySelector("figcaption").addEventListener("click", (/** @type {any} */ { target }) => act(target.dataset.do, view()));
    svg.addEventListener("pointerdown", (event) => hold(svg, event));
    svg.addEventListener("touchstart", (event) => { // a finger scrolls the page, but not where it holds something
      if (event.cancelable && event.target?.closest(".handle")) event.preventDefault();
    }, { passive: false });
    svg.addEventListener("pointermove", (event) => {
      const { held } = state;
      if (!held || !isHolding(event)) return;
      const { off, key, from } = held;
      if (!event.buttons || !whose(key)) { // its release was not told, or it is there no more
        drop();
        return;
      }
      const point = pointIn(svg, event);
      if (from && Math.hypot(point.x - from.x, point.y - from.y) <= SLACK) return;
      held.from = null;
      moveTo(key, { x: point.x + off.x, y: point.y + off.y }, view());
      edited();
    });
    for (const end of ["pointerup", "pointercancel"]) svg.addEventListener(end, (/** @type {any} */ event) => { if (isHolding(event)) drop(); });
    svg.addEventListener("wheel", (event) => {
      if (event.ctrlKey || scrolls()) return; // the browser's own: the page grows or shrinks, or scrolls
      event.preventDefault();
      const ranges = rangesRolled(event);
      for (let step = 0; step < Math.abs(ranges); step++) act(ranges > 0 ? "wide" : "near", view());
    }, { passive: false });
    svg.addEventListener("keydown", (event) => {
      const handle = event.target?.closest(".handle");
      if (!handle || event.ctrlKey || event.metaKey || event.altKey) return;
      if (event.key === "Enter") {
        event.preventDefault();
        nextAircraft(figure, event.shiftKey ? -1 : 1);
        return;
      }
      if (!press(handle.dataset.key, event.key, event.shiftKey, view())) return;
      event.preventDefault();
      edited();
      if (event.key === "Delete") focusOn(figure, "p:"); // what had the focus is no more
    });
    svg.addEventListener("focusin", (/** @type {any} */ { target }) => { if (target.matches(".handle")) choose(target.dataset.key); });
  }

  // ---- and by the keys

  /** @type {(figure: HTMLElement, key: string) => void} */
  const focusOn = (figure, key) => figure.querySelector(`.handle[data-key="${CSS.escape(key)}"]`)?.focus({ preventScroll: true });

  /** The focus goes from aircraft to aircraft, in the order of the table, those that alert first.
   *  @type {(figure: HTMLElement, by: number) => void} */
  function nextAircraft(figure, by) {
    const keys = ui.aircraftInOrder().map((called) => `p:${called}`);
    const at = keys.indexOf(`p:${partsOf(state.chosen)[1]}`);
    if (keys.length) focusOn(figure, keys[at < 0 ? (by > 0 ? 0 : keys.length - 1) : (at + by + keys.length) % keys.length]);
  }

  /** A key pressed at what can be moved; whether it means something there.
   *  @type {(key: string, pressed: string, more: boolean, view: Display) => boolean} */
  function press(key, pressed, more, view) {
    const { own, traffic } = state.current;
    const [what] = partsOf(key);
    const one = whose(key);
    const right = Number(pressed === "ArrowRight") - Number(pressed === "ArrowLeft");
    const up = Number(pressed === "ArrowUp") - Number(pressed === "ArrowDown");
    const high = ["p", "v", "alt"].includes(what) ? Number(pressed === "PageUp") - Number(pressed === "PageDown") : 0;
    if (pressed === "Delete" && one !== own) {
      remove(traffic.findIndex((it) => it === one));
      return true;
    }
    if (!one || !right && !up && !high) return false; // it may have been removed since it was drawn
    if (high) one.alt = within(one.alt + high * (more ? 1000 : 100), "alt");
    else if (what === "p") pushPlace(one, right, up, more ? 1000 : 100, lookOf(view));
    else if (what === "v") turn(one, right * (more ? 1 : 5), up * 100);
    else if (what === "track") own.trk = wrap(own.trk + (right || up) * (more ? 10 : 1));
    else {
      const kind = /** @type {TapeKind} */ (what);
      own[kind] = within(own[kind] + (up || right) * { gs: 50, vs: 100, alt: 100 }[kind] * (more ? 10 : 1), kind);
    }
    return true;
  }

  /** @type {(one: State, right: number, up: number, by: number, look: Look) => void} */
  function pushPlace(one, right, up, by, look) {
    const a = (look.up * Math.PI) / 180;
    one.x = within(one.x + by * (right * Math.cos(a) + up * Math.sin(a)), "x");
    one.y = within(one.y + by * (up * Math.cos(a) - right * Math.sin(a)), "y");
  }

  /** @type {(one: State, degrees: number, faster: number) => void} */
  function turn(one, degrees, faster) {
    if ("trk" in one) {
      one.trk = wrap(one.trk + degrees);
      one.gs = within(one.gs + faster, "gs");
      return;
    }
    const speed = Math.max(Math.hypot(one.vx, one.vy) + faster, 0);
    const bearing = Math.atan2(one.vx, one.vy) + (degrees * Math.PI) / 180;
    setVelocity(one, speed * Math.sin(bearing), speed * Math.cos(bearing));
  }

  const TYPES = "textarea, input:not([type=checkbox], [type=range], [type=file])"; // where letters are typed
  const PRESSED = "textarea, select, input:not([type=range]), button, summary, [role=group][tabindex='0']"; // what the space bar presses or scrolls

  const CHOOSES = `select, ${TYPES}`; // where a letter chooses, or is typed

  /** Undo and redo, but where a text has its own.
   *  @type {(event: KeyboardEvent) => void} */
  function undoes(event) {
    const isRedo = event.key.toLowerCase() === "y" || event.shiftKey;
    if (!["z", "y"].includes(event.key.toLowerCase()) || event.altKey || event.target?.closest(TYPES)) return;
    event.preventDefault();
    (isRedo ? redoLast : undoLast)();
  }

  document.addEventListener("keydown", (event) => {
    if (event.ctrlKey || event.metaKey) undoes(event);
    if (event.ctrlKey || event.metaKey || event.altKey) return;
    const isLetter = /^[a-z]$/i.test(event.key);
    if (event.key !== "Escape" && event.target?.closest(event.key === " " ? PRESSED : isLetter ? CHOOSES : TYPES)) return;
    const range = (/** @type {string} */ what) => () => shownViews().forEach((view) => act(what, view));
    /** @type {Record<string, () => void>} */
    const keys = { " ": play, ",": () => goTo(state.index - 1), ".": () => goTo(state.index + 1), Escape: giveUp,
      "+": range("near"), "-": range("wide"), 0: range("fit"), n: alertAfter, N: alertBefore, d: differenceAfter, D: differenceBefore };
    const does = keys[event.key];
    if (!does) return;
    event.preventDefault();
    does();
  });
})();
