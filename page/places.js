// @ts-check
/* Where things are: the parts of a display of some size, which is found anew for each size, so that letters keep theirs; and places
 * on the plan and on the compass. */
"use strict";
(function (root) {
  const { radians, clamp } = daa.art;

  /** Where things are in a display of some size: letters, compass, tapes, answers and legend; with room for those of all configurations.
   *  @type {(width: number, height: number, model: Model) => Geometry} */
  function geometryOf(width, height, { config, configs = [config] }) {
    const font = clamp(Math.round(Math.min(width / 60, height / 38)), 11, 16);
    const line = Math.round(font * 1.35);
    /** @type {(count: (config: Configuration) => number) => number} */
    const most = (count) => Math.max(...configs.map(count)); // so that the compasses of two displays are alike
    const rows = most((it) => 2 + (it.recovery ? 1 : 0) + (it.lastTimes ? 1 : 0));
    const legendRows = most((it) => daa.art.legendOf(it, font, width).length);
    const g = { width, height, font, line, rows, top: line * 1.5, foot: height - legendRows * line - 4 };
    const beside = besideCompass({ ...g });
    const below = belowCompass({ ...g });
    return beside.radius >= below.radius ? beside : below;
  }

  const LETTERS = 2.1; // the compass's letters and ticks, in font sizes

  /** @type {<G extends Frame>(g: G, left: number, top: number, width: number, height: number) => G & Compass} */
  function compassIn(g, left, top, width, height) {
    const outer = Math.max(Math.min(width, height) / 2 - LETTERS * g.font, 30);
    const band = clamp(outer * 0.11, 14, 32);
    return { ...g, centre: { x: left + width / 2, y: top + height / 2 }, outer, ringWidth: band, radius: outer - band };
  }

  /** @type {(g: Frame, left: number, top: number, width: number, bottom: number) => Tape} */
  function tapeIn(g, left, top, width, bottom) {
    const f = g.font;
    const band = Math.round(f * 1.9);
    const labels = width >= f * 11.1; // room for the values of answers beside their marks
    const spare = Math.max(width - f * (labels ? 11.1 : 8), 0);
    return { left, width, top: top + g.line * 1.2, bottom, x: left + f * 4.3 + spare * 0.3, band, labels };
  }

  /** Tapes on both sides of the compass: ground speed left, altitude and vertical speed right.
   *  @type {(g: Frame) => Geometry} */
  function besideCompass(g) {
    const answers = g.foot - g.rows * g.line - 4;
    const tall = answers - g.top;
    const tape = clamp((g.width - tall) / 3, g.font * 8, g.font * 12.5);
    const wide = g.width - 3 * tape - 8;
    const made = compassIn(g, tape, g.top, wide, tall);
    const bottom = answers - g.line * 0.6;
    const spread = Math.max((wide - 2 * (made.outer + LETTERS * g.font)) / 2 - 10, 0);
    /** @type {(left: number) => Tape} */
    const at = (left) => tapeIn(g, left, g.top, tape, bottom);
    const right = g.width - 2 * tape - spread;
    return { ...made, answers, tapes: { gs: at(spread), alt: at(right), vs: at(right + tape) } };
  }

  /** Tapes under the compass, where there is more height than width.
   *  @type {(g: Frame) => Geometry} */
  function belowCompass(g) {
    const answers = g.foot - (2 * g.rows - 1) * g.line - 8;
    const middle = g.top + (answers - g.top) * 0.62;
    const made = compassIn(g, 0, g.top, g.width, middle - g.top);
    const third = g.width / 3;
    /** @type {(place: number) => Tape} */
    const at = (place) => tapeIn(g, place * third, middle, third, answers - g.line * 0.6);
    return { ...made, answers, stacked: true, tapes: { gs: at(0), alt: at(1), vs: at(2) } };
  }

  // ---- places

  /** A point of the compass at a bearing.
   *  @type {(view: { g: Geometry, up: number }, bearing: number, radius: number) => Point} */
  function at(view, bearing, radius) {
    const a = radians(bearing - view.up);
    const { x, y } = view.g.centre;
    return { x: x + radius * Math.sin(a), y: y - radius * Math.cos(a) };
  }


  /** Where a place (0.001 NM) is on the plan, round the place in its middle.
   *  @type {(view: View, x: number, y: number) => Point} */
  function plan(view, x, y) {
    const { centre, radius } = view.g;
    const a = radians(view.up);
    const east = ((x - view.middle.x) / 1000 / view.range) * radius;
    const north = ((y - view.middle.y) / 1000 / view.range) * radius;
    return { x: centre.x + east * Math.cos(a) - north * Math.sin(a), y: centre.y - (east * Math.sin(a) + north * Math.cos(a)) };
  }

  /** The place (0.001 NM) at a point of the plan.
   *  @type {(view: View, point: Point) => Point} */
  function unplan(view, point) {
    const { centre, radius } = view.g;
    const a = radians(view.up);
    const right = ((point.x - centre.x) / radius) * view.range * 1000;
    const up = ((centre.y - point.y) / radius) * view.range * 1000;
    return { x: view.middle.x + right * Math.cos(a) + up * Math.sin(a), y: view.middle.y - right * Math.sin(a) + up * Math.cos(a) };
  }

  /** East and north in 0.1 kt, of the ownship only to be drawn.
   *  @type {(state: State) => { vx: number, vy: number }} */
  function velocity(state) {
    if ("trk" in state) return { vx: state.gs * Math.sin(radians(state.trk)), vy: state.gs * Math.cos(radians(state.trk)) };
    return { vx: state.vx, vy: state.vy };
  }

  /** Where a state is after some seconds of straight flight.
   *  @type {(state: State, seconds: number) => Point} */
  function flown(state, seconds) {
    const { vx, vy } = velocity(state);
    return { x: state.x + (vx * seconds) / 36, y: state.y + (vy * seconds) / 36 };
  }

  /** How far ahead the velocities are drawn: less on a small range.
   *  @type {(view: { range: number }) => number} */
  const vectorSeconds = ({ range }) => (range >= 6 ? 60 : range >= 3 ? 30 : range >= 1.5 ? 15 : 5);

  /** The end of a line from a point of the rose to another, cut at the rim.
   *  @type {(g: Geometry, from: Point, to: Point) => Point} */
  function within(g, from, to) {
    const [dx, dy, fx, fy] = [to.x - from.x, to.y - from.y, from.x - g.centre.x, from.y - g.centre.y];
    const limit = g.radius - 3;
    if (Math.hypot(to.x - g.centre.x, to.y - g.centre.y) <= limit) return to;
    const [a, b, c] = [dx * dx + dy * dy, fx * dx + fy * dy, fx * fx + fy * fy - limit * limit];
    const share = (-b + Math.sqrt(Math.max(b * b - a * c, 0))) / a;
    return { x: from.x + share * dx, y: from.y + share * dy };
  }

  /** Height above the ownship in hundreds of feet, with an arrow where it climbs or sinks.
   *  @type {(own: Own, other: Aircraft) => string} */
  function heightTag(own, other) {
    const hundreds = Math.round((other.alt + (other.vs * other.age) / 60 - own.alt) / 100);
    const arrow = other.vs >= 100 ? "↑" : other.vs <= -100 ? "↓" : "";
    return `${hundreds < 0 ? "−" : "+"}${String(Math.abs(hundreds)).padStart(2, "0")}${arrow}`;
  }

  /** The same in words.
   *  @type {(tag: string) => string} */
  function wordsOfHeight(tag) {
    const climb = tag.endsWith("↑") ? ", climbing" : tag.endsWith("↓") ? ", sinking" : "";
    return `${parseInt(tag.slice(1), 10)} hundred feet ${tag.startsWith("−") ? "below" : "above"}${climb}`;
  }

  /** @type {(one: Aircraft) => string} */
  const nameOf = (one) => one.id || "an aircraft without a name";

  /** What keys call an aircraft, no two the same: its name. Where it has none, or one before it has the same, its place, in words
   *  that are longer than a name may be.
   *  @type {(traffic: Aircraft[], one: Aircraft) => string} */
  const calledIn = (traffic, one) => (one.id && traffic.find(({ id }) => id === one.id) === one ? one.id : `aircraft ${traffic.indexOf(one)}`);

  /** Whether an alert's level is violated as the moment begins, and not only within its first second.
   *  @type {(alert: ShownAlert) => boolean} */
  const isNow = ({ level, now, first }) => first === 0 && now >= level;

  /** From how many seconds on a report is old: it is drawn so, and its label tells its age. */
  const OLD = 5;
  /** @type {(one: Aircraft) => boolean} */
  const isOld = ({ age }) => age >= OLD;

  /** What is said of an aircraft while there is no answer. */
  const UNKNOWN = { level: 0, now: 0, first: null, unknown: true };

  Object.assign(daa.art, { geometryOf, at, plan, velocity, flown, vectorSeconds, within, heightTag, wordsOfHeight, nameOf,
    calledIn, isNow, isOld, UNKNOWN });
  Object.assign(root.daa, { unplan, flown, vectorSeconds, heightTag, calledIn, nameOf, isNow, isOld });
})(globalThis);
