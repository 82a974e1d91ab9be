// @ts-check
/* What can be taken hold of on a display: each with its key, where it is, what it shows and how it is told. */
"use strict";
(function (root) {
  const { n, text, fitted, edge, at, plan, flown, vectorSeconds, within, wordsOfHeight, nameOf, symbol, OWN_SHAPE, ownSize, isOld, sighted,
    labelled, drawLabel, scaleOf, TAPES, TAPE_KINDS, numberOf, shownValue } = daa.art;

  // Between which values a screen reader is told a number to lie: those of state lines.
  const LIMITS = { gs: [0, 10000], vs: [-10000, 10000], alt: [-2000, 60000] };
  const FROM_0 = { speed: { least: 0, most: 1415 }, miles: { least: 0, most: 566 } }; // of 1000 kt and 200 NM on both sides, each way

  /** @type {(r: number) => string} */
  const grip = (r) => `<circle class="grip" r="${r}"/>`;
  /** @type {(r: number) => string} */
  const focusRing = (r) => `<circle class="focus" r="${r}" pathLength="400"/>`; // four arcs, so that it is no other circle

  /** @type {(view: View, model: Model) => Handle[]} */
  function handles(view, model) {
    const all = model.traffic.map((one, place) => sighted(view, model, one, place));
    labelled(view, model, all);
    /** @type {(some: Sight[]) => Handle[]} */
    const made = (some) => some.flatMap((it) => [...velocityHandle(view, it), aircraftHandle(view, it)]);
    const order = byUrgency(all);
    const reached = order.find(({ called }) => called === calledOf(view.chosen)) || order[0];
    for (const it of all) it.isReached = it === reached; // one of all takes the tabulator's focus
    /** @type {(it: Sight) => boolean} */
    const isLoud = ({ alert }) => Math.max(alert.level, alert.now) > 0;
    const rest = [...order].reverse(); // what alerts is drawn over the rest, and over the ownship
    const tapes = TAPE_KINDS.map((/** @type {TapeKind} */ kind) => tapeHandle(view, model, kind));
    return [...made(rest.filter((it) => !isLoud(it))), ...ownHandles(view, model), ...made(rest.filter(isLoud)), trackHandle(view, model), ...tapes];
  }

  /** Aircraft, those that alert most and first before the others, and of those the nearest.
   *  @type {(all: Sight[]) => Sight[]} */
  function byUrgency(all) {
    /** @type {(it: Sight) => number} */
    const urgency = ({ alert }) => 1000 * Math.max(alert.level, alert.now) - (alert.first ?? 0);
    return [...all].sort((a, b) => urgency(b) - urgency(a) || a.miles - b.miles);
  }

  /** @type {(key: string | null) => string} */
  const calledOf = (key) => (key ?? "").replace(/^[pv]:/, "");

  /** @type {(stroke: string) => string} */
  const knob = (stroke) => `${focusRing(10)}<circle r="4.5" fill="var(--ground)" stroke="${stroke}" stroke-width="2"/>${grip(12)}`;
  /** @type {(level: number) => string} */
  const strokeOf = (level) => (level ? edge(level) : "var(--ink)");

  /** @type {(view: View, it: Sight) => Handle[]} */
  function velocityHandle(view, { one, off, tip, end, alert, called, isReached }) {
    if (off || end !== tip) return [];
    const speed = n(Math.hypot(one.vx, one.vy) / 10);
    return [{ key: `v:${called}`, x: tip.x, y: tip.y, label: `velocity of ${nameOf(one)}`, number: speed, ...FROM_0.speed, isReached,
      value: `east ${numberOf(n(one.vx / 10))}, north ${numberOf(n(one.vy / 10))} knots`, inside: knob(strokeOf(alert.level)) }];
  }

  /** @type {(view: View, it: Sight) => Handle} */
  function aircraftHandle(view, it) {
    const { one, alert, off, shown, end, miles, tag, called, isReached } = it;
    const line = off ? "" : `<path d="M0 0L${n(end.x - shown.x)} ${n(end.y - shown.y)}" stroke="${strokeOf(alert.level)}" stroke-width="2"/>`;
    const mark = symbol(alert, isOld(one));
    const back = off || !isOld(one) ? "" : wayBack(view, it);
    const told = alert.unknown ? "no answer" : alert.level ? `alert level ${alert.level} in ${alert.first} seconds` : "no alert";
    const old = isOld(one) ? `, its report is ${one.age} seconds old` : "";
    const value = `${n(miles)} NM away, ${wordsOfHeight(tag)}, ${told}${alert.now ? `, level ${alert.now} now` : ""}${old}`;
    const shape = off ? `<g opacity=".7" transform="scale(.8)">${mark}</g>` : mark;
    return { key: `p:${called}`, x: shown.x, y: shown.y, label: nameOf(one), number: n(miles), ...FROM_0.miles, value, level: alert.level, isReached,
      inside: focusRing(20) + back + line + shape + drawLabel(view.g, it) + grip(15) };
  }

  /** The dotted way from where an old report was made to where the aircraft is taken to be.
   *  @type {(view: View, it: Sight) => string} */
  function wayBack(view, { one, p, shown, alert }) {
    const end = within(view.g, p, plan(view, one.x, one.y));
    return `<path class="way-back" d="M${n(end.x - shown.x)} ${n(end.y - shown.y)}L0 0" stroke="${strokeOf(alert.level)}" stroke-dasharray="1 4"`
      + ' stroke-linecap="round" stroke-width="2"/>';
  }

  /** @type {(view: View, model: Model) => Handle[]} */
  function ownHandles(view, { own, config }) {
    const p = plan(view, own.x, own.y);
    const ahead = flown(own, vectorSeconds(view));
    const tip = plan(view, ahead.x, ahead.y);
    const end = within(view.g, p, tip);
    /** @type {Handle[]} */
    const made = [];
    if (end === tip) {
      const speed = n(own.gs / 10);
      made.push({ key: "v:", x: tip.x, y: tip.y, label: "velocity of the ownship", number: speed, ...FROM_0.speed,
        value: `track ${own.trk}, ${speed} knots`, inside: knob("var(--own)") });
    }
    const place = `east ${numberOf(n(own.x / 1000))}, north ${numberOf(n(own.y / 1000))} NM`;
    made.push({ key: "p:", x: p.x, y: p.y, label: "ownship", number: 0, ...FROM_0.miles, value: place,
      inside: `${focusRing(23)}<path d="M0 0L${n(end.x - p.x)} ${n(end.y - p.y)}" stroke="var(--own)" stroke-width="2"/>`
        + `<g transform="rotate(${n(own.trk - view.up)}) scale(${n(ownSize(view, config))})">${OWN_SHAPE}</g>${grip(17)}` });
    return made;
  }

  /** @type {(view: View, model: Model) => Handle} */
  function trackHandle(view, { own }) {
    const { g } = view;
    const p = at(view, own.trk, g.radius + g.ringWidth / 2);
    const half = g.ringWidth / 2;
    /** @type {(stroke: string, width: number) => string} */
    const line = (stroke, width) => `<path d="M0 ${n(-half)}v${n(g.ringWidth + 4)}" stroke="${stroke}" stroke-width="${width}"/>`;
    return { key: "track", x: p.x, y: p.y, label: "track of the ownship", number: own.trk, least: 0, most: 359, value: `${own.trk} degrees`,
      inside: `<g transform="rotate(${n(own.trk - view.up)})">${line("var(--ground)", 5)}${line("var(--own)", 2.5)}`
        + `<path d="M-8 ${n(-half - 7)}h16v7l-8 9l-8 -9z" fill="var(--own)" stroke="var(--ground)"/></g>`
        + focusRing(n(half + 5)) + grip(n(half + 4)) };
  }

  /** @type {(view: View, model: Model, kind: TapeKind) => Handle} */
  function tapeHandle(view, model, kind) {
    const { g } = view;
    const { x, band, left } = g.tapes[kind];
    const scale = scaleOf(view, model, kind);
    const shown = shownValue(kind, model.own[kind]);
    /** @type {(value: number) => number} */
    const told = (value) => value / TAPES[kind].scale; // to a screen reader, as a number
    const f = g.font;
    const wide = Math.min(x - left - 2, f * 4.5);
    /** @type {(stroke: string, width: number) => string} */
    const line = (stroke, width) => `<path d="M0 0h${band}" stroke="${stroke}" stroke-width="${width}"/>`;
    const box = `M2 0L${n(-f * 0.7)} ${n(-f * 0.85)}H${n(-wide)}V${n(f * 0.85)}H${n(-f * 0.7)}Z`;
    return { key: kind, x, y: scale.y(model.own[kind]), label: `${TAPES[kind].name} of the ownship`,
      number: told(model.own[kind]), least: told(LIMITS[kind][0]), most: told(LIMITS[kind][1]), value: `${shown} ${TAPES[kind].unit}`,
      inside: `<path d="${box}" fill="var(--ground)" stroke="var(--own)" stroke-width="2"/>`
        + text(-f * 0.75, f * 0.37, shown, `class="value end" font-size="${n(fitted(shown, f, wide - f * 0.75 - 3))}" style="fill:var(--own)"`)
        + line("var(--ground)", 5) + line("var(--own)", 2.5)
        + `<rect class="focus" x="${n(-wide - 4)}" y="${n(-f * 1.15)}" width="${n(wide + 8)}" height="${n(f * 2.3)}"/>` };
  }

  Object.assign(daa.art, { handles });
})(globalThis);
