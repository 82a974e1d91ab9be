// @ts-check
/* Aircraft on the plan: their symbols and labels. */
"use strict";
(function (root) {
  const { n, text, explained, widthOf, edge, ink, plan, flown, vectorSeconds, within, heightTag, calledIn, isNow, isOld, UNKNOWN, rangeWords,
    answerBoxes } = daa.art;

  /** The symbol of a level: an open diamond, a full diamond, a disc, a square, a square with a cross; without an answer a ring with ?.
   *  That of an old report is paler, and its edge is dashed.
   *  @type {(alert: ShownAlert, old: boolean) => string} */
  function symbol({ level, now, unknown }, old) {
    if (unknown) return UNKNOWN_SHAPE;
    const fill = `var(--l${level}-fill)`;
    const square = `<rect x="-10" y="-10" width="20" height="20" fill="${fill}" stroke="var(--rim)" stroke-width="1.5"/>`;
    const shape = [`<path d="M0 -9l8 9l-8 9l-8 -9z" fill="var(--ground)" stroke="var(--ink)" stroke-width="2"/>`,
      `<path d="M0 -11l10 11l-10 11l-10 -11z" fill="${fill}" stroke="var(--rim)"/>`,
      `<circle r="10" fill="${fill}" stroke="var(--rim)"/>`,
      square,
      `${square}<path d="M-10 -10l20 20M10 -10l-20 20" stroke="var(--rim)" stroke-width="2"/>`][level];
    const ringNow = now ? `<circle r="16" fill="none" stroke="${edge(now)}" stroke-width="3"/>` : "";
    const number = level ? text(0, 5, level, `class="level mid" font-size="14" style="fill:${ink(level)}"`) : "";
    return ringNow + (old ? `<g class="old">${shape}</g>` : shape) + number;
  }

  const UNKNOWN_SHAPE = `<circle r="9" fill="var(--ground)" stroke="var(--faint)" stroke-width="2"/>`
    + text(0, 5, "?", `class="small mid" font-size="13"`);
  const OWN_SHAPE = `<path fill="var(--own)" stroke="var(--ground)" d="M0 -17L3.5 -8L3.5 -2L17 5L17 8.5L3.5 4.5L2.8 12L7 15.5L7 18`
    + `L0 16L-7 18L-7 15.5L-2.8 12L-3.5 4.5L-17 8.5L-17 5L-3.5 -2L-3.5 -8Z"/>`;

  /** What is known of an aircraft's place on the plan.
   *  @type {(view: View, model: Model, one: Aircraft, place: number) => Sight} */
  function sighted(view, model, one, place) {
    const { g } = view;
    const alert = (model.said && model.said.aircraft[place]) || UNKNOWN;
    const here = flown(one, one.age);
    const p = plan(view, here.x, here.y);
    const far = Math.hypot(p.x - g.centre.x, p.y - g.centre.y);
    const off = far > g.radius - 10;
    const share = off ? (g.radius - 13) / far : 1;
    const shown = { x: g.centre.x + (p.x - g.centre.x) * share, y: g.centre.y + (p.y - g.centre.y) * share };
    const ahead = flown(one, one.age + vectorSeconds(view));
    const tip = plan(view, ahead.x, ahead.y);
    const end = off ? shown : within(g, p, tip);
    const miles = Math.hypot(here.x - model.own.x, here.y - model.own.y) / 1000;
    return { one, place, alert, p, off, shown, tip, end, miles, tag: heightTag(model.own, one), called: calledIn(model.traffic, one) };
  }

  /** Labels of all aircraft, those that alert first, since they choose first.
   *  @type {(view: View, model: Model, all: Sight[]) => void} */
  function labelled(view, model, all) {
    const { g } = view;
    const own = plan(view, model.own.x, model.own.y);
    /** @type {(point: Point, r: number) => Box} */
    const boxOf = ({ x, y }, r) => ({ x: x - r, y: y - r, wide: 2 * r, tall: 2 * r });
    const tips = all.filter((it) => it.end === it.tip).map((it) => boxOf(it.tip, 6));
    /** @type {{ box: Box }[]} */
    const words = rangeWords(view, model);
    const boxes = [boxOf(own, 16), ...all.map((it) => boxOf(it.shown, 11)), ...tips, ...words.map((it) => it.box),
      ...answerBoxes(view, model)];
    const lines = all.map((it) => ({ x1: it.shown.x, y1: it.shown.y, x2: it.end.x, y2: it.end.y }));
    const ahead = flown(model.own, vectorSeconds(view));
    const tip = within(g, own, plan(view, ahead.x, ahead.y));
    lines.push({ x1: own.x, y1: own.y, x2: tip.x, y2: tip.y });
    const labels = new daa.Labels({ ...g.centre, radius: g.radius - 1 }, boxes, lines);
    const order = [...all].sort((a, b) => b.alert.level - a.alert.level || Number(a.off) - Number(b.off) || a.miles - b.miles);
    for (const it of order) it.label = labelOf(view, labels, it, `p:${it.called}` === view.chosen);
  }

  /** @type {(view: View, labels: any, it: Sight, isChosen: boolean) => Label | null} */
  function labelOf(view, labels, { one, alert, off, shown, miles, tag }, isChosen) {
    const f = view.g.font;
    const matters = alert.level > 0 || isChosen;
    const first = isNow(alert) ? "now" : `${alert.first} s`;
    const age = isOld(one) ? ` · ${one.age} s` : "";
    const words = matters || !off ? [one.id, `${tag}${off ? ` ${n(miles)} NM` : ""}${age}`] : [one.id];
    const told = words.length; // the row of the alert
    if (alert.level) words.push(`L${alert.level} ${first}`);
    const line = Math.round(f * 1.15);
    const wide = Math.max(...words.map((it) => widthOf(it, f))) + 2;
    const spot = labels.place(shown, wide, line * words.length, alert.now ? 17 : 11, matters);
    if (!matters && !spot.free) return null;
    labels.take(shown, spot);
    return { ...spot, words, told, line };
  }

  /** @type {(g: Geometry, it: Sight) => string} */
  function drawLabel(g, { label, shown, alert }) {
    if (!label) return "";
    const anchor = label.align < 0 ? "end" : label.align > 0 ? "" : "mid";
    const x = (label.align < 0 ? label.x + label.wide : label.align > 0 ? label.x : label.x + label.wide / 2) - shown.x;
    let out = "";
    if (label.led) {
      const to = daa.nearest(shown, label);
      const stroke = alert.level ? edge(alert.level) : "var(--faint)";
      out += `<path d="M0 0L${n(to.x - shown.x)} ${n(to.y - shown.y)}" stroke="${stroke}" stroke-dasharray="${alert.level ? "3 2" : "1 2"}"/>`;
    }
    label.words.forEach((words, row) => {
      const style = row === label.told && alert.level ? `style="fill:${edge(alert.level)};font-weight:bold"` : row === 0 ? 'font-weight="bold"' : "";
      const drawn = text(x, label.y - shown.y + label.line * (row + 0.8), words, `class="halo ${anchor}" font-size="${g.font}" ${style}`);
      out += row === 0 ? drawn : explained(row === label.told ? "alert" : "height", drawn);
    });
    return out;
  }

  Object.assign(daa.art, { symbol, OWN_SHAPE, sighted, labelled, drawLabel });
})(globalThis);
