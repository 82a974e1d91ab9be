// @ts-check
/* The compass: its rose with the rings of the range, the ring with the bands of tracks, their answers, and where the aircraft were. */
"use strict";
(function (root) {
  const { n, text, radians, wrap, widthOf, paint, edge, badge, diamond, angleOf, wordsOfBand, at, plan } = daa.art;

  /** @type {(view: View, from: number, upto: number, inner: number, outer: number) => string} */
  function sector(view, from, upto, inner, outer) {
    const turn = upto - from;
    if (turn >= 359.99) return wholeRing(view.g.centre, inner, outer);
    const [a, b, c, d] = [at(view, from, outer), at(view, upto, outer), at(view, upto, inner), at(view, from, inner)];
    const large = turn > 180 ? 1 : 0;
    /** @type {(radius: number, sweep: number, to: Point) => string} */
    const arc = (radius, sweep, to) => `A${n(radius)} ${n(radius)} 0 ${large} ${sweep} ${n(to.x)} ${n(to.y)}`;
    return `M${n(a.x)} ${n(a.y)}${arc(outer, 1, b)}L${n(c.x)} ${n(c.y)}${arc(inner, 0, d)}Z`;
  }

  /** @type {(centre: Point, inner: number, outer: number) => string} */
  function wholeRing({ x, y }, inner, outer) {
    /** @type {(r: number, to: number) => string} */
    const half = (r, to) => `A${n(r)} ${n(r)} 0 1 0 ${n(to)} ${n(y)}`;
    return [inner, outer].map((r) => `M${n(x - r)} ${n(y)}${half(r, x + r)}${half(r, x - r)}Z`).join("");
  }

  /** The runs of the track candidates; those of one level that meet over north are drawn as one.
   *  @type {(bands: Band[], step: number) => Band[]} */
  function runs(bands, step) {
    const all = bands.map((band) => ({ from: band.from - step / 2, upto: band.upto + step / 2, level: band.level }));
    const last = all[all.length - 1];
    if (all.length < 2 || all[0].level !== last.level) return all;
    return [{ ...all[0], from: last.from - 360 }, ...all.slice(1, -1)];
  }

  const OWN_RADIUS = 19; // of the ownship's symbol, with room round it
  const LEAST_OWN = 0.6; // so small it may become

  /** How wide the horizontal threshold of the corrective level is, in points.
   *  @type {(view: View, config: Configuration) => number} */
  const threshold = ({ g, range }, { resolve, levels }) => (levels[resolve - 1].dthr / 1000 / range) * g.radius;

  /** How large the ownship's symbol is drawn: where the threshold's circle is small, so that it stands within it.
   *  @type {(view: View, config: Configuration) => number} */
  const ownSize = (view, config) => {
    const share = threshold(view, config) / OWN_RADIUS;
    return share < LEAST_OWN ? 1 : Math.min(share, 1);
  };

  /** @type {(view: View) => string} */
  function rose(view) {
    const { g } = view;
    const { x, y } = g.centre;
    let out = `<circle cx="${n(x)}" cy="${n(y)}" r="${n(g.outer)}" fill="var(--disc)" stroke="var(--line)"/>`;
    for (const share of [1 / 3, 2 / 3]) {
      out += `<circle cx="${n(x)}" cy="${n(y)}" r="${n(g.radius * share)}" fill="none" stroke="var(--line)"/>`;
    }
    return out;
  }

  /** What the rings of the rose stand for, away from the ring's own answers; the boxes are also kept free of labels.
   *  @type {(view: View, model: Model) => { words: string, p: Point, box: Box }[]} */
  function rangeWords(view, model) {
    const { g } = view;
    const taken = answerBearings(model);
    /** @type {(bearing: number) => boolean} */
    const isFree = (bearing) => taken.every((other) => Math.abs(wrap(bearing - other + 180) - 180) > 35);
    const bearing = [150, 210, 120, 240, 60, 300].map((it) => wrap(view.up + it)).find(isFree) ?? view.up + 150;
    return [1 / 3, 2 / 3].map((share) => {
      const p = at(view, bearing, g.radius * share);
      const words = `${n(view.range * share)} NM`;
      const wide = widthOf(words, g.font - 1);
      return { words, p, box: { x: p.x - wide / 2, y: p.y - g.font * 0.7, wide, tall: g.font * 1.3 } };
    });
  }

  /** @type {(view: View, model: Model) => string} */
  function ring(view, model) {
    const { g } = view;
    const { config, said } = model;
    const step = config.grids.track.step;
    let out = "";
    for (const run of said ? runs(said.bands.track, step) : []) {
      const title = wordsOfBand("track", run.from + step / 2, run.upto - step / 2, run.level);
      out += `<path d="${sector(view, run.from, run.upto, g.radius, g.outer)}" fill="${paint(run.level)}" fill-rule="evenodd"`
        + ` stroke="${edge(run.level)}" data-level="${run.level}"><title>${title}</title></path>`;
      const long = radians(run.upto - run.from) * g.radius;
      if (run.level && long >= 1.8 * g.ringWidth) out += badgeOnRing(view, model, run);
    }
    if (!said) out += `<path d="${sector(view, 0, 360, g.radius, g.outer)}" fill="var(--unknown)" stroke="var(--line)" fill-rule="evenodd"/>`;
    return out + ticks(view) + (said ? answersOnRing(view, said) : "");
  }

  /** The number of a run's level in its middle, or beside the track bug where that stands there.
   *  @type {(view: View, model: Model, run: Band) => string} */
  function badgeOnRing(view, { own }, run) {
    const { g } = view;
    const half = (run.upto - run.from) / 2;
    const room = (g.font * 2 * 180) / (Math.PI * g.radius);
    let bearing = run.from + half;
    const away = Math.abs(wrap(bearing - own.trk + 180) - 180);
    if (away < room && half > 2 * room) bearing = own.trk + room;
    const p = at(view, bearing, g.radius + g.ringWidth / 2);
    return badge(g, p.x, p.y, run.level);
  }

  /** @type {(view: View) => string} */
  function ticks(view) {
    const { g } = view;
    let out = "";
    for (let degree = 0; degree < 360; degree += 10) {
      const long = degree % 30 === 0;
      const a = at(view, degree, g.outer);
      const b = at(view, degree, g.outer + (long ? g.font * 0.55 : g.font * 0.3));
      out += `<path d="M${n(a.x)} ${n(a.y)}L${n(b.x)} ${n(b.y)}" stroke="var(--faint)" stroke-width="${long ? 2 : 1}"/>`;
      if (!long) continue;
      const p = at(view, degree, g.outer + g.font * 1.35);
      const name = { 0: "N", 90: "E", 180: "S", 270: "W" }[degree];
      out += text(p.x, p.y + g.font * 0.36, name || String(degree / 10), `class="mid ${name ? "bold" : "small"}" font-size="${g.font}"`);
    }
    return out;
  }

  /** @type {(view: View, said: Said) => string} */
  function answersOnRing(view, said) {
    const { g } = view;
    const f = g.font;
    let out = "";
    for (const to of Object.values(said.resolve.track)) {
      if (typeof to !== "number") continue;
      const tip = at(view, to, g.radius - 1);
      const spread = ((f * 0.6) / g.radius) * (180 / Math.PI);
      const [a, b] = [at(view, to - spread, g.radius - f * 1.2), at(view, to + spread, g.radius - f * 1.2)];
      const label = at(view, to, g.radius - f * 2.1);
      out += `<path d="M${n(tip.x)} ${n(tip.y)}L${n(a.x)} ${n(a.y)}L${n(b.x)} ${n(b.y)}Z" fill="var(--open)" stroke="var(--ground)"/>`
        + text(label.x, label.y + f * 0.36, angleOf(to), `class="open mid halo" font-size="${f}"`);
    }
    const back = said.recover.track;
    if (back && back !== "none") {
      const p = at(view, back.value, g.radius - f * 0.8);
      const label = at(view, back.value, g.radius - f * 2.4);
      const words = `${angleOf(back.value)} ${back.after} s`;
      out += diamond(p.x, p.y) + text(label.x, label.y + f * 0.36, words, `class="recover mid halo" font-size="${f}"`);
    }
    return out;
  }

  /** @type {(view: View, model: Model) => string} */
  function trails(view, model) {
    const { g } = view;
    let out = "";
    for (const { x, y, own, share } of model.trail) {
      const p = plan(view, x, y);
      if (Math.hypot(p.x - g.centre.x, p.y - g.centre.y) >= g.radius - 4) continue;
      out += `<circle cx="${n(p.x)}" cy="${n(p.y)}" r="2.2" fill="var(--${own ? "own" : "ink"})" opacity="${n(share)}"/>`;
    }
    const own = plan(view, model.own.x, model.own.y);
    const r = threshold(view, model.config);
    if (r > OWN_RADIUS * LEAST_OWN && r < g.radius) {
      out += `<circle cx="${n(own.x)}" cy="${n(own.y)}" r="${n(r)}" fill="none" stroke="var(--own)" stroke-width="1.5" stroke-dasharray="5 4">`
        + `<title>dthr of level ${model.config.resolve}</title></circle>`;
    }
    /** @type {(it: { words: string, p: Point }) => string} */
    const shown = ({ words, p }) => text(p.x, p.y + g.font * 0.36, words, `class="small mid halo" font-size="${g.font - 1}"`);
    return out + rangeWords(view, model).map(shown).join("");
  }

  /** The bearings of the open tracks and of the recovery.
   *  @type {(model: Model) => number[]} */
  function answerBearings({ said }) {
    if (!said) return [];
    const { lower, upper } = said.resolve.track;
    const back = said.recover.track;
    return [lower, upper, back && back !== "none" ? back.value : "none"].flatMap((it) => (typeof it === "number" ? [it] : []));
  }

  const ANSWER = 20; // how much more it costs to cover an answer than another text

  /** The ring's own answers, which no label may cover.
   *  @type {(view: View, model: Model) => Box[]} */
  function answerBoxes(view, model) {
    const f = view.g.font;
    return answerBearings(model).map((bearing) => {
      const p = at(view, bearing, view.g.radius - f * 1.7);
      return { x: p.x - f * 1.6, y: p.y - f * 1.4, wide: f * 3.2, tall: f * 2.8, weight: ANSWER };
    });
  }

  Object.assign(daa.art, { rose, ring, trails, rangeWords, answerBoxes, ownSize });
})(globalThis);
