// @ts-check
/* Where aircraft will be if all fly straight on: predicted paths to the closest approach on the plan, the aircraft on the altitude tape, and from
 * the side their heights over the distance to it. These are the states flown on, and no answer of the engine. */
"use strict";
(function (root) {
  const { n, text, escape, edge, ink, plan, velocity, flown, within, nameOf, calledIn, heightTag, numberOf, UNKNOWN } = daa.art;
  const FARTHEST = 600; // s: an approach that is later is not drawn
  const MOST_PATHS = 8; // so many aircraft are drawn from the side, those that alert first
  const LEAST_ABOVE = 1000; // ft that the side shows above and below at least
  const LEAST_MILES = 0.5; // NM that it shows on both sides at least

  /** @type {(state: State, seconds: number) => number} */
  const heightOf = (state, seconds) => state.alt + (state.vs * seconds) / 60;

  /** When two that fly straight on are closest, from now on (s); how far apart then, in NM and in ft above the ownship; how far that is along the
   *  way of one past the other (NM, now); and how fast that way is (NM a second). Distances count in the horizontal plane.
   *  @param {Own} own
   *  @param {Aircraft} one
   *  @returns {Approach} */
  function closest(own, one) {
    const age = one.age || 0;
    const here = flown(one, age);
    const [a, b] = [velocity(own), velocity(one)];
    const [x, y] = [(here.x - own.x) / 1000, (here.y - own.y) / 1000];
    const [vx, vy] = [(b.vx - a.vx) / 36000, (b.vy - a.vy) / 36000];
    const speed = Math.hypot(vx, vy);
    const ahead = speed ? -(x * vx + y * vy) / speed : 0; // along the relative way
    const seconds = speed ? Math.max(ahead / speed, 0) : 0;
    return { seconds, miles: Math.hypot(x + vx * seconds, y + vy * seconds), above: heightOf(one, age + seconds) - heightOf(own, seconds),
      ahead, speed, passing: Math.sqrt(Math.max(x * x + y * y - ahead * ahead, 0)) };
  }

  /** The closest approach in words.
   *  @type {(approach: Pick<Approach, "seconds" | "miles" | "above">) => string} */
  function wordsOfClosest({ seconds, miles, above }) {
    const height = Math.round(above);
    const sign = height > 0 ? "+" : "";
    return `${miles.toFixed(2)} NM, ${sign}${numberOf(height)} ft ${seconds < 0.5 ? "now" : `in ${Math.round(seconds)} s`}`;
  }

  /** The aircraft that matter, those that alert most first, of the others the nearest; the chosen one is always among them.
   *  @type {(model: Pick<Model, "own" | "traffic" | "said">, chosen: string | null) => Ranked[]} */
  function ranked({ own, traffic, said }, chosen) {
    const all = traffic.map((one, place) => ({ one, place, called: calledIn(traffic, one), alert: (said && said.aircraft[place]) || UNKNOWN,
      closest: closest(own, one) }));
    /** @type {(one: { called: string }) => boolean} */
    const isChosen = ({ called }) => chosen === `p:${called}` || chosen === `v:${called}`;
    /** @type {(it: Ranked) => number} */
    const order = (it) => Number(isChosen(it)) * 10000 + 1000 * Math.max(it.alert.level, it.alert.now) - Math.min(it.closest.miles, 900);
    return all.sort((a, b) => order(b) - order(a));
  }

  /** @type {(it: Ranked) => boolean} */
  const isComing = ({ closest: { seconds } }) => seconds > 0 && seconds <= FARTHEST;

  // ---- on the plan

  /** The ways to the closest approaches of those that alert and of the chosen one, and what lies between the two then.
   *  @type {(view: View, model: Model) => string} */
  function paths(view, model) {
    if (!view.paths) return "";
    const called = (view.chosen ?? "").replace(/^[pv]:/, "");
    const shown = ranked(model, view.chosen).filter((it) => isComing(it) && (it.alert.level || it.called === called));
    return shown.map((it) => path(view, model, it)).join("");
  }

  /** @type {(view: View, model: Model, it: Ranked) => string} */
  function path(view, model, { one, called, alert, closest: found }) {
    const { g } = view;
    const colour = alert.level ? edge(alert.level) : "var(--faint)";
    /** @type {(state: State, seconds: number) => Point} */
    const after = (state, seconds) => plan(view, flown(state, seconds).x, flown(state, seconds).y);
    const from = [after(model.own, 0), after(one, one.age)];
    const to = [after(model.own, found.seconds), after(one, one.age + found.seconds)];
    /** @type {(p: Point) => boolean} */
    const isIn = (p) => Math.hypot(p.x - g.centre.x, p.y - g.centre.y) <= g.radius;
    /** @type {(a: Point, b: Point, style: string) => string} */
    const line = (a, b, style) => `<path class="way" d="M${n(a.x)} ${n(a.y)}L${n(b.x)} ${n(b.y)}" stroke="${style}" stroke-width="1.5"`
      + ' stroke-dasharray="6 4"/>';
    let out = `<title>closest approach of ${escape(nameOf(one))}: ${wordsOfClosest(found)}</title>`;
    if (isIn(from[0])) out += line(from[0], within(g, from[0], to[0]), "var(--own)");
    if (isIn(from[1])) out += line(from[1], within(g, from[1], to[1]), colour);
    if (isIn(to[0]) && isIn(to[1])) {
      out += `<path class="apart" d="M${n(to[0].x)} ${n(to[0].y)}L${n(to[1].x)} ${n(to[1].y)}" stroke="${colour}" stroke-width="2"/>`
        + to.map(({ x, y }) => `<circle cx="${n(x)}" cy="${n(y)}" r="3" fill="${colour}"/>`).join("")
        + text((to[0].x + to[1].x) / 2, (to[0].y + to[1].y) / 2 - 6, wordsOfClosest(found), `class="mid halo small" font-size="${g.font - 1}"`);
    }
    return `<g data-path="${escape(called)}">${out}</g>`;
  }

  // ---- on the altitude tape

  /** The aircraft beside the altitude tape, at their heights, each with a line to where it will be in a minute.
   *  @type {(view: View, model: Model, scale: Scale) => string} */
  function aloft(view, model, scale) {
    const t = view.g.tapes.alt;
    return ranked(model, view.chosen).reverse().map(({ one, called, alert }) => {
      const height = heightOf(one, one.age);
      if (height < scale.low || height > scale.high) return "";
      const [x, y, later] = [t.x - 3, scale.y(height), scale.y(heightOf(one, one.age + 60))];
      const fill = alert.level ? `var(--l${alert.level}-fill)` : "var(--ground)";
      const line = Math.abs(later - y) < 1 ? "" : `<path d="M${n(x)} ${n(y)}V${n(later)}" stroke="var(--ink)" stroke-width="1.5"/>`;
      const number = alert.level ? text(x, y + 3.5, alert.level, `class="level mid" font-size="9" style="fill:${ink(alert.level)}"`) : "";
      return `<g data-aloft="${escape(called)}"><title>${escape(nameOf(one))}: ${heightTag(model.own, one)}</title>${line}`
        + `<path d="M${n(x)} ${n(y - 7)}l7 7l-7 7l-7 -7z" fill="${fill}" stroke="var(--rim)"/>${number}</g>`;
    }).join("");
  }

  // ---- from the side

  /** A picture from the side, as SVG: to the right how far each aircraft still is from its closest approach along its way past the ownship, up how
   *  far above the ownship it is; the box is the volume of the corrective level, as wide as the first aircraft passes through it.
   *  @type {(model: Model, chosen: string | null, size: Size) => string} */
  function side({ own, traffic, said, config }, chosen, { width, height }) {
    const shown = ranked({ own, traffic, said }, chosen).slice(0, MOST_PATHS);
    const f = 11;
    const { dthr, zthr } = config.levels[config.resolve - 1];
    const miles = Math.max(LEAST_MILES, (1.5 * dthr) / 1000, ...shown.map((it) => Math.abs(it.closest.ahead))) * 1.08;
    const most = Math.max(LEAST_ABOVE, 1.5 * zthr, ...shown.map(({ one }) => Math.abs(heightOf(one, one.age) - own.alt))) * 1.1;
    const [left, right, top, foot] = [52, width - 8, 6, height - 2.2 * f];
    const middle = (top + foot) / 2;
    /** @type {(ahead: number) => number} */
    const x = (ahead) => left + ((miles + ahead) / (2 * miles)) * (right - left);
    /** @type {(above: number) => number} */
    const y = (above) => middle - (Math.max(-most, Math.min(most, above)) / most) * ((foot - top) / 2);
    let out = `<rect x="${left}" y="${top}" width="${n(right - left)}" height="${n(foot - top)}" fill="var(--disc)" stroke="var(--line)"/>`;
    out += volumeFromTheSide(shown[0], dthr / 1000, zthr, x, y);
    out += `<path d="M${left} ${n(y(0))}H${n(right)}M${n(x(0))} ${top}V${n(foot)}" stroke="var(--own)" stroke-dasharray="3 3"/>`;
    for (const above of [-most / 1.1, 0, most / 1.1]) {
      const words = above ? `${above > 0 ? "+" : "−"}${Math.round(Math.abs(above))}` : "0 ft";
      out += text(left - 4, y(above) + 4, words, `class="small end" font-size="${f}"`);
    }
    /** @type {[number, string, string][]} */
    const marks = [[miles / 1.08, `${n(miles / 1.08)} NM to go`, "end"], [0, "closest", "mid"], [-miles / 1.08, "past", ""]];
    for (const [ahead, words, style] of marks) {
      out += text(x(ahead), foot + f + 2, words, `class="small ${style}" font-size="${f}"`);
    }
    return out + [...shown].reverse().map((it) => wayFromTheSide(it, own, x, y, f)).join("");
  }

  /** @type {(first: Ranked | undefined, dthr: number, zthr: number, x: (ahead: number) => number, y: (above: number) => number) => string} */
  function volumeFromTheSide(first, dthr, zthr, x, y) {
    const half = first ? Math.sqrt(Math.max(dthr * dthr - first.closest.passing ** 2, 0)) : 0;
    if (!half) return "";
    return `<rect class="volume" x="${n(x(-half))}" y="${n(y(zthr))}" width="${n(x(half) - x(-half))}" height="${n(y(-zthr) - y(zthr))}" fill="none"`
      + ` stroke="var(--own)" stroke-dasharray="5 4"><title>within dthr and zthr of the corrective level</title></rect>`;
  }

  /** @type {(it: Ranked, own: Own, x: (ahead: number) => number, y: (above: number) => number, f: number) => string} */
  function wayFromTheSide({ one, called, alert, closest: found }, own, x, y, f) {
    const { ahead, speed } = found;
    const colour = alert.level ? edge(alert.level) : "var(--faint)";
    /** @type {(seconds: number) => number} */
    const above = (seconds) => heightOf(one, one.age + seconds) - heightOf(own, seconds);
    const end = speed && ahead > 0 ? ahead / speed : 0; // when it is closest
    const line = `<path class="way" d="M${n(x(ahead))} ${n(y(above(0)))}L${n(x(0))} ${n(y(above(end)))}" stroke="${colour}" stroke-width="2"/>`;
    const way = end && end <= FARTHEST ? line : "";
    const fill = alert.level ? `var(--l${alert.level}-fill)` : "var(--ground)";
    const isRight = x(ahead) > x(0);
    return `<g data-side="${escape(called)}"><title>${escape(nameOf(one))}: ${wordsOfClosest(found)}</title>${way}`
      + `<path d="M${n(x(ahead))} ${n(y(above(0)) - 6)}l6 6l-6 6l-6 -6z" fill="${fill}" stroke="var(--rim)"/>`
      + text(x(ahead) + (isRight ? -9 : 9), y(above(0)) - 5, nameOf(one), `class="halo ${isRight ? "end" : ""}" font-size="${f}"`) + "</g>";
  }

  Object.assign(daa.art, { paths, aloft });
  Object.assign(root.daa, { closest, wordsOfClosest, side, ranked });
})(globalThis);
