// @ts-check
/* The tapes of ground speed, altitude and vertical speed, with their bands and answers. */
"use strict";
(function (root) {
  const { n, text, clamp, paint, edge, badge, diamond, TAPES, shownValue, wordsOfBand } = daa.art;

  /** What part of the values a tape shows, and where: all speeds, and altitudes round the ownship's.
   *  @type {(view: Look & { g: Geometry }, model: Pick<Model, "config" | "own">, kind: TapeKind) => Scale} */
  function scaleOf(view, model, kind) {
    const { top, bottom } = view.g.tapes[kind];
    const grid = model.config.grids[kind];
    const value = view.held && view.held[kind] !== undefined ? view.held[kind] : model.own[kind];
    let low = Math.min(grid.min, value);
    let high = Math.max(grid.max, value);
    if (kind === "alt") {
      const middle = Math.round(value / 500) * 500;
      [low, high] = [middle - view.heights, middle + view.heights];
    } else if (low === high) [low, high] = [low - 10, high + 10];
    const room = bottom - top;
    return { low, high, y: (v) => bottom - ((clamp(v, low, high) - low) / (high - low)) * room,
      value: (y) => low + ((bottom - y) / room) * (high - low) };
  }

  /** @type {(view: View, model: Model, kind: TapeKind) => string} */
  function tape(view, model, kind) {
    const { g } = view;
    const t = g.tapes[kind];
    const { title, name, unit, scale } = TAPES[kind];
    const s = scaleOf(view, model, kind);
    const words = text(t.left + t.width / 2, t.top - g.line * 0.55, `${title} ${unit}`, `class="small mid" font-size="${g.font}"`);
    let out = `<g><title>${name}</title>${words}</g>`
      + `<rect x="${n(t.x)}" y="${n(t.top)}" width="${t.band}" height="${n(t.bottom - t.top)}" fill="var(--unknown)" stroke="var(--line)"/>`;
    for (const band of model.said ? model.said.bands[kind] : []) out += bandOnTape(view, model, kind, band, s);
    const step = niceStep((s.high - s.low) / scale, clamp(Math.floor((t.bottom - t.top) / (g.line * 1.6)), 3, 11)) * scale;
    for (let v = Math.ceil(s.low / step) * step; v <= s.high; v += step) {
      const y = s.y(v);
      out += `<path d="M${n(t.x - 6)} ${n(y)}h6" stroke="var(--faint)"/>`
        + text(t.x - 9, y + g.font * 0.36, shownValue(kind, v), `class="small end" font-size="${g.font - 1}"`);
    }
    return out + (kind === "alt" ? daa.art.aloft(view, model, s) : "") + (model.said ? answersOnTape(view, model.said, kind, s) : "");
  }

  /** @type {(view: View, model: Model, kind: TapeKind, band: Band, s: Scale) => string} */
  function bandOnTape(view, model, kind, band, s) {
    const { g } = view;
    const { x, band: wide } = g.tapes[kind];
    const grid = model.config.grids[kind];
    const last = grid.min + Math.floor((grid.max - grid.min) / grid.step) * grid.step;
    const low = band.from - (band.from === grid.min ? 0 : grid.step / 2);
    const high = band.upto + (band.upto === last ? 0 : grid.step / 2);
    if (high < s.low || low > s.high) return "";
    const top = s.y(high);
    const tall = Math.max(s.y(low) - top, 2);
    const out = `<rect x="${n(x)}" y="${n(top)}" width="${wide}" height="${n(tall)}" fill="${paint(band.level)}"`
      + ` stroke="${edge(band.level)}" data-level="${band.level}"><title>${wordsOfBand(kind, band.from, band.upto, band.level)}</title></rect>`;
    const y = badgeHeight(g, top, tall, s.y(model.own[kind]));
    return out + (band.level && y !== null ? badge(g, x + wide / 2, y, band.level) : "");
  }

  /** Where the number of a band's level has room beside the ownship's pointer, or null.
   *  @type {(g: Geometry, top: number, tall: number, own: number) => number | null} */
  function badgeHeight(g, top, tall, own) {
    const room = g.font * 1.5;
    if (tall < room) return null;
    const middle = top + tall / 2;
    if (Math.abs(middle - own) >= room) return middle;
    if (own - top > 1.9 * room) return own - room;
    return top + tall - own > 1.9 * room ? own + room : null;
  }

  /** @type {(view: View, said: Said, kind: TapeKind, s: Scale) => string} */
  function answersOnTape(view, said, kind, s) {
    const { g } = view;
    const t = g.tapes[kind];
    const right = t.x + t.band;
    /** @type {(value: number, mark: (x: number, y: number) => string, style: string) => string} */
    const put = (value, mark, style) => {
      const y = s.y(value);
      const beyond = value > s.high ? " ▲" : value < s.low ? " ▼" : "";
      const words = t.labels ? shownValue(kind, value) + beyond : beyond.trim();
      return mark(right + 2, y) + text(right + 15, y + g.font * 0.36, words, `class="${style} halo" font-size="${g.font}"`);
    };
    /** @type {(x: number, y: number) => string} */
    const triangle = (x, y) => `<path d="M${n(x)} ${n(y)}l12 -6.5v13z" fill="var(--open)" stroke="var(--ground)"/>`;
    let out = "";
    for (const to of Object.values(said.resolve[kind])) if (typeof to === "number") out += put(to, triangle, "open");
    const back = said.recover[kind];
    if (back && back !== "none") out += put(back.value, (x, y) => diamond(x + 8, y), "recover");
    return out;
  }

  /** @type {(range: number, most: number) => number} */
  function niceStep(range, most) {
    for (let power = 1; ; power *= 10) for (const factor of [1, 2, 5]) if (range / (factor * power) <= most) return factor * power;
  }

  Object.assign(daa.art, { tape, scaleOf });
  Object.assign(root.daa, { scaleOf });
})(globalThis);
