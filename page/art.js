// @ts-check
/* What all drawings share: numbers, letters, colours, patterns, and how values are written. A level is told by colour, by pattern and
 * by number. */
"use strict";
(function (root) {
  daa.art = {}; // what the scripts that draw share

  const { must } = daa;

  /** @type {Daa["element"]} */
  const element = (id) => must(document.getElementById(id));

  const TAPES = { gs: { title: "GS", name: "ground speed", unit: "kt", scale: 10 },
    alt: { title: "ALT", name: "altitude", unit: "ft", scale: 1 },
    vs: { title: "VS", name: "vertical speed", unit: "ft/min", scale: 1 } };
  const TAPE_KINDS = ["gs", "alt", "vs"];
  const SIDES = { track: ["left", "right"], gs: ["down", "up"], vs: ["down", "up"], alt: ["down", "up"] };
  const VIEW_HEIGHTS = [1500, 3000, 6000, 12000];
  const MODELS = { tcpa: "time to closest approach", tau: "tau", tep: "time to the entry point" };

  /** @type {(value: number) => string} */
  const n = (value) => String(Math.round(value * 10) / 10);
  /** @type {Record<string, string>} */
  const ENTITIES = { "&": "&amp;", "<": "&lt;", ">": "&gt;", '"': "&quot;" };
  /** @type {(text: string | number) => string} */
  const escape = (text) => String(text).replace(/[&<>"]/g, (letter) => ENTITIES[letter]);
  /** @type {(degrees: number) => number} */
  const radians = (degrees) => (degrees * Math.PI) / 180;
  /** @type {(degrees: number) => number} */
  const wrap = (degrees) => ((degrees % 360) + 360) % 360;
  /** @type {(value: number, low: number, high: number) => number} */
  const clamp = (value, low, high) => Math.min(Math.max(value, low), high);

  /** @type {(x: number, y: number, words: string | number, more?: string) => string} */
  function text(x, y, words, more = "") {
    return `<text x="${n(x)}" y="${n(y)}" ${more}>${escape(words)}</text>`;
  }

  const FACE = '"DejaVu Sans","Segoe UI",system-ui,sans-serif';
  const measure = must(document.createElement("canvas").getContext("2d"));
  const widths = new Map();

  /** How wide a text is at most, in bold letters.
   *  @type {(words: string, font: number) => number} */
  function widthOf(words, font) {
    if (!widths.has(words)) {
      measure.font = `bold 100px ${FACE}`;
      widths.set(words, measure.measureText(words).width / 100);
    }
    return widths.get(words) * font;
  }

  /** The size of letters, at most `font`, in which a text has some width at most.
   *  @type {(words: string, font: number, room: number) => number} */
  const fitted = (words, font, room) => Math.min(font, (font * room) / widthOf(words, font));

  /** A text, cut where it is wider than there is room.
   *  @type {(words: string, font: number, room: number) => string} */
  function cut(words, font, room) {
    const wide = widthOf(words, font);
    return wide <= room ? words : `${words.slice(0, Math.max(Math.floor((words.length * room) / wide) - 2, 0))}…`;
  }

  // ---- colours, patterns and letters, which the style sheet of the page names for light, dark and print

  /** @type {(level: number) => string} */
  const paint = (level) => (level ? `url(#level${level})` : "var(--l0-fill)");
  /** @type {(level: number) => string} */
  const edge = (level) => `var(--l${level}-edge)`;
  /** @type {(level: number) => string} */
  const ink = (level) => `var(--l${level}-ink)`;

  /** The patterns of the levels: dots, stripes, a lattice, bars. */
  function patterns() {
    const marks = ["", `<circle cx="4" cy="4" r="1.4" fill="var(--l1-mark)"/>`,
      `<path d="M-2 2l4 -4M0 10L10 0M8 12l4 -4" stroke="var(--l2-mark)" stroke-width="2"/>`,
      `<path d="M0 0l9 9M9 0l-9 9" stroke="var(--l3-mark)" stroke-width="1.5"/>`,
      `<path d="M0 3h9" stroke="var(--l4-mark)" stroke-width="2.4"/>`];
    const sizes = [0, 8, 10, 9, 6];
    return [1, 2, 3, 4].map((l) => `<pattern id="level${l}" width="${sizes[l]}" height="${sizes[l]}" patternUnits="userSpaceOnUse">`
      + `<rect width="12" height="12" fill="var(--l${l}-fill)"/>${marks[l]}</pattern>`).join("");
  }

  const STYLE = `text{font-family:${FACE};fill:var(--ink)}
.small{fill:var(--faint)}.mid{text-anchor:middle}.end{text-anchor:end}.bold{font-weight:bold}
.value{font-weight:bold}.open{fill:var(--open);font-weight:bold}.none{fill:var(--bad);font-weight:bold}
.recover{fill:var(--recover);font-weight:bold}.last{fill:var(--ink)}
.halo{paint-order:stroke;stroke:var(--ground);stroke-width:4px;stroke-linejoin:round}.level{font-weight:bold}.old{opacity:.5;stroke-dasharray:3 2}
.handle{cursor:grab}.handle:focus{outline:none}.focus{fill:none;stroke:var(--focus);stroke-width:2;opacity:0}
circle.focus{stroke-dasharray:50 50;stroke-dashoffset:25}
.handle:focus-visible .focus,.chosen .focus{opacity:1}.grip{fill:transparent}`;

  /** @type {(g: Geometry, x: number, y: number, level: number) => string} */
  function badge(g, x, y, level) {
    const r = g.font * 0.68;
    return `<circle cx="${n(x)}" cy="${n(y)}" r="${n(r)}" fill="var(--ground)" stroke="${edge(level)}" stroke-width="1.5"/>`
      + text(x, y + g.font * 0.36, level, `class="level mid" font-size="${g.font}" style="fill:${edge(level)}"`);
  }

  /** @type {(x: number, y: number) => string} */
  const diamond = (x, y) => `<path d="M${n(x)} ${n(y - 8)}l7 8l-7 8l-7 -8z" fill="var(--ground)" stroke="var(--recover)" stroke-width="2.5"/>`;

  /** An angle as all are written: three digits.
   *  @type {(degrees: number) => string} */
  const angleOf = (degrees) => `${String(wrap(Math.round(degrees))).padStart(3, "0")}°`;
  /** A number as all are written: with a minus as long as a plus.
   *  @type {(value: number | string) => string} */
  const numberOf = (value) => String(value).replace("-", "−");

  /** @type {(kind: Kind, value: number) => string} */
  const shownValue = (kind, value) => numberOf(kind === "gs" ? Math.round(value) / 10 : Math.round(value));
  /** @type {(kind: Kind, value: number) => string} */
  const shownWords = (kind, value) => (kind === "track" ? angleOf(value) : `${shownValue(kind, value)} ${TAPES[kind].unit}`);

  /** @type {(kind: Kind, from: number, upto: number, level: number) => string} */
  const wordsOfBand = (kind, from, upto, level) => {
    /** @type {(value: number) => string} */
    const words = (value) => shownWords(kind, value);
    return `${words(from)} to ${words(upto)}: ${level ? "level " + level : "clear"}`;
  };

  Object.assign(daa.art, { n, escape, radians, wrap, clamp, text, widthOf, fitted, cut, paint, edge, ink, badge, diamond, TAPES,
    TAPE_KINDS, angleOf, numberOf, shownValue, shownWords, wordsOfBand });
  Object.assign(root.daa, { element, wrap, clamp, escape, patterns, STYLE, TAPES, SIDES, MODELS, VIEW_HEIGHTS, angleOf, numberOf, shownValue,
    shownWords, paint });
})(globalThis);
