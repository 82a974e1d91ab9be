// @ts-check
/* What a display says in words: the answers under compass and tapes, its head, and its legend. */
"use strict";
(function (root) {
  const { n, text, explained, widthOf, fitted, cut, paint, edge, diamond, TAPE_KINDS, angleOf, shownValue, shownWords, vectorSeconds } = daa.art;

  /** @type {(to: Answer) => string} */
  const styleOf = (to) => (typeof to === "number" ? "open" : to === "none" ? "none" : "small");

  /** @type {(view: View, model: Model) => string} */
  function answers(view, model) {
    const { said } = model;
    if (!said) return "";
    return answersOfTrack(view, said) + TAPE_KINDS.map((/** @type {TapeKind} */ kind) => answersOfTape(view, said, kind)).join("");
  }

  /** A line of answers: what it is of is told by data, so that it can be read back.
   *  @type {(g: Geometry, x: number, y: number, kind: Kind, what: string, words: string, style: string, anchor?: string, room?: number) => string} */
  function answerLine(g, x, y, kind, what, words, style, anchor = "", room = g.width) {
    const size = n(fitted(words, g.font, room));
    const drawn = text(x, y, words, `class="${style} ${anchor}" font-size="${size}" data-kind="${kind}" data-what="${what}"`);
    return explained({ recover: "recovery", last: "last" }[what] ?? { open: "open", none: "none" }[style] ?? "keep", drawn);
  }

  /** @type {(view: View, said: Said) => string} */
  function answersOfTrack(view, said) {
    const { g } = view;
    const { lower, upper } = said.resolve.track;
    /** @type {(to: Answer) => string} */
    const shown = (to) => (typeof to === "number" ? angleOf(to) : to);
    const [x, y, gap] = [g.centre.x, g.answers + g.line, g.font * 0.8];
    let out = answerLine(g, x - gap, y, "track", "lower", `◄ left ${shown(lower)}`, styleOf(lower), "end")
      + answerLine(g, x + gap, y, "track", "upper", `► right ${shown(upper)}`, styleOf(upper));
    const more = [];
    const back = said.recover.track;
    /** @type {(back: { value: number, after: number }) => string} */
    const turnTo = ({ value, after }) => `◆ turn to ${angleOf(value)}, clear after ${after} s`;
    if (back) more.push(["recover", back === "none" ? "◆ no recovery" : turnTo(back), "recover"]);
    const last = said.last.track;
    if (last === "none") more.push(["last", "a turn comes too late", "none"]);
    else if (last !== undefined) more.push(["last", `a turn may wait ${last} s`, "last"]);
    more.forEach(([what, words, style], row) => { out += answerLine(g, x, y + g.line * (row + 1), "track", what, words, style, "mid"); });
    return out;
  }

  /** @type {(view: View, said: Said, kind: TapeKind) => string} */
  function answersOfTape(view, said, kind) {
    const { g } = view;
    const t = g.tapes[kind];
    const { lower, upper } = said.resolve[kind];
    /** @type {(to: Answer) => string} */
    const shown = (to) => (typeof to === "number" ? shownWords(kind, to) : to);
    const lines = [["upper", `▲ ${shown(upper)}`, styleOf(upper)], ["lower", `▼ ${shown(lower)}`, styleOf(lower)]];
    const back = said.recover[kind];
    if (back) lines.push(["recover", back === "none" ? "◆ none" : `◆ ${shownValue(kind, back.value)}, ${back.after} s`, "recover"]);
    const last = said.last[kind];
    if (last === "none") lines.push(["last", "too late", "none"]);
    else if (last !== undefined) lines.push(["last", `may wait ${last} s`, "last"]);
    const top = g.answers + (g.stacked ? g.line * (g.rows - 1) : 0);
    /** @type {(line: string[], row: number) => string} */
    const line = ([what, words, style], row) => answerLine(g, t.left + 6, top + g.line * (row + 1), kind, what, words, style, "", t.width - 12);
    return lines.map(line).join("");
  }

  // ---- head and legend

  /** @type {(view: View, model: Model) => string} */
  function head(view, model) {
    const { g } = view;
    const size = `font-size="${g.font}"`;
    const ahead = `${view.range} NM · ${view.trackUp ? "track up" : "north up"} · ${vectorSeconds(view)} s ahead`;
    const isWide = g.width > 560;
    const half = (g.width - (isWide ? widthOf(ahead, g.font) : 0)) / 2 - 8; // left and right of what stands in the middle
    const when = model.clock ?? `${model.time} s`;
    const note = 16 + widthOf(when, g.font + 4);
    const [style, words] = model.lacks ? ["none", `incomplete · ${model.note}`] : ["small", model.note];
    let out = text(10, g.line * 1.05, when, `class="value" font-size="${g.font + 3}"`)
      + text(note, g.line * 1.05, cut(words, g.font, half - note), `class="${style}" ${size}`)
      + text(g.width - 10, g.line * 1.05, cut(model.name, g.font, half - 10), `class="end" ${size}`);
    if (isWide) out += text(g.width / 2, g.line * 1.05, ahead, `class="small mid" ${size}`);
    return out + (model.fault ? noAnswer(g, model.fault) : "");
  }

  /** Why there is no answer, in the upper half of the compass.
   *  @type {(g: Geometry, fault: string) => string} */
  function noAnswer(g, fault) {
    const rows = [""];
    for (const word of fault.split(" ")) {
      if (widthOf(rows[rows.length - 1] + word, g.font) > g.radius * 1.5) rows.push("");
      rows[rows.length - 1] += `${word} `;
    }
    const y = g.centre.y - g.radius * 0.42;
    /** @type {(row: string, i: number) => string} */
    const line = (row, i) => text(g.centre.x, y + g.line * (i + 1.2), row.trim(), `class="mid halo" font-size="${g.font}"`);
    return text(g.centre.x, y, "no answer", `class="none mid halo" font-size="${g.font * 1.6}"`) + rows.map(line).join("");
  }

  /** The legend's rows, each a list of items with their widths.
   *  @type {(config: Configuration, font: number, width: number) => LegendItem[][]} */
  function legendOf(config, font, width) {
    /** @type {Omit<LegendItem, "wide">[]} */
    const items = [{ level: 0, words: "clear" }];
    config.levels.forEach((_, l) => items.push(l + 1 === config.resolve
      ? { level: l + 1, words: `level ${l + 1}, corrective`, means: "corrective" } : { level: l + 1, words: `level ${l + 1}` }));
    items.push({ open: true, words: "nearest open", means: "open" });
    if (config.recovery) items.push({ recover: true, words: "recovery", means: "recovery" });
    /** @type {LegendItem[][]} */
    const rows = [[]];
    let left = 0;
    for (const item of items) {
      const wide = 36 + widthOf(item.words, font - 1);
      if (left + wide > width - 16 && rows[rows.length - 1].length) {
        rows.push([]);
        left = 0;
      }
      rows[rows.length - 1].push({ ...item, wide });
      left += wide;
    }
    return rows;
  }

  /** @type {(view: View, model: Model) => string} */
  function legend(view, { config }) {
    const { g } = view;
    let out = "";
    legendOf(config, g.font, g.width).forEach((row, i) => {
      let x = (g.width - row.reduce((sum, item) => sum + item.wide, 0)) / 2;
      const y = g.foot + g.line * (i + 0.75);
      for (const item of row) {
        if (item.open) out += `<path d="M${n(x + 8)} ${n(y - 4.5)}l12 -6.5v13z" fill="var(--open)"/>`;
        else if (item.recover) out += diamond(x + 14, y - 4.5);
        else out += `<rect x="${n(x)}" y="${n(y - 11)}" width="24" height="13" fill="${paint(item.level)}" stroke="${edge(item.level)}"/>`;
        const words = text(x + 29, y, item.words, `class="small" font-size="${g.font - 1}"`);
        out += item.means ? explained(item.means, words) : words;
        x += item.wide;
      }
    });
    return out;
  }

  Object.assign(daa.art, { answers, head, legend, legendOf });
})(globalThis);
