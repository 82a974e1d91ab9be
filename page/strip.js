// @ts-check
/* The strip over time, on a canvas: of each aircraft that alerts its level as bars, and the bands of tracks with the ownship's track and the
 * open ones. A column that stands for several moments shows the greatest level of each, and as open what is open in all of them; none stands
 * for a gap between two moments. Each column is painted once, as soon as all its moments are decided. */
"use strict";
(function (root) {
  const { must, clamp, wrap } = daa;
  const MARGIN = { left: 78, right: 10, bottom: 18 };
  const MARKS = 7; // the row of marks at the top
  const ROW = 14;
  const MOST_COLUMNS = 600;
  const NARROWEST = 0.5; // so wide a column is at least: a gap that is narrower cannot be seen
  const FULL_TURN = 360;
  const FACE = '11px "DejaVu Sans","Segoe UI",system-ui,sans-serif';

  const MOST_STEPS = 2000; // of a longer recording so many steps, evenly spread, stand for all

  /** The median step from moment to moment: so long the last one is drawn, and one before a gap four times as long.
   *  @type {(times: Float64Array) => number} */
  function medianStep(times) {
    const count = Math.min(times.length - 1, MOST_STEPS);
    const steps = Float64Array.from({ length: Math.max(count, 0) }, (_, i) => {
      const at = Math.floor((i * (times.length - 1)) / count);
      return times[at + 1] - times[at];
    }).sort();
    return steps.length ? steps[Math.floor(steps.length / 2)] : 1;
  }

  /** The columns of a stretch of time: from when to when each stands, and for which moments. Before a gap one ends.
   *  @type {(g: StripPlaces, times: Float64Array) => Column[]} */
  function columnsOf(g, times) {
    const begin = Math.max(lastAt(times, g.from), 0);
    const end = lastAt(times, g.upto);
    const group = Math.ceil((end - begin + 1) / Math.min(MOST_COLUMNS, Math.floor(g.width - MARGIN.left - MARGIN.right)));
    const most = Math.max(4 * g.step, g.time(MARGIN.left + NARROWEST) - g.from);
    const columns = [];
    for (let first = begin, last; first <= end; first = last + 1) {
      last = first;
      while (last < Math.min(first + group - 1, end) && times[last + 1] - times[last] <= most) last += 1;
      const next = last + 1 < times.length ? times[last + 1] : g.last;
      columns.push({ first, last, from: times[first], upto: Math.min(next, times[last] + 4 * g.step), isPainted: false });
    }
    return columns;
  }

  /** The index of the last time that is no later than one, or -1.
   *  @type {(times: Float64Array, time: number) => number} */
  function lastAt(times, time) {
    let [low, high] = [-1, times.length - 1];
    while (low < high) {
      const middle = Math.ceil((low + high) / 2);
      if (times[middle] <= time) low = middle;
      else high = middle - 1;
    }
    return low;
  }

  /** What a column shows, or null where one of its moments is not decided.
   *  @type {(column: Column, notes: any, others: any, step: number) => ColumnSum | null} */
  function sumOf({ first, last }, notes, others, step) {
    for (let index = first; index <= last; index++) if (!notes.has(index)) return null;
    /** @type {Note[]} */
    const some = Array.from({ length: last - first + 1 }, (_, i) => notes.at(first + i));
    /** @type {ColumnSum} */
    const sum = { levels: new Map(), bands: [], trk: some[0].trk, open: [], isOther: false };
    for (const note of some) for (const [id, level] of note.levels) sum.levels.set(id, Math.max(level, sum.levels.get(id) || 0));
    sum.isOther = Boolean(others) && some.some((note, i) => others.has(first + i) && differs(note, others.at(first + i)));
    sum.bands = some.length === 1 ? some[0].bands : greatest(some, step);
    sum.open = some[0].open.filter((to) => some.every((other) => other.open.includes(to)));
    return sum;
  }

  /** @type {(column: Column, lacks: (index: number) => boolean) => boolean} */
  function lacksSome({ first, last }, lacks) {
    for (let index = first; index <= last; index++) if (lacks(index)) return true;
    return false;
  }

  /** Whether two configurations alert or answer otherwise at a moment.
   *  @type {(one: Note, other: Note) => boolean} */
  const differs = (one, other) => one.answers !== other.answers || String(one.levels) !== String(other.levels);

  /** The greatest level of several moments at each candidate, as runs.
   *  @type {(notes: Note[], step: number) => [number, number, number][]} */
  function greatest(notes, step) {
    const levels = new Uint8Array(FULL_TURN / step);
    for (const { bands } of notes) {
      for (const [from, upto, level] of bands) for (let i = from / step; i <= upto / step; i++) levels[i] = Math.max(levels[i], level);
    }
    /** @type {[number, number, number][]} */
    const runs = [];
    levels.forEach((level, i) => {
      const before = runs[runs.length - 1];
      if (before && before[2] === level) before[1] = i * step;
      else runs.push([i * step, i * step, level]);
    });
    return runs;
  }

  /** Where things are: rows of the aircraft that alert (those that alert most, where there is no room for all), the tracks under them, and the
   *  times along the foot.
   *  @type {(size: Size, model: StripModel) => StripPlaces} */
  function geometryOf({ width, height }, { times, most, ids, window, others, trk }) {
    const loud = [...most].sort(([, one], [, other]) => other - one).map(([id]) => id);
    const rows = clamp(loud.length, 0, Math.floor((0.55 * (height - MARGIN.bottom)) / ROW));
    const shown = new Set(loud.slice(0, rows));
    const last = times[times.length - 1] + medianStep(times);
    const [from, upto] = window || [times[0], last];
    const wide = width - MARGIN.left - MARGIN.right;
    const top = MARKS + (rows + Number(Boolean(others))) * ROW + 6;
    const foot = Math.round(trk / 90) * 90 - FULL_TURN / 2; // the ownship's first track is in the middle
    return { foot, width, height, first: times[0], last, from, upto, step: last - times[times.length - 1], top, tall: height - MARGIN.bottom - top,
      ids: [...ids].filter((id) => shown.has(id)), hidden: loud.length - shown.size, rowOf: (row) => MARKS + (row + 1) * ROW,
      x: (time) => MARGIN.left + ((time - from) / (upto - from)) * wide, time: (x) => from + ((x - MARGIN.left) / wide) * (upto - from) };
  }

  class Strip {
    key = "";
    /** @type {Column[]} */ columns = [];
    isCut = false;
    /** @type {any} */ g;
    /** @type {any} */ notes;
    /** @type {any} */ others;
    scale = 1;

    /** @param {HTMLCanvasElement} canvas */
    constructor(canvas) {
      this.canvas = canvas;
      this.context = must(canvas.getContext("2d"));
    }

    /** Draws what is known of the moments, and only what is new where all else is as it was. `paints` are the colours and patterns; `telling` writes
     *  a time. A model has: times, notes, others (of a second configuration, or null), most (the greatest level of each that alerts), ids, lacks
     *  (whether a moment is incomplete), the window of time or null, the first track, and the step of tracks. After so many ms as there is
     *  patience for it is cut (`isCut`), and the next call goes on.
     *  @type {(size: Size, scale: number, model: StripModel, paints: Paints, telling: (time: number) => string, patience?: number) => StripPlaces} */
    draw(size, scale, model, paints, telling, patience = Infinity) {
      const g = geometryOf(size, model);
      const key = [size.width, size.height, scale, g.from, g.upto, model.times.length, g.ids, g.hidden, model.step, paints.key].join(" ");
      if (key !== this.key || model.notes !== this.notes || model.others !== this.others) {
        Object.assign(this, { key, g, scale, notes: model.notes, others: model.others, columns: columnsOf(g, model.times) });
        this.begin(size, scale, paints, telling);
      }
      const end = performance.now() + patience;
      this.isCut = false;
      for (const column of this.columns) {
        if (column.isPainted) continue;
        this.isCut = performance.now() > end;
        if (this.isCut) break;
        const sum = sumOf(column, model.notes, model.others, model.step);
        if (!sum) continue;
        column.isPainted = true;
        this.paint(column, sum, model.step, paints);
        if (lacksSome(column, model.lacks)) this.markLack(column, paints);
      }
      return g;
    }

    /** Nothing is known yet: as on the display the ground is that of what has no answer, since a moment that is not decided is not clear.
     *  @type {(size: Size, scale: number, paints: Paints, telling: (time: number) => string) => void} */
    begin({ width, height }, scale, paints, telling) {
      const { g, context, canvas } = this;
      Object.assign(canvas, { width: width * scale, height: height * scale });
      context.setTransform(scale, 0, 0, scale, 0, 0);
      context.clearRect(0, 0, width, height);
      const wide = width - MARGIN.left - MARGIN.right;
      this.fill(paints.unknown, MARGIN.left, 0, wide, g.top + g.tall);
      context.font = FACE;
      const rows = this.others ? [...g.ids, "differs"] : g.ids;
      rows.forEach((/** @type {string} */ id, /** @type {number} */ row) => {
        this.write(id, 4, g.rowOf(row) - 2, paints.ink, "left");
        this.fill(paints.line, MARGIN.left, g.rowOf(row), wide, 1);
      });
      for (const share of [0, 2, 4]) {
        const words = `${share === 2 ? "track " : ""}${daa.angleOf(g.foot + share * 90)}`;
        this.write(words, MARGIN.left - 6, g.top + g.tall * (1 - share / 4) + [0, 4, 8][share / 2], paints.faint, "right");
      }
      this.writeTimes(paints, telling);
    }

    /** @type {(paints: Paints, telling: (time: number) => string) => void} */
    writeTimes(paints, telling) {
      const { g } = this;
      const y = g.height - 4;
      const room = 96; // points from tick to tick
      const step = niceStep((g.upto - g.from) / Math.max(1, Math.floor((g.width - MARGIN.left - MARGIN.right) / room)));
      for (let time = Math.ceil(g.from / step) * step; time <= g.upto; time += step) {
        const x = g.x(time);
        this.fill(paints.faint, x, g.top + g.tall, 1, 4);
        this.write(telling(time), clamp(x, MARGIN.left, g.width - MARGIN.right), y, paints.faint, x > g.width - 60 ? "right" : "left");
      }
      if (g.hidden) this.write(`${g.hidden} more alert`, 4, y, paints.faint, "left");
    }

    /** Where a column begins, and how wide it is: on whole points of the screen, so that no seam is seen between two.
     *  @type {(column: Column) => Pair} */
    stretchOf({ from, upto }) {
      const { g, scale } = this;
      /** @type {(x: number) => number} */
      const on = (x) => Math.round(clamp(x, MARGIN.left, g.width - MARGIN.right) * scale) / scale;
      const x = on(g.x(from));
      return [x, Math.max(on(g.x(upto)) - x, NARROWEST)];
    }

    /** All that a column shows.
     *  @type {(column: Column, sum: ColumnSum, step: number, paints: Paints) => void} */
    paint(column, sum, step, paints) {
      const { g } = this;
      const [x, wide] = this.stretchOf(column);
      this.fill(paints.clear, x, 0, wide, g.top + g.tall);
      g.ids.forEach((/** @type {string} */ id, /** @type {number} */ row) => {
        const level = sum.levels.get(id);
        if (level) this.fill(paints.levels[level], x, g.rowOf(row) - (ROW - 3) * (level / 4), wide, (ROW - 3) * (level / 4));
      });
      if (sum.isOther) this.fill(paints.ink, x, g.rowOf(g.ids.length) - ROW + 4, wide, ROW - 4);
      for (const [from, upto, level] of sum.bands) if (level) this.stretch(paints.levels[level], x, wide, from - step / 2, upto + step / 2);
      /** @type {(degree: number) => number} */
      const y = (degree) => g.top + g.tall - (wrap(degree - g.foot) / FULL_TURN) * g.tall;
      this.fill(paints.own, x, y(sum.trk) - 1, wide, 2);
      for (const to of sum.open) this.fill(paints.open, x + wide / 2 - 2, y(to) - 2, 4, 4);
    }

    /** Of a column in which some moment is incomplete: hatched at its top.
     *  @type {(column: Column, paints: Paints) => void} */
    markLack(column, paints) {
      const [from, wide] = this.stretchOf(column);
      for (let x = from; x < from + wide; x += 4) this.fill(paints.bad, x, 0, Math.min(2, from + wide - x), MARKS - 2);
    }

    /** A stretch of tracks: two boxes where it runs over the strip's foot.
     *  @type {(paint: Paint, x: number, wide: number, from: number, upto: number) => void} */
    stretch(paint, x, wide, from, upto) {
      const { g } = this;
      const each = g.tall / FULL_TURN;
      const low = wrap(from - g.foot);
      const high = low + upto - from;
      /** @type {(a: number, b: number) => void} */
      const part = (a, b) => this.fill(paint, x, g.top + g.tall - b * each, wide, (b - a) * each);
      part(low, Math.min(high, FULL_TURN));
      if (high > FULL_TURN) part(0, high - FULL_TURN);
    }

    /** @type {(paint: Paint, x: number, y: number, wide: number, tall: number) => void} */
    fill(paint, x, y, wide, tall) {
      this.context.fillStyle = paint;
      this.context.fillRect(x, y, wide, tall);
    }

    /** @type {(words: string, x: number, y: number, paint: Paint, align: CanvasTextAlign) => void} */
    write(words, x, y, paint, align) {
      Object.assign(this.context, { fillStyle: paint, textAlign: align });
      this.context.fillText(words, x, y);
    }
  }

  /** The least of the steps of times that people count in that is no shorter.
   *  @type {(least: number) => number} */
  function niceStep(least) {
    const known = [1, 2, 5, 10, 20, 30, 60, 120, 300, 600, 1200, 1800, 3600, 7200, 10800, 21600, 43200];
    return known.find((step) => step >= least) ?? Math.ceil(least / 86400) * 86400;
  }

  /** The strip in words: of moments that are not decided yet no level is told.
   *  @type {(count: number, decided: number, most: Map<string, number>) => string} */
  function toldOf(count, decided, most) {
    const level = Math.max(0, ...most.values());
    if (decided === count) return `${count} moments, the greatest alert level is ${level}`;
    return `${decided} of ${count} moments are decided${decided ? `, the greatest alert level of these is ${level}` : ""}`;
  }

  // ---- colours and patterns, as the style sheet has them

  const MARK_SIZES = [0, 8, 10, 9, 6];

  /** The paints of the strip on the ground of the screen, or on paper: a level is told by its colour and its pattern.
   *  @type {(context: CanvasRenderingContext2D, isPaper: boolean) => Paints} */
  function stripPaints(context, isPaper) {
    const probe = document.body.appendChild(document.createElement("i"));
    if (isPaper) probe.style.colorScheme = "light";
    /** @type {(name: string) => string} */
    const colour = (name) => {
      probe.style.color = `var(--${name})`;
      return getComputedStyle(probe).color;
    };
    const names = { unknown: "unknown", clear: "l0-fill", own: "own", open: "open", ink: "ink", faint: "faint", line: "line", bad: "bad" };
    /** @type {any} */
    const made = Object.fromEntries(Object.entries(names).map(([name, variable]) => [name, colour(variable)]));
    made.levels = [0, 1, 2, 3, 4].map((level) => level && patternOf(context, level, colour(`l${level}-fill`), colour(`l${level}-mark`)));
    made.key = `${made.clear} ${made.ink}`;
    probe.remove();
    return made;
  }

  /** Dots, stripes, a lattice, bars: as the displays have them.
   *  @type {(context: CanvasRenderingContext2D, level: number, fill: string, mark: string) => CanvasPattern} */
  function patternOf(context, level, fill, mark) {
    const size = MARK_SIZES[level];
    const tile = Object.assign(document.createElement("canvas"), { width: size, height: size });
    const drawn = must(tile.getContext("2d"));
    drawn.fillStyle = fill;
    drawn.fillRect(0, 0, size, size);
    drawn.strokeStyle = drawn.fillStyle = mark;
    drawn.lineWidth = [0, 0, 2, 1.5, 2.4][level];
    if (level === 1) drawn.arc(4, 4, 1.4, 0, 2 * Math.PI);
    const lines = [[], [], [[-2, 2, 2, -2], [0, 10, 10, 0], [8, 12, 12, 8]], [[0, 0, 9, 9], [9, 0, 0, 9]], [[0, 3, 9, 3]]][level];
    for (const [x1, y1, x2, y2] of lines) {
      drawn.moveTo(x1, y1);
      drawn.lineTo(x2, y2);
    }
    if (level === 1) drawn.fill();
    else drawn.stroke();
    return must(context.createPattern(tile, "repeat")); // a tile that has points
  }

  Object.assign(root.daa, { Strip, stripPaints, stripMargin: MARGIN, toldOfStrip: toldOf, differs, lastAt });
})(globalThis);
