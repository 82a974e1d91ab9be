// @ts-check
/* Where the labels of aircraft stand: within the ring, out of the way of symbols, velocity lines and each other. Of the places
 * round a symbol, near ones and farther ones, each label takes the one that costs least; a label that must be there, and has
 * no free place there, takes the cheapest one of all within the ring. No page is needed. */
"use strict";
(function (root) {
  const REACHES = [1, 1.9, 3, 4.4];
  const SIDES = [[1, 0], [-1, 0], [1, -1], [-1, -1], [1, 1], [-1, 1], [0, -1], [0, 1]];
  // What is paid for a place: for each unit of area over a label or a symbol, for each unit of length of a line under it ..
  const OVER_TEXT = 40;
  const OVER_LINE = 14;
  const OFF_DISC = 9000; // .. for each corner that is not within the ring
  const FARTHER = 260;
  const LATER_SIDE = 14;
  const AWAY = 25; // .. for each unit of length from the symbol, where none of the places round it is free
  const LITTLE = 40; // so small an area may be covered by chance
  const GRID = 6; // how far the places within the ring are from each other
  const [COARSE, CROWDED] = [4 * GRID, 8 * GRID]; // .. at first, and where there is no room
  const MOST_TRIED = 3000; // places within the ring: where so many do not suffice for the labels of a drawing, there is no room

  /** @type {(a: Box, b: Box) => number} */
  const overlap = (a, b) => Math.max(0, Math.min(a.x + a.wide, b.x + b.wide) - Math.max(a.x, b.x))
    * Math.max(0, Math.min(a.y + a.tall, b.y + b.tall) - Math.max(a.y, b.y));

  /** The point of a box that is nearest to another point.
   *  @type {(point: Point, box: Box) => Point} */
  function nearest({ x, y }, box) {
    return { x: Math.min(Math.max(x, box.x), box.x + box.wide), y: Math.min(Math.max(y, box.y), box.y + box.tall) };
  }

  /** How long the part of a line is that runs through a box.
   *  @type {(box: Box, line: Line) => number} */
  function crossing(box, { x1, y1, x2, y2 }) {
    if (Math.max(x1, x2) < box.x || Math.min(x1, x2) > box.x + box.wide) return 0;
    if (Math.max(y1, y2) < box.y || Math.min(y1, y2) > box.y + box.tall) return 0;
    let [first, last] = [0, 1];
    for (const [from, to, low, high] of [[x1, x2, box.x, box.x + box.wide], [y1, y2, box.y, box.y + box.tall]]) {
      if (from === to) {
        if (from < low || from > high) return 0;
        continue;
      }
      const [a, b] = [(low - from) / (to - from), (high - from) / (to - from)].sort((one, other) => one - other);
      [first, last] = [Math.max(first, a), Math.min(last, b)];
    }
    return first < last ? (last - first) * Math.hypot(x2 - x1, y2 - y1) : 0;
  }

  class Labels {
    tried = 0; // places within the ring

    /** Over a disc; boxes and lines are what is drawn there already.
     *  @param {Point & { radius: number }} disc
     *  @param {Box[]} boxes
     *  @param {Line[]} lines */
    constructor(disc, boxes, lines) {
      this.disc = disc;
      this.boxes = boxes;
      this.lines = lines;
    }

    /** The place of a label of some size for a symbol: its box, whether all of it is free, and whether a leader is due.
     *  @type {(symbol: Point, wide: number, tall: number, half: number, mustBe: boolean) => Spot} */
    place(symbol, wide, tall, half, mustBe) {
      const round = this.besides(symbol, wide, tall, half);
      const best = mustBe && !this.isFree(round.box) ? this.anywhere(symbol, wide, tall) || round : round;
      return { ...best.box, align: best.right, led: best.far > 0, free: this.isFree(best.box) };
    }

    /** @type {(box: Box) => boolean} */
    isFree(box) {
      return this.covered(box) < LITTLE && !this.cornersOff(box);
    }

    /** The place round a symbol that costs least.
     *  @type {(symbol: Point, wide: number, tall: number, half: number) => Placed} */
    besides(symbol, wide, tall, half) {
      /** @type {Placed} */
      let best = { box: { x: 0, y: 0, wide, tall }, cost: Infinity, right: 0, far: 0 };
      REACHES.forEach((reach, far) => SIDES.forEach(([right, down], side) => {
        const box = this.boxAt(symbol, right, down, reach * half + 4, wide, tall);
        const more = far * FARTHER + side * LATER_SIDE;
        const cost = this.cost(box, best.cost - more) + more;
        if (cost < best.cost) best = { box, cost, right, far };
      }));
      return best;
    }

    /** The place within the ring that costs least, or null where the label is larger.
     *  @type {(symbol: Point, wide: number, tall: number) => Placed | null} */
    anywhere(symbol, wide, tall) {
      const { x: cx, y: cy, radius } = this.disc;
      /** @type {Placed | null} */
      let best = null;
      for (const step of this.tried < MOST_TRIED ? [COARSE, GRID] : [CROWDED]) { // a coarse look first, after which most places are too far away
        for (let y = cy - radius; y < cy + radius - tall && (step > GRID || this.tried < MOST_TRIED); y += step) {
          for (let x = cx - radius; x < cx + radius - wide; x += step) {
            const box = { x, y, wide, tall };
            const end = nearest(symbol, box);
            const away = AWAY * Math.hypot(end.x - symbol.x, end.y - symbol.y);
            if ((best && away >= best.cost) || this.cornersOff(box)) continue;
            this.tried += 1;
            /** @type {number} */
            const cost = away + this.cost(box, best ? best.cost - away : Infinity);
            if (!best || cost < best.cost) best = { box, cost, right: Math.sign(end.x - symbol.x), far: 1 };
          }
        }
      }
      return best;
    }

    /** @type {(symbol: Point, right: number, down: number, gap: number, wide: number, tall: number) => Box} */
    boxAt({ x, y }, right, down, gap, wide, tall) {
      const left = right > 0 ? x + gap : right < 0 ? x - gap - wide : x - wide / 2;
      const top = down > 0 ? y + (right ? gap * 0.4 : gap) : down < 0 ? y - tall - (right ? gap * 0.4 : gap) : y - tall / 2;
      return { x: left, y: top, wide, tall };
    }

    /** What a place costs; where that is `most` or more, only that it is.
     *  @type {(box: Box, most?: number) => number} */
    cost(box, most = Infinity) {
      let sum = OFF_DISC * this.cornersOff(box);
      const [right, foot] = [box.x + box.wide, box.y + box.tall];
      for (const other of this.boxes) {
        if (sum >= most) return sum;
        if (other.x >= right || other.y >= foot || other.x + other.wide <= box.x || other.y + other.tall <= box.y) continue;
        sum += (other.weight ?? 1) * OVER_TEXT * overlap(box, other);
      }
      for (const line of this.lines) {
        if (sum >= most) return sum;
        sum += OVER_LINE * crossing(box, line);
      }
      return sum;
    }

    /** How much of a box is on what is there already.
     *  @type {(box: Box) => number} */
    covered(box) {
      return this.boxes.reduce((sum, other) => sum + overlap(box, other), 0);
    }

    /** How many corners of a box lie outside of the disc.
     *  @type {(box: Box) => number} */
    cornersOff({ x, y, wide, tall }) {
      /** @type {(cx: number, cy: number) => number} */
      const off = (cx, cy) => Number(Math.hypot(cx - this.disc.x, cy - this.disc.y) > this.disc.radius);
      return off(x, y) + off(x + wide, y) + off(x, y + tall) + off(x + wide, y + tall);
    }

    /** What stands at a place keeps others away: its box, and its leader where it has one.
     *  @type {(symbol: Point, spot: Spot) => void} */
    take(symbol, { x, y, wide, tall, led }) {
      this.boxes.push({ x, y, wide, tall });
      const end = nearest(symbol, { x, y, wide, tall });
      if (led) this.lines.push({ x1: symbol.x, y1: symbol.y, x2: end.x, y2: end.y });
    }
  }

  Object.assign(root.daa, { Labels, nearest });
})(globalThis);
