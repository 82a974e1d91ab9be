// @ts-check
/* A candidate's flight, second by second, as the definitions have it, and a recording in which the ownship flies one from some moment on, while the
 * traffic goes on as recorded. No page is needed. */
"use strict";
/** @type {(root: Root) => void} */
function daaFlight(root) {
  const { ONE, isPlace, placeSeen, seenFrom } = root.daa.ellipsoid;
  const RADIANS = Math.PI / 180;
  const [MIL, FOOT] = [36, 60]; // units of a thousandth of a nautical mile, and of a foot
  const MOST = 200000; // of a place, on both sides of 0
  const ALTITUDES = [-2000, 60000];
  const MOST_TURN = 45; // degrees: with the meridians' convergence it is no right angle

  /** The sine of whole degrees, in ten thousandths.
   *  @type {(degrees: number) => number} */
  const sine = (degrees) => Math.round(10000 * Math.sin(degrees * RADIANS));

  /** East and north of a ground speed along a track, cut toward zero.
   *  @type {(gs: number, trk: number) => Pair} */
  const velocityOf = (gs, trk) => [Math.trunc((gs * sine(trk)) / 10000), Math.trunc((gs * sine(90 - trk)) / 10000)];

  /** A value that goes toward another one by at most so much.
   *  @type {(from: number, to: number, by: number) => number} */
  const toward = (from, to, by) => (to >= from ? Math.min(from + by, to) : Math.max(from - by, to));

  /** @type {(degrees: number) => number} */
  const wrap = (degrees) => ((degrees % 360) + 360) % 360;

  /** A track turned toward another one by at most so much: right where that is at most half a turn, else left.
   *  @type {(track: number, to: number, most: number) => number} */
  function turned(track, to, most) {
    const right = wrap(to - track);
    return right <= 180 ? wrap(track + Math.min(most, right)) : wrap(track - Math.min(most, 360 - right));
  }

  /** How the ownship moves in the second from k on: track, ground speed, vertical speed. `kind` is track, gs, vs or alt, or null for the present
   *  flight.
   *  @type {(own: Own, grids: Grids, kind: string | null, value: number, k: number) => { trk: number, gs: number, vs: number }} */
  function motionAt(own, grids, kind, value, k) {
    const { trk, gs, vs, alt } = own;
    if (kind === "track") return { trk: turned(trk, value, k * grids.track.rate), gs, vs };
    if (kind === "gs") return { trk, gs: toward(gs, value, k * grids.gs.rate), vs };
    if (kind === "vs") return { trk, gs, vs: toward(vs, value, k * grids.vs.rate) };
    if (kind !== "alt") return { trk, gs, vs };
    /** @type {(after: number) => number} */
    const height = (after) => toward(FOOT * alt, FOOT * value, after * grids.alt.rate);
    return { trk, gs, vs: height(k + 1) - height(k) };
  }

  /** The ownship after so many seconds of a candidate's flight, as state lines have it; `at` must be asked for seconds that don't fall. */
  class Flight {
    /** @param {Own} own
     *  @param {Grids} grids
     *  @param {string | null} kind
     *  @param {number} value */
    constructor(own, grids, kind, value) {
      this.motion = (/** @type {number} */ k) => motionAt(own, grids, kind, value, k);
      this.second = 0;
      this.place = [MIL * own.x, MIL * own.y, FOOT * own.alt];
    }

    /** @type {(seconds: number) => Own} */
    at(seconds) {
      for (; this.second < seconds; this.second++) {
        const { trk, gs, vs } = this.motion(this.second);
        const [east, north] = velocityOf(gs, trk);
        this.place = [this.place[0] + east, this.place[1] + north, this.place[2] + vs];
      }
      const [x, y, up] = this.place;
      return { x: Math.round(x / MIL), y: Math.round(y / MIL), alt: Math.round(up / FOOT), ...this.motion(seconds) };
    }
  }

  /** @type {(x: number, y: number) => boolean} */
  const isWithin = (x, y) => Math.abs(x) <= MOST && Math.abs(y) <= MOST;

  const NUMBER = "(-?[0-9]{1,3}(?:\\.[0-9]{1,9})?)";
  const ORIGIN = new RegExp(`^#[ \\t]+origin[ \\t]+${NUMBER}[ \\t]+${NUMBER}[ \\t]+${NUMBER}$`);

  /** Where the ownship of a moment is on the globe, and by how much its plane is turned; null where no comment tells a place that is in range.
   *  @type {(moment: { comments: string[] }) => Centre | null} */
  function centreOf({ comments }) {
    const [lat = NaN, lon = NaN, turn = NaN] = comments.flatMap((text) => ORIGIN.exec(text)?.slice(1, 4) ?? []).map(Number);
    const place = { lat: Math.round(ONE * lat), lon: Math.round(ONE * lon), vx: 0, vy: 0 };
    return isPlace(place) && Math.abs(turn) <= MOST_TURN ? { place, turn: Math.round(10000 * turn) } : null;
  }

  /** @type {(centre: Centre) => string} */
  const originOf = ({ place, turn }) => `# origin ${(place.lat / ONE).toFixed(7)} ${(place.lon / ONE).toFixed(7)} ${(turn / 10000).toFixed(4)}`;

  /** An aircraft of one plane, in which the ownship has that place, in another one; null where it is out of range, or far.
   *  @type {(one: Aircraft, from: Centre, own: Point, to: Centre, ownThere: Point) => Aircraft | null} */
  function inPlane(one, from, own, to, ownThere) {
    const found = placeSeen(from.place, { ...one, x: one.x - own.x, y: one.y - own.y }, from.turn);
    const seen = found && seenFrom(to.place, found.place, to.turn);
    if (!seen) return null;
    const [x, y] = [ownThere.x + seen.x, ownThere.y + seen.y];
    return isWithin(x, y) ? { ...one, ...seen, x, y } : null;
  }

  /** Moments from one on, in which the ownship flies a candidate from there, in the plane of that moment, and the traffic goes on as it was. Where
   *  the moments tell where they are on the globe, so do those that are made: the traffic is put into the plane round the ownship that flies, which
   *  is turned so that directions are those of the first plane. They end where the ownship is out of range, or only some tell where they are.
   *  @param {ShownMoment[]} moments
   *  @param {Grids} grids
   *  @param {string | null} kind
   *  @param {number} value
   *  @returns {Moment[]} */
  function flown(moments, grids, kind, value) {
    const [first] = moments;
    const flight = new Flight(first.own, grids, kind, value);
    const centre = centreOf(first);
    /** @type {Moment[]} */
    const made = [];
    for (const { recorded, ...moment } of moments) {
      const isFirst = !made.length;
      const own = isFirst ? first.own : flight.at(moment.time - first.time);
      const from = centreOf(moment);
      const to = centre && placeSeen(centre.place, { x: own.x - first.recorded.x, y: own.y - first.recorded.y, vx: 0, vy: 0 }, centre.turn);
      const isTold = centre || from ? from && to : true;
      if (!isFirst && !(isTold && isWithin(own.x, own.y) && ALTITUDES[0] <= own.alt && own.alt <= ALTITUDES[1])) break;
      const traffic = isFirst || !from || !to ? moment.traffic : moment.traffic.flatMap((one) => inPlane(one, from, recorded, to, own) ?? []);
      const comments = moment.comments.filter((text) => !ORIGIN.test(text));
      made.push({ ...moment, own, traffic, comments: to ? [...comments, originOf(to)] : comments });
    }
    return made;
  }

  Object.assign(root.daa, { Flight, flownFrom: flown });
}
daaFlight(globalThis);
