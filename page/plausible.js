// @ts-check
/* What cannot be right in a recording: places against speeds, tracks and climbs, and aircraft that are no others. It says what
 * tools/recordings/plausible.py says, which is an advice and decides nothing. */
"use strict";
/** @type {(root: Root) => void} */
function daaPlausible(root) {
  const { round } = root.daa.reading;
  const EARTH = Math.PI / 180;
  const APART = 30; // s: two reports that are farther apart say nothing about a speed
  const LEAST_STEPS = 5;
  const MOST_STEPS = 200; // of an aircraft, evenly over its reports
  const [STANDS, MOVES] = [5, 20]; // knots
  const TURNED = 20; // degrees
  const LEAST_CLIMB = 100; // ft
  const FARTHEST = 200; // NM: what is always farther away can't be in a moment
  const [LOW, LOW_SPEED] = [500, 60]; // ft, knots: so low and so fast nobody flies all along
  const [ECHO, ECHO_HEIGHT, LEAST_ECHO] = [0.05, 200, 10]; // NM, ft, reports
  const RADIANS = [0.007, 0.03]; // where places in radians are taken as degrees, at middle latitudes also eastward

  /** What a factor between places and speeds, or between heights and vertical speeds, is likely to come from. */
  /** @type {[number, string][]} */
  const SPEEDS = [[3600 / 1852, "speeds in m/s, taken as knots"], [1 / 1.852, "speeds in km/h, taken as knots"],
    [1852 / 3600, "speeds in knots, taken as m/s"], [1.852, "speeds in knots, taken as km/h"]];
  /** @type {[number, string][]} */
  const CLIMBS = [[-1, "vertical speeds that are positive downward"], [60 / 0.3048, "vertical speeds in m/s, taken as ft/min"],
    [60, "heights in m and vertical speeds in m/s, or vertical speeds in ft/s"], [0.3048, "heights in m, taken as ft"],
    [1 / 0.3048, "heights in ft, taken as m"], [0.01, "heights in flight levels, taken as ft"]];

  /** @type {(ratio: number, causes: [number, string][]) => string} */
  function likely(ratio, causes) {
    /** @type {(cause: [number, string]) => number} */
    const off = ([factor]) => Math.abs(ratio / factor - 1);
    const found = causes.reduce((one, other) => (off(other) < off(one) ? other : one));
    return off(found) < 0.04 ? `: ${found[1]}?` : "";
  }

  /** @type {(values: number[]) => number} */
  function median(values) {
    const sorted = [...values].sort((one, other) => one - other);
    const half = Math.floor(sorted.length / 2);
    return sorted.length % 2 ? sorted[half] : (sorted[half - 1] + sorted[half]) / 2;
  }

  /** @type {(number: number, by: number) => number} */
  const modulo = (number, by) => ((number % by) + by) % by;

  /** Each so-manieth of some reports is looked at.
   *  @type {(rows: Row[]) => number} */
  const eachOf = (rows) => Math.ceil(rows.length / MOST_STEPS);
  /** @type {(rows: Row[]) => Row[]} */
  const sampleOf = (rows) => rows.filter((_, at) => at % eachOf(rows) === 0);

  /** What an aircraft did from report to report: speeds by places and by its own word in knots, the angle between them, climbs.
   *  @type {(rows: Row[], offset: Offset) => Steps} */
  function stepsOf(rows, offset) {
    /** @type {Steps} */
    const steps = { moved: [], ratios: [], turns: [], stated: [], climbed: 0, saidClimb: 0 };
    for (let i = 1; i < rows.length; i += eachOf(rows)) {
      const [before, after] = [rows[i - 1], rows[i]];
      const apart = after.time - before.time;
      if (!(apart > 0 && apart <= APART)) continue;
      const [east, north] = offset(before.place, after.place);
      const moved = (Math.hypot(east, north) * 3600) / apart;
      const stated = Math.hypot((before.east + after.east) / 2, (before.north + after.north) / 2);
      steps.moved.push(moved);
      steps.stated.push(stated);
      if (stated > STANDS) steps.ratios.push(moved / stated);
      if (moved > MOVES && stated > STANDS) {
        const turn = (Math.atan2(east, north) - Math.atan2(before.east, before.north)) / EARTH;
        steps.turns.push(Math.abs(modulo(turn + 180, 360) - 180));
      }
      const climb = (((before.vs + after.vs) / 2) * apart) / 60;
      steps.saidClimb += Math.abs(climb);
      if (climb) steps.climbed += (after.alt - before.alt) * Math.sign(climb);
    }
    return steps;
  }

  /** What the steps of one aircraft show: kinds of fault and their numbers.
   *  @type {(rows: Row[], offset: Offset, onEarth: boolean) => Suspicion[]} */
  function onSteps(rows, offset, onEarth) {
    const steps = stepsOf(rows, offset);
    /** @type {Suspicion[]} */
    const found = [];
    if (steps.moved.length < LEAST_STEPS) return found;
    const [moved, stated] = [median(steps.moved), median(steps.stated)];
    const ratio = steps.ratios.length >= LEAST_STEPS ? median(steps.ratios) : null;
    if (ratio !== null && moved < 1) found.push(["stands", stated]);
    else if (ratio !== null && !(ratio > 0.8 && ratio < 1.25)) {
      const isRadians = onEarth && RADIANS[0] < ratio && ratio < RADIANS[1];
      found.push([`speed${isRadians ? ": places in radians, taken as degrees?" : likely(ratio, SPEEDS)}`, ratio]);
    } else if (ratio === null && moved > MOVES) found.push(["no speed", moved]);
    if (steps.turns.length >= LEAST_STEPS && median(steps.turns) > TURNED) found.push(["turned", median(steps.turns)]);
    if (steps.saidClimb && Math.max(Math.abs(steps.climbed), steps.saidClimb) >= LEAST_CLIMB) {
      const climb = steps.climbed / steps.saidClimb;
      if (Math.abs(climb) > 2.5 || (climb < 0.4 && steps.saidClimb >= LEAST_CLIMB)) found.push([`climb${likely(climb, CLIMBS)}`, climb]);
    }
    return found;
  }

  /** @type {(number: number, digits: number) => string} */
  const fixed = (number, digits) => (round(number * 10 ** digits) / 10 ** digits + 0).toFixed(digits);

  /** @type {Record<string, (number: number, cause: string) => string>} */
  const WORDS = {
    stands: (number) => `places stand still, and speeds are ${fixed(number, 0)} knots: are positions stale?`,
    speed: (number, cause) => `places move ${fixed(number, 2)} times as fast as the speeds say${cause}`,
    "no speed": (number) => `speeds are 0, and places move at ${fixed(number, 0)} knots: is there no velocity?`,
    turned: (number) => `places move ${fixed(number, 0)} degrees off the tracks: are columns in each other's place?`,
    climb: (number, cause) => `heights change ${fixed(number, 2)} times as fast as the vertical speeds say${cause}`,
    echo: () => "all along where the ownship is: its own transponder? --leave-out takes it out",
    far: (number) => `never nearer than ${fixed(number, 0)} NM to the ownship: is the sign of a latitude or longitude wrong?`,
  };

  /** What the places of an aircraft against the ownship's show.
   *  @type {(rows: Row[], own: Map<number, Row>, offset: Offset) => Suspicion[]} */
  function between(rows, own, offset) {
    const near = [];
    let nearest = Infinity;
    for (const row of sampleOf(rows)) {
      const there = own.get(round(row.time));
      if (!there) continue;
      const far = Math.hypot(...offset(there.place, row.place));
      nearest = Math.min(nearest, far);
      if (Math.abs(there.alt - row.alt) < ECHO_HEIGHT) near.push(far);
    }
    /** @type {Suspicion[]} */
    const found = [];
    if (near.length >= LEAST_ECHO && near.filter((far) => far < ECHO).length > 0.9 * near.length) found.push(["echo", 0]);
    if (FARTHEST < nearest && nearest < Infinity) found.push(["far", nearest]);
    return found;
  }

  /** The reports of each aircraft in the order of their times.
   *  @type {(rows: Row[]) => Map<string, Row[]>} */
  function byName(rows) {
    /** @type {Map<string, Row[]>} */
    const found = new Map();
    for (const row of rows) {
      if (row.lack) continue;
      const some = found.get(row.name) ?? [];
      some.push(row);
      found.set(row.name, some);
    }
    for (const some of found.values()) some.sort((one, other) => one.time - other.time);
    return found;
  }

  /** Some names in words.
   *  @type {(names: string[]) => string} */
  function namesOf(names) {
    if (names.length > 4) return `${names.slice(0, 3).join(", ")} and ${names.length - 3} more`;
    return names.length > 1 ? `${names.slice(0, -1).join(", ")} and ${names[names.length - 1]}` : names[0];
  }

  /** A difference of times in words.
   *  @type {(seconds: number) => string} */
  function shownShift(seconds) {
    const size = Math.abs(seconds);
    const quarters = round(size / 900);
    const isWhole = quarters && Math.abs(size - quarters * 900) < 60;
    return `${isWhole ? `${quarters / 4} h` : `${fixed(size, 0)} s`} ${seconds > 0 ? "later" : "earlier"}`;
  }

  /** What cannot be right, one sentence for each kind of fault; `offset` is that of the plane.
   *  @type {(rows: Row[], ownName: string, onEarth: boolean, offset: Offset) => string[]} */
  function implausible(rows, ownName, onEarth, offset) {
    const aircraft = byName(rows);
    const own = new Map((aircraft.get(ownName) || []).map((row) => [round(row.time), row]));
    /** @type {Map<string, Suspicion[]>} */
    const faults = new Map();
    for (const [name, some] of aircraft) {
      for (const [kind, number] of [...onSteps(some, offset, onEarth), ...(name === ownName ? [] : between(some, own, offset))]) {
        faults.set(kind, [...(faults.get(kind) || []), [name, number]]);
      }
    }
    const told = [...faults].map(([kind, found]) => {
      const at = kind.indexOf(":");
      const [word, cause] = at < 0 ? [kind, ""] : [kind.slice(0, at), kind.slice(at)];
      return `${namesOf(found.map(([name]) => name))}: ${WORDS[word](median(found.map(([, number]) => number)), cause)}`;
    });
    return [...told, ...onTimes(aircraft, ownName), ...onNames(aircraft), ...onHeights(aircraft)];
  }

  /** Aircraft whose times never meet the ownship's.
   *  @type {(aircraft: Map<string, Row[]>, ownName: string) => string[]} */
  function onTimes(aircraft, ownName) {
    const own = aircraft.get(ownName);
    if (!own) return [];
    const [first, last] = [own[0].time, own[own.length - 1].time];
    return [...aircraft].filter(([name, rows]) => name !== ownName && (rows[rows.length - 1].time < first - APART || rows[0].time > last + APART))
      .map(([name, rows]) => `${name}: times never meet the ownship's, and begin ${shownShift(rows[0].time - first)}: another time zone?`);
  }

  /** Names that differ in capitals alone.
   *  @type {(aircraft: Map<string, Row[]>) => string[]} */
  function onNames(aircraft) {
    const seen = new Map();
    /** @type {string[]} */
    const told = [];
    for (const name of aircraft.keys()) {
      const small = name.toLowerCase();
      if (seen.has(small)) told.push(`${seen.get(small)} and ${name}: names that differ in capitals alone: one aircraft?`);
      else seen.set(small, name);
    }
    return told;
  }

  /** Heights that are so low that they are likely in another unit.
   *  @type {(aircraft: Map<string, Row[]>) => string[]} */
  function onHeights(aircraft) {
    const rows = [...aircraft.values()].flatMap(sampleOf);
    const highest = rows.reduce((most, row) => Math.max(most, Math.abs(row.alt)), 0);
    /** @type {(some: Row[]) => boolean} */
    const isFast = (some) => median(sampleOf(some).map((row) => Math.hypot(row.east, row.north))) > LOW_SPEED;
    return highest > 0 && highest < LOW && [...aircraft.values()].every(isFast)
      ? [`no height is above ${fixed(highest, 0)} ft: heights in flight levels, taken as ft?`] : [];
  }

  Object.assign(root.daa, { implausible });
}
daaPlausible(globalThis);
