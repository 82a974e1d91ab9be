// @ts-check
/* Recordings made into state lines: what tools/from_daa does, which describes it. reading.js reads the rows; each report of the ownship
 * is a moment, with the latest report of every other aircraft until then. No page is needed. */
"use strict";
/** @type {(root: Root) => void} */
function daaRecording(root) {
  const { readText, round, many } = root.daa.reading;
  const { ONE, nearest, isPlace, seenFrom } = root.daa.ellipsoid;
  const { NoRecording } = root.daa;
  const EARTH = Math.PI / 180;
  /** @type {Record<string, number>} */
  const RANGES = { x: 200000, y: 200000, vx: 10000, vy: 10000, vs: 10000 }; // on both sides of 0
  const ALTITUDES = [-2000, 60000];
  const FASTEST = 10000;
  const OLDEST = 10; // s: as tools/from_daa has it where nothing else is asked
  const MOST_AGE = 60; // s: more cannot be asked for
  const HOUR = 3600; // s
  const LAST_SECOND = 4294967295;
  const FARTHEST_OWN = 100; // NM: an ownship that is farther from where it began is put at 0 0
  const NEAR = 40; // NM: an aircraft that is left out and was nearer, flown straight on, is told in its moment
  const FORGOTTEN = 300; // s: after so long an old report says nothing any more about where an aircraft is
  const MOST_LACKS = 20; // aircraft that a moment lacks and that are named one by one
  const [MOST_NAME, MOST_CAUSE] = [50, 200]; // characters of a name and of a cause in a comment
  const MOST_NAMES = 5; // so many names that are changed are told one by one
  const ROUNDING = 1e-6; // s: what the rounding of a time's unit may cost

  /** @type {(why: string) => never} */
  const fail = (why) => { throw new NoRecording(why); };

  /** The rest of a division, from 0 on.
   *  @type {(number: number, by: number) => number} */
  function modulo(number, by) {
    const rest = number % by;
    return rest < 0 ? rest + by : rest;
  }

  /** A number with so many digits after its point, never -0.
   *  @type {(number: number, digits: number) => string} */
  const fixed = (number, digits) => (round(number * 10 ** digits) / 10 ** digits + 0).toFixed(digits);

  /** The second that a time lies in.
   *  @type {(time: number) => number} */
  const wholeSecond = (time) => Math.floor(time + ROUNDING);

  /** @type {(time: number) => string} */
  const shownTime = (time) => String(Number(time.toPrecision(10)));

  /** An identifier of at most 8 letters for each name: the name itself, or one that keeps the digits at its end.
   *  @type {(names: string[]) => Map<string, string>} */
  function identifiers(names) {
    /** @type {(name: string) => boolean} */
    const isSound = (name) => /^[A-Za-z0-9_-]{1,8}$/.test(name);
    const given = new Map(names.filter(isSound).map((name) => [name, name]));
    const taken = new Set(given.values());
    let spare = 0;
    for (const name of names.filter((one) => !isSound(one))) {
      const clean = name.replace(/[^A-Za-z0-9_-]/g, "");
      const [digits] = clean.match(/[0-9]{0,7}$/) ?? [""];
      let short = clean.length <= 8 ? clean : clean.slice(0, 8 - digits.length) + digits;
      while (!short || taken.has(short)) short = `A${spare++}`;
      taken.add(short);
      given.set(name, short);
    }
    return given;
  }

  // ---- the plane

  /** A place on the globe, and a velocity, as the plane round an ownship takes them.
   *  @type {(place: Pair, east: number, north: number) => Place} */
  const onGlobe = ([lat, lon], east, north) => ({ lat: round(ONE * lat), lon: round(ONE * lon), vx: round(10 * east), vy: round(10 * north) });

  /** How far a second place is east and north of a first one, in NM: on the globe roughly, where a degree is 60 miles.
   *  @type {(onEarth: boolean) => Offset} */
  function offsetOn(onEarth) {
    if (!onEarth) return (one, other) => [other[0] - one[0], other[1] - one[1]];
    return (one, other) => {
      const middle = ((one[0] + other[0]) / 2) * EARTH;
      return [(modulo(other[1] - one[1] + 180, 360) - 180) * 60 * Math.cos(middle), (other[0] - one[0]) * 60];
    };
  }

  /** Turned to the left by an angle.
   *  @type {(east: number, north: number, angle: number) => Pair} */
  const rotated = (east, north, angle) => [east * Math.cos(angle) - north * Math.sin(angle), east * Math.sin(angle) + north * Math.cos(angle)];

  /** @type {(alt: number) => boolean} */
  const isAltitude = (alt) => ALTITUDES[0] <= alt && alt <= ALTITUDES[1];
  /** @type {(state: Record<string, any>, fields: string[]) => boolean} */
  const isWithin = (state, fields) => isAltitude(state.alt) && fields.every((field) => Math.abs(state[field]) <= RANGES[field]);

  /** Makes moments of the reports that it takes, in the order of their times. */
  class Maker {
    /** @type {Map<string, any[]>} */ leftOut = new Map();
    far = 0;
    /** @type {Map<string, Row>} */ latest = new Map();
    /** @type {Map<string, Row>} */ incomplete = new Map();
    /** @type {number[]} */ steps = [];
    /** @type {Map<string, number[]>} */ lacking = new Map();
    /** @type {Map<string, number>} */ gaps = new Map();
    /** @type {number[][]} */ ownGaps = [];
    /** @type {Moment[]} */ made = [];
    last = -1;
    /** @type {Row | null} */ pending = null;
    /** @type {Row | null} */ start = null;
    silence = "";

    /** @param {string} ownName
     *  @param {boolean} onEarth
     *  @param {number} oldest
     *  @param {string[]} names */
    constructor(ownName, onEarth, oldest, names) {
      this.ownName = ownName;
      this.onEarth = onEarth;
      this.oldest = oldest;
      this.offset = offsetOn(onEarth);
      this.ids = identifiers(names);
    }

    /** The moments that were made since they were taken last.
     *  @type {() => Moment[]} */
    takeMade() { return this.made.splice(0); }

    /** Counts what is left out: a thing by its name, and why.
     *  @type {(what: string, why: string) => void} */
    leaveOut(what, why) {
      const [count] = this.leftOut.get(what + why) || [0];
      this.leftOut.set(what + why, [count + 1, what, why]);
    }

    /** @type {(name: string) => string} */
    idOf(name) {
      if (!this.ids.has(name)) this.ids = identifiers([...this.ids.keys(), name]);
      return this.ids.get(name) ?? ""; // which each name has
    }

    /** A moment waits for what is reported at the same time.
     *  @type {(row: Row) => void} */
    take(row) {
      if (this.pending && row.time > this.pending.time) this.flush();
      if (row.name !== this.ownName) this.takeTraffic(row);
      else if (this.pending) this.leaveOut("moment", "in a second that has one already, or out of range");
      else this.pending = row;
    }

    /** @type {(row: Row) => void} */
    takeTraffic(row) {
      if (row.lack) this.incomplete.set(row.name, row);
      else {
        const before = this.latest.get(row.name);
        if (before) this.noteGap(row.name, row.time - before.time);
        this.latest.set(row.name, row);
        this.incomplete.delete(row.name);
      }
    }

    /** Notes how long an aircraft was not heard.
     *  @type {(name: string, seconds: number) => void} */
    noteGap(name, seconds) {
      if (seconds > (this.gaps.get(name) ?? 0)) this.gaps.set(name, seconds);
    }

    flush() {
      const row = this.pending;
      this.pending = null;
      if (row) this.addMoment(row);
    }

    /** @type {(row: Row) => void} */
    addMoment(row) {
      const start = (this.start ??= row);
      const time = wholeSecond(row.time);
      const { last } = this;
      if (time < Math.max(last + 1, 0) || time > LAST_SECOND) {
        this.leaveOut("moment", "in a second that has one already, or out of range");
        return;
      }
      const found = row.lack ? null : this.ownOf(row, start);
      if (!found) {
        this.leaveOut("moment", row.lack ? `whose ownship has ${row.lack}` : "whose ownship is out of range");
        this.silence = row.lack ? `of the ownship ${row.lack}` : "the ownship is out of range";
        return;
      }
      const silence = this.silence || this.silenceBetween(last, time);
      const { traffic, comments } = this.trafficAt(row, found, time);
      if (this.onEarth) comments.push(`# origin ${fixed(row.place[0], 7)} ${fixed(row.place[1], 7)} ${fixed(found.angle / EARTH, 4)}`);
      this.made.push({ time, own: found.own, traffic, silence, comments });
      Object.assign(this, { silence: "", last: time });
    }

    /** Why there is no moment between two seconds, or nothing: where more than two of the recording's steps lie between them. The median
     *  of the steps so far is the recording's.
     *  @type {(last: number, time: number) => string} */
    silenceBetween(last, time) {
      if (last < 0) return "";
      const step = time - last;
      const usual = this.steps.length ? this.steps[Math.floor(this.steps.length / 2)] : step;
      let [low, high] = [0, this.steps.length];
      while (low < high) {
        const middle = (low + high) >> 1;
        if (step < this.steps[middle]) high = middle;
        else low = middle + 1;
      }
      this.steps.splice(low, 0, step);
      if (step <= 2 * usual) return "";
      this.ownGaps.push([step, last, time]);
      return `no report of the ownship between ${last} and ${time} s`;
    }

    /** The ownship's numbers, where it is on the globe, and by how much the plane is turned (in 0.0001 degree, and as an angle), so that
     *  rounding its track costs nothing.
     *  @type {(row: Row, start: Row) => OwnFrame | null} */
    ownOf(row, start) {
      const moving = row.east || row.north;
      const track = modulo(moving ? Math.atan2(row.east, row.north) * (180 / Math.PI) : row.track, 360);
      const whole = round(track);
      const turn = round(10000 * (track - whole));
      const place = this.onEarth ? onGlobe(row.place, 0, 0) : null;
      if (place && !isPlace(place)) return null;
      const at = this.ownPlace(row, place, start);
      const own = { x: at ? at[0] : 0, y: at ? at[1] : 0, alt: round(row.alt), trk: whole % 360, gs: round(10 * Math.hypot(row.east, row.north)),
        vs: round(row.vs) };
      if (!isWithin(own, ["vs"]) || own.gs > FASTEST) return null;
      this.far += Number(!at);
      return { own, place, turn, angle: (place ? turn / 10000 : track - whole) * EARTH };
    }

    /** Where the ownship is in the plane round where it began, or null where that is too far away.
     *  @type {(row: Row, place: Place | null, start: Row) => Pair | null} */
    ownPlace(row, place, start) {
      if (place) {
        const seen = seenFrom(onGlobe(start.place, 0, 0), place, 0);
        return seen && [seen.x, seen.y];
      }
      const [east, north] = this.offset(start.place, row.place);
      return Math.max(Math.abs(east), Math.abs(north)) <= FARTHEST_OWN ? [round(1000 * east), round(1000 * north)] : null;
    }

    /** An aircraft's numbers, or null where they are out of range: its latest report, flown straight on by the fraction of a second.
     *  @type {(row: Row, ownRow: Row, frame: OwnFrame, way: Pair) => Aircraft | null} */
    trafficOf(row, ownRow, { own, place, turn, angle }, way) {
      const late = ownRow.time - row.time;
      const age = Math.min(wholeSecond(late), MOST_AGE);
      const part = late - age;
      const seen = place ? this.seenOnGlobe(row, place, turn, part) : this.seenInPlane(row, way, angle, part);
      if (!seen) return null;
      const made = { id: this.idOf(row.name), x: own.x + seen.x, y: own.y + seen.y, alt: round(row.alt + (row.vs * part) / 60),
        vx: seen.vx, vy: seen.vy, vs: round(row.vs), age };
      return isWithin(made, ["x", "y", "vx", "vy", "vs"]) ? made : null;
    }

    /** Place and velocity, so many seconds after the report, of an aircraft of a recording in a plane.
     *  @type {(row: Row, way: Pair, angle: number, seconds: number) => Seen} */
    seenInPlane(row, [east, north], angle, seconds) {
      const place = rotated(east + (row.east * seconds) / 3600, north + (row.north * seconds) / 3600, angle);
      const speed = rotated(row.east, row.north, angle);
      return { x: round(1000 * place[0]), y: round(1000 * place[1]), vx: round(10 * speed[0]), vy: round(10 * speed[1]) };
    }

    /** The same of a recording on the globe, by the numbers of daa_plane and daa_fly; or null where it is out of range.
     *  @type {(row: Row, own: Place, turn: number, seconds: number) => Seen | null} */
    seenOnGlobe(row, own, turn, seconds) {
      const seen = seenFrom(own, onGlobe(row.place, row.east, row.north), turn);
      const ms = round(1000 * seconds);
      return seen && { ...seen, x: seen.x + nearest(seen.vx * ms, 36000), y: seen.y + nearest(seen.vy * ms, 36000) };
    }

    /** The nearest aircraft, as many as there may be, in the order in which the recording first has them; the comments on those that the
     *  moment lacks.
     *  @type {(ownRow: Row, frame: OwnFrame, time: number) => { traffic: Aircraft[], comments: string[] }} */
    trafficAt(ownRow, frame, time) {
      /** @type {[number, Row, Pair][]} */
      const there = [];
      /** @type {Lacking[]} */
      const lacking = [];
      /** @type {Map<string, Aircraft>} */
      const found = new Map();
      for (const [name, row] of [...this.latest]) {
        const late = ownRow.time - row.time;
        if (late > FORGOTTEN + ROUNDING) {
          this.latest.delete(name);
          continue;
        }
        const way = this.offset(ownRow.place, row.place);
        const far = Math.hypot(way[0] + (row.east * late) / 3600, way[1] + (row.north * late) / 3600);
        if (late > this.oldest + ROUNDING) {
          this.leaveOut("aircraft", `whose report is older than ${this.oldest} s, in a moment`);
          lacking.push([far, name, this.lackOf(row, ownRow.time)]);
          this.noteGap(name, late);
        } else there.push([far, row, way]);
      }
      const isCrowded = there.length > daa.MOST_AIRCRAFT;
      if (isCrowded) there.sort(([one], [other]) => one - other);
      for (const [far, row, way] of there) {
        const made = found.size < daa.MOST_AIRCRAFT ? this.trafficOf(row, ownRow, frame, way) : null;
        if (made) found.set(row.name, made);
        else {
          this.leaveOut("aircraft", "out of range, or more than there may be, in a moment");
          lacking.push([far, row.name, found.size === daa.MOST_AIRCRAFT ? `more than ${daa.MOST_AIRCRAFT} aircraft` : "out of range"]);
        }
      }
      lacking.push(...this.incompleteAt(ownRow));
      const traffic = isCrowded ? [...this.latest.keys()].flatMap((name) => found.get(name) ?? []) : [...found.values()];
      return { traffic, comments: this.commentsOn(lacking, time) };
    }

    /** Why a moment lacks an aircraft whose last whole report is old.
     *  @type {(row: Row, now: number) => string} */
    lackOf(row, now) {
      const newer = this.incomplete.get(row.name);
      return newer && now - newer.time <= this.oldest + ROUNDING ? newer.lack : `no report for ${wholeSecond(now - row.time)} s`;
    }

    /** The aircraft of which only reports came that lack something, with their distance and what they lack.
     *  @type {(ownRow: Row) => Lacking[]} */
    incompleteAt(ownRow) {
      /** @type {Lacking[]} */
      const found = [];
      for (const [name, row] of [...this.incomplete]) {
        const late = ownRow.time - row.time;
        if (late > FORGOTTEN + ROUNDING) this.incomplete.delete(name);
        else if (!this.latest.has(name)) {
          const why = late <= this.oldest + ROUNDING ? row.lack : `no report for ${wholeSecond(late)} s`;
          found.push([Math.hypot(...this.offset(ownRow.place, row.place)), name, why]);
        }
      }
      return found;
    }

    /** The comments on those that a moment lacks and that were near, the nearest one first.
     *  @type {(lacking: Lacking[], time: number) => string[]} */
    commentsOn(lacking, time) {
      const near = lacking.filter(([far]) => far <= NEAR).sort(([one], [other]) => one - other);
      for (const [, name] of near) {
        const [first, , count] = this.lacking.get(name) || [time, time, 0];
        this.lacking.set(name, [first, time, count + 1]);
      }
      const causes = near.map(([far, name, why]) => [this.idOf(name), `${why}, ${fixed(far, 1)} NM away`]);
      const comments = causes.slice(0, MOST_LACKS).map(([id, why]) => `# lacks ${id} ${why.slice(0, MOST_CAUSE)}`);
      if (causes.length > MOST_LACKS) comments.push(`# lacks * ${causes.length - MOST_LACKS} more`);
      return comments;
    }

    /** The whole names and call signs of aircraft, by their identifiers.
     *  @type {(labels: Map<string, string>) => Map<string, string>} */
    wholeNames(labels) {
      /** @type {(name: string, short: string) => string} */
      const wordsOf = (name, short) => [name, labels.get(name) ?? ""].filter((word) => word && word !== short).join(" ");
      const others = [...this.ids].filter(([name]) => name !== this.ownName);
      const named = others.map(([name, short]) => /** @type {[string, string]} */ ([short, wordsOf(name, short)]));
      return new Map(named.filter(([, words]) => words));
    }
  }

  /** @type {(own: Own) => string} */
  const ownLine = (own) => `own ${own.x} ${own.y} ${own.alt} ${own.trk} ${own.gs} ${own.vs}`;
  /** @type {(one: Aircraft, form: number) => string} */
  const trafficLine = (one, form) => `traffic ${one.id} ${one.x} ${one.y} ${one.alt} ${one.vx} ${one.vy} ${one.vs}${form === 2 ? ` ${one.age}` : ""}`;
  /** @type {(name: string) => string} */
  const shortened = (name) => [...name].slice(0, MOST_NAME).join("");

  /** The state lines of moments, in format 2 where some report has an age; with the comments of each moment, where it has some, others
   *  before the first one, and the whole names of aircraft before the moment that first names them.
   *  @type {(some: Iterable<Moment>, head?: string[], wholeNames?: Map<string, string>) => string} */
  function stateLines(some, head = [], wholeNames = new Map()) {
    const moments = [...some];
    const form = moments.some(({ traffic }) => traffic.some((one) => one.age)) ? 2 : 1;
    return linesIn(form, moments, [...(form === 2 ? ["format 2"] : []), ...head], wholeNames);
  }

  /** The state lines of moments in a format, after the lines of a head.
   *  @type {(form: number, moments: Moment[], head?: string[], wholeNames?: Map<string, string>) => string} */
  function linesIn(form, moments, head = [], wholeNames = new Map()) {
    const lines = [...head];
    const untold = new Map(wholeNames);
    for (const { time, own, traffic, silence, comments = [] } of moments) {
      const named = untold.size ? [...traffic.map(({ id }) => id), ...comments.map((line) => line.split(" ")[2])] : [];
      for (const [id, words] of untold) {
        if (named.includes(id)) {
          lines.push(`# name ${id} ${shortened(words)}`);
          untold.delete(id);
        }
      }
      if (silence) lines.push(`# no moment: ${silence.slice(0, MOST_CAUSE)}`);
      lines.push(`moment ${time}`, ...comments, ownLine(own), ...traffic.map((one) => trafficLine(one, form)), "end");
    }
    return lines.map((line) => line + "\n").join("");
  }

  /** What was read of all files: the rows, the sources, the call signs of aircraft. Each tells of itself, by its name where there are several.
   *  @type {(files: Named[]) => ReadFiles} */
  function readFiles(files) {
    const isNamed = files.length > 1;
    const read = files.map(({ name, text }) => {
      try {
        return { name, ...readText(text, name) };
      } catch (/** @type {any} */ problem) {
        if (problem instanceof NoRecording && isNamed) fail(`${name}: ${problem.message}`);
        throw problem;
      }
    });
    const sources = read.map(({ source }) => source);
    const other = read.find(({ source }) => source.form.onEarth !== sources[0].form.onEarth);
    if (other) fail(`${other.name} and ${read[0].name} are no one recording: one has latitudes and longitudes, the other places on a plane`);
    /** @type {(act: (source: any) => string[]) => string[]} */
    const told = (act) => sources.flatMap((source) => act(source).map((words) => (isNamed ? `${source.path}: ${words}` : words)));
    return { rows: read.flatMap(({ rows }) => rows), sources, labels: new Map(sources.flatMap(({ form }) => [...form.labels])),
      faults: told((source) => source.toldFaults()), taken: told((source) => source.toldTaken()), notes: told((source) => source.told()) };
  }

  /** The ownship where none is named: the first aircraft; of several files, whose order means nothing, the first that is called own..
   *  @type {(names: string[], sources: any[]) => string} */
  const ownOf = (names, sources) => (sources.length > 1 && names.find((name) => /^own/i.test(name))) || sources[0].form.firstName;

  /** Why no report of traffic falls into the time of the ownship, and by what shift it would: whole hours, where some do, since clocks
   *  often differ by a time zone.
   *  @type {(rows: Row[], own: string) => string} */
  function whyAlone(rows, own) {
    /** @type {(some: Row[]) => Pair} */
    const span = (some) => some.reduce(([first, last], { time }) => [Math.min(first, time), Math.max(last, time)], [Infinity, -Infinity]);
    const others = rows.filter((row) => row.name !== own);
    if (!others.length) return "no other aircraft: the recording has reports of the ownship alone";
    const [[first, last], [from, upto]] = [span(rows.filter((row) => row.name === own)), span(others)];
    if (from <= last && upto >= first) return "no other aircraft was near enough at any time of the ownship's";
    const hours = HOUR * (from > last ? Math.floor((last - from) / HOUR) : Math.ceil((first - upto) / HOUR));
    const shift = from + hours <= last && upto + hours >= first ? hours : first - from;
    return `no report of another aircraft falls into the ownship's time, ${shownTime(first)} to ${shownTime(last)} s: theirs are from `
      + `${shownTime(from)} to ${shownTime(upto)} s, and ${shownTime(Math.abs(shift))} s ${shift < 0 ? "less" : "more"} would bring them there`;
  }

  /** Where the ownship's times fall.
   *  @type {(rows: Row[], ownName: string) => string[]} */
  function toldFalls(rows, ownName) {
    const times = rows.filter((row) => row.name === ownName).map((row) => row.time);
    const fall = times.findIndex((time, place) => time < times[place - 1]);
    if (fall < 1) return [];
    return [`the ownship's times fall, from ${shownTime(times[fall - 1])} to ${shownTime(times[fall])} s: the reports are taken in the order of `
      + "their times"];
  }

  /** Where the heights of a recording are not all of one kind.
   *  @type {(sources: any[]) => string[]} */
  function toldHeights(sources) {
    if (new Set(sources.map(({ form }) => form.isBarometric)).size < 2) return [];
    /** @type {(form: { isBarometric: boolean | null }) => string} */
    const kindOf = ({ isBarometric }) => (isBarometric === null ? "of a kind that is not told" : isBarometric ? "barometric" : "geometric");
    const files = sources.map(({ path, form }) => `${path} ${kindOf(form)}`).join(", ");
    return [`heights are mixed: ${files}; barometric and geometric heights may differ by more than a level's zthr (docs/GUIDE.md): `
      + "--altitude chooses"];
  }

  /** A recording, seen from an aircraft of it (the first where none is named): `moments` gives them one after the other, and `end`, once all are
   *  taken, its names; what is wrong (`faults`); whom moments lack and when (`lacking`); which columns and units were taken (`taken`); what else is
   *  to be told (`notes`); and why no traffic is known in any moment, or nothing (`alone`). `wasTaken` says shortly what was
   *  taken. Several files are one recording, of which each may have
   *  a header of its own. No report is older than `oldest` seconds.
   *  @type {(files: Named[], choice?: { own?: string | null, oldest?: number }) => OpenRecording} */
  function openRecording(files, { own: ownName = null, oldest = OLDEST } = {}) {
    const { rows, sources, labels, faults, taken, notes } = readFiles(files);
    const names = [...new Set(rows.filter((row) => !row.lack).map((row) => row.name))];
    const own = ownName !== null && names.includes(ownName) ? ownName : ownOf(names, sources);
    if (!names.includes(own)) fail(`no report of ${own}, the first aircraft, can be read; --own NAME takes another one as the ownship`);
    const { onEarth } = sources[0].form;
    faults.push(...toldFalls(rows, own), ...toldHeights(sources), ...daa.implausible(rows, own, onEarth, offsetOn(onEarth)));
    if (files.length > 1) notes.unshift(`${files.length} files are one recording: ${files.map(({ name }) => name).join(", ")}`);
    const maker = new Maker(own, onEarth, oldest, names);
    let [count, isAlone, most] = [0, true, 0];
    /** @type {(moment: Moment) => Moment} */
    const noted = (moment) => {
      count += 1;
      most = Math.max(most, moment.traffic.length);
      isAlone &&= !moment.traffic.length && !moment.comments.some((text) => text.startsWith("# lacks"));
      return moment;
    };
    function* moments() {
      for (const row of [...rows].sort((one, other) => one.time - other.time)) {
        maker.take(row);
        yield* maker.takeMade().map(noted);
      }
      maker.flush();
      yield* maker.takeMade().map(noted);
    }
    const end = () => ({ count, names, own, faults, lacking: lackingOf(maker), taken, notes: [...notes, ...notesOf(maker, own)],
      alone: count && isAlone ? whyAlone(rows, own) : "" });
    const wasTaken = () => {
      const named = labels.get(own) ? `${own} (${labels.get(own)})` : own;
      const isFirst = own === sources[0].form.firstName;
      const how = isFirst ? "the first aircraft of the recording" : "the first that is called so";
      const why = own === ownName ? "as chosen" : `${how}; Ownship takes another one`;
      const reports = sources.reduce((sum, source) => sum + source.count, 0);
      const [lat, lon] = maker.start ? maker.start.place : [0, 0];
      return [`the ownship is ${named}, ${why}`, ...taken, `${many(count, "moment")} of up to ${most} aircraft, from ${many(reports, "report")}`,
        ...(onEarth && maker.start ? [`0 0 of the plane is at ${lat.toFixed(6)} ${lon.toFixed(6)}`] : []), ...lackingOf(maker).slice(0, MOST_LACKS)];
    };
    return { moments, end, wasTaken, clock: clockOf(sources), head: [...clockComment(sources), `# ownship ${shortened(own)}`],
      wholeNames: () => maker.wholeNames(labels) };
  }

  /** Where no moment is, in how many moments each aircraft is lacking, when, and for how long nothing was heard.
   *  @type {(maker: Maker) => string[]} */
  function lackingOf(maker) {
    const [longest] = [...maker.ownGaps].sort((one, other) => other[0] - one[0] || other[1] - one[1]);
    const several = maker.ownGaps.length > 1 ? `: the longest of ${maker.ownGaps.length} gaps` : "";
    const when = longest ? `from ${longest[1]} to ${longest[2]} s${several}` : "";
    const ofOwn = longest ? [`no moment for ${longest[0]} s, ${when}, because no report of the ownship came`] : [];
    return [...ofOwn, ...[...maker.lacking].map(([name, [from, upTo, count]]) => {
      const gap = maker.gaps.get(name) ?? 0;
      const silent = gap > maker.oldest ? ` (its longest gap between reports is ${wholeSecond(gap)} s)` : "";
      return `${maker.idOf(name)} is lacking in ${many(count, "moment")}, from ${from} to ${upTo} s${silent}: what is not known there is not clear`;
    })];
  }

  /** The state lines of a whole recording, as tools/from_daa makes them, and what is told at its end.
   *  @type {(files: Named[], choice?: { own?: string | null, oldest?: number }) => any} */
  function fromRecording(files, choice) {
    const recording = openRecording(files, choice);
    const moments = [...recording.moments()];
    const { count, ...told } = recording.end();
    if (!count) fail(`no moment is left; ${[...told.faults, ...told.notes].join("; ")}`);
    return { states: stateLines(moments, recording.head, recording.wholeNames()), ...told };
  }

  /** What the times count from, where all files agree.
   *  @type {(sources: any[]) => string} */
  const clockOf = ([{ clock }, ...others]) => (clock && others.every((source) => source.clock === clock) ? clock : "");
  /** @type {(sources: any[]) => string[]} */
  const clockComment = (sources) => (clockOf(sources) ? [`# clock ${clockOf(sources)}`] : []);

  /** What was changed and left out.
   *  @type {(maker: Maker, own: string) => string[]} */
  function notesOf(maker, own) {
    const renamed = [...maker.ids].filter(([name, short]) => ![short, own].includes(name)).map(([name, short]) => `${name} is written ${short}`);
    const shown = renamed.length > MOST_NAMES + 1 ? MOST_NAMES : renamed.length;
    const notes = renamed.slice(0, shown);
    if (shown < renamed.length) notes.push(`${renamed.length - shown} more names are written otherwise`);
    /** @type {(count: number, what: string) => string} */
    const counted = (count, what) => (what === "aircraft" ? `${count} aircraft` : many(count, what));
    for (const [count, what, why] of maker.leftOut.values()) notes.push(`left out: ${counted(count, what)} ${why}`);
    if (maker.far) notes.push(`${many(maker.far, "moment")} with the ownship at 0 0, more than ${FARTHEST_OWN} NM from where it began`);
    return notes;
  }

  Object.assign(root.daa, { openRecording, fromRecording, stateLines, linesIn, OLDEST, MOST_AGE });
}
daaRecording(globalThis);
