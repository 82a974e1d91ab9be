// @ts-check
/* The rows of a recording, one report of an aircraft each: NASA's column format (.daa), a CSV with a header line, BaseStation lines,
 * aircraft.json. It does what the modules of tools/recordings do, which describe the forms; columns.js has the names of columns and
 * the units. No page is needed. */
"use strict";
/** @type {(root: Root) => void} */
function daaReading(root) {
  const { columns: COLUMNS, units, dialects: DIALECTS, units_of_names: UNITS_OF_NAMES, above_what: ABOVE_WHAT } = root.daa.columns;
  const EARTH = Math.PI / 180;
  const GREATEST = 1e15; // a number of a recording that is farther from 0 is refused
  const MOST_LATITUDE = 90;
  const CLIMB_WITHIN = 30; // s: a vertical speed is taken from two heights that are at most so far apart
  const MOST_SHOWN = 60; // characters of a line in a message
  const DAY = 86400;
  const LEAST_UTC = 1e9; // s: a time from here on counts since 1970
  const GREATEST_SINCE_1970 = 1e20; // in any unit
  /** @type {[number, string, number]} */
  const LAST_UNIT = [0, "seconds", 1];
  /** @type {[number, string, number][]} */
  const SINCE_1970 = [[1e17, "nanoseconds", 1e-9], [1e14, "microseconds", 1e-6], [1e11, "milliseconds", 1e-3], [1e9, "seconds", 1]];
  const LINE_ENDS = /\r\n|[\n\v\f\r\x1c-\x1e\x85\u2028\u2029]/;

  class NoRecording extends Error {}
  class BadRow extends Error {}
  class RepeatedHeader extends BadRow {}

  /** @type {(why: string) => never} */
  const fail = (why) => { throw new NoRecording(why); };
  /** @type {(why: string) => never} */
  const bad = (why) => { throw new BadRow(why); };

  /** The nearest whole number; of two the even one.
   *  @type {(number: number) => number} */
  function round(number) {
    const floor = Math.floor(number);
    const rest = number - floor;
    return rest < 0.5 || (rest === 0.5 && floor % 2 === 0) ? floor : floor + 1;
  }

  /** @type {(count: number, what: string) => string} */
  const many = (count, what) => `${count} ${what}${count === 1 ? "" : "s"}`;
  /** @type {(count: number) => string} */
  const plural = (count) => (count === 1 ? "" : "s");

  /** A text in quotes, as Python's ascii() writes it: what is no plain letter as an escape.
   *  @type {(text: string) => string} */
  function quoted(text) {
    const mark = text.includes("'") && !text.includes('"') ? '"' : "'";
    /** @type {(letter: string) => string} */
    const escape = (letter) => {
      const code = Number(letter.codePointAt(0));
      const plain = { "\\": "\\\\", "\t": "\\t", "\n": "\\n", "\r": "\\r", [mark]: `\\${mark}` }[letter];
      /** @type {[string, number]} */
      const width = code < 256 ? ["x", 2] : code < 65536 ? ["u", 4] : ["U", 8];
      return plain ?? (code >= 32 && code < 127 ? letter : `\\${width[0]}${code.toString(16).padStart(width[1], "0")}`);
    };
    return mark + [...text].map(escape).join("") + mark;
  }

  /** Each name in a row of units, with its worth, which may be a fraction.
   *  @type {(row: [string, number | Pair]) => [string, number][]} */
  const worths = ([names, worth]) => names.split(" ").map((name) => [name, Array.isArray(worth) ? worth[0] / worth[1] : worth]);

  /** Each name of a unit of a quantity, with its worth. */
  const UNITS = Object.fromEntries(Object.entries(units).map(([quantity, rows]) => [quantity, Object.fromEntries(rows.flatMap(worths))]));

  // ---- cells

  /** What stands between cells: in all lines a semicolon where the header has one, so that a comma there is one of a number.
   *  @type {(header: string) => string} */
  const marksOf = (header) => (header.includes(";") ? ";" : ",;");
  /** @type {(line: string, marks: string) => string | null} */
  const markOf = (line, marks) => [...marks].find((mark) => line.includes(mark)) ?? null;
  /** @type {(cell: string) => string} */
  const trimmed = (cell) => cell.replace(/^[ \t"]+|(?<![ \t"])[ \t"]+$/g, ""); // which looks at each run of blanks once
  /** @type {(cell: string) => string} */
  const blankless = (cell) => cell.replace(/^[ \t]+|(?<![ \t])[ \t]+$/g, "");

  /** The cells of a line in which a mark within quotes is none.
   *  @type {(line: string, mark: string) => string[]} */
  function quotedCells(line, mark) {
    const cells = [];
    let [cell, isQuoted, isBegun] = ["", false, false];
    for (let at = 0; at < line.length; at++) {
      const letter = line[at];
      if (isQuoted && letter === '"') {
        if (line[at + 1] === '"') cell += line[at += 1];
        else isQuoted = false;
      } else if (!isQuoted && letter === mark) {
        cells.push(cell);
        [cell, isBegun] = ["", false];
      } else if (!isBegun && letter === '"') [isQuoted, isBegun] = [true, true];
      else if (isBegun || letter !== " ") [cell, isBegun] = [cell + letter, true];
    }
    return [...cells, cell].map((it) => it.trim());
  }

  /** The cells of a line; between blanks a unit in brackets that follows a name stays with it.
   *  @type {(line: string, marks: string) => string[]} */
  function cellsOf(line, marks) {
    const mark = markOf(line, marks);
    if (mark === null) return line.trim().split(/\s+(?![[(])/).map(trimmed);
    if (line.includes('"')) return quotedCells(line, mark);
    return (marks.length > 1 ? line.replaceAll(";", ",") : line).split(mark === ";" && marks.length > 1 ? "," : mark).map(blankless);
  }

  /** @type {(line: string, marks: string) => string[]} */
  const unitCellsOf = (line, marks) => (markOf(line, marks) ? cellsOf(line, marks) : line.trim().split(/\s+/));

  /** A header's name and unit.
   *  @type {(cell: string) => [string, string | null]} */
  function splitUnit(cell) {
    const found = /^([^[(]*)[[(]([^\])]*)[\])]$/.exec(cell);
    return found ? [found[1].trimEnd(), found[2]] : [cell, null];
  }

  // ---- numbers and times

  /** @type {(cell: string) => number | null} */
  function numberOf(cell) {
    if (!/^\s*[+-]?(\d+(_\d+)*(\.(\d+(_\d+)*)?)?|\.\d+(_\d+)*)([eE][-+]?\d+(_\d+)*)?\s*$/.test(cell)) return null;
    const found = Number(cell.replaceAll("_", ""));
    return Number.isFinite(found) ? found : null;
  }

  /** The seconds from 1970 to a date, or null where there is no such one.
   *  @type {(year: string, month: string, day: string) => number | null} */
  function dayOf(year, month, day) {
    const date = new Date(0);
    date.setUTCFullYear(Number(year), Number(month) - 1, Number(day));
    const isOne = Number(year) > 0 && date.getUTCMonth() === Number(month) - 1 && date.getUTCDate() === Number(day);
    return isOne ? date.getTime() / 1000 : null;
  }

  const ISO = /^(\d{4})[-/](\d\d)[-/](\d\d)[T ]+(\d\d):([0-5]\d):([0-5]\d(?:[.,]\d*)?) ?(Z|UTC|[+-]\d\d(?::?\d\d)?)?$/i;

  /** The seconds since 1970 of a date and time, and whether its zone is told; or null.
   *  @type {(cell: string) => [number, boolean] | null} */
  function isoTime(cell) {
    const found = ISO.exec(cell);
    const day = found ? dayOf(found[1], found[2], found[3]) : null;
    if (!found || day === null || Number(found[4]) > 24) return null;
    const zone = (found[7] || "").toUpperCase();
    const digits = zone.slice(1).replace(":", "").padEnd(4, "0");
    const shift = /^[+-]/.test(zone) ? (Number(digits.slice(0, 2)) * 3600 + Number(digits.slice(2)) * 60) * (zone[0] === "+" ? 1 : -1) : 0;
    return [day + Number(found[4]) * 3600 + Number(found[5]) * 60 + Number(found[6].replace(",", ".")) - shift, Boolean(zone)];
  }

  /** @type {(cell: string) => number | null} */
  function dateTime(cell) {
    const found = /^(\d{4})[-/](\d\d)[-/](\d\d)$/.exec(cell);
    return found ? dayOf(found[1], found[2], found[3]) : null;
  }

  /** The seconds of a time of day hh:mm:ss, which may go on past 24:00:00; or null.
   *  @type {(cell: string) => number | null} */
  function timeOfDay(cell) {
    const found = /^(\d{1,9}):([0-5]\d):([0-5]\d(?:\.\d*)?)$/.exec(cell);
    return found ? Number(found[1]) * 3600 + Number(found[2]) * 60 + Number(found[3]) : null;
  }

  /** @type {(cell: string) => boolean} */
  const isTime = (cell) => numberOf(cell) !== null || timeOfDay(cell) !== null || isoTime(cell) !== null;

  /** Whether a time since 1970 has all its seconds; a spreadsheet may write 1.71568E+09 and so take the last ones away.
   *  @type {(cell: string) => boolean} */
  function hasAllDigits(cell) {
    const [mantissa, exponent] = cell.toLowerCase().split("e");
    return exponent === undefined || mantissa.replace(/\D/g, "").length >= 10;
  }

  /** The times of one file, by the cells that were read before. */
  class Times {
    /** @type {Set<string>} */ forms = new Set();
    /** @type {number | null} */ scale = null;
    /** @type {number | null} */ first = null;
    /** @type {Map<string, number>} */ last = new Map();
    midnights = 0;
    isUtc = false;

    /** @param {number | null} worth */
    constructor(worth) { this.worth = worth; }

    /** The seconds of a cell of an aircraft, with the date of another cell where there is one; or null.
     *  @type {(cell: string, name: string, date: string | null) => number | null} */
    read(cell, name, date) {
      const number = numberOf(cell);
      if (number !== null) return this.scaled(number, cell);
      const iso = isoTime(cell);
      if (iso) {
        this.forms.add(`date and time${iso[1] ? "" : " without a zone, taken as UTC"}`);
        this.isUtc = true;
        return iso[0];
      }
      const seconds = timeOfDay(cell);
      if (seconds === null) return null;
      const day = date ? dateTime(date) : null;
      if (day !== null) {
        this.forms.add("date and time without a zone, taken as UTC");
        this.isUtc = true;
        return day + seconds;
      }
      this.forms.add("time of day");
      return this.pastMidnight(seconds, name);
    }

    /** The seconds of a number: of the unit that is given, or of the one since 1970 that fits the first time.
     *  @type {(number: number, cell: string) => number | null} */
    scaled(number, cell) {
      if (this.scale === null) {
        const [, what, worth] = SINCE_1970.find(([least]) => number >= least) ?? LAST_UNIT;
        this.scale = this.worth ?? worth;
        if (this.worth === null && number >= LEAST_UTC) this.forms.add(`${what} since 1970`);
      }
      if (LEAST_UTC <= number && number < GREATEST_SINCE_1970 && !hasAllDigits(cell)) return null;
      const found = number * this.scale;
      if (found >= LEAST_UTC) this.isUtc = true;
      return found;
    }

    /** A time of day on the day that is nearest to the aircraft's last time, or at first to the recording's first time.
     *  @type {(seconds: number, name: string) => number} */
    pastMidnight(seconds, name) {
      this.first ??= seconds;
      const days = Math.max(0, round(((this.last.get(name) ?? this.first) - seconds) / DAY));
      if (days) this.midnights += 1;
      this.last.set(name, seconds + days * DAY);
      return seconds + days * DAY;
    }

    told() { return [...this.forms].join(" and ") || "seconds"; }
  }

  // ---- the header

  /** @type {Record<string, string[][]>} */
  const FORMS = { place: [["lat", "lon"], ["position"], ["sx", "sy"]], speed: [["trk", "gs"], ["vx", "vy"]] };
  /** @type {Record<string, string>} */
  const SAYS = { place: "a place (lat lon, or sx sy)", speed: "a speed (trk gs, or vx vy)" };
  const ALTITUDES = ["alt_baro", "alt", "alt_geom"];
  /** @type {Record<string, boolean>} */
  const IS_BAROMETRIC = { alt_baro: true, alt_geom: false };
  const PREFIX = "globalpositionint"; // before each name, where a tool of MAVLink writes several messages into one table
  const OF_WHAT = / ?(a?msl|hae|agl|std|baro|geo|gps|gnss|true|tas|utc)$/;

  /** A name as it is compared: in small letters, without what stands between its words.
   *  @type {(name: string) => string} */
  const plain = (name) => name.replace(/[\s_.\-]/g, "").toLowerCase();
  /** @type {(name: string) => string[]} */
  const wordsOf = (name) => name.replace(/([a-z])([A-Z])/g, "$1_$2").split(/[\s_.\-]+/).filter(Boolean);

  /** A unit as the table has it, or null.
   *  @type {(quantity: string, unit: string) => string | null} */
  function unitKey(quantity, unit) {
    const key = unit.trim().toLowerCase();
    const bare = key.replace(OF_WHAT, "");
    return [key, bare, bare.replaceAll(" ", "")].find((it) => Object.hasOwn(UNITS[quantity], it)) ?? null;
  }

  /** The columns of a table by its header line, and by the line under it, which has that number, where it has units. */
  class Header {
    /** @param {string} line
     *  @param {string} under
     *  @param {number} number */
    constructor(line, under, number) {
      this.marks = marksOf(line);
      this.number = number;
      this.cells = cellsOf(line, this.marks);
      this.named = this.cells.map(splitUnit);
      this.names = this.named.map(([name]) => plain(name)).map((name) => (name.startsWith(PREFIX) ? name.slice(PREFIX.length) : name));
      this.dialect = DIALECTS.find((/** @type {{ needs: string[] }} */ { needs }) => needs.every((name) => this.names.includes(name))) ?? null;
      this.places = this.find();
      this.altitude = ALTITUDES.find((column) => column in this.places) ?? "";
      this.check();
      this.used = this.usedColumns();
      this.hasUnitLine = Boolean(under) && this.isUnitLine(under);
      const below = this.hasUnitLine ? unitCellsOf(under, this.marks).map((cell) => splitUnit(cell)[1] || cell) : [];
      /** @type {Record<string, string>} */
      this.units = {};
      this.worth = Object.fromEntries(this.used.filter((column) => COLUMNS[column].quantity).map((column) => [column, this.worthOf(column, below)]));
    }

    /** The column's place for each that is there; of several names the one that stands first in the table.
     *  @type {() => Record<string, Placing>} */
    find() {
      /** @type {Record<string, Placing>} */
      const places = {};
      for (const [column, entry] of Object.entries(COLUMNS)) {
        const ranked = this.names.flatMap((_, at) => this.ranks(column, entry, at).map(([rank, unit]) => ({ rank, at, unit })));
        if (!ranked.length) continue;
        const best = ranked.reduce((one, other) => (other.rank < one.rank || (other.rank === one.rank && other.at < one.at) ? other : one));
        const same = ranked.filter(({ rank, at }) => rank === best.rank && this.names[at] === this.names[best.at]);
        if (same.length > 1) fail(`the header names ${column} twice`);
        places[column] = { at: best.at, name: this.named[best.at][0], unit: best.unit };
      }
      if (places.label && places.label.at === places.name?.at) delete places.label;
      return places;
    }

    /** How a header's name stands in the names of a column, and the unit that belongs to it: none, or one.
     *  @type {(column: string, entry: NamedColumn, at: number) => [number, string | null][]} */
    ranks(column, entry, at) {
      const name = this.names[at];
      if (this.dialect && Object.hasOwn(this.dialect.columns, name)) {
        const [other, unit] = this.dialect.columns[name];
        return other === column ? [[-1, unit]] : [];
      }
      if (entry.names.includes(name)) return [[entry.names.indexOf(name), Object.hasOwn(UNITS_OF_NAMES, name) ? UNITS_OF_NAMES[name] : null]];
      const words = wordsOf(this.named[at][0]);
      if (!entry.quantity || words.length < 2) return [];
      const begin = plain(words.slice(0, -1).join(""));
      const unit = unitKey(entry.quantity, words[words.length - 1]);
      return entry.names.includes(begin) && unit ? [[entry.names.indexOf(begin), unit]] : [];
    }

    /** The columns that a place or a speed is made of: the first form that is whole, or nothing.
     *  @type {(what: string) => string[]} */
    form(what) { return FORMS[what].find((form) => form.every((column) => column in this.places)) ?? []; }

    /** A row of such a header can't be read: the words name what is there and what would do. */
    check() {
      const missing = "time" in this.places ? [] : [`time (${COLUMNS.time.says})`];
      if (!this.altitude) missing.push(`alt (${COLUMNS.alt.says})`);
      missing.push(...Object.keys(FORMS).filter((what) => !this.form(what).length).map((what) => SAYS[what]));
      if (!missing.length) return;
      if (!Object.keys(this.places).length && this.cells.some((cell) => numberOf(cell) !== null)) {
        fail("no header line: the first line has numbers and no names of columns; write one above it, such as `time,id,lat,lon,alt,gs,trk,vs`");
      }
      fail(`the header has no column for ${missing.join(", ")}; it has ${this.allNames()}${this.hint(missing)}`);
    }

    allNames() {
      const names = this.named.map(([name]) => name || "one without a name");
      return names.slice(0, 30).join(", ").slice(0, 400) + (names.length > 30 ? ", .." : "");
    }

    /** @type {(missing: string[]) => string} */
    hint(missing) {
      const above = this.names.find((name) => Object.hasOwn(ABOVE_WHAT, name));
      if (above && !this.altitude) return ` (${above} is above ${ABOVE_WHAT[above]}, and altitudes here are above the sea)`;
      const first = missing[0].split(" ").map((word) => word.replace("(", "")).find((word) => Object.hasOwn(COLUMNS, word)) ?? "lat";
      return `; if one of these is it, tell tools/from_daa so: --columns ${first}=NAME`;
    }

    usedColumns() {
      const used = ["time", this.altitude, ...this.form("place"), ...this.form("speed")];
      return used.concat(["name", "vs", "label", "date", "ground"].filter((column) => column in this.places));
    }

    unused() {
      const there = new Set(this.used.map((column) => this.places[column].at));
      return this.named.flatMap(([name], at) => (there.has(at) ? [] : [name || "without a name"]));
    }

    /** A line has units if no time stands where one would, nothing else begins as a number, and it is not the header once more.
     *  @type {(line: string) => boolean} */
    isUnitLine(line) {
      const cells = unitCellsOf(line, this.marks);
      const at = this.places.time.at;
      /** @type {(some: string[]) => string} */
      const small = (some) => some.map((cell) => cell.toLowerCase()).join("\0");
      if (at >= cells.length || isTime(cells[at]) || small(cells) === small(this.cells)) return false;
      return !this.used.some((column) => {
        const [{ quantity }, place] = [COLUMNS[column], this.places[column].at];
        return quantity && place < cells.length && /^[-+]?[0-9.]/.test(cells[place]) && unitKey(quantity, cells[place]) === null;
      });
    }

    /** What a number of a column is worth: by the line of units, the header, or the name itself; null where none is told.
     *  @type {(column: string, below: string[]) => number | null} */
    worthOf(column, below) {
      const [found, { quantity }] = [this.places[column], COLUMNS[column]];
      let [unit, where] = found.at < below.length ? [below[found.at], `line ${this.number}: `] : [this.named[found.at][1], ""];
      if (unit === null || ["", "none", "-"].includes(unit.toLowerCase())) [unit, where] = [found.unit, ""];
      if (unit === null) return null;
      const key = unitKey(quantity, unit);
      if (key === null) {
        const also = column === "time" && where ? "no time (a number, hh:mm:ss or ISO 8601) and " : "";
        const known = units[quantity].map((/** @type {string[]} */ [names]) => names.split(" ")[0]).join(", ");
        fail(`${where}${unit} is ${also}no unit of ${column} that is known; known are ${known}`);
      }
      this.units[column] = unit;
      return UNITS[quantity][key];
    }
  }

  // ---- rows

  /** A report: s, degrees or NM, ft, knots eastward and northward, ft/min, and the track, for where it stands; and what it lacks.
   *  @type {(name: string, time: number, place: Pair, alt: number, east: number, north: number, vs: number, track: number) => Row} */
  const rowOf = (name, time, place, alt, east, north, vs, track) => ({ name, time, place, alt, east, north, vs, track, lack: "" });
  /** @type {(name: string, time: number, place: Pair, lack: string) => Row} */
  const lackingRow = (name, time, place, lack) => ({ ...rowOf(name, time, place, 0, 0, 0, 0, 0), lack });

  /** The act's row, or one that says what it lacks.
   *  @type {(name: string, time: number, place: Pair, act: () => Row) => Row} */
  function wholeOrLacking(name, time, place, act) {
    try {
      return act();
    } catch (fault) {
      if (!(fault instanceof BadRow)) throw fault;
      return lackingRow(name, time, place, fault.message);
    }
  }

  /** @type {(name: string, time: number, place: Pair, alt: number, speed: number, track: number, vs: number) => Row} */
  const polarRow = (name, time, place, alt, speed, track, vs) => rowOf(name, time, place, alt, speed * Math.sin(track * EARTH),
    speed * Math.cos(track * EARTH), vs, track);

  const HEMISPHERE = /^([0-9.]+)(?:° ?(?:([0-9.]+)['′] ?(?:([0-9.]+)["″] ?)?)?)? ?([NSEW])$/i;
  const ON_GROUND = ["true", "t", "1", "-1", "yes", "y", "ground", "gnd"];

  /** A number that is written with its unit (`3000 ft`), or a latitude or longitude with its hemisphere; or null.
   *  @type {(column: string, cell: string) => number | null} */
  function numberOtherwise(column, cell) {
    if (column === "lat" || column === "lon") {
      const found = HEMISPHERE.exec(cell);
      const [degrees, minutes, seconds] = found ? found.slice(1, 4).map((part) => numberOf(part || "0")) : [null, null, null];
      if (!found || degrees === null || minutes === null || seconds === null) return null;
      if ("NS".includes(found[4].toUpperCase()) !== (column === "lat")) return null;
      return (degrees + minutes / 60 + seconds / 3600) * ("SW".includes(found[4].toUpperCase()) ? -1 : 1);
    }
    const found = /^([-+]?[0-9.]+(?:[eE][-+]?[0-9]+)?) ?([^\s0-9.].*)$/.exec(cell);
    const [number, key] = found ? [numberOf(found[1]), unitKey(COLUMNS[column].quantity, found[2])] : [null, null];
    return number !== null && key ? number * UNITS[COLUMNS[column].quantity][key] : null;
  }

  /** A number of a column in its unit.
   *  @type {(column: string, cell: string, worth: number) => number} */
  function valueOf(column, cell, worth) {
    const plainNumber = numberOf(cell);
    const found = plainNumber === null ? numberOtherwise(column, cell) : plainNumber * worth;
    if (found === null) {
      const hint = ": a decimal comma, or a mark of thousands? Write a point, and no mark";
      bad(`no number for ${column}${/^[-+0-9.]*,[0-9.,]*$/.test(cell) ? hint : ""}`);
    }
    if (Math.abs(found) > (column === "lat" ? MOST_LATITUDE : GREATEST)) {
      bad(`too large a number for ${column}${column === "lat" ? ": are lat and lon in each other's place, or in another unit?" : ""}`);
    }
    return found;
  }

  /** @type {(cell: string) => string} */
  function timeHint(cell) {
    if (/^[-+0-9.]*,[0-9]*$/.test(cell)) return ": a decimal comma? Write a point";
    if (/^[0-9]{1,2}:[0-9]{2}$/.test(cell)) return ": seconds are missing";
    const number = numberOf(cell);
    return number !== null && LEAST_UTC <= number && number < GREATEST_SINCE_1970 ? ": a spreadsheet has taken away its last digits" : "";
  }

  /** A table: its header, and its rows line by line. */
  class Table {
    /** @type {string | null} */ firstName = null;
    /** @type {Map<string, string>} */ labels = new Map();
    grounded = 0;

    /** @param {string} line
     *  @param {string} under
     *  @param {number} number
     *  @param {string} owner */
    constructor(line, under, number, owner) {
      this.header = new Header(line, under, number);
      const { header } = this;
      this.owner = owner;
      this.times = new Times(header.worth.time);
      this.onEarth = header.form("place")[0] !== "sx";
      this.isBarometric = IS_BAROMETRIC[header.altitude] ?? null;
      this.climbs = "vs" in header.places ? null : new Map(); // of each aircraft's last report, where vertical speeds are taken from heights
      this.at = Object.fromEntries(Object.entries(header.places).map(([column, { at }]) => [column, at]));
      this.columns = header.cells.length;
      this.isPolar = header.form("speed")[0] === "trk";
    }

    /** The reports of a row: one, or none of an aircraft on the ground.
     *  @type {(line: string) => Row[]} */
    rows(line) {
      const cells = cellsOf(line, this.header.marks);
      this.fitLength(cells, line);
      if (cells[0] === this.header.cells[0] && cells.join("\0") === this.header.cells.join("\0")) throw new RepeatedHeader();
      const name = "name" in this.at ? cells[this.at.name] : this.owner;
      if (!name) bad("no name");
      this.firstName ??= name;
      const time = this.times.read(cells[this.at.time], name, "date" in this.at ? cells[this.at.date] : null);
      if (time === null) bad(`no time${timeHint(cells[this.at.time])}`);
      if (Math.abs(time) > GREATEST) bad("too large a number for time");
      if (this.isOnGround(cells)) {
        this.grounded += 1;
        return [];
      }
      if ("label" in this.at && cells[this.at.label]) this.labels.set(name, cells[this.at.label]);
      const place = this.placeOf(cells);
      return [wholeOrLacking(name, time, place, () => this.wholeRow(name, time, place, cells))];
    }

    /** A row may lack cells at its end; one that has more is none, but for empty ones.
     *  @type {(cells: string[], line: string) => void} */
    fitLength(cells, line) {
      if (cells.length === this.columns) return;
      const told = `${cells.length} fields, and the header has ${this.columns}`;
      const hint = line.includes(",") ? ": a decimal comma (write a point), or a comma in a name?" : "";
      if (cells.slice(this.columns).join("") !== "") bad(told + hint);
      const isBlank = markOf(line, this.header.marks) === null;
      if (cells.length < this.columns && isBlank) bad(`${told}: between blanks no empty field is seen (write commas)`);
      while (cells.length < this.columns) cells.push("");
    }

    /** @type {(cells: string[]) => boolean} */
    isOnGround(cells) {
      const altitude = cells[this.at[this.header.altitude]].toLowerCase();
      return ("ground" in this.at && ON_GROUND.includes(cells[this.at.ground].toLowerCase())) || altitude === "ground" || altitude === "gnd";
    }

    /** @type {(column: string, cells: string[]) => number} */
    value(column, cells) { return valueOf(column, cells[this.at[column]], this.header.worth[column] || 1); }

    /** @type {(cells: string[]) => Pair} */
    placeOf(cells) {
      if (!this.onEarth) return [this.value("sx", cells), this.value("sy", cells)];
      const place = this.latitudeAndLongitude(cells);
      if (!place[0] && !place[1]) bad("the latitude and longitude 0 0, which a receiver writes that has no position");
      return place;
    }

    /** @type {(cells: string[]) => Pair} */
    latitudeAndLongitude(cells) {
      if (this.header.form("place")[0] !== "position") return [this.value("lat", cells), this.value("lon", cells)];
      const pieces = cells[this.at.position].replace(/^[()[\] ]+|[()[\] ]+$/g, "").split(/[,; ]+/);
      if (pieces.length !== 2) bad("no latitude and longitude for position");
      return [valueOf("lat", pieces[0], 1), valueOf("lon", pieces[1], 1)];
    }

    /** @type {(name: string, time: number, place: Pair, cells: string[]) => Row} */
    wholeRow(name, time, place, cells) {
      const alt = this.value(this.header.altitude, cells);
      const [one, other] = (this.isPolar ? ["trk", "gs"] : ["vx", "vy"]).map((column) => this.value(column, cells));
      const vs = this.climbs ? this.climbOf(this.climbs, name, time, alt) : this.value("vs", cells);
      return this.isPolar ? polarRow(name, time, place, alt, other, one, vs) : rowOf(name, time, place, alt, one, other, vs, 0);
    }

    /** The vertical speed of an aircraft by its height of the report before, where a recording has none.
     *  @type {(climbs: Map<string, { time: number, alt: number, vs: number | null }>, name: string, time: number, alt: number) => number} */
    climbOf(climbs, name, time, alt) {
      const before = climbs.get(name);
      let found = before ? before.vs : null;
      if (!before || before.time !== time) {
        const apart = before ? time - before.time : 0;
        found = before && apart && Math.abs(apart) <= CLIMB_WITHIN ? ((alt - before.alt) * 60) / apart : null;
        climbs.set(name, { time, alt, vs: found });
      }
      return found ?? bad("no vertical speed yet");
    }
  }

  // ---- BaseStation lines

  const IS_BASE_STATION = /^(MSG|STA|ID|AIR|SEL|CLK),/;
  const HELD = 5; // s: what came in another line belongs to a position for so long

  /** BaseStation lines: position, velocity and call sign of an aircraft come in different ones, which are joined by its address. */
  class BaseStation {
    onEarth = true;
    isBarometric = true;
    /** @type {Map<string, any>} */ heard = new Map();
    /** @type {Map<string, string>} */ labels = new Map();
    grounded = 0;
    /** @type {string | null} */ firstName = null;
    told = "BaseStation lines: altitudes in ft, barometric, speeds in knots and ft/min, of which most receivers send whole knots, "
      + "whole degrees and multiples of 64 ft/min";

    /** @type {(line: string) => Row[]} */
    rows(line) {
      const cells = line.split(",").map((cell) => cell.trim());
      if (cells[0] !== "MSG" && IS_BASE_STATION.test(line)) return [];
      if (cells[0] !== "MSG" || cells.length < 22) bad("no BaseStation line of 22 fields");
      if (!/^~?[0-9A-Fa-f]{6}$/.test(cells[4])) bad("no address of six hexadecimal digits");
      const time = isoTime(`${cells[6]} ${cells[7]}`);
      if (time === null) bad("no date and time in the fields 7 and 8");
      const address = cells[4].toUpperCase();
      const now = Number(time[0]);
      this.firstName ??= address;
      if (["1", "-1"].includes(cells[21])) {
        if (cells[14]) this.grounded += 1;
        return [];
      }
      if (cells[10]) this.labels.set(address, cells[10]);
      if (!this.heard.has(address)) this.heard.set(address, {});
      const heard = this.heard.get(address);
      const [alt, speed, track, lat, lon, climb] = cells.slice(11, 17).map(numberOf);
      if (alt !== null) heard.alt = [now, alt];
      if (speed !== null && track !== null) heard.velocity = [now, [speed, track]];
      if (climb !== null) heard.climb = [now, climb];
      if (lat === null || lon === null || Math.abs(lat) > 90 || Math.abs(lon) > 180) return [];
      /** @type {(what: string, words: string) => any} */
      const held = (what, words) => {
        const [when, value] = /** @type {[number, any]} */ (heard[what] || bad(`no ${words}`));
        return now - when <= HELD ? value : bad(`no ${words} within ${HELD} s`);
      };
      return [wholeOrLacking(address, now, [lat, lon], () => {
        const height = held("alt", "altitude");
        const [gs, trk] = held("velocity", "velocity");
        return polarRow(address, now, [lat, lon], height, gs, trk, held("climb", "vertical speed"));
      })];
    }
  }

  // ---- aircraft.json

  /** @type {Record<string, string[]>} */
  const KEYS = { alt: ["alt_baro", "altitude"], speed: ["gs", "speed"], track: ["track"], climb: ["baro_rate", "vert_rate", "geom_rate"],
    lat: ["lat"], lon: ["lon"] };
  /** @type {Record<string, string>} */
  const NEEDED = { alt: "altitude", speed: "velocity", track: "velocity", climb: "vertical speed" };

  /** aircraft.json, which dump1090 and readsb write each second: one such text, or one a line. */
  class AircraftJson {
    onEarth = true;
    isBarometric = true;
    /** @type {Map<string, string>} */ labels = new Map();
    grounded = 0;
    /** @type {string | null} */ firstName = null;
    told = "aircraft.json: altitudes (alt_baro) in ft, speeds in knots and ft/min; a position is seen_pos seconds older than `now`";

    /** @type {(text: string) => Row[]} */
    rows(text) {
      let held = null;
      try {
        held = JSON.parse(text);
      } catch {
        bad("no JSON");
      }
      if (typeof held?.now !== "number" || Array.isArray(held)) bad("no aircraft.json: it has no time `now`");
      const now = held.now > 1e11 ? held.now / 1000 : held.now;
      const listed = "aircraft" in held ? held.aircraft : held.ac;
      if (!Array.isArray(listed)) bad("no aircraft.json: it has no list `aircraft`");
      return listed.filter((one) => one && typeof one === "object" && !Array.isArray(one)).flatMap((one) => this.row(one, now));
    }

    /** The report of an aircraft, or none where it has no place or is on the ground.
     *  @type {(one: any, now: number) => Row[]} */
    row(one, now) {
      const address = String(one.hex ?? "").toUpperCase();
      /** @type {(what: string) => number | null} */
      const value = (what) => KEYS[what].map((key) => one[key]).find((it) => typeof it === "number") ?? null;
      if (typeof one.flight === "string" && one.flight.trim()) this.labels.set(address, one.flight.trim());
      const [lat, lon] = [value("lat"), value("lon")];
      if (!address || lat === null || lon === null || Math.abs(lat) > 90) return [];
      if ([one.alt_baro, one.altitude].includes("ground")) {
        this.grounded += 1;
        return [];
      }
      this.firstName ??= address;
      const late = "seen_pos" in one ? one.seen_pos : one.seen ?? 0;
      const time = now - (typeof late === "number" ? late : 0);
      const needed = (/** @type {string} */ what) => value(what) ?? bad(`no ${NEEDED[what]}`);
      return [wholeOrLacking(address, time, [lat, lon], () => polarRow(address, time, [lat, lon], needed("alt"), needed("speed"), needed("track"),
        needed("climb")))];
    }
  }

  // ---- a file

  /** The unit that is assumed where none is told.
   *  @type {Record<string, string>} */
  const USUAL = { angle: "deg", length: "NM", height: "ft", speed: "knots", climb: "ft/min" };

  /** @type {(line: string) => string} */
  const pieceOf = (line) => line.trim().slice(0, MOST_SHOWN);

  /** A recording that is taken line by line; the form is found by its first line. */
  class Source {
    number = 0;
    settings = 0;
    repeated = 0;
    /** @type {Map<string, any>} */ faults = new Map();
    count = 0;
    /** @type {any} */ form = null;
    /** @type {string[] | null} */ text = null;
    headerLine = ""; // of a table, once it was read

    /** @param {string} path */
    constructor(path) {
      this.path = path;
      this.owner = path.replace(/^.*[\\/]/, "").replace(/(?<=.)\.[^.]*$/, "");
    }

    /** The reports of one more line.
     *  @type {(line: string) => Row[]} */
    take(line) {
      this.number += 1;
      const stripped = line.trim();
      if (!stripped || stripped[0] === "#") return [];
      if (this.text) {
        this.text.push(line);
        return [];
      }
      return this.form ? this.rows(line) : this.begin(line, stripped);
    }

    /** Finds the form by the first lines.
     *  @type {(line: string, stripped: string) => Row[]} */
    begin(line, stripped) {
      if (this.headerLine) return this.beginTable(line);
      if (line.includes("=") && !stripped.startsWith("{")) this.settings += 1;
      else if (IS_BASE_STATION.test(stripped)) {
        this.form = new BaseStation();
        return this.rows(line);
      } else if (stripped[0] === "{" || stripped[0] === "[") return this.beginJson(line);
      else if (line.includes("\0") && line.startsWith("\ufffd")) {
        fail("the text is in UTF-16, as some editors and spreadsheets write it: save it in UTF-8");
      }
      else this.headerLine = line;
      return [];
    }

    /** @type {(under: string) => Row[]} */
    beginTable(under) {
      this.form = new Table(this.headerLine, under, this.number, this.owner);
      return this.form.header.hasUnitLine || !under ? [] : this.rows(under);
    }

    /** @type {(line: string) => Row[]} */
    beginJson(line) {
      this.form = new AircraftJson();
      try {
        JSON.parse(line);
      } catch {
        this.text = [line]; // one text of several lines, which is read at its end
        return [];
      }
      return this.rows(line);
    }

    /** The reports of a line in the form that was found; what can't be read is noted.
     *  @type {(line: string) => Row[]} */
    rows(line) {
      let found = [];
      try {
        found = this.form.rows(line);
      } catch (fault) {
        if (!(fault instanceof BadRow)) throw fault;
        if (fault instanceof RepeatedHeader) this.repeated += 1;
        else this.leaveOut(line, fault.message);
      }
      for (const row of found) {
        if (row.lack) this.leaveOut(line, row.lack);
        else this.count += 1;
      }
      return found;
    }

    /** @type {(line: string, cause: string) => void} */
    leaveOut(line, cause) {
      const fault = this.faults.get(cause) || { count: 0, first: this.number, text: pieceOf(line) };
      this.faults.set(cause, { ...fault, count: fault.count + 1 });
    }

    /** The reports that the end brings; a recording of which nothing could be read is none.
     *  @type {() => Row[]} */
    end() {
      /** @type {Row[]} */
      let found = [];
      if (this.text) {
        const text = this.text.join("\n");
        this.text = null;
        found = this.rows(text);
      }
      if (!this.form && this.headerLine) this.beginTable("");
      if (!this.form) fail("no header line");
      if (!this.count) {
        const [cause, first] = [...this.faults].sort(([, one], [, other]) => one.first - other.first)[0] || [];
        fail(`no report of an aircraft${cause ? ` can be read; line ${first.first}: ${cause}: ${quoted(first.text)}` : ""}`);
      }
      return found;
    }

    get clock() {
      if (!(this.form instanceof Table) || this.form.times.isUtc) return "utc";
      return this.form.times.forms.has("time of day") ? "day" : null;
    }

    /** What was left out of this file.
     *  @type {() => string[]} */
    toldFaults() {
      const told = [...this.faults].map(([cause, { count, first, text }]) => `left out: ${many(count, "row")} with ${cause}: `
        + `${count > 1 ? "the first is " : ""}line ${first}: ${quoted(text)}`);
      if (this.repeated) told.push(`left out: ${many(this.repeated, "line")} that repeat${this.repeated === 1 ? "s" : ""} the header`);
      if (this.form instanceof Table && this.form.times.midnights) told.push("times of day go over midnight: from there on they count past 24:00:00");
      return told;
    }

    /** What was taken of this file: its form, or its columns and their units.
     *  @type {() => string[]} */
    toldTaken() {
      if (!(this.form instanceof Table)) return [this.form.told];
      const { header } = this.form;
      const columns = `columns: ${header.used.map((column) => this.toldColumn(column)).join(", ")}`;
      return header.dialect ? [`read as ${header.dialect.says}`, columns] : [columns];
    }

    /** What else is to be told of this file. */
    told() {
      const told = [];
      const { form } = this;
      if (this.settings) told.push(`left out: ${many(this.settings, "line")} \`KEY = VALUE\`; a configuration says what they say`);
      if (form.grounded) told.push(`left out: ${many(form.grounded, "report")} of aircraft on the ground`);
      if (!(form instanceof Table)) return told;
      const { header } = form;
      const unused = header.unused();
      if (unused.length) told.push(`not used: the column${plural(unused.length)} ${unused.join(", ")}`);
      if (!header.places.name) told.push(`no column has names: all reports are of ${this.owner}, as the file is called`);
      if (form.climbs) told.push("no column has vertical speeds: they are taken from the heights, from report to report");
      const isHeading = header.places.trk?.name.toLowerCase().includes("heading") && !header.dialect;
      if (isHeading) told.push("the heading is taken as the track: they differ in wind");
      return told;
    }

    /** A column by its name and its unit, which is marked where it is assumed.
     *  @type {(column: string) => string} */
    toldColumn(column) {
      const { header, times } = this.form;
      const [{ quantity }, { name }] = [COLUMNS[column], header.places[column]];
      if (column === "time") return `${name} (${header.units.time ?? times.told()})`;
      if (quantity === null) return name;
      return column in header.units ? `${name} (${header.units[column]})` : `${name} (${USUAL[quantity]}, assumed)`;
    }
  }

  /** The rows of a text, and its source.
   *  @type {(text: string, path: string) => { source: Source, rows: Row[] }} */
  function readText(text, path) {
    const source = new Source(path);
    const lines = text.split(LINE_ENDS);
    if (lines[lines.length - 1] === "") lines.pop();
    const rows = lines.flatMap((line) => source.take(line));
    return { source, rows: [...rows, ...source.end()] };
  }

  /** Whether a text looks like a recording: its first line with fields names columns, or is one of a receiver.
   *  @type {(text: string) => boolean} */
  function isRecording(text) {
    /** @type {(line: string) => boolean} */
    const isFirst = (line) => line.trim() !== "" && !line.trimStart().startsWith("#") && (!line.includes("=") || /^\s*[{[]/.test(line));
    const first = text.split(LINE_ENDS).find(isFirst);
    if (!first) return false;
    if (/^\ufffd.*\0/.test(first) || IS_BASE_STATION.test(first) || /^\s*[{[]/.test(first)) return true;
    const there = cellsOf(first, marksOf(first)).map((cell) => plain(splitUnit(cell)[0]));
    /** @type {(column: string) => boolean} */
    const has = (column) => COLUMNS[column].names.some((/** @type {string} */ name) => there.includes(name));
    return has("time") && ["name", "lat", "position", "alt", "alt_geom", "alt_baro"].some(has);
  }

  Object.assign(root.daa, { reading: { readText, round, many, quoted }, isRecording, NoRecording });
}
daaReading(globalThis);
