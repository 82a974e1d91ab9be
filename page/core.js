// @ts-check
/* The engine in WebAssembly, and the readers of its structs and of its report. No page is needed: a worker and Node run it.
 *
 * All that is said of a moment is said by the engine's report: nothing of it is computed here. Numbers are those of the
 * state lines: whole; 0.001 NM, 0.1 kt, ft, ft/min, degrees, s. */
"use strict";
/** @type {(root: Root) => void} */
function daaCore(root) {
  // ---- The structs of crates/daa_c/include/daidalus.h. These lists are their fields in their order, and the keys that a
  // configuration may have: a new key is added to its list here, to OPTIONAL if a text may leave it out, and to RANGES of
  // toml.js.

  const FIRST = ["resolve", "turn_rate", "track_step"];
  const AFTER_RECOVERY = ["last_times"];
  const TOP = [...FIRST, ...AFTER_RECOVERY]; // the keys at the top of a text
  const GRID = ["min", "max", "step", "rate"];
  const LEVEL = ["dthr", "zthr", "tthr", "tcoa", "lookahead", "alert", "tcpa", "tau", "tep"];
  const RECOVERY = ["hdist", "vdist", "nearest"];
  const MOST_LEVELS = 4;
  /** @type {(name: string, keys: string[]) => string[]} */
  const under = (name, keys) => keys.map((key) => `${name}.${key}`);
  /** Each number of struct daa_config, of 64 bits, in its order. */
  const CONFIG = [...FIRST, ...under("gs", GRID), ...under("vs", GRID), ...under("alt", GRID),
    "recovery", ...under("recovery", RECOVERY), ...AFTER_RECOVERY, "count",
    ...[1, 2, 3, 4].flatMap((level) => under(`level${level}`, LEVEL))];
  /** Keys that a text may leave out, and which then are 0. */
  const OPTIONAL = ["last_times", "tcpa", "tau", "tep", "nearest"];
  /** Each number of struct daa_own, and those of struct daa_traffic after its identifier, of 32 bits. */
  /** @type {OwnField[]} */
  const OWN = ["x", "y", "alt", "trk", "gs", "vs"];
  /** @type {TrafficField[]} */
  const TRAFFIC = ["x", "y", "alt", "vx", "vy", "vs", "age"];
  const ID_SIZE = 8;
  const FIELDS = ["", "x", "y", "alt", "trk", "gs", "vs", "vx", "vy", "age"];
  /** The numbers of struct daa_lines before its ownship, of 32 bits; its count of aircraft and they themselves come after. */
  const LINES = ["format", "ended", "last", "opened", "time", "owned"];

  const MOST_AIRCRAFT = 64;
  const LITTLE_ENDIAN = true; // as the module has its numbers
  const [OWN_SIZE, TRAFFIC_SIZE] = [4 * OWN.length, ID_SIZE + 4 * TRAFFIC.length];
  const SIZES = { config: 8 * CONFIG.length, own: OWN_SIZE, traffic: TRAFFIC_SIZE, fault: 24,
    lines: 4 * LINES.length + OWN_SIZE + 8 + MOST_AIRCRAFT * TRAFFIC_SIZE };
  const LONGEST_CONFIG = 65536;
  const LONGEST_LINE = 512; // bytes; a state line that is longer is too long by far, as its first bytes show
  const LONGEST_REPORT = 131072; // bytes; the header says how many are always enough, and these are more

  const ENDED = -1; // what daa_line returns where the line ended the moment
  const LINE_FEED = 10;
  const [BLANK, TABULATOR, NUMBER_SIGN] = [32, 9, 35];
  const OPEN_AT_THE_END = 14;

  /** @type {Record<number, string>} */
  const CAUSES = {
    1: "the text has more than 65536 bytes",
    2: "the text is no TOML",
    3: "a key is unknown",
    4: "a key is missing",
    5: "a value is no whole number, or no table",
    6: "a number is out of its range",
    7: "there are not 1 to 4 levels, or resolve is above their number",
    8: "a kind has more than 512 candidates",
    16: "a number of the ownship is out of its range",
    17: "a number of an aircraft is out of its range",
    18: "there are more than 64 aircraft",
    21: "an identifier is not 1 to 8 letters, digits, _ or -",
    22: "two aircraft have one identifier",
  };

  /** What the engine refuses: its code; of a configuration the sentence and the line, of states which number of whom. */
  class Refused extends Error {
    /** @param {number} code */
    constructor(code, { why = "", line = 0, fault = /** @type {Fault | null} */ (null) } = {}) {
      super(why || CAUSES[code] || `code ${code}`);
      Object.assign(this, { code, line, fault });
    }
  }

  /** The engine stopped in a call, as no call should; it has been made anew since. */
  class Stopped extends Error {}

  /** @type {(line: Uint8Array) => boolean} */
  const isComment = (line) => line[line.findIndex((byte) => byte !== BLANK && byte !== TABULATOR)] === NUMBER_SIGN;

  /** @type {(one: Uint8Array, other: Uint8Array) => Uint8Array} */
  function joined(one, other) {
    const both = new Uint8Array(one.length + other.length);
    both.set(one);
    both.set(other, one.length);
    return both;
  }

  /** What times are, by a comment `# clock utc` or `# clock day`; nothing where a line is none.
   *  @type {(line: Uint8Array) => string} */
  const clockIn = (line) => (isComment(line) ? /^#[ \t]+clock[ \t]+(utc|day)$/.exec(new TextDecoder().decode(line).trim())?.[1] ?? "" : "");

  /** A line that is a comment of a moment, as docs/FORMATS.md has them: whom it lacks, or where it is.
   *  @type {(line: Uint8Array) => string[]} */
  function commentIn(line) {
    if (!isComment(line)) return [];
    const text = new TextDecoder().decode(line).trim();
    return /^#[ \t]+(lacks|origin)[ \t]/.test(text) ? [text] : [];
  }

  /** Whom a moment lacks, and why, by its comments `# lacks ID WHY`.
   *  @type {(moment: { comments?: string[] }) => Lack[]} */
  function lacksOf({ comments = [] }) {
    return comments.flatMap((text) => {
      const found = /^#[ \t]+lacks[ \t]+(\S+)[ \t]*(.*)$/.exec(text);
      return found ? [{ id: found[1], why: found[2] }] : [];
    });
  }

  /** Why there is no moment, by a comment `# no moment: WHY`; nothing where a line is none.
   *  @type {(line: Uint8Array) => string} */
  function silenceIn(line) {
    const found = isComment(line) && /^#[ \t]+no[ \t]+moment:[ \t]*(.*)$/.exec(new TextDecoder().decode(line).trim());
    return found ? found[1] || "no cause is given" : "";
  }

  const compiled = new WeakMap(); // by the bytes of a module, which several engines of a page have in common

  class Engine {
    /** @type {WebAssembly.Module} */ module;
    /** @type {number} */ size;
    /** @type {TextDecoder} */ decoder;
    // What `renew` makes:
    /** @type {any} */ calls;
    is64 = false;
    /** @type {Record<string, number>} */ places = {};
    view = new DataView(new ArrayBuffer(0));
    bytes = new Uint8Array(0);

    /** An engine over the bytes of a module.
     *  @type {(bytes: Uint8Array) => Promise<Engine>} */
    static async open(bytes) {
      if (!compiled.has(bytes)) compiled.set(bytes, WebAssembly.compile(bytes));
      return new Engine(await compiled.get(bytes), bytes.length);
    }

    /** @param {WebAssembly.Module} module
     *  @param {number} size */
    constructor(module, size) {
      this.module = module;
      this.size = size;
      this.decoder = new TextDecoder("latin1");
      this.renew();
    }

    /** Makes the instance, at first and after a trap: the module is then as it fell, and would refuse every later call. */
    renew() {
      const { exports } = /** @type {any} */ (new WebAssembly.Instance(this.module, {}));
      const base = exports.__heap_base.value;
      let at = Math.ceil(Number(base) / 64) * 64;
      /** @type {(bytes: number) => number} */
      const room = (bytes) => {
        const place = at;
        at += Math.ceil(bytes / 64) * 64;
        return place;
      };
      this.calls = exports;
      this.is64 = typeof base === "bigint";
      this.places = { config: room(SIZES.config), own: room(SIZES.own), traffic: room(SIZES.traffic * MOST_AIRCRAFT),
        lines: room(SIZES.lines), line: room(LONGEST_LINE), length: room(8), fault: room(SIZES.fault), report: room(LONGEST_REPORT) };
      if (at > exports.memory.buffer.byteLength) throw new Error("the module's memory is too small");
      this.view = new DataView(exports.memory.buffer);
      this.bytes = new Uint8Array(exports.memory.buffer);
    }

    /** A pointer or a length, as the module takes it.
     *  @type {(number: number) => number | bigint} */
    word(number) {
      return this.is64 ? BigInt(number) : number;
    }

    /** @type {(name: string, ...words: (number | bigint)[]) => any} */
    call(name, ...words) {
      try {
        return this.calls[name](...words);
      } catch (problem) {
        if (!(problem instanceof WebAssembly.RuntimeError)) throw problem;
        this.renew();
        throw new Stopped(`The engine stopped (${problem.message}), and was made anew.`);
      }
    }

    // ---- a configuration

    /** The configuration of a text of TOML, of bytes. Codes 1 to 5 are found here, 6 to 8 by the engine's check.
     *  @type {(toml: Uint8Array) => Config} */
    read(toml) {
      if (toml.length > LONGEST_CONFIG) throw new Refused(1);
      const document = daa.readToml(toml);
      /** @type {{ code: number, why: string, line?: number }[]} */
      const faults = daa.faultsOf(document);
      /** @type {(code: number) => Refused} */
      const sentence = (code) => new Refused(code, faults.find((fault) => fault.code === code));
      if (faults.length && faults[0].code < 6) throw sentence(faults[0].code);
      const numbers = daa.numbersOf(document);
      const code = this.check(numbers);
      if (code) throw sentence(code);
      return new Config(this.structOf(numbers));
    }

    /** The engine's code of a configuration's numbers. Its struct has room for four levels. Those of more are asked four by
     *  four, since a number out of its range comes before their count.
     *  @type {(numbers: Numbers) => number} */
    check(numbers) {
      const { count } = numbers;
      for (let first = MOST_LEVELS; first < count; first += MOST_LEVELS) {
        /** @type {Numbers} */
        const rest = { ...numbers, resolve: 1n, count: BigInt(Math.min(Number(count) - first, MOST_LEVELS)) };
        for (const level of [1, 2, 3, 4]) for (const key of LEVEL) rest[`level${level}.${key}`] = numbers[`level${first + level}.${key}`];
        if (this.checkStruct(rest) === 6) return 6;
      }
      if (count <= MOST_LEVELS) return this.checkStruct(numbers);
      return this.checkStruct({ ...numbers, count: BigInt(MOST_LEVELS) }) === 6 ? 6 : 7;
    }

    /** @type {(numbers: Numbers) => number} */
    checkStruct(numbers) {
      this.bytes.set(this.structOf(numbers), this.places.config);
      return this.call("daa_check", this.word(this.places.config));
    }

    /** @type {(numbers: Numbers) => Uint8Array} */
    structOf(numbers) {
      const bytes = new Uint8Array(SIZES.config);
      const view = new DataView(bytes.buffer);
      CONFIG.forEach((name, i) => view.setBigInt64(8 * i, numbers[name] ?? 0n, LITTLE_ENDIAN));
      return bytes;
    }

    // ---- state lines

    /** The ended moments and the refused lines of state lines, of bytes, in their order.
     *  @type {(bytes: Uint8Array) => StatesEvent[]} */
    readStates(bytes) {
      return [...new StateLines(this).take(bytes, { isLast: true })];
    }

    /** @type {(line: Uint8Array) => number} */
    takeLine(line) {
      const { places } = this;
      this.bytes.set(line, places.line);
      return this.call("daa_line", this.word(places.line), this.word(line.length), this.word(places.lines));
    }

    /** @type {(name: string) => number} */
    lineNumber(name) {
      return this.view.getUint32(this.places.lines + 4 * LINES.indexOf(name), LITTLE_ENDIAN);
    }

    /** The moment that a line has just ended. */
    takenMoment() {
      const { view, bytes, decoder } = this;
      const ownAt = this.places.lines + 4 * LINES.length;
      const countAt = ownAt + SIZES.own;
      /** @type {(at: number, names: string[]) => any} */
      const some = (at, names) => Object.fromEntries(names.map((name, i) => [name, view.getInt32(at + 4 * i, LITTLE_ENDIAN)]));
      const traffic = Array.from({ length: Number(view.getBigUint64(countAt, LITTLE_ENDIAN)) }, (_, place) => {
        const at = countAt + 8 + SIZES.traffic * place;
        const id = decoder.decode(bytes.subarray(at, at + ID_SIZE)).replace(/\0.*$/, "");
        return { id, ...some(at + ID_SIZE, TRAFFIC) };
      });
      return { time: this.lineNumber("time"), own: some(ownAt, OWN), traffic };
    }

    // ---- a moment

    /** The text of a moment's report. Throws Refused or Stopped.
     *  @type {(config: { bytes: Uint8Array }, moment: { time: number, own: Own, traffic: Aircraft[] }) => string} */
    report(config, { time, own, traffic }) {
      if (traffic.length > MOST_AIRCRAFT) throw new Refused(18);
      const { places, view } = this;
      /** @type {(number: number) => number | bigint} */
      const w = (number) => this.word(number);
      this.bytes.set(config.bytes, places.config);
      this.putMoment(own, traffic);
      const code = this.call("daa_report", w(places.config), time | 0, w(places.own), w(places.traffic), w(traffic.length),
        w(places.report), w(LONGEST_REPORT), w(places.length));
      if (code) throw new Refused(code, { fault: this.fault(traffic.length) });
      const length = Number(view.getBigUint64(places.length, LITTLE_ENDIAN));
      return this.decoder.decode(this.bytes.subarray(places.report, places.report + length));
    }

    /** @type {(own: Own, traffic: Aircraft[]) => void} */
    putMoment(own, traffic) {
      const { places, view, bytes } = this;
      OWN.forEach((name, i) => view.setInt32(places.own + 4 * i, own[name], LITTLE_ENDIAN));
      traffic.forEach((one, place) => {
        const at = places.traffic + SIZES.traffic * place;
        for (let i = 0; i < ID_SIZE; i++) bytes[at + i] = i < one.id.length ? Math.min(one.id.charCodeAt(i), 255) : 0;
        TRAFFIC.forEach((name, i) => view.setInt32(at + ID_SIZE + 4 * i, one[name], LITTLE_ENDIAN));
      });
    }

    /** What is wrong with the states that were put last.
     *  @type {(count: number) => Fault} */
    fault(count) {
      const { places, view } = this;
      /** @type {(number: number) => number | bigint} */
      const w = (number) => this.word(number);
      const at = places.fault;
      this.call("daa_fault", w(places.own), w(places.traffic), w(count), w(at));
      /** @type {(place: number) => number} */
      const number = (place) => view.getInt32(at + 4 * place, LITTLE_ENDIAN);
      return { code: number(0), field: FIELDS[number(1)], least: number(2), greatest: number(3),
        place: Number(view.getBigUint64(at + 16, LITTLE_ENDIAN)) };
    }
  }

  /** State lines that come in pieces. What a line says, or why it is refused, is the engine's answer; here the text is only cut at its line
   *  feeds, and comments are read. An engine reads one text at a time. */
  class StateLines {
    /** @type {Engine} */ engine;
    number = 0;
    /** @type {string[]} */ comments = [];
    rest = new Uint8Array(0);
    clock = "";
    silence = "";

    /** @param {Engine} engine */
    constructor(engine) {
      const { bytes, places } = engine;
      this.engine = engine;
      bytes.fill(0, places.lines, places.lines + SIZES.lines);
    }

    /** The events of a piece: `moment`, or the number of a line that is `refused` and its code.
     *  @type {(piece: Uint8Array, how?: { isLast?: boolean }) => Iterable<StatesEvent>} */
    *take(piece, { isLast = false } = {}) {
      const bytes = this.rest.length ? joined(this.rest, piece) : piece;
      let start = 0;
      while (start < bytes.length) {
        const feed = bytes.indexOf(LINE_FEED, start);
        if (feed < 0 && !isLast) break;
        const end = feed < 0 ? bytes.length : feed;
        yield* this.line(bytes.subarray(start, Math.min(end, start + LONGEST_LINE)));
        start = end + 1;
      }
      this.rest = bytes.slice(Math.min(start, bytes.length)).slice(0, LONGEST_LINE); // of a line that is longer the rest says nothing
      if (isLast && this.engine.lineNumber("opened")) yield { refused: this.number + 1, code: OPEN_AT_THE_END };
    }

    /** @type {(line: Uint8Array) => Iterable<StatesEvent>} */
    *line(line) {
      const { engine } = this;
      this.number += 1;
      const wasOpen = engine.lineNumber("opened");
      const code = engine.takeLine(line);
      if (code === ENDED) {
        yield { moment: { ...engine.takenMoment(), comments: this.comments }, silence: this.silence };
        this.silence = "";
      }
      else if (code) yield { refused: this.number, code };
      if (!wasOpen || code === ENDED) this.comments = [];
      else this.comments.push(...commentIn(line));
      if (wasOpen) return;
      this.clock ||= clockIn(line);
      this.silence ||= silenceIn(line);
    }
  }

  /** The numbers of a configuration, as its struct has them. */
  class Config {
    /** @type {Uint8Array} */ bytes;
    /** @type {number} */ resolve;
    /** @type {Grids} */ grids;
    /** @type {Configuration["recovery"]} */ recovery;
    /** @type {boolean} */ lastTimes;
    /** @type {Level[]} */ levels;

    /** @param {Uint8Array} bytes */
    constructor(bytes) {
      const view = new DataView(bytes.buffer, bytes.byteOffset);
      const all = Object.fromEntries(CONFIG.map((name, i) => [name, Number(view.getBigInt64(8 * i, LITTLE_ENDIAN))]));
      /** @type {(name: string, keys: string[]) => any} */
      const some = (name, keys) => Object.fromEntries(keys.map((key) => [key, all[`${name}.${key}`]]));
      this.bytes = bytes;
      this.resolve = all.resolve;
      this.grids = { track: { min: 0, max: 360 - all.track_step, step: all.track_step, rate: all.turn_rate },
        gs: some("gs", GRID), vs: some("vs", GRID), alt: some("alt", GRID) };
      this.recovery = all.recovery ? some("recovery", RECOVERY) : null;
      this.lastTimes = Boolean(all.last_times);
      this.levels = Array.from({ length: all.count }, (_, l) => some(`level${l + 1}`, LEVEL));
    }
  }

  // ---- the report

  const KINDS = ["track", "gs", "vs", "alt"];

  /** What the report of a moment says.
   *  @type {(text: string) => Said} */
  function readReport(text) {
    /** @type {any} */
    const said = { text, time: 0, aircraft: [], bands: { track: [], gs: [], vs: [], alt: [] }, resolve: {}, last: {}, recover: {} };
    for (const line of text.split("\n")) takeReportLine(said, line.split(" "));
    return said;
  }

  /** @type {(said: any, words: string[]) => void} */
  function takeReportLine(said, [word, ...rest]) {
    /** @type {(field: string) => Answer} */
    const answer = (field) => (field === "keep" || field === "none" ? field : Number(field));
    if (word === "moment") said.time = Number(rest[0]);
    else if (word === "now") said.aircraft.push({ id: rest[0], now: Number(rest[1]), level: 0, first: null });
    else if (word === "alert") {
      const one = said.aircraft[said.aircraft.length - 1];
      one.level = Number(rest[1]);
      one.first = rest[2] === "-" ? null : Number(rest[2]);
    } else if (KINDS.includes(word)) said.bands[word].push({ from: Number(rest[0]), upto: Number(rest[1]), level: Number(rest[2]) });
    else if (word === "resolve") said.resolve[rest[0]] = { lower: answer(rest[2]), upper: answer(rest[4]) };
    else if (word === "last") said.last[rest[0]] = answer(rest[1]);
    else if (word === "recover") said.recover[rest[0]] = rest[1] === "none" ? "none" : { after: Number(rest[1]), value: Number(rest[2]) };
  }

  /** What cannot be missing.
   *  @type {<T>(value: T | null | undefined) => T} */
  function must(value) {
    if (value === null || value === undefined) throw new Error("something is missing that cannot be");
    return value;
  }

  /** @type {(text: string) => Uint8Array} */
  const bytesOf = (text) => new TextEncoder().encode(text);

  root.daa = Object.assign(root.daa || {}, { Engine, StateLines, Config, Refused, Stopped, TOP, GRID, LEVEL, RECOVERY, OPTIONAL, KINDS, CAUSES,
    MOST_AIRCRAFT, must, readReport, bytesOf, lacksOf });
}
daaCore(globalThis);
