// @ts-check
/* Configurations: a reader of TOML 1.1, what is wrong with a document, and its numbers.
 *
 * The engine's module has no allocator, so the text is read here, and the codes 2 to 5 are found here. The codes 6 to 8 are
 * the engine's (daa_check); the ranges below only name the key. Both are as in tools/toml_1_1.py and tools/daidalus_files.py. */
"use strict";
/** @type {(root: Root) => void} */
function daaToml(root) {
  // ---- TOML. A table is a Map, an array an Array, a string a string, a whole number a bigint, and all else an Other.

  const MOST_NESTED = 80;
  /** @type {Record<string, string>} */
  const ESCAPES = { b: "\b", e: "\x1b", f: "\f", n: "\n", r: "\r", t: "\t", '"': '"', "\\": "\\" };
  /** @type {Record<string, number>} */
  const HEX_DIGITS = { x: 2, u: 4, U: 8 };
  const SPACE = /[ \t]*/y;
  const LINE_END = /\r?\n/y;
  const BLANK = /(?:[ \t]|\r?\n|#[^\x00-\x08\x0a-\x1f\x7f]*)*/y;
  const BLANK_LINES = /(?:[ \t]|\r?\n)*/y;
  const BARE_KEY = /[A-Za-z0-9_-]+/y;
  const WORD = /[A-Za-z0-9_+.:-]+(?: (?=[0-9])[A-Za-z0-9_+.:-]+)?/y;
  const PLAIN = /[^\x00-\x08\x0a-\x1f\x7f]/uy;
  const PLAIN_LINES = /[^\x00-\x08\x0b-\x1f\x7f]/uy; // with line feeds
  const DECIMAL = /^[+-]?(?:0|[1-9](?:_?[0-9])*)$/;
  const PREFIXED = /^(?:0x[0-9A-Fa-f](?:_?[0-9A-Fa-f])*|0o[0-7](?:_?[0-7])*|0b[01](?:_?[01])*)$/;
  const FLOAT = /^[+-]?(?:0|[1-9](?:_?[0-9])*)(?:\.[0-9](?:_?[0-9])*)?(?:[eE][+-]?[0-9](?:_?[0-9])*)?$/;
  const TIME = "([01][0-9]|2[0-3]):[0-5][0-9](?::(?:[0-5][0-9]|60)(?:\\.[0-9]+)?)?";
  const ONLY_TIME = new RegExp(`^${TIME}$`);
  const DATE_TIME = new RegExp(`^([0-9]{4})-([0-9]{2})-([0-9]{2})(?:[Tt ]${TIME}(?:[Zz]|[+-]([01][0-9]|2[0-3]):[0-5][0-9])?)?$`);
  const DAYS = [31, 28, 31, 30, 31, 30, 31, 31, 30, 31, 30, 31];

  /** A value that is no whole number, table, array or string. */
  class Other {
    /** @param {string} text */
    constructor(text) { this.text = text; }
  }

  /** A table, on which line each key stands, and how the table came to be: by a header, on the way to one, by a dotted key, as a value. */
  class Table extends Map {
    /** @type {Map<string, number>} */ lines = new Map();

    /** @param {"header" | "implicit" | "dotted" | "value"} origin
     *  @param {number} line */
    constructor(origin, line) {
      super();
      this.origin = origin;
      this.line = line;
    }

    /** @type {(key: string, value: any, line: number) => any} */
    put(key, value, line) {
      this.set(key, value);
      this.lines.set(key, line);
      return value;
    }
  }

  /** An array of tables, made by headers in double brackets. */
  class TableList extends Array {}

  class Reader {
    /** @param {string} text */
    constructor(text) {
      this.text = text;
      this.at = 0;
      this.counted = { upto: 0, lines: 1 };
    }

    /** The number of the line that the reader is at; it goes on from where it was counted last. */
    line() {
      const { upto, lines } = this.counted;
      const more = this.text.slice(upto, this.at).split("\n").length - 1;
      if (this.at >= upto) this.counted = { upto: this.at, lines: lines + more };
      return lines + more;
    }

    /** @type {(why: string) => never} */
    fail(why) { throw new daa.Refused(2, { why: `line ${this.line()}: ${why}`, line: this.line() }); }

    /** What has the form and comes next; goes past it.
     *  @type {(form: RegExp) => string} */
    skip(form) {
      form.lastIndex = this.at;
      const found = form.exec(this.text);
      if (!found) return "";
      this.at = form.lastIndex;
      return found[0];
    }

    /** @type {(front: string) => boolean} */
    nextIs(front) { return this.text.startsWith(front, this.at); }

    /** @type {(front: string) => boolean} */
    take(front) {
      if (!this.nextIs(front)) return false;
      this.at += front.length;
      return true;
    }

    /** @type {(front: string) => void} */
    need(front) { if (!this.take(front)) this.fail(`${front} is wanted`); }

    ends() { return this.at >= this.text.length; }

    lineEnds() {
      LINE_END.lastIndex = this.at;
      return LINE_END.test(this.text);
    }

    document() {
      const top = new Table("header", 1);
      let current = top;
      this.skip(BLANK);
      while (!this.ends()) {
        if (this.take("[[")) current = this.header(top, "]]");
        else if (this.take("[")) current = this.header(top, "]");
        else this.pair(current, 0);
        this.skip(SPACE);
        if (!(this.ends() || this.nextIs("#") || this.lineEnds())) this.fail("something after the end of what the line says");
        this.skip(BLANK);
      }
      return top;
    }

    /** @type {(top: Table, closing: string) => Table} */
    header(top, closing) {
      const line = this.line();
      this.skip(SPACE);
      const path = this.key();
      const last = path[path.length - 1];
      this.need(closing);
      let table = top;
      for (const part of path.slice(0, -1)) {
        table = table.has(part) ? table.get(part) : table.put(part, new Table("implicit", line), line);
        if (table instanceof TableList) table = table[table.length - 1];
        if (!(table instanceof Table) || table.origin === "value") this.fail(`${part} is no table that may be added to`);
      }
      return closing === "]]" ? this.oneMore(table, last, line) : this.headed(table, last, line);
    }

    /** @type {(table: Table, last: string, line: number) => Table} */
    oneMore(table, last, line) {
      const list = table.has(last) ? table.get(last) : table.put(last, new TableList(), line);
      if (!(list instanceof TableList)) this.fail(`${last} is there already`);
      list.push(new Table("header", line));
      return list[list.length - 1];
    }

    /** @type {(table: Table, last: string, line: number) => Table} */
    headed(table, last, line) {
      const made = table.has(last) ? table.get(last) : table.put(last, new Table("implicit", line), line);
      if (!(made instanceof Table) || made.origin !== "implicit") this.fail(`${last} is there already`);
      made.origin = "header";
      return made;
    }

    /** @type {(table: Table, depth: number) => void} */
    pair(table, depth) {
      const line = this.line();
      const path = this.key();
      const last = path[path.length - 1];
      this.need("=");
      this.skip(SPACE);
      const value = this.value(depth);
      for (const part of path.slice(0, -1)) {
        table = table.has(part) ? table.get(part) : table.put(part, new Table("dotted", line), line);
        if (!(table instanceof Table) || !["dotted", "implicit"].includes(table.origin)) this.fail(`${part} is no table that may be added to`);
        table.origin = "dotted";
      }
      if (table.has(last)) this.fail(`${last} is there already`);
      table.put(last, value, line);
    }

    /** @type {() => string[]} */
    key() {
      const parts = [];
      for (;;) {
        if (parts.length === MOST_NESTED) this.fail(`a key of more than ${MOST_NESTED} parts`);
        if (this.nextIs('"') || this.nextIs("'")) parts.push(this.stringBody(this.text[this.at]));
        else parts.push(this.skip(BARE_KEY) || this.fail("no key where one is wanted"));
        this.skip(SPACE);
        if (!this.take(".")) return parts;
        this.skip(SPACE);
      }
    }

    /** @type {(depth: number) => any} */
    value(depth) {
      if (this.nextIs("[") || this.nextIs("{")) {
        if (depth === MOST_NESTED) this.fail(`arrays and tables nested more than ${MOST_NESTED} deep`);
        return this.take("[") ? this.array(depth + 1) : this.inlineTable(depth + 1);
      }
      for (const delimiter of ['"', "'"]) {
        if (this.nextIs(delimiter)) return this.stringBody(delimiter, { multi: this.nextIs(delimiter.repeat(3)) });
      }
      return this.scalar(this.skip(WORD) || this.fail("no value where one is wanted"));
    }

    /** @type {(depth: number) => any[]} */
    array(depth) {
      const found = [];
      this.skip(BLANK);
      while (!this.take("]")) {
        found.push(this.value(depth));
        this.afterElement("]");
      }
      return found;
    }

    /** @type {(depth: number) => Table} */
    inlineTable(depth) {
      const found = new Table("implicit", this.line());
      this.need("{");
      this.skip(BLANK);
      while (!this.take("}")) {
        this.pair(found, depth);
        this.afterElement("}");
      }
      seal(found);
      return found;
    }

    /** @type {(closing: string) => void} */
    afterElement(closing) {
      this.skip(BLANK);
      if (this.take(",")) this.skip(BLANK);
      else if (!this.nextIs(closing)) this.need(closing);
    }

    /** @type {(delimiter: string, how?: { multi?: boolean }) => string} */
    stringBody(delimiter, { multi = false } = {}) {
      this.at += multi ? 3 : 1;
      if (multi) this.skip(LINE_END);
      let pieces = "";
      for (;;) {
        if (this.nextIs(delimiter)) {
          const closed = this.closing(delimiter, multi);
          if (closed !== null) return pieces + closed;
          pieces += this.skip(delimiter === '"' ? /"{1,5}/y : /'{1,5}/y);
        } else if (delimiter === '"' && this.take("\\")) pieces += this.escape(multi);
        else if (multi && this.nextIs("\r\n")) pieces += this.skip(LINE_END);
        else pieces += this.skip((multi ? PLAIN_LINES : PLAIN)) || this.fail("a string that does not end, or holds a control character");
      }
    }

    /** The delimiters of a string that still belong to it, where it ends here, or null.
     *  @type {(delimiter: string, multi: boolean) => string | null} */
    closing(delimiter, multi) {
      if (!multi) {
        this.at += 1;
        return "";
      }
      const before = this.at;
      const count = this.skip(delimiter === '"' ? /"{1,5}/y : /'{1,5}/y).length;
      if (count < 3) {
        this.at = before;
        return null;
      }
      if (this.nextIs(delimiter)) this.fail("six delimiters of a string in a row");
      return delimiter.repeat(count - 3);
    }

    /** @type {(multi: boolean) => string} */
    escape(multi) {
      if (multi) {
        const before = this.at;
        this.skip(SPACE);
        if (this.lineEnds()) {
          this.skip(BLANK_LINES);
          return "";
        }
        this.at = before;
      }
      const letter = this.text.slice(this.at, this.at + 1);
      this.at += 1;
      if (Object.hasOwn(ESCAPES, letter)) return ESCAPES[letter];
      const size = Object.hasOwn(HEX_DIGITS, letter) ? HEX_DIGITS[letter] : this.fail("a backslash before what it does not escape");
      const digits = this.skip(new RegExp(`[0-9A-Fa-f]{${size}}`, "y")) || this.fail(`\\${letter} needs ${size} hexadecimal digits`);
      const code = parseInt(digits, 16);
      if ((code >= 0xd800 && code < 0xe000) || code > 0x10ffff) this.fail(`\\${letter}${digits} is no character`);
      return String.fromCodePoint(code);
    }

    /** @type {(word: string) => Other | bigint} */
    scalar(word) {
      if (word === "true" || word === "false" || /^[+-]?(?:inf|nan)$/.test(word)) return new Other(word);
      if (/^[0-9]+[-:]/.test(word)) return this.dateOrTime(word);
      if (DECIMAL.test(word) || PREFIXED.test(word)) return this.wholeNumber(word);
      if (!FLOAT.test(word) || !Number.isFinite(Number(word.replaceAll("_", "")))) this.fail(`${word} is no value`);
      return new Other(word);
    }

    /** @type {(word: string) => bigint} */
    wholeNumber(word) {
      const plain = word.replaceAll("_", "");
      const number = plain[0] === "-" ? -BigInt(plain.slice(1)) : BigInt(plain.replace("+", ""));
      if (number !== BigInt.asIntN(64, number)) this.fail(`${word} does not fit 64 bits`);
      return number;
    }

    /** @type {(word: string) => Other} */
    dateOrTime(word) {
      if (ONLY_TIME.test(word)) return new Other(word);
      const found = DATE_TIME.exec(word);
      if (!found) this.fail(`${word} is no date and no time`);
      const [year, month, day] = found.slice(1, 4).map(Number);
      const leap = year % 4 === 0 && (year % 100 !== 0 || year % 400 === 0);
      const days = month === 2 && leap ? 29 : DAYS[month - 1];
      if (month < 1 || month > 12 || day < 1 || day > days) this.fail(`${word} is no day of the calendar`);
      return new Other(word);
    }
  }

  /** Closes a table that is a value, and those in it: nothing may be added.
   *  @type {(table: Table) => void} */
  function seal(table) {
    for (const inner of table.values()) if (inner instanceof Table && inner.origin !== "value") seal(inner);
    table.origin = "value";
  }

  /** The document of a text of bytes. Throws Refused with code 2.
   *  @type {(bytes: Uint8Array) => Table} */
  function readToml(bytes) {
    let text;
    try {
      text = new TextDecoder("utf-8", { fatal: true }).decode(bytes);
    } catch {
      throw new daa.Refused(2, { why: "it is not UTF-8" });
    }
    return new Reader(text).document();
  }

  // ---- What a document must say: the least and the greatest of each number, and its unit

  /** @type {Record<string, any>} */
  const RANGES = {
    resolve: [1, 4, "a level"], turn_rate: [1, 30, "degree per second"], track_step: [1, 90, "degree, a divisor of 360"],
    last_times: [0, 1, "0 or 1"],
    gs: { min: [0, 10000, "0.1 kt"], max: [0, 10000, "0.1 kt"], step: [1, 10000, "0.1 kt"], rate: [1, 10000, "0.1 kt per second"] },
    vs: { min: [-10000, 10000, "ft/min"], max: [-10000, 10000, "ft/min"], step: [1, 20000, "ft/min"], rate: [1, 10000, "ft/min per second"] },
    alt: { min: [-2000, 60000, "ft"], max: [-2000, 60000, "ft"], step: [1, 62000, "ft"], rate: [1, 10000, "ft/min"] },
    recovery: { hdist: [1, 10000, "0.001 NM"], vdist: [0, 10000, "ft"], nearest: [0, 1, "0 or 1"] },
    level: { dthr: [1, 10000, "0.001 NM"], zthr: [0, 10000, "ft"], tthr: [0, 120, "s"], tcoa: [0, 120, "s"],
      lookahead: [1, 180, "s"], alert: [1, 180, "s"], tcpa: [0, 1, "0 or 1"], tau: [0, 1, "0 or 1"], tep: [0, 1, "0 or 1"] },
  };
  const MODELS = ["tcpa", "tau", "tep"];
  const MOST_VALUES = 512;
  const GRIDS = ["gs", "vs", "alt"];
  /** @type {(value: any) => boolean} */
  const isNumber = (value) => typeof value === "bigint";
  /** @type {(key: string) => boolean} */
  const isOptional = (key) => daa.OPTIONAL.includes(key);

  /** A value of a document, for a sentence.
   *  @type {(value: any) => string} */
  function shown(value) {
    if (value instanceof Other) return value.text;
    if (value instanceof Table) return "a table";
    if (Array.isArray(value)) return "a list";
    return isNumber(value) ? String(value) : `'${value.length <= 40 ? value : value.slice(0, 40) + ".."}'`;
  }

  /** All that is wrong with a document: each fault's code, sentence and line; the least code first.
   *  @type {(document: Table) => TomlFault[]} */
  function faultsOf(document) {
    /** @type {TomlFault[]} */
    const faults = [];
    /** @type {AddFault} */
    const add = (code, why, line) => { faults.push({ code, why, line }); };
    keyFaults(add, "", document, [...daa.TOP, ...GRIDS, "level", "recovery"], (key) => key === "recovery" || isOptional(key));
    numberFaults(add, "", document, daa.TOP, RANGES);
    for (const name of [...GRIDS, "recovery"]) tableFaults(add, document, name);
    stepFaults(add, document);
    levelFaults(add, document);
    return faults.sort((a, b) => a.code - b.code);
  }

  /** @type {(add: AddFault, where: string, table: Table, keys: string[], mayBeLeftOut: (key: string) => boolean) => void} */
  function keyFaults(add, where, table, keys, mayBeLeftOut) {
    for (const key of table.keys()) {
      if (!keys.includes(key)) add(3, `${where}${key} is no key; known are ${keys.join(", ")}`, table.lines.get(key));
    }
    for (const key of keys) if (!table.has(key) && !mayBeLeftOut(key)) add(4, `${where}${key} is missing`, table.line);
  }

  /** @type {(add: AddFault, where: string, table: Table, keys: string[], ranges: Record<string, any>) => void} */
  function numberFaults(add, where, table, keys, ranges) {
    for (const key of keys) {
      if (!table.has(key)) continue;
      const [low, high, unit] = ranges[key];
      const value = table.get(key);
      const line = table.lines.get(key);
      if (!isNumber(value)) add(5, `${where}${key} = ${shown(value)} is no whole number (${unit})`, line);
      else if (value < low || value > high) add(6, `${where}${key} = ${value} is outside ${low} to ${high} (${unit})`, line);
    }
  }

  /** @type {(add: AddFault, document: Table, name: string) => void} */
  function tableFaults(add, document, name) {
    if (!document.has(name)) return;
    const table = document.get(name);
    const keys = name === "recovery" ? daa.RECOVERY : daa.GRID;
    if (!(table instanceof Table)) {
      add(5, `${name} is ${shown(table)} and no table`, document.lines.get(name));
      return;
    }
    keyFaults(add, `${name}.`, table, keys, isOptional);
    numberFaults(add, `${name}.`, table, keys, RANGES[name]);
  }

  /** What is wrong with the lists of candidates, where each number is in its range.
   *  @type {(add: AddFault, document: Table) => void} */
  function stepFaults(add, document) {
    const step = document.get("track_step");
    if (isNumber(step) && step >= 1n && step <= 90n && 360n % step) {
      add(6, `track_step = ${step} does not divide 360`, document.lines.get("track_step"));
    }
    for (const name of GRIDS) {
      const table = document.get(name);
      const [low, high, each] = table instanceof Table ? ["min", "max", "step"].map((key) => table.get(key)) : [];
      if (![low, high, each].every(isNumber) || each < 1n) continue;
      const count = /** @type {any} */ ((high - low) / each) + 1n;
      if (low > high) add(6, `${name}.min = ${low} is above ${name}.max = ${high}`, table.lines.get("min"));
      else if (count > MOST_VALUES) add(8, `${name} has ${count} candidates, and ${MOST_VALUES} are the most`, table.lines.get("step"));
    }
  }

  /** @type {(add: AddFault, document: Table) => void} */
  function levelFaults(add, document) {
    if (!document.has("level")) return;
    const levels = document.get("level");
    const line = document.lines.get("level");
    if (!Array.isArray(levels)) {
      add(5, `level is ${shown(levels)} and no list of tables`, line);
      return;
    }
    levels.forEach((level, l) => oneLevelFaults(add, level, l + 1, line));
    const resolve = document.get("resolve");
    if (levels.length < 1 || levels.length > 4) add(7, `there are ${levels.length} levels, and 1 to 4 may be`, line);
    else if (isNumber(resolve) && resolve > levels.length) {
      add(7, `resolve = ${resolve} is above the number of levels, ${levels.length}`, document.lines.get("resolve"));
    }
  }

  /** @type {(add: AddFault, level: any, number: number, line: number | undefined) => void} */
  function oneLevelFaults(add, level, number, line) {
    if (!(level instanceof Table)) {
      add(5, `level ${number} is ${shown(level)} and no table`, line);
      return;
    }
    keyFaults(add, `level ${number}, `, level, daa.LEVEL, isOptional);
    numberFaults(add, `level ${number}, `, level, daa.LEVEL, RANGES.level);
    const chosen = MODELS.filter((key) => level.get(key) === 1n);
    if (chosen.length > 1) add(6, `level ${number}, ${chosen.join(" and ")} are 1, and at most one may be`, level.lines.get(chosen[1]));
  }

  /** The numbers of a document without the faults 3 to 5, under the names that core.js has for the engine's struct.
   *  @type {(document: Table) => Numbers} */
  function numbersOf(document) {
    /** @type {Numbers} */
    const numbers = {};
    /** @type {(where: string, table: Table, keys: string[]) => void} */
    const put = (where, table, keys) => {
      for (const key of keys) numbers[where + key] = table.get(key) ?? 0n;
    };
    put("", document, daa.TOP);
    for (const name of GRIDS) put(`${name}.`, document.get(name), daa.GRID);
    /** @type {Table[]} */
    const levels = document.get("level");
    levels.forEach((level, l) => put(`level${l + 1}.`, level, daa.LEVEL));
    numbers.count = BigInt(levels.length);
    numbers.recovery = document.has("recovery") ? 1n : 0n;
    if (numbers.recovery) put("recovery.", document.get("recovery"), daa.RECOVERY);
    return numbers;
  }

  Object.assign(root.daa, { readToml, faultsOf, numbersOf });
}
daaToml(globalThis);
