// @ts-check
/* The moments of a recording, packed into blocks of whole numbers, so that 100,000 moments of 64 aircraft have room (2 KB each) and go
 * from a worker to the page at once; and what is kept of the answers to them, for the strip over time. No page is needed. */
"use strict";
/** @type {(root: Root) => void} */
function daaMoments(root) {
  /** @type {OwnField[]} */
  const OWN = ["x", "y", "alt", "trk", "gs", "vs"];
  /** @type {TrafficField[]} */
  const TRAFFIC = ["x", "y", "alt", "vx", "vy", "vs", "age"];
  const BLOCK = 64; // moments

  /** Packs moments one after the other; `take` gives those that were added as a block, and begins the next one. */
  class Packer {
    /** @type {number[]} */ times = [];
    /** @type {number[]} */ starts = [0];
    /** @type {number[]} */ numbers = [];
    /** @type {string[]} */ names = [];
    /** @type {Map<string, number>} */ places = new Map();
    /** @type {string[][]} */ comments = [];
    /** @type {string[]} */ faults = [];
    /** @type {string[]} */ silences = [];

    begin() {
      Object.assign(this, { times: [], starts: [0], numbers: [], names: [], places: new Map(), comments: [], faults: [], silences: [] });
    }

    get isFull() { return this.times.length >= BLOCK; }
    get isEmpty() { return this.times.length === 0; }

    /** Adds a moment, and in words what was refused before it. `silence` is why there is none between it and the one before.
     *  @type {(moment: Partial<Moment> & Pick<Moment, "time" | "own" | "traffic">, fault?: string, silence?: string) => void} */
    add({ time, own, traffic, comments = [], silence: since = "" }, fault = "", silence = since) {
      this.numbers.push(...OWN.map((field) => own[field]));
      for (const one of traffic) this.numbers.push(this.placeOf(one.id), ...TRAFFIC.map((field) => one[field]));
      this.times.push(time);
      this.starts.push(this.numbers.length);
      this.comments.push(comments);
      this.faults.push(fault);
      this.silences.push(silence);
    }

    /** @type {(name: string) => number} */
    placeOf(name) {
      const known = this.places.get(name);
      if (known !== undefined) return known;
      const place = this.names.push(name) - 1;
      this.places.set(name, place);
      return place;
    }

    /** @type {() => Block} */
    take() {
      const { names, comments, faults, silences } = this;
      const block = { times: Uint32Array.from(this.times), starts: Uint32Array.from(this.starts), numbers: Int32Array.from(this.numbers), names,
        comments, faults, silences };
      this.begin();
      return block;
    }
  }

  /** A moment of a block: a new one each time.
   *  @param {Block} block
   *  @param {number} place
   *  @returns {Moment} */
  function momentIn({ times, starts, numbers, names, comments }, place) {
    /** @type {(at: number, fields: string[]) => any} */
    const some = (at, fields) => Object.fromEntries(fields.map((field, i) => [field, numbers[at + i]]));
    const traffic = [];
    for (let at = starts[place] + OWN.length; at < starts[place + 1]; at += 1 + TRAFFIC.length) {
      traffic.push({ id: names[numbers[at]], ...some(at + 1, TRAFFIC) });
    }
    return { time: times[place], own: some(starts[place], OWN), traffic, comments: [...comments[place]] };
  }

  /** A part of a block, as a block of its own.
   *  @type {(block: Block, first: number, count: number) => Block} */
  function partOf({ times, starts, numbers, names, comments, faults, silences }, first, count) {
    const [from, upto] = [starts[first], starts[first + count]];
    return { times: times.slice(first, first + count), starts: starts.slice(first, first + count + 1).map((at) => at - from),
      numbers: numbers.slice(from, upto), names, comments: comments.slice(first, first + count), faults: faults.slice(first, first + count),
      silences: silences.slice(first, first + count) };
  }

  /** The moments of a recording, which may grow. */
  class Moments {
    /** @type {Block[]} */ blocks = [];
    /** @type {number[]} */ firsts = [];
    length = 0;
    /** @type {Set<string>} */ ids = new Set();

    /** Those of a list, and in words what was refused before each.
     *  @type {(list: Iterable<Moment>, faults?: string[]) => Moments} */
    static of(list, faults = []) {
      const made = new Moments();
      const packer = new Packer();
      [...list].forEach((moment, index) => {
        packer.add(moment, faults[index]);
        if (packer.isFull) made.append(packer.take());
      });
      if (!packer.isEmpty) made.append(packer.take());
      return made;
    }

    /** @type {(block: Block) => void} */
    append(block) {
      this.firsts.push(this.length);
      this.blocks.push(block);
      this.length += block.times.length;
      for (const name of block.names) this.ids.add(name);
    }

    /** The block of a moment, and its place there.
     *  @param {number} index
     *  @returns {[Block, number]} */
    find(index) {
      let [low, high] = [0, this.firsts.length - 1];
      while (low < high) {
        const middle = Math.ceil((low + high) / 2);
        if (this.firsts[middle] <= index) low = middle;
        else high = middle - 1;
      }
      return [this.blocks[low], index - this.firsts[low]];
    }

    /** @type {(index: number) => Moment} */
    at(index) { return momentIn(...this.find(index)); }

    /** @type {(index: number) => number} */
    time(index) {
      const [block, place] = this.find(index);
      return block.times[place];
    }

    /** @type {(index: number) => string[]} */
    comments(index) {
      const [block, place] = this.find(index);
      return block.comments[place];
    }

    /** In words what was refused before a moment.
     *  @type {(index: number) => string} */
    fault(index) {
      const [block, place] = this.find(index);
      return block.faults[place];
    }

    /** Why there is no moment between one and the one before, or nothing.
     *  @type {(index: number) => string} */
    silence(index) {
      const [block, place] = this.find(index);
      return block.silences[place];
    }

    /** The first moments go, as many as a live source has too many: those of whole blocks.
     *  @type {(count: number) => void} */
    drop(count) {
      let [blocks, gone] = [0, 0];
      while (blocks < this.blocks.length && gone + this.blocks[blocks].times.length <= count) gone += this.blocks[blocks++].times.length;
      this.blocks.splice(0, blocks);
      this.firsts = this.firsts.slice(blocks).map((first) => first - gone);
      this.length -= gone;
      this.ids = new Set(this.blocks.flatMap(({ names }) => names));
    }

    /** All times: those are looked through where each index is asked for. */
    times() {
      const all = new Float64Array(this.length);
      this.blocks.forEach((block, i) => all.set(block.times, this.firsts[i]));
      return all;
    }

    /** The last moment that is no later than a time, or the first one.
     *  @type {(time: number) => number} */
    indexAt(time) {
      let [low, high] = [0, this.length - 1];
      while (low < high) {
        const middle = Math.ceil((low + high) / 2);
        if (this.time(middle) <= time) low = middle;
        else high = middle - 1;
      }
      return low;
    }

    /** At most so many moments from one on, as a block: what a worker is asked about.
     *  @type {(first: number, count: number) => Block} */
    part(first, count) {
      const [block, place] = this.find(first);
      return partOf(block, place, Math.min(count, block.times.length - place));
    }

    *[Symbol.iterator]() {
      for (let index = 0; index < this.length; index++) yield this.at(index);
    }
  }

  /** What is kept of the report of a moment: who alerts, and at which level; the bands of tracks; the ownship's track and the open ones; and all
   *  answers, by which two configurations are compared.
   *  @type {(moment: Moment, said: Said) => Note} */
  function noteOf(moment, said) {
    const answers = Object.entries(said.resolve).map(([kind, { lower, upper }]) => `${kind} ${lower} ${upper}`).join(", ");
    return { time: moment.time, levels: said.aircraft.filter((one) => one.level).map((one) => [one.id, one.level]),
      bands: said.bands.track.map(({ from, upto, level }) => [from, upto, level]), trk: moment.own.trk,
      open: Object.values(said.resolve.track ?? {}).flatMap((to) => (typeof to === "number" ? [to] : [])), answers };
  }

  const NO_TRACK = -1; // in place of an open track

  /** Notes as numbers, and names and answers once each, so that they take little room and go to the page at once. A note that is null, since
   *  the engine gave no report, has no number of an answer.
   *  @param {(Note | null)[]} notes
   *  @returns {NotePack} */
  function packNotes(notes, first = 0) {
    const [names, answers] = [new Map(), new Map()];
    /** @type {(places: Map<string, number>, word: string) => number} */
    const placeIn = (places, word) => {
      const known = places.get(word);
      if (known !== undefined) return known;
      places.set(word, places.size);
      return places.size - 1;
    };
    /** @type {number[][]} */
    const [heads, levels, bands, ends] = [[], [], [], [0, 0]];
    for (const note of notes) {
      if (note) {
        const [one = NO_TRACK, other = NO_TRACK] = note.open;
        heads.push(note.time, note.trk, one, other, placeIn(answers, note.answers));
        for (const [id, level] of note.levels) levels.push(8 * placeIn(names, id) + level);
        for (const run of note.bands) bands.push(...run);
      } else heads.push(0, 0, NO_TRACK, NO_TRACK, -1);
      ends.push(levels.length, bands.length);
    }
    return { first, names: [...names.keys()], answers: [...answers.keys()], heads: Float64Array.from(heads), levels: Uint32Array.from(levels),
      bands: Int16Array.from(bands), ends: Uint32Array.from(ends) };
  }

  const HEAD = 5; // numbers of a note: time, track, the open tracks, the place of its answers

  /** The notes of a recording: of each moment its note, null where the engine gave none, or undefined where it was not asked yet. */
  class Notes {
    /** @type {NotePack[]} */ packs = [];
    gone = 0;

    /** Those of a list.
     *  @type {(notes: (Note | null)[]) => Notes} */
    static of(notes) {
      const made = new Notes();
      made.put(packNotes(notes));
      return made;
    }

    /** Keeps packed notes, whose first one is that of the moment `first`.
     *  @type {(pack: NotePack) => void} */
    put(pack) {
      const count = pack.ends.length / 2 - 1;
      for (let place = 0; place < count; place++) this.packs[pack.first + place] = pack;
      pack.first += this.gone;
    }

    /** The notes of the first moments go, and those after them are the first from then on.
     *  @type {(count: number) => void} */
    drop(count) {
      this.packs = this.packs.slice(count);
      this.gone += count;
    }

    get length() { return this.packs.length; }

    /** The notes that one is packed with, and its place there; the place is -1 where there is none.
     *  @param {number} index
     *  @returns {[NotePack | undefined, number]} */
    find(index) {
      const pack = this.packs[index];
      const place = pack ? index + this.gone - pack.first : -1;
      return [pack, pack && pack.heads[HEAD * place + 4] >= 0 ? place : -1];
    }

    /** @type {(index: number) => boolean} */
    has(index) { return this.find(index)[1] >= 0; }

    /** @type {(index: number) => Note | null | undefined} */
    at(index) {
      const [pack, place] = this.find(index);
      if (!pack) return undefined;
      if (place < 0) return null;
      const { names, answers, heads, levels, bands, ends } = pack;
      const [time, trk, one, other, said] = heads.subarray(HEAD * place, HEAD * (place + 1));
      /** @type {Note} */
      const made = { time, levels: [], bands: [], trk, open: [one, other].filter((to) => to !== NO_TRACK), answers: answers[said] };
      for (let at = ends[2 * place]; at < ends[2 * place + 2]; at++) made.levels.push([names[levels[at] >> 3], levels[at] & 7]);
      for (let at = ends[2 * place + 1]; at < ends[2 * place + 3]; at += 3) made.bands.push([bands[at], bands[at + 1], bands[at + 2]]);
      return made;
    }

    /** The greatest level of a moment, 0 also where it is not known.
     *  @type {(index: number) => number} */
    greatest(index) {
      const [pack, place] = this.find(index);
      if (!pack || place < 0) return 0;
      let most = 0;
      for (let at = pack.ends[2 * place]; at < pack.ends[2 * place + 2]; at++) most = Math.max(most, pack.levels[at] & 7);
      return most;
    }

    /** @type {<T>(act: (note: Note | null | undefined, index: number) => T) => T[]} */
    map(act) { return Array.from(this.packs, (_, index) => act(this.at(index), index)); }
  }

  /** The notes of all moments of a block, packed; null where the engine gave no report. `first` is the place of the first one in the recording.
   *  @type {(engine: any, config: { bytes: Uint8Array }, block: Block, first: number) => NotePack} */
  function notesOf(engine, config, block, first) {
    return packNotes(Array.from(block.times, (_, place) => {
      const moment = momentIn(block, place);
      try {
        return noteOf(moment, root.daa.readReport(engine.report(config, moment)));
      } catch (problem) {
        if (problem instanceof root.daa.Refused || problem instanceof root.daa.Stopped || problem instanceof RangeError) return null;
        throw problem;
      }
    }), first);
  }

  /** The reports of all moments of a block. Throws Refused or Stopped.
   *  @type {(engine: any, config: { bytes: Uint8Array }, block: Block) => string[]} */
  const reportsOf = (engine, config, block) => Array.from(block.times, (_, place) => engine.report(config, momentIn(block, place)));

  Object.assign(root.daa, { Packer, Moments, momentIn, noteOf, notesOf, reportsOf, packNotes, Notes });
}
daaMoments(globalThis);
