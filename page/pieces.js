// @ts-check
/* How state lines and recordings become blocks of moments: at once, or piece by piece in a worker, so that a long recording is shown from its
 * first moment on and never stops the page. No page is needed. */
"use strict";
/** @type {(root: Root) => void} */
function daaPieces(root) {
  const { Packer, StateLines } = root.daa;
  const MOST_NOTES = 5; // so many of the things that a moment lacks are told one by one

  /** What a moment lacks in words: each thing, or of many the first few, and how many more.
   *  @type {(things: string[], count: number, rest: string) => string} */
  function wordsOfLack(things, count, rest) {
    if (count <= MOST_NOTES + 1) return things.join("; ");
    return `${things.slice(0, MOST_NOTES).join("; ")}; ${count - MOST_NOTES} more ${rest}`;
  }

  /** State lines that come in pieces. */
  class StatesReading {
    packer = new Packer();
    /** @type {string[]} */ refused = [];
    before = 0;
    count = 0;
    /** @type {StatesEvent | null} */ first = null;

    /** @param {any} engine */
    constructor(engine) {
      this.lines = new StateLines(engine);
    }

    /** The blocks of moments of a piece.
     *  @type {(bytes: Uint8Array, how?: { isLast?: boolean }) => Iterable<Block>} */
    *take(bytes, { isLast = false } = {}) {
      const { packer } = this;
      for (const event of this.lines.take(bytes, { isLast })) {
        if (event.moment) {
          packer.add(event.moment, wordsOfLack(this.refused, this.before, "were refused before this moment"), event.silence);
          Object.assign(this, { refused: [], before: 0 });
          if (packer.isFull) yield packer.take();
        } else this.refuse(event);
      }
      if (isLast && !packer.isEmpty) yield packer.take();
    }

    /** @type {(event: StatesEvent) => void} */
    refuse(event) {
      this.count += 1;
      this.before += 1;
      this.first ??= event;
      if (this.refused.length <= MOST_NOTES) this.refused.push(`line ${event.refused} was refused with code ${event.code}`);
    }

    /** What is told at the end: of a file without a moment why it has none.
     *  @type {(name: string) => ReadEnd} */
    end(name) {
      const { count, first, lines } = this;
      const why = first ? `; line ${first.refused} was refused with code ${first.code}` : "";
      const told = count ? [`${name}: ${count} ${count === 1 ? "line was" : "lines were"} refused`] : [];
      return { told, clock: lines.clock, alone: "", silence: lines.silence,
        none: `${name} has no whole moment${why}` };
    }
  }

  /** A recording of some files, each of a name and a text. */
  class RecordingReading {
    /** @param {Named[]} files
     *  @param {Choice} choice */
    constructor(files, choice) {
      this.recording = root.daa.openRecording(files, choice);
    }

    /** @type {() => Iterable<Block>} */
    *blocks() {
      const packer = new Packer();
      for (const moment of this.recording.moments()) {
        packer.add(moment);
        if (packer.isFull) yield packer.take();
      }
      if (!packer.isEmpty) yield packer.take();
    }

    /** @type {(name: string) => ReadEnd} */
    end(name) {
      const { names, own, faults, notes, alone, count } = this.recording.end();
      const none = count ? "" : `${name}: no moment is left; ${[...faults, ...notes].join("; ")}`;
      return { told: notes, faults, names, own, alone, clock: this.recording.clock, none, taken: count ? this.recording.wasTaken() : [] };
    }
  }

  /** Reads files, and gives each block with the share of them that is read; its promise is of what is told at the end. `breathe` is waited for now
   *  and then.
   *  @type {(engine: any, files: File[], choice: Choice, give: GiveBlock, breathe: () => any) => Promise<ReadEnd>} */
  async function readFiles(engine, files, choice, give, breathe) {
    const name = files.map((file) => file.name).join(", ");
    if (choice.isRecording) {
      const texts = await Promise.all(files.map(async (file) => ({ name: file.name, text: await file.text() })));
      const reading = new RecordingReading(texts, choice);
      for (const block of reading.blocks()) {
        give(block, null);
        await breathe();
      }
      return reading.end(name);
    }
    const [file] = files;
    const reading = new StatesReading(engine);
    const pieces = file.stream().getReader();
    for (let read = 0; ;) {
      const { done, value } = await pieces.read();
      if (!done) read += value.length;
      for (const block of reading.take(done ? new Uint8Array(0) : value, { isLast: done })) {
        give(block, read / file.size);
        await breathe();
      }
      if (done) return reading.end(name);
    }
  }

  Object.assign(root.daa, { StatesReading, RecordingReading, readFiles, wordsOfLack });
}
daaPieces(globalThis);

/** What runs in the worker that reads files.
 *  @type {(scope: any) => void} */
function daaReader(scope) {
  scope.onmessage = async (/** @type {MessageEvent} */ { data: { module, files, choice } }) => {
    /** @type {GiveBlock} */
    const give = (block, share) => scope.postMessage({ block, share }, [block.times.buffer, block.starts.buffer, block.numbers.buffer]);
    try {
      const engine = await daa.Engine.open(module);
      scope.postMessage({ end: await daa.readFiles(engine, files, choice, give, () => null) });
    } catch (/** @type {any} */ problem) {
      scope.postMessage({ failed: problem instanceof daa.NoRecording ? problem.message : `it can't be read (${problem.message})` });
    }
  };
}
