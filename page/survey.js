// @ts-check
/* All moments under a configuration, asked for one part after the other, in workers of their own: what is known of them is kept for the strip over
 * time, for the next alert, and for where two configurations differ. */
"use strict";
(function () {
  const { ui } = daa;
  const { state } = ui;
  const WORKERS = Math.max(1, Math.min(2, (globalThis.navigator?.hardwareConcurrency ?? 2) - 1));
  const SHORT = 60; // ms: a part that is answered sooner is followed by a greater one ..
  const LONG = 200; // .. and one that takes longer by a smaller one
  const MOST_PART = 256; // moments
  const OFTEN = 200; // ms: between two drawings of what is new

  class Survey {
    /** @type {any[]} */ desks = [];
    job = 0;
    notes = new daa.Notes();
    /** @type {Map<string, number>} */ most = new Map();
    decided = 0;
    next = 0;

    /** @param {number} place
     *  @param {Uint8Array} module */
    constructor(place, module) {
      this.place = place;
      this.module = module;
    }

    /** Asks for every moment anew, under the configuration that the view has now. */
    begin() {
      this.job += 1;
      Object.assign(this, { notes: new daa.Notes(), most: new Map(), decided: 0, next: 0 });
      while (this.desks.length < WORKERS) this.desks.push(new daa.Desk(this.module));
      for (const desk of this.desks) desk.forget();
      return Promise.all(this.desks.map((desk) => this.askAll(desk)));
    }

    /** Asks nothing more. */
    end() {
      this.job += 1;
      for (const desk of this.desks) desk.forget();
      Object.assign(this, { notes: new daa.Notes(), most: new Map(), decided: 0, next: 0 });
    }

    /** Asks for moments that have come since, as of a live source. */
    more() {
      if (this.desks.length) this.askAll(this.desks[0]);
    }

    /** Keeps the note of the next moment, which was decided otherwise.
     *  @type {(index: number, note: Note | null) => void} */
    give(index, note) {
      this.next = index + 1;
      this.take(1, daa.packNotes([note], index));
    }

    /** The first moments are no more; where some are being asked for, all are asked for anew.
     *  @type {(count: number) => void} */
    drop(count) {
      if (this.decided < this.next) {
        this.begin();
        return;
      }
      this.notes.drop(count);
      Object.assign(this, { next: this.next - count, decided: this.decided - count, most: new Map() });
      for (let index = 0; index < this.notes.length; index++) this.noteMost(this.notes.at(index)?.levels ?? []);
    }

    /** @type {(levels: [string, number][]) => void} */
    noteMost(levels) {
      for (const [id, level] of levels) if (level > (this.most.get(id) || 0)) this.most.set(id, level);
    }

    /** @type {(desk: any) => Promise<void>} */
    async askAll(desk) {
      const { job } = this;
      const { bytes } = state.views[this.place].config;
      for (let count = 1; ;) {
        const { moments } = state;
        if (this.next >= moments.length) {
          if (!state.reading) return;
          await ui.grown();
          if (job !== this.job) return;
          continue;
        }
        const first = this.next;
        const part = moments.part(first, count);
        this.next += part.times.length;
        const answer = await desk.ask({ config: { bytes }, part, first });
        if (job !== this.job || !answer) return;
        this.take(part.times.length, answer.notes ?? daa.packNotes(new Array(part.times.length).fill(null), first));
        count = answer.took < SHORT ? Math.min(2 * count, MOST_PART) : answer.took > LONG ? Math.max(count >> 1, 1) : count;
      }
    }

    /** Keeps the notes of some moments, packed.
     *  @type {(count: number, pack: NotePack) => void} */
    take(count, pack) {
      this.notes.put(pack);
      this.noteMost(Array.from(pack.levels, (each) => [pack.names[each >> 3], each & 7]));
      this.decided += count;
      if (this.decided < state.moments.length || state.reading) soon();
      else {
        ui.paintTime();
        ui.paintBar();
        const { job } = this;
        ui.onceDrawn(() => { if (this.place === 0 && job === this.job) document.body.dataset.surveyed = String(this.decided); });
      }
    }
  }

  // What is new is drawn now and then; after each drawing as much time is left as it took, and more.
  let waits = false;
  function soon() {
    if (waits) return;
    waits = true;
    setTimeout(() => {
      waits = false;
      if (!state.current) return;
      ui.paintTime();
      ui.paintBar();
    }, OFTEN);
  }

  /** Asks for all moments under the first configuration; and under the second one where both are shown. */
  function survey() {
    document.body.dataset.surveyed = "";
    const [first, second] = state.surveys;
    const all = [first.begin(), ...(state.compare ? [second.begin()] : [])];
    if (!state.compare) second.end();
    return Promise.all(all);
  }

  /** The next moment after, or before, the present one that holds; its index, or -1.
   *  @type {(by: number, holds: (index: number) => boolean) => number} */
  function search(by, holds) {
    for (let index = state.index + by; index >= 0 && index < state.moments.length; index += by) if (holds(index)) return index;
    return -1;
  }

  /** @type {(index: number) => number} */
  const greatest = (index) => state.surveys[0].notes.greatest(index);

  /** Where an alert begins or becomes greater.
   *  @type {(by: number) => number} */
  const nextAlert = (by) => search(by, (index) => greatest(index) > (index ? greatest(index - 1) : 0));

  /** Whether both configurations are known to differ at a moment.
   *  @type {(index: number) => boolean} */
  function isOther(index) {
    const [one, other] = state.surveys.map(({ notes }) => notes.at(index));
    return Boolean(one && other) && daa.differs(one, other);
  }

  /** Where the two configurations begin to differ.
   *  @type {(by: number) => number} */
  const nextDifference = (by) => search(by, (index) => isOther(index) && !(index && isOther(index - 1)));

  Object.assign(ui, { Survey, survey, soon, nextAlert, nextDifference, isOther });
})();
