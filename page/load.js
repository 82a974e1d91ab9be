// @ts-check
/* What is opened: state lines, recordings, configurations and examples. What is short is read at once, what is long by a worker, piece by piece. */
"use strict";
(function () {
  const { ui } = daa;
  const { StatesReading, RecordingReading, Moments, NoRecording, must, clamp, bytesOf } = daa;
  const { $, state, fill, changed, fitting, go, pause } = ui;
  const LARGE = 50000; // bytes: what is longer is read in a worker, since reading it here would take more than a tenth of a second
  const HEAD = 65536; // bytes in which the kind of a file is seen
  const COLUMNS = `self.daa.columns = ${JSON.stringify(daa.columns)};`; // which is no function, for a worker
  const PATIENCE = 30; // ms that the page itself reads before it lets others come, where there is no worker

  /** Tells of a file that is not taken, until another one is opened.
   *  @type {(words: string) => void} */
  function tell(words) {
    state.untaken = words;
    changed();
  }

  // ---- what is shown from now on

  /** Shows moments from the first one on.
   *  @type {(moments: any, name: string, more?: Partial<PageState>) => void} */
  function begin(moments, name, more = {}) {
    pause();
    Object.assign(state, { moments, name, told: [], alone: "", silence: "", index: 0, chosen: "p:", unfolded: false, untaken: "",
      flown: null, lesson: null, edits: new Map(), undone: [], redone: [], window: null, ...more });
    const some = Array.from({ length: Math.min(moments.length, 1000) }, (_, index) => moments.at(index));
    for (const view of state.views) if (view.look.auto) view.look.range = fitting(some);
    ui.survey();
    go(0);
  }

  /** Takes what is known of a recording once it is read.
   *  @type {(end: ReadEnd, more?: string) => void} */
  function finish({ told, alone, clock, names, own, silence = "", taken = [] }, more = "") {
    $("taken").hidden = !taken.length;
    ui.setHtml($("taken-lines"), taken.map((words) => `<li>${daa.escape(words)}</li>`).join(""));
    Object.assign(state, { silence, told, alone: [alone, more].filter(Boolean).join("; ") });
    $("clock-form").value = clock || "s";
    $("own-label").hidden = $("oldest-label").hidden = !names;
    if (!names) return;
    fill($("own"), names);
    $("own").value = own;
    must(state.recording).own = own; // which has the names
  }

  /** @type {(end: ReadEnd, asked: string | null) => string[]} */
  const seenFrom = ({ names, own }, asked) => (names && names.length > 1
    ? [`seen from ${own}${own === asked ? "" : ", which is taken as the ownship"}`] : []);

  /** What is told of a recording: first that no traffic is known, then from whom it is seen.
   *  @type {(end: ReadEnd, asked: string | null) => ReadEnd} */
  const ofRecording = (end, asked) => ({ ...end, told: [end.alone, ...(end.faults ?? []), ...seenFrom(end, asked), ...end.told].filter(Boolean) });

  /** Takes a text of states, what is told of it and what its moments lack beside; whether it has a moment.
   *  @type {(bytes: Uint8Array, name: string, told?: string[], more?: string) => boolean} */
  function loadStates(bytes, name, told = [], more = "") {
    const reading = new StatesReading(state.engine);
    const moments = new Moments();
    for (const block of reading.take(bytes, { isLast: true })) moments.append(block);
    const end = reading.end(name);
    if (!moments.length) {
      tell(end.none);
      return false;
    }
    begin(moments, name);
    finish({ ...end, told: [...told, ...end.told] }, more);
    return true;
  }

  /** @type {() => number} */
  const oldest = () => {
    const typed = $("oldest").value;
    return typed === "" ? daa.OLDEST : clamp(Math.round(Number(typed)) || 0, 0, daa.MOST_AGE);
  };

  /** Takes a recording of some files, seen from one of its aircraft; whether it has a moment.
   *  @type {(files: Opened[], own?: string | null) => boolean} */
  function loadRecording(files, own = null) {
    const name = files.map((file) => file.name).join(", ");
    try {
      const reading = new RecordingReading(files, { own, oldest: oldest() });
      const moments = new Moments();
      for (const block of reading.blocks()) moments.append(block);
      const end = reading.end(name);
      if (!moments.length) throw new NoRecording(end.none.slice(name.length + 2));
      state.recording = { files, isLarge: false };
      begin(moments, name);
      finish(ofRecording(end, own));
      return true;
    } catch (/** @type {any} */ problem) {
      if (!(problem instanceof NoRecording)) throw problem;
      tell(`${name}: ${problem.message}`);
      return false;
    }
  }

  /** Takes texts of states or of recordings; whether there is a moment. All recordings are one; of several files of states the first that
   *  has a moment is taken, and of both kinds the recordings. The others are told.
   *  @type {(files: Opened[]) => boolean} */
  function load(files) {
    const read = files.map(({ name, bytes }) => ({ name, bytes, text: new TextDecoder().decode(bytes) }));
    const recordings = read.filter(({ text }) => daa.isRecording(text));
    const untaken = [];
    const left = recordings.length ? read.filter((file) => !recordings.includes(file)) : [...read];
    let isTaken = recordings.length > 0 && loadRecording(recordings);
    if (recordings.length && !isTaken) untaken.push(state.untaken);
    while (!recordings.length && !isTaken && left.length) {
      const [{ bytes, name }] = left.splice(0, 1);
      isTaken = loadStates(bytes, name);
      if (!isTaken) untaken.push(state.untaken);
    }
    tell([...untaken, ...notShown(left)].join("; "));
    return isTaken;
  }

  /** @type {(files: { name: string }[]) => string[]} */
  const notShown = (files) => (files.length
    ? [`not shown: ${files.map(({ name }) => name).join(", ")} (one file of state lines, or recordings, at a time)`] : []);

  // ---- long files

  /** @type {((value?: any) => void)[]} */
  const waiting = []; // who waits for more moments

  /** Is kept once there are more moments, or no more will come.
   *  @type {() => Promise<void>} */
  const grown = () => new Promise((done) => waiting.push(done));

  function tellGrown() {
    for (const done of waiting.splice(0)) done();
  }

  /** Nothing more is read of what was opened before. */
  function stopReading() {
    state.reading?.stop();
    Object.assign(state, { reading: null, share: null });
    tellGrown();
  }

  /** Reads long files, piece by piece: they are shown from the first moment on.
   *  @type {(files: File[], how: { isRecording: boolean, own?: string | null }) => void} */
  function readLarge(files, { isRecording, own = null }) {
    const name = files.map((file) => file.name).join(", ");
    const moments = new Moments();
    let isBegun = false;
    stopReading();
    /** @type {(read: Read) => void} */
    const take = ({ block, share, end, failed }) => {
      if (block) {
        moments.append(block);
        state.share = share ?? null;
        if (!isBegun) begin(moments, name, { told: [], recording: isRecording ? { files, isLarge: true } : null });
        isBegun = true;
        tellGrown();
        ui.soon();
        return;
      }
      Object.assign(state, { reading: null, share: null });
      if (!end || !moments.length) tell(end ? end.none : `${name}: ${failed}`);
      else finish(isRecording ? ofRecording(end, own) : end);
      tellGrown();
      changed();
    };
    state.reading = readerOf({ files, choice: { isRecording, own, oldest: oldest() } }, take);
    changed();
  }

  /** A worker that reads; where the browser has none the page itself, which lets others come now and then.
   *  @type {(question: { files: File[], choice: Choice }, take: (read: Read) => void) => { stop(): void }} */
  function readerOf(question, take) {
    const reading = { stop: () => {} };
    const isWanted = () => state.reading === reading;
    const here = async () => {
      let since = performance.now();
      const breathe = async () => {
        if (performance.now() - since > PATIENCE) await new Promise((done) => setTimeout(done));
        since = performance.now();
        if (!isWanted()) throw new NoRecording("");
      };
      const engine = await daa.Engine.open(state.module);
      /** @type {GiveBlock} */
      const give = (block, share) => { if (isWanted()) take({ block, share }); };
      const reads = daa.readFiles(engine, question.files, question.choice, give, breathe);
      const end = await reads.then((/** @type {ReadEnd} */ it) => ({ end: it }), (/** @type {Error} */ { message }) => ({ failed: message }));
      if (isWanted()) take(end);
    };
    try {
      const worker = daa.workerOf([daaCore, COLUMNS, daaReading, daaPlausible, daaEllipsoid, daaRecording, daaMoments, daaPieces], daaReader);
      worker.onmessage = (/** @type {MessageEvent} */ { data }) => { if (isWanted()) take(data); };
      worker.onerror = () => {
        worker.terminate();
        if (isWanted()) here();
      };
      reading.stop = () => worker.terminate();
      worker.postMessage({ module: state.module, ...question });
    } catch {
      setTimeout(here);
    }
    return reading;
  }

  // ---- opening

  let opened = 0; // how often something was opened: what is read late gives way to what was opened after it

  /** @type {(name: string) => void} */
  function takeExample(name) {
    opened += 1;
    stopReading();
    if (daa.lessons[name]) {
      ui.takeLesson(name);
      ui.showConfig();
      return;
    }
    const { config, states } = daa.examples.encounters[name];
    ui.configure(0, daa.examples.configs[config], config);
    load([{ name: states, bytes: bytesOf(daa.examples.files[states]) }]);
    ui.showConfig();
  }

  /** @type {(file: { name: string }) => boolean} */
  const isConfig = (file) => /\.toml$/i.test(file.name);
  /** @type {(file: File) => boolean} */
  const isLarge = (file) => file.size > LARGE && !isConfig(file);

  /** @type {(files: FileList | File[]) => Promise<void>} */
  async function takeFiles(files) {
    if (!files.length) return; // as where a piece of text was dropped
    const mine = ++opened;
    /** @type {(file: File) => Promise<Uint8Array | null>} */
    const bytesIn = (file) => (isLarge(file) ? file.slice(0, HEAD) : file).arrayBuffer().then((buffer) => new Uint8Array(buffer), () => null);
    const read = await Promise.all([...files].map(async (file) => ({ file, name: file.name, bytes: await bytesIn(file) })));
    if (mine !== opened) return;
    stopReading();
    const unread = read.filter(({ bytes }) => !bytes).map(({ name }) => `${name} cannot be read`); // as a folder
    const whole = read.flatMap(({ file, name, bytes }) => (bytes ? [{ file, name, bytes }] : []));
    tell("");
    const configs = whole.filter(isConfig);
    const taken = configs.slice(0, state.views.length).map(({ bytes, name }, place) => ui.loadConfig(bytes, name, placeOf(configs, place)));
    const left = configs.slice(state.views.length).map(({ name }) => `not shown: ${name} (two configurations at a time)`);
    const flights = whole.filter((it) => !isConfig(it));
    if (flights.some(({ file }) => isLarge(file))) taken.push(takeLarge(flights));
    else if (flights.length) taken.push(load(flights));
    tell([...unread, state.untaken, ...left].filter(Boolean).join("; "));
    if (taken.some(Boolean)) $("example").value = "";
  }

  /** Of two configurations each display has one; of one the display that is chosen, where both are shown.
   *  @type {(configs: Opened[], place: number) => number} */
  const placeOf = (configs, place) => (configs.length > 1 ? place : state.compare ? Number($("which").value) : 0);

  /** Begins to read files of which some are long.
   *  @type {(flights: Opened[]) => boolean} */
  function takeLarge(flights) {
    /** @type {(file: Opened) => boolean} */
    const isRecording = ({ bytes }) => daa.isRecording(new TextDecoder().decode(bytes));
    const recordings = flights.filter(isRecording);
    const taken = recordings.length ? recordings : flights.slice(0, 1);
    readLarge(taken.map(({ file }) => must(file)), // as all have that are opened by hand
      { isRecording: recordings.length > 0 });
    tell(notShown(flights.filter((it) => !taken.includes(it))).join("; "));
    return true;
  }

  /** The recording anew, from another aircraft or with reports of another age.
   *  @type {(own: string | null) => void} */
  function readAgain(own) {
    const { files, isLarge: isLong } = must(state.recording); // else nothing asks
    if (isLong) readLarge(files, { isRecording: true, own });
    else loadRecording(files, own);
  }

  $("example").addEventListener("change", ({ target }) => takeExample(target.value));
  $("own").addEventListener("change", ({ target }) => {
    readAgain(target.value);
    $("own").value = state.recording?.own ?? target.value; // the one before, where none can be seen from this one
  });
  $("oldest").addEventListener("change", ({ target }) => {
    target.value = oldest();
    if (state.recording) readAgain(state.recording.own ?? null);
  });
  $("file").addEventListener("change", async ({ target }) => {
    await takeFiles(target.files);
    target.value = "";
  });
  /** @type {(event: DragEvent) => boolean} */
  const isForText = ({ target, dataTransfer }) => !dataTransfer?.types.includes("Files") && target?.closest("input, textarea");
  addEventListener("dragover", (event) => { if (!isForText(event)) event.preventDefault(); });
  addEventListener("drop", (event) => {
    if (isForText(event)) return;
    event.preventDefault();
    takeFiles(event.dataTransfer?.files ?? []);
  });

  Object.assign(ui, { tell, begin, finish, loadStates, takeExample, grown, stopReading });
})();
