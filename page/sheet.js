// @ts-check
/* What is kept of the whole: the states and the report of a recording as files, and the sheet that is printed with all that is needed to make it
 * again. */
"use strict";
(function () {
  const { ui } = daa;
  const { Moments, Desk, bytesOf, escape, linesIn } = daa;
  const { $, state, setText, setHtml, download, shownViews, copy } = ui;
  const AT_ONCE = 64; // moments
  const PATIENCE = 30; // ms: so long the page works before it lets others come

  /** The moments as they are shown: as recorded, or as changed by hand.
   *  @type {(index: number) => Moment} */
  const shownAt = (index) => {
    const edit = state.edits.get(index);
    return edit ? copy(edit) : state.moments.at(index);
  };

  /** Lets others come where it has worked for long.
   *  @type {() => () => Promise<void>} */
  function breather() {
    let since = performance.now();
    return async () => {
      if (performance.now() - since < PATIENCE) return;
      await new Promise((done) => setTimeout(done));
      since = performance.now();
    };
  }

  /** The state lines of the whole recording, in parts: in format 2 where some report has an age.
   *  @type {(breathe: () => Promise<void>) => Promise<string[]>} */
  async function wholeStates(breathe) {
    const { length } = state.moments;
    let form = 1;
    for (let index = 0; index < length && form === 1; index++) {
      if (shownAt(index).traffic.some(({ age }) => age)) form = 2;
      await breathe();
    }
    const clock = $("clock-form").value;
    const parts = [form === 2 ? "format 2\n" : "", ["utc", "day"].includes(clock) ? `# clock ${clock}\n` : ""];
    for (let first = 0; first < length; first += AT_ONCE) {
      const some = Array.from({ length: Math.min(AT_ONCE, length - first) }, (_, i) => shownAt(first + i));
      some.forEach((moment, i) => { moment.silence = state.moments.silence(first + i); });
      parts.push(linesIn(form, some));
      await breathe();
    }
    return parts;
  }

  /** The reports of the whole recording, in parts, as the program writes them for its state lines.
   *  @type {(desk: any, tell: (share: number) => void) => Promise<string[]>} */
  async function wholeReport(desk, tell) {
    const { moments, views: [view] } = state;
    const parts = [];
    for (let first = 0; first < moments.length; first += AT_ONCE) {
      const count = Math.min(AT_ONCE, moments.length - first);
      const some = Moments.of(Array.from({ length: count }, (_, i) => shownAt(first + i)));
      const answer = await desk.ask({ config: { bytes: view.config.bytes }, part: some.part(0, count), isWhole: true });
      if (!answer?.texts) throw new Error(answer?.stopped ?? daa.CAUSES[answer?.code] ?? "nobody waits for it any more");
      parts.push(...answer.texts);
      tell((first + count) / moments.length);
    }
    return parts;
  }

  /** The name of a file of the whole recording.
   *  @type {(ending: string) => string} */
  function fileOf(ending) {
    const [name] = (state.flown?.recorded.name ?? state.name).split(/\.[^.]*$/);
    const base = name.replace(/[^\w.-]+/g, "-") || "recording";
    return `${base}${state.flown ? "-flown" : ""}${state.edits.size ? "-changed" : ""}.${ending}`;
  }

  let isSaving = false;
  /** @type {(button: HTMLElement, make: (tell: (share: number) => void) => Promise<string[]>, ending: string) => Promise<void>} */
  async function save(button, make, ending) {
    if (isSaving || state.reading) return;
    isSaving = true;
    const words = button.textContent;
    const name = fileOf(ending);
    try {
      const parts = await make((share) => setText(button, `${Math.round(100 * share)} %`));
      download(new Blob(parts, { type: "text/plain" }), name);
      ui.tell("");
    } catch (/** @type {any} */ problem) {
      ui.tell(`${name} is not saved: ${problem.message}`);
    }
    setText(button, words);
    isSaving = false;
  }

  $("save-states").addEventListener("click", ({ target }) => save(target, () => wholeStates(breather()), "states"));
  $("save-report").addEventListener("click", ({ target }) => save(target, async (tell) => {
    const desk = new Desk(state.module);
    try {
      return await wholeReport(desk, tell);
    } finally {
      desk.end();
    }
  }, "report"));

  // ---- the sheet

  /** The SHA-256 of bytes, in hexadecimal digits.
   *  @type {(bytes: Uint8Array) => Promise<string>} */
  async function digestOf(bytes) {
    if (!globalThis.crypto?.subtle) return "not known";
    return Array.from(new Uint8Array(await crypto.subtle.digest("SHA-256", bytes)), (byte) => byte.toString(16).padStart(2, "0")).join("");
  }

  const digests = new Map(); // by the text; a sheet can't wait for one
  /** @type {(text: string | Uint8Array) => string} */
  function digestIn(text) {
    if (!digests.has(text)) {
      digests.set(text, "…");
      digestOf(typeof text === "string" ? bytesOf(text) : text).then((digest) => digests.set(text, digest));
    }
    return digests.get(text);
  }

  /** Keeps the digests of what is shown at hand. */
  function prepareSheet() {
    for (const { taken } of shownViews()) if (taken) digestIn(taken);
    if (state.module) digestIn(state.module);
  }

  /** What is needed to make the printed moment again: version, date, configurations, state lines. */
  function paintSheet() {
    const configs = shownViews().map(({ name, taken }) => `<li>configuration ${escape(name)}, SHA-256 ${digestIn(taken)}</li>`).join("");
    const version = `DAIDALUS, exact ${daa.version}, engine SHA-256 ${state.module ? digestIn(state.module) : "not known"}`;
    const of = state.edited ? "a moment changed by hand" : state.name;
    setHtml($("sheet"), `<h2>To make this sheet again</h2><ul><li>${version}</li>`
      + `<li>printed ${new Date().toISOString().slice(0, 16)}Z, of ${escape(of)}</li>${configs}</ul>`
      + `<pre>${escape(daa.stateLines([state.current]))}</pre>`);
  }

  addEventListener("beforeprint", paintSheet);
  Object.assign(ui, { prepareSheet, shownAt });
})();
