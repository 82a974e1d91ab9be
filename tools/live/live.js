/* A live feed: the page as tools/show_live serves it. This file and live.css are added by that server alone, so the page that is opened as a
 * file asks no network.
 *
 * Moments are appended as they come, and decided by the page's own module. What is shown is the last moment, and only as long as it is the
 * present one: then bands, answers and report go, and the banner says since when and why. A curtain comes down over the page also where this
 * script stands still: it is an animation of the style, put off with each picture of a present moment. */
"use strict";
(function () {
  const { ui } = daa;
  const { $, state, setText, changed, goTo } = ui;
  const NAME = "live feed";
  const OLDEST = 3; // s: a moment that is older is not the present one
  const AHEAD = 2; // s: nor is one that is so far to come, since a clock is wrong
  const CURTAIN = 1; // s after the words the curtain comes down, where they did not
  const MOST = 600; // moments that are kept, one for each column of the strip; what came before is in the log
  const SPARE = 60; // .. and so many more until the oldest go together
  const KEPT_TEXTS = 60; // reports that wait for the other one of their moment
  const RANGE = 12; // NM: of the displays at the start, since what fits all that is heard is too wide
  const OFTEN = 250; // ms: from one look at the age to the next

  const live = (daa.live = { session: "", isOpen: false, compares: true, toml: null, head: "", heard: 0, last: 0, why: "", came: 0, skipped: 0,
    refused: 0, compared: 0, agreed: 0, differing: 0, differs: "", painted: [] });
  const texts = new Map(); // by time, of the last moments: the page's report, and the program's
  let [engine, desk, reading, ours] = [null, null, null, null];
  let waiting = null; // the newest moment, while the one before is being decided
  let busy = false;

  document.querySelector("header").insertAdjacentHTML("afterend",
    '<div id="live" role="status" data-is="stale"><span></span><button id="go-live" type="button" hidden>Go live</button></div>');
  document.body.insertAdjacentHTML("beforeend", '<div id="curtain" aria-hidden="true"><b>NOT CURRENT: this page stands still</b></div>');

  const clockOf = (time) => new Date(time * 1000).toISOString().slice(11, 19);
  const isOurs = () => ours !== null && state.moments === ours;
  const isFollowing = () => isOurs() && state.index === ours.length - 1 && !state.edited && !state.playing && !state.held;

  // ---- how current it is

  const ageOf = (time) => Date.now() / 1000 - time;
  const isPresent = () => live.isOpen && ageOf(live.last) <= OLDEST && ageOf(live.last) >= -AHEAD;

  /** Looks whether what is shown is the present moment, and says what it is. */
  function look() {
    if (!ours) {
      tell("stale", `No moment yet. ${live.why}`);
      return;
    }
    const follows = isFollowing();
    const stale = follows && !isPresent() ? `NOT CURRENT: ${sinceWhen()}. ${live.why}`.trim() : "";
    if (stale) tell("stale", stale);
    else if (follows) tell(live.differs ? "differs" : "live", liveWords());
    else tell("past", `NOT LIVE: ${pastWords()}`);
    $("go-live").hidden = follows;
    if (stale !== state.stale) {
      state.stale = stale;
      changed();
    }
  }

  function tell(what, words) {
    $("live").dataset.is = what;
    setText($("live").firstElementChild, words.trim());
  }

  const sinceWhen = () => (ageOf(live.last) < -AHEAD ? `the last moment is of ${clockOf(live.last)} UTC, which is in the future: a clock is wrong`
    : `the last moment is of ${clockOf(live.last)} UTC, ${Math.floor(ageOf(live.last))} s ago`);

  function pastWords() {
    if (!isOurs()) return "a file or an example";
    const { time } = state.current;
    return `${state.edited ? "changed by hand, from " : ""}the moment of ${clockOf(time)} UTC, ${Math.floor(ageOf(time))} s ago`;
  }

  function liveWords() {
    const skipped = live.skipped ? ` · ${live.skipped} moments came while one was decided, and are not shown` : "";
    return `LIVE ${clockOf(live.last)} UTC · ${state.current.traffic.length} aircraft · ${programWords()}${skipped}`;
  }

  function programWords() {
    if (live.differs) return `${live.differs} (${live.differing} of ${live.agreed + live.differing} are)`;
    if (!live.compares) return "no program runs beside the page";
    if (state.views[0].toml !== live.toml) return "the configuration was changed here: the program decides under another one";
    if (live.last - live.compared <= OLDEST) return `the program's report was the same ${live.agreed} times`;
    return live.compared ? `NO REPORT OF THE PROGRAM since ${clockOf(live.compared)} UTC` : "no report of the program yet";
  }

  // ---- the curtain

  let turn = 0;
  ui.painted = () => {
    if (!document.hidden) delete document.body.dataset.unseen;
    const hasBands = isFollowing() && ui.shownViews().some((view) => ui.saidOf(view));
    turn = 1 - turn;
    const left = Math.max(0, OLDEST + CURTAIN - ageOf(live.last));
    $("curtain").style.animation = hasBands ? `down-${turn} ${left}s linear forwards` : "none"; // elsewhere nothing is shown as present
    if (hasBands) live.painted = [...live.painted.slice(-199), { time: live.last, at: Date.now() }];
  };

  // ---- moments

  /** The bytes that the server read: it gives each as one character. */
  const bytesOf = (text) => Uint8Array.from(text, (letter) => letter.charCodeAt(0));

  /** The blocks of lines that come. */
  const blocksOf = (text) => [...reading.take(bytesOf(text), false)];

  function beginReading(head) {
    live.head = head;
    reading = new daa.StatesReading(engine);
    blocksOf(head);
  }

  /** A block of the moment of a text, or null where it has none that is later than those before. */
  function blockOf(text) {
    const before = reading.count;
    blocksOf(text);
    live.refused += reading.count - before;
    if (reading.packer.isEmpty) return null;
    const block = reading.packer.take();
    return block.times.length === 1 && block.times[0] > live.heard ? block : null;
  }

  /** Takes a moment: the newest, where one is being decided still. */
  function take({ text }) {
    live.came += 1;
    if (busy) {
      live.skipped += Number(waiting !== null);
      waiting = text;
    } else decide(text);
  }

  /** A moment is shown when it is decided. Until then the one before stands, as long as it is the present one. */
  async function decide(text) {
    const block = blockOf(text);
    if (!block) {
      live.why = "The last moment of the feed was refused, or is older than one before.";
      return;
    }
    const [moment, view] = [daa.momentIn(block, 0), state.views[0]];
    live.heard = moment.time;
    live.why = "";
    busy = true;
    const { edition, config, toml } = view;
    const answer = await desk.ask({ config: { bytes: config.bytes }, moment });
    busy = false;
    if (answer?.text !== undefined && toml === live.toml) compare(moment.time, "page", answer.text);
    show(block, moment, edition === view.edition ? answer : null);
    look();
    if (waiting === null) return;
    const next = waiting;
    waiting = null;
    decide(next);
  }

  /** Appends a moment, and shows it where the present one is followed. */
  function show(block, moment, answer) {
    const follows = isFollowing();
    live.last = moment.time;
    if (!ours) begin(block);
    else if (!isOurs()) {
      ours.append(block); // a file or an example is looked at
      if (ours.length > MOST + SPARE) ours.drop(ours.length - MOST);
      return;
    } else {
      ours.append(block);
      keepNotes(moment, answer);
      drop();
    }
    state.stale = "";
    if (follows) {
      ui.go(ours.length - 1);
      if (answer) ui.giveAnswer(state.views[0], answer);
    } else changed();
  }

  function keepNotes(moment, answer) {
    const [first, second] = state.surveys;
    if (answer?.text !== undefined && first.next === ours.length - 1) first.give(ours.length - 1, daa.noteOf(moment, daa.readReport(answer.text)));
    else first.more();
    if (state.compare) second.more();
  }

  function begin(block) {
    ours = new daa.Moments();
    ours.append(block);
    ui.begin(ours, NAME);
    ui.finish({ told: [], alone: "", clock: "utc", silence: "" });
    for (const { look } of state.views) look.range = RANGE;
    $("example").value = "";
    document.body.dataset.live = "yes";
  }

  /** The oldest moments go, once all are decided, or where far too many are kept. */
  function drop() {
    const surveys = state.compare ? state.surveys : state.surveys.slice(0, 1);
    const isDecided = surveys.every((survey) => survey.decided >= ours.length);
    if (ours.length <= MOST + SPARE || !isDecided && ours.length <= 2 * MOST) return;
    const count = ours.length - MOST;
    ours.drop(count);
    for (const survey of surveys) survey.drop(count);
    state.index = Math.max(0, state.index - count);
    state.edits = new Map([...state.edits].filter(([index]) => index >= count).map(([index, edit]) => [index - count, edit]));
    for (const list of [state.undone, state.redone]) {
      list.splice(0, list.length, ...list.filter(({ index }) => index >= count).map((it) => ({ ...it, index: it.index - count })));
    }
    if (state.window) ui.setWindow(state.window);
  }

  function compare(time, whose, text) {
    const both = texts.get(time) || {};
    both[whose] = text;
    texts.set(time, both);
    if (texts.size > KEPT_TEXTS) texts.delete(texts.keys().next().value);
    if (both.page === undefined || both.program === undefined) return;
    texts.delete(time);
    live.compared = Math.max(live.compared, time);
    if (both.page === both.program) live.agreed += 1;
    else {
      live.differing += 1;
      live.differs = `THE PROGRAM'S REPORT OF ${clockOf(time)} UTC DIFFERS`;
    }
  }

  // ---- the stream

  function listen() {
    const stream = new EventSource("feed");
    const on = (name, act) => stream.addEventListener(name, ({ data }) => { act(JSON.parse(data)); look(); });
    on("begin", hear);
    on("moment", take);
    on("report", ({ time, text }) => compare(time, "program", text));
    on("quiet", ({ why }) => { live.why = why; });
    stream.onerror = () => {
      live.isOpen = false;
      live.why = "The server of this page does not answer.";
      look();
      if (stream.readyState === EventSource.CLOSED) setTimeout(listen, 1000);
    };
  }

  /** What the server says first, at each connection. */
  function hear({ session, toml, name, head, compares }) {
    live.isOpen = !live.session || live.session === session;
    if (!live.isOpen) { // the server was started anew: with it the configuration may be another one
      live.why = "The server was started anew.";
      location.reload();
      return;
    }
    beginReading(head);
    if (live.session) return;
    Object.assign(live, { session, toml, compares });
    ui.configure(0, toml, name);
    ui.showConfig();
  }

  $("go-live").addEventListener("click", () => {
    if (!isOurs()) {
      location.reload();
      return;
    }
    if (state.edited) ui.restore();
    goTo(ours.length - 1);
    look();
  });

  async function start() {
    if (document.body.dataset.ready === "no") return;
    if (document.body.dataset.ready !== "yes") {
      setTimeout(start, 20);
      return;
    }
    engine = await daa.Engine.open(state.module); // an engine reads one text at a time, and the page's own reads files
    desk = new daa.Desk(state.module);
    listen();
    setInterval(look, OFTEN);
    document.addEventListener("visibilitychange", () => { // nothing is drawn while the tab is not seen: so the old picture goes with it
      if (document.hidden) document.body.dataset.unseen = "yes";
      look();
      changed();
    });
    addEventListener("pageshow", ({ persisted }) => { if (persisted) location.reload(); });
  }

  look();
  start();
})();
