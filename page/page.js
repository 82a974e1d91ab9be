// @ts-check
/* What is loaded and saved: configurations, state lines, recordings, links and pictures; and the start. */
"use strict";
(function () {
  const { ui } = daa;
  const { Engine, Refused, Desk, MODELS, VIEW_HEIGHTS, must, draw, bytesOf } = daa;
  const { $, RANGES_NM, state, setText, setHtml, fill, download, changed, faultOf, lookOf, modelOf, chip } = ui;
  const PICTURE = { width: 1240, height: 760 };
  const FROM_A_LINK = "opened from a link, which holds this one moment";
  const MISSING = "This page needs a browser with 64-bit WebAssembly memory: Chrome, Edge or Chromium from version 133 on, or "
    + "Firefox from 134 on. The engine is compiled for it, and this browser cannot run it, so nothing is shown.";

  // ---- configurations

  /** Gives a view the configuration of a text, or tells why it is refused.
   *  @type {(place: number, text: string | Uint8Array, name: string) => boolean} */
  function configure(place, text, name) {
    const view = state.views[place];
    view.toml = typeof text === "string" ? text : new TextDecoder().decode(text);
    view.refusal = null;
    try {
      view.config = state.engine.read(typeof text === "string" ? bytesOf(text) : text);
    } catch (/** @type {any} */ problem) {
      if (!(problem instanceof Refused)) throw problem;
      view.refusal = problem;
      changed();
      return false;
    }
    Object.assign(view, { name, taken: view.toml, edition: view.edition + 1 });
    if (state.moments && (place === 0 || state.compare)) ui.survey();
    changed();
    return true;
  }

  /** Takes a file's configuration; one that is refused is shown, so that its fault can be mended.
   *  @type {(bytes: Uint8Array, name: string, place: number) => boolean} */
  function loadConfig(bytes, name, place) {
    const taken = configure(place, bytes, name);
    $("which").value = String(place);
    showConfig();
    if (!taken) $("configuration").open = true;
    return taken;
  }

  const whichView = () => state.views[Number($("which").value)];

  function paintRefusal() {
    const { refusal, config, toml } = whichView();
    const { configs } = daa.examples;
    $("preset").value = Object.keys(configs).find((name) => configs[name] === toml) ?? ""; // so that it can be taken anew
    const line = refusal && refusal.line && !refusal.message.startsWith("line ") ? `line ${refusal.line}: ` : "";
    setText($("config-fault"), refusal ? `config ${refusal.code}: ${line}${refusal.message}` : "");
    $("toml").setAttribute("aria-invalid", String(Boolean(refusal)));
    $("show-fault").hidden = !(refusal && refusal.line);
    setHtml($("levels"), refusal ? "" : config.levels.map((level, l) => `<li>${wordsOfLevel(level, l + 1, config.resolve)}</li>`).join(""));
  }

  /** A level's volume and times in words.
   *  @type {(level: Level, number: number, resolve: number) => string} */
  function wordsOfLevel(level, number, resolve) {
    const { dthr, zthr, tthr, tcoa, lookahead, alert } = level;
    return `${chip(number)} ${number === resolve ? "corrective, " : ""}${dthr / 1000} NM, ${zthr} ft, `
      + `${tthr} s of ${modelOfLevel(level)}, ${tcoa} s to co-altitude; alerts ${alert} s ahead, candidates ${lookahead} s`;
  }

  /** @type {(level: Level) => any} */
  const modelOfLevel = (level) => Object.entries(MODELS).find(([key]) => level[/** @type {keyof Level} */ (key)])?.[1] ?? "modified tau";

  function showConfig() {
    $("toml").value = whichView().toml;
    paintRefusal();
  }

  $("toml").addEventListener("input", () => {
    configure(Number($("which").value), $("toml").value, "edited");
    paintRefusal();
  });
  $("show-fault").addEventListener("click", () => {
    const lines = $("toml").value.split("\n");
    const { line } = must(whichView().refusal); // its button is shown with it
    const start = lines.slice(0, line - 1).join("\n").length + (line > 1 ? 1 : 0);
    $("toml").focus();
    $("toml").setSelectionRange(start, start + (lines[line - 1] || "").length);
    $("toml").scrollTop = Math.max(0, (line - 5) * ($("toml").scrollHeight / lines.length));
  });
  $("which").addEventListener("change", showConfig);
  $("preset").addEventListener("change", ({ target }) => {
    configure(Number($("which").value), daa.examples.configs[target.value], target.value);
    showConfig();
  });
  $("save-config").addEventListener("click", () => download(new Blob([$("toml").value], { type: "text/plain" }), "configuration.toml"));
  $("compare").addEventListener("change", ({ target }) => {
    state.compare = target.checked;
    ui.survey();
    changed();
  });

  // ---- a link that holds the moment

  function linked() {
    const configs = state.views.map(({ name, taken }) => ({ name, toml: taken }));
    const { note: name } = modelOf(state.views[0]); // of a moment that was changed by hand no name of a recording
    const { told, alone, moments, index, compare } = state; // what comments say stands in the state lines
    const lacks = [moments.fault(index), alone].filter(Boolean).join("; ");
    return { states: daa.stateLines([state.current]), name, told, lacks, configs, look: state.views.map(({ look }) => look), compare };
  }

  /** Whether a link's value has the form of what `linked` makes.
   *  @type {(held: any) => boolean} */
  function isLinked(held) {
    /** @type {(list: any) => boolean} */
    const isForEachView = (list) => Array.isArray(list) && list.length === state.views.length && list.every(Boolean);
    return held && isForEachView(held.configs) && isForEachView(held.look);
  }

  /** Takes the link of the page's address; whether it holds a moment. */
  async function takeLink() {
    const { hash } = location;
    const held = await daa.unpack(hash);
    if (hash === state.hash || hash !== location.hash) return false; // or another link came meanwhile
    if (!isLinked(held)) {
      state.hash = ""; // so that the link before is taken where the browser goes forward to it
      if (hash.startsWith("#m=")) ui.tell("the link holds no moment: is it whole?");
      return false;
    }
    const told = Array.isArray(held.told) ? held.told.map(String) : [];
    ui.stopReading();
    if (!ui.loadStates(bytesOf(String(held.states)), String(held.name), told, String(held.lacks ?? ""))) return false;
    if (!told.includes(FROM_A_LINK)) state.told = [FROM_A_LINK, ...told];
    state.hash = hash;
    /** @type {{ configs: Record<string, unknown>[], look: Record<string, any>[] }} */
    const { configs, look } = held; // of a link that another page made
    configs.forEach(({ name, toml }, place) => configure(place, String(toml), String(name)));
    look.forEach(({ auto, trackUp, paths, range, heights }, place) => Object.assign(state.views[place].look, {
      auto: Boolean(auto), trackUp: Boolean(trackUp), paths: Boolean(paths), range: RANGES_NM.includes(range) ? range : 12,
      heights: VIEW_HEIGHTS.includes(heights) ? heights : 3000 }));
    state.compare = Boolean(held.compare);
    $("compare").checked = state.compare;
    $("example").value = "";
    $("own-label").hidden = $("oldest-label").hidden = true;
    showConfig();
    return true;
  }

  /** Makes the link, and says what became of it. A moment that is refused has none: it is not what would be read from there. */
  async function copyLink() {
    const held = linked();
    const [{ moment }] = state.engine.readStates(bytesOf(held.states));
    if (JSON.stringify(moment) !== JSON.stringify(state.current)) return `No link: ${faultOf(state.views[0])}`;
    const packed = await daa.pack(held);
    if (!packed) return "No link: it would be too long";
    try {
      await navigator.clipboard.writeText(`${location.href.replace(/#.*$/s, "")}#${packed}`);
      return "Copied"; // the address stays: what is loaded anew from there would be this one moment, and no recording
    } catch {
      state.hash = `#${packed}`;
      history.replaceState(null, "", state.hash); // no step of the browser's history
      return "In the address line";
    }
  }

  $("link").addEventListener("click", async ({ target }) => {
    target.textContent = await copyLink();
    setTimeout(() => { target.textContent = "Copy link"; }, 2500);
  });
  addEventListener("hashchange", takeLink);
  document.body.addEventListener("click", (event) => { // the address keeps its link
    if (!event.target?.matches(".skip")) return;
    event.preventDefault();
    document.querySelector(event.target.getAttribute("href")).focus();
  });

  // ---- pictures

  /** A text of SVG in which each colour that the style sheet names is written out.
   *  @type {(text: string) => string} */
  function withColours(text) {
    const probe = document.body.appendChild(document.createElement("i"));
    const done = text.replace(/var\((--[a-z0-9-]+)\)/g, (whole) => {
      probe.style.color = whole;
      return getComputedStyle(probe).color;
    });
    probe.remove();
    return done;
  }

  /** @type {(view: Display) => string} */
  function pictureOf(view) {
    const svg = document.createElementNS("http://www.w3.org/2000/svg", "svg");
    draw(svg, { ...lookOf(view), chosen: null }, modelOf(view), PICTURE);
    for (const it of svg.querySelectorAll(".focus, .grip")) it.remove();
    for (const it of svg.querySelectorAll("[tabindex]")) it.removeAttribute("tabindex");
    svg.insertAdjacentHTML("afterbegin", `<style>${daa.STYLE}</style><defs>${daa.patterns()}</defs>`);
    Object.entries(PICTURE).forEach(([name, size]) => svg.setAttribute(name, String(size)));
    return withColours(new XMLSerializer().serializeToString(svg));
  }

  /** @type {(view: Display, kind: string) => void} */
  function save(view, kind) {
    const text = pictureOf(view);
    const name = `daidalus-${state.current.time}`;
    if (kind === "svg") {
      download(new Blob([text], { type: "image/svg+xml" }), `${name}.svg`);
      return;
    }
    const image = new Image();
    image.onload = () => {
      const canvas = Object.assign(document.createElement("canvas"), { width: PICTURE.width * 2, height: PICTURE.height * 2 });
      must(canvas.getContext("2d")).drawImage(image, 0, 0, canvas.width, canvas.height);
      canvas.toBlob((blob) => download(blob, `${name}.png`), "image/png");
    };
    image.src = `data:image/svg+xml;charset=utf-8,${encodeURIComponent(text)}`;
  }

  $("print").addEventListener("click", () => print());
  $("theme").addEventListener("change", ({ target }) => { document.documentElement.dataset.theme = target.value; });

  Object.assign(ui, { save, configure, loadConfig, showConfig });

  // ---- the start

  /** A module of eight bytes and one memory of 64-bit addresses: a browser without them finds it not valid. */
  const hasMemory64 = () => WebAssembly.validate(new Uint8Array([0, 0x61, 0x73, 0x6d, 1, 0, 0, 0, 5, 3, 1, 4, 1]));

  /** @type {(words: string) => void} */
  function tellMissing(words) {
    $("missing").hidden = false;
    $("missing").textContent = words;
    document.querySelector("main").hidden = true;
    document.body.dataset.ready = "no";
  }

  async function start() {
    if (typeof WebAssembly !== "object" || !hasMemory64()) {
      tellMissing(MISSING);
      return;
    }
    const module = daa.wasm();
    try {
      state.engine = await Engine.open(module);
    } catch (/** @type {any} */ problem) {
      tellMissing(`The engine can't be opened: ${problem.message}. ${MISSING}`);
      return;
    }
    const shared = `<style>${daa.STYLE}</style><defs>${daa.patterns()}</defs>`;
    document.body.insertAdjacentHTML("beforeend", `<svg width="0" height="0" aria-hidden="true" style="position:absolute">${shared}</svg>`);
    const look = () => ({ auto: true, trackUp: false, paths: false, range: 12, heights: 3000 });
    const [configs, encounters] = [Object.keys(daa.examples.configs), Object.keys(daa.examples.encounters)];
    const view = () => /** @type {any} */ ({ look: look(), desk: new Desk(module), edition: 0 }); // `configure` below gives it the rest
    state.views = [view(), view()];
    state.surveys = [0, 1].map((place) => new ui.Survey(place, module));
    state.module = module;
    fill($("example"), [...encounters, ...Object.keys(daa.lessons)]);
    $("example").insertAdjacentHTML("beforeend", '<option value="" hidden>own files</option>');
    fill($("preset"), configs);
    $("preset").insertAdjacentHTML("beforeend", '<option value="" hidden>own text</option>');
    configure(1, daa.examples.configs[configs[1]], configs[1]);
    configure(0, daa.examples.configs[configs[0]], configs[0]);
    if (!(await takeLink())) {
      const { untaken } = state;
      ui.takeExample(encounters[0]);
      ui.tell(untaken);
    }
    new ResizeObserver(changed).observe($("displays"));
    addEventListener("resize", changed);
    document.body.dataset.ready = "yes";
  }

  start();
})();
