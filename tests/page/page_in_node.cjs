/* node page_in_node.cjs PAGE < SCRIPT: runs all scripts of the page, in the order of its index.html, over stand-ins for the parts of
 * a browser, then the script, and writes the JSON of what it returns. A stand-in keeps what is put into it and who listens; nothing
 * is laid out. A script has: page, the page's state; $, an element by its id; screen, where the page listens to the window; the
 * display and its caption; handle, one by its key, and placeOf, where it is; fire, which calls an element's listeners; frame and settle, which wait for a frame
 * and until what is shown is the answer; press, a key at a handle; drag, a handle by an offset; saved, what was downloaded. */
"use strict";
const fs = require("fs");
const path = require("path");
const { Duplex } = require("stream");
const vm = require("vm");
const zlib = require("zlib");

const folder = process.argv[2];
const textOf = (name) => fs.readFileSync(path.join(folder, name), "utf8");

class Element {
  constructor(name = "") {
    Object.assign(this, { name, attributes: {}, dataset: {}, listeners: {}, parts: {}, style: {}, children: [], innerHTML: "", textContent: "", value: "",
      hidden: false, classList: { toggle() {} } });
  }

  addEventListener(event, listener) { (this.listeners[event] ??= []).push(listener); }

  setAttribute(name, value) {
    this.attributes[name] = String(value);
    if (name.startsWith("data-")) this.dataset[name.slice(5)] = String(value);
  }

  getAttribute(name) { return this.attributes[name] ?? null; }

  querySelector(selector) { return (this.parts[selector] ??= new Element(selector)); }

  /** Inputs are those of the markup that was put in last. */
  querySelectorAll(selector) {
    if (selector !== "input") return [];
    return [...this.innerHTML.matchAll(/<input[^>]*data-field="(\w+)"(?: data-scale="(\d+)")?/g)].map(([, field, scale]) => {
      const input = this.querySelector(`[data-field=${field}]`);
      Object.assign(input.dataset, { field, scale });
      return input;
    });
  }

  /** A canvas keeps its calls: each with the paint that it was made with. */
  getContext() {
    this.calls ??= [];
    this.context ??= new Proxy({}, { get: (kept, name) => kept[name] ?? ((...words) => this.calls.push([name, kept.fillStyle, ...words])),
      set: (kept, name, value) => { kept[name] = value; return true; } });
    return this.context;
  }

  get parentElement() { return new Element("axis"); }
  get tBodies() { return [this.querySelector("tbody")]; }
  getBoundingClientRect() { return ["strip", "axis"].includes(this.name) ? { left: 0, width: 1000, height: 150 } : { left: 0, width: 1600, height: 800 }; }
  getScreenCTM() { return { inverse: () => null }; }
  closest() { return this; }
  matches() { return false; }
  get nextSibling() { return this.parent ? this.parent.children[this.parent.children.indexOf(this) + 1] ?? null : null; }
  append(it) { this.insertBefore(it, null); }

  insertBefore(it, next) {
    it.remove();
    it.parent = this;
    this.children.splice(next ? this.children.indexOf(next) : this.children.length, 0, it);
  }

  remove() {
    if (this.parent) this.parent.children.splice(this.parent.children.indexOf(this), 1);
    this.parent = null;
  }
  focus() {}
  insertAdjacentHTML() {}
  setPointerCapture() {}
}

const saved = []; // what was downloaded: name and blob
const blobs = [];
const figures = [0, 1].map((view) => Object.assign(new Element("figure"), { dataset: { view: String(view) } }));
const byId = {};
const parts = new Element("document");
globalThis.document = { body: new Element("body"), activeElement: new Element("none"), documentElement: new Element("html"), listeners: {},
  addEventListener: Element.prototype.addEventListener, getElementById: (id) => (byId[id] ??= new Element(id)),
  querySelector: (selector) => parts.querySelector(selector), querySelectorAll: () => figures,
  createElement: () => ({ getContext: () => ({ measureText: (words) => ({ width: 60 * words.length }) }), click() { saved.push([this.download, blobs.at(-1)]); } }),
  createElementNS: () => new Element("handle") };
URL.createObjectURL = (blob) => `blob:${blobs.push(blob)}`;
Object.assign(globalThis, { location: { hash: "", href: "file:///page/index.html" },
  history: { replaceState: (_, __, hash) => { location.hash = hash; } }, CSS: { escape: String }, requestAnimationFrame: (frame) => setTimeout(() => frame(performance.now()), 0),
  cancelAnimationFrame: clearTimeout, ResizeObserver: class { observe() {} }, addEventListener: Element.prototype.addEventListener.bind(parts),
  DOMPoint: class { constructor(x, y) { Object.assign(this, { x, y }); } matrixTransform() { return this; } } });
delete globalThis.Worker; // so that the page itself answers
try {
  new CompressionStream("deflate-raw");
} catch { // (node before 20.12 has no such streams of its own: zlib's stand in)
  globalThis.CompressionStream = class { constructor() { return Duplex.toWeb(zlib.createDeflateRaw()); } };
  globalThis.DecompressionStream = class { constructor() { return Duplex.toWeb(zlib.createInflateRaw()); } };
}

for (const [, name] of textOf("index.html").matchAll(/<script src="([^"]+)">/g)) vm.runInThisContext(textOf(name), name);

daa.stripPaints = () => ({ unknown: "unknown", clear: "clear", own: "own", open: "open", ink: "ink", faint: "faint", line: "line", bad: "bad",
  levels: ["", "level1", "level2", "level3", "level4"], key: "" });

const $ = (id) => document.getElementById(id);
const fire = (element, event, values = {}) => {
  const given = { target: element, preventDefault() {}, ...values };
  return Promise.all((element.listeners[event] || []).map((listener) => listener(given)));
};
const frame = () => new Promise((done) => setTimeout(done, 5));

const LONG = 60000; // ms that nothing here takes

/** Waits for five frames, and until something is so. */
async function until(holds, what) {
  const begun = performance.now();
  for (let frames = 0; frames < 5 || !holds(); frames++) {
    if (performance.now() - begun > LONG) throw new Error(`it never came that ${what}`);
    await frame();
  }
}

const settle = () => until(() => document.body.dataset.settled === "yes", "what is shown is the answer");

const display = () => figures[0].querySelector("svg");
const handle = (key) => display().daa.handles.get(key);
const placeOf = (key) => handle(key).getAttribute("transform").match(/[-.0-9]+/g).map(Number);

async function press(key, pressed, shiftKey = false) {
  fire(display(), "keydown", { target: handle(key), key: pressed, shiftKey });
  await settle();
}

/** Where the handle was, and where it is while it is held. */
async function drag(key, right, down) {
  const [x, y] = placeOf(key);
  fire(display(), "pointerdown", { target: handle(key), clientX: x, clientY: y, pointerId: 1, button: 0, isPrimary: true });
  for (const part of [0.5, 1]) {
    fire(display(), "pointermove", { clientX: x + right * part, clientY: y + down * part, pointerId: 1, buttons: 1 });
    await settle();
  }
  const held = placeOf(key);
  fire(display(), "pointerup", { pointerId: 1 });
  await settle();
  return [[x, y], held];
}

(async () => {
  await until(() => document.body.dataset.ready === "yes", "the page is ready");
  await settle();
  const given = { page: daa.page, $, screen: parts, caption: figures[0].querySelector("figcaption"), display, fire, frame, settle, handle, placeOf, press, drag, saved };
  const script = new Function(...Object.keys(given), `return (async () => { ${fs.readFileSync(0, "utf8")} })();`);
  const answer = await script(...Object.values(given));
  process.stdout.write(JSON.stringify(answer ?? null), () => process.exit(0));
})();
