/* node in_node.cjs PAGE < JSON [[word, ..], ..]: runs the page's scripts that need no browser on each task, and writes the JSON
 * list of the answers. Tasks: [replay, TOML, states], [faults, TOML], [read, TOML], [report, text], [config, struct],
 * [recording, text, ownship, oldest, name of its file], [room, TOML, states], [named, TOML, states], [strip, levels, times], [trap, TOML, states],
 * [display, TOML, states, report, look], [over_time, TOML, states, decided, TOML, lacking]; texts are bytes in base64. */
"use strict";
const fs = require("fs");
const path = require("path");
const vm = require("vm");

const page = process.argv[2];
const run = (name) => vm.runInThisContext(fs.readFileSync(path.join(page, `${name}.js`), "utf8"));
["engine.wasm", "core", "toml", "columns", "reading", "plausible", "ellipsoid", "recording", "moments", "pieces"].forEach(run);
const bytesOf = (text) => new Uint8Array(Buffer.from(text, "base64"));

const DRAWING = ["labels", "art", "meanings", "places", "profile", "compass", "tapes", "words", "aircraft", "handles", "draw", "strip"];

/** Runs the scripts that draw, over what they need of a document: elements that keep what is put into them, and letters of one width. */
function runDrawing() {
  const element = () => {
    const [attributes, parts] = [{}, {}];
    return { attributes, parts, innerHTML: "", append() {}, insertBefore() {}, remove() {}, setAttribute: (name, value) => { attributes[name] = String(value); },
      getAttribute: (name) => attributes[name] ?? null, querySelector: (selector) => (parts[selector] ??= element()) };
  };
  const made = [];
  globalThis.document = { createElement: () => ({ getContext: () => ({ measureText: (words) => ({ width: 60 * words.length }) }) }),
    createElementNS: () => made[made.push(element()) - 1] };
  globalThis.addEventListener ??= () => {};
  DRAWING.forEach(run);
  return { svg: element(), made };
}

/** A strip over a canvas that keeps the boxes that are filled: `draw` gives those of one drawing. */
function runStrip() {
  Object.assign(daa, { clamp: (value, low, high) => Math.min(Math.max(value, low), high), wrap: (degrees) => ((degrees % 360) + 360) % 360,
    angleOf: (degrees) => `${String(((degrees % 360) + 360) % 360).padStart(3, "0")}°` });
  run("strip");
  const calls = [];
  const context = new Proxy({}, { get: (kept, name) => kept[name] ?? ((...words) => calls.push([name, kept.fillStyle, ...words])),
    set: (kept, name, value) => { kept[name] = value; return true; } });
  const strip = new daa.Strip({ getContext: () => context });
  const paints = { unknown: "unknown", clear: "clear", own: "own", open: "open", ink: "ink", faint: "faint", line: "line", bad: "bad",
    levels: ["", "level1", "level2", "level3", "level4"], key: "" };
  const draw = (model) => {
    const before = calls.length;
    strip.draw({ width: 1000, height: 150 }, 1, model, paints, String);
    return calls.slice(before).filter(([name]) => name === "fillRect").map(([, ...fill]) => fill);
  };
  return { strip, calls, draw };
}

const TASKS = {
  replay(engine, toml, states) {
    let config;
    try {
      config = engine.read(bytesOf(toml));
    } catch (problem) {
      if (!(problem instanceof daa.Refused)) throw problem;
      return `config ${problem.code}\n`;
    }
    return engine.readStates(bytesOf(states)).map((event) => (event.moment ? engine.report(config, event.moment) : `refused ${event.refused} ${event.code}\n`)).join("");
  },

  faults(engine, toml) {
    try {
      engine.read(bytesOf(toml));
      return null;
    } catch (problem) {
      if (!(problem instanceof daa.Refused)) throw problem;
      return [problem.code, problem.message, problem.line];
    }
  },

  /** All faults that the reader finds in a text, without the engine. */
  read(engine, toml) {
    return daa.faultsOf(daa.readToml(bytesOf(toml))).map(({ code, why, line }) => [code, why, line]);
  },

  /** What the reader of a report finds in the text of a moment, without the engine. */
  report(engine, text) {
    return daa.readReport(new TextDecoder().decode(bytesOf(text)));
  },

  /** What is read of the bytes of a configuration's struct, without the engine. */
  config(engine, struct) {
    return new daa.Config(bytesOf(struct));
  },

  recording(engine, text, own, oldest, name) {
    const files = [text].flat().map((bytes, place) => ({ name: name ?? `file${place + 1}`, text: new TextDecoder().decode(bytesOf(bytes)) }));
    try {
      return daa.fromRecording(files, { own, oldest });
    } catch (problem) {
      if (!(problem instanceof daa.NoRecording)) throw problem;
      return { refused: problem.message };
    }
  },

  /** How many bytes a report may have. */
  room(engine, toml, states) {
    const { calls } = engine;
    let room = 0;
    engine.calls = { ...calls, daa_report(...words) {
      room = Number(words[6]);
      return calls.daa_report(...words);
    } };
    engine.report(engine.read(bytesOf(toml)), engine.readStates(bytesOf(states))[0].moment);
    return room;
  },

  /** Each number of the ownship and of an aircraft is made too great in turn: its name, and the one that the fault has. */
  named(engine, toml, states) {
    const config = engine.read(bytesOf(toml));
    const [{ moment: { own, traffic } }] = engine.readStates(bytesOf(states));
    return [own, traffic[0]].flatMap((whole) => Object.keys(whole).filter((name) => name !== "id").map((name) => {
      const wrong = { ...whole, [name]: 300000 };
      try {
        engine.report(config, { time: 0, own: whole === own ? wrong : own, traffic: whole === own ? traffic : [wrong] });
        return [name, null];
      } catch (problem) {
        return [name, problem.fault.field];
      }
    }));
  },

  /** The boxes of the strip, of 1000 times 150 points, of moments a second apart where no times are given: in each an aircraft and all tracks
   *  have the level; where it is 0, the track of 90 degrees is open. Then come from and to which second each column stands. */
  strip(engine, levels, times) {
    const { draw, strip } = runStrip();
    const notes = levels.map((level, i) => daa.noteOf({ time: times ? times[i] : i, own: { trk: 0 } }, { aircraft: [{ id: "A", level }],
      resolve: { track: level ? {} : { upper: 90 } }, bands: { track: [{ from: 0, upto: 270, level }] } }));
    const most = new Map(levels.some(Boolean) ? [["A", levels.reduce((most, level) => Math.max(most, level))]] : []);
    const fills = draw({ times: Float64Array.from(notes, ({ time }) => time), notes: daa.Notes.of(notes), others: null, most, ids: ["A"], lacks: () => false, window: null, trk: 0,
      step: 90 });
    const columns = fills.filter(([paint]) => paint === "clear").map(([, x, , wide]) => [x, x + wide].map(strip.g.time));
    return [fills.filter(([paint]) => paint !== "faint"), columns];
  },

  /** A display of a moment, of 1600 times 800 points, with a report: where its compass and tapes are, the text of each layer, each handle,
   *  and what a pointer there means. */
  display(engine, toml, states, report, look) {
    const { svg, made } = runDrawing();
    const [{ moment }] = engine.readStates(bytesOf(states));
    const { own } = moment;
    const model = { ...moment, config: engine.read(bytesOf(toml)), said: daa.readReport(new TextDecoder().decode(bytesOf(report))), fault: "", name: "NAME",
      note: "NOTE", trail: [] };
    const view = daa.draw(svg, { range: 12, heights: 3000, up: 0, middle: { x: own.x, y: own.y }, chosen: "p:", held: null, ...look }, model,
      { width: 1600, height: 800 });
    const meant = ({ attributes: { "data-key": key, transform } }) => {
      const [x, y] = transform.match(/[-.0-9]+/g).map(Number);
      if (key.includes(":")) return Object.values(daa.unplan(view, { x, y }));
      return key === "track" ? null : daa.scaleOf(view, model, key).value(y);
    };
    const layers = Object.entries(svg.parts).map(([selector, { innerHTML }]) => [/=(\w+)/.exec(selector)[1], innerHTML]);
    return { g: view.g, layers: Object.fromEntries(layers), handles: made.map(({ attributes, innerHTML }) => ({ ...attributes, inside: innerHTML })),
      back: Object.fromEntries(made.map((it) => [it.attributes["data-key"], meant(it)])) };
  },

  /** The strip of an encounter, of 1000 times 150 points, of whose moments so many are decided (all where none are named), with what is drawn where
   *  the rest is decided then: where it has what, its boxes, its texts, the boxes of the second drawing, and how it is told. Under a second
   *  configuration it has those of the differences too. */
  over_time(engine, toml, states, decided = null, other = null, lacking = []) {
    const { draw, strip, calls } = runStrip();
    const notesUnder = (text) => moments.map((moment) => daa.noteOf(moment, daa.readReport(engine.report(engine.read(bytesOf(text)), moment))));
    const moments = engine.readStates(bytesOf(states)).map((it) => it.moment);
    const notes = notesUnder(toml);
    const decidedFirst = notes.slice(0, decided ?? notes.length);
    const known = daa.Notes.of(decidedFirst);
    const most = new Map();
    const note = (some) => some.forEach(({ levels }) => levels.forEach(([id, level]) => most.set(id, Math.max(level, most.get(id) || 0))));
    note(notes);
    const model = { times: Float64Array.from(moments, ({ time }) => time), notes: known, others: other && daa.Notes.of(notesUnder(other)), most,
      ids: moments[0].traffic.map(({ id }) => id), lacks: (index) => lacking.includes(index), window: null, trk: moments[0].own.trk,
      step: engine.read(bytesOf(toml)).grids.track.step };
    const first = draw(model);
    const texts = calls.filter(([name]) => name === "fillText").map(([, , words, x, y]) => [words, x, y]);
    const told = daa.toldOfStrip(notes.length, known.length, new Map(decidedFirst.flatMap((it) => it.levels)));
    known.put(daa.packNotes(notes.slice(known.length), known.length));
    return { g: strip.g, first, texts, then: draw(model), told };
  },

  /** Calls the engine with places out of its memory, and then on a moment: what the first call throws, and the report. */
  trap(engine, toml, states) {
    const config = engine.read(bytesOf(toml));
    const [{ moment }] = engine.readStates(bytesOf(states));
    engine.places.report = 2 ** 40;
    let thrown = "";
    try {
      engine.report(config, moment);
    } catch (problem) {
      thrown = problem instanceof daa.Stopped ? "Stopped" : String(problem);
    }
    return [thrown, engine.report(config, moment)];
  },
};

(async () => {
  const engine = await daa.Engine.open(daa.wasm());
  const tasks = JSON.parse(fs.readFileSync(0, "utf8"));
  process.stdout.write(JSON.stringify(tasks.map(([word, ...words]) => TASKS[word](engine, ...words))));
})();
