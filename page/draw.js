// @ts-check
/* A display as SVG: the plan view in a compass rose with the bands of tracks, and tapes of ground speed, altitude and vertical
 * speed. What is drawn are the lines of a report, and the states.
 *
 * A view says how to look: its range, what is up, what is chosen. A model says what there is: states, configuration, report. */
"use strict";
(function (root) {
  const { n, escape, TAPE_KINDS, geometryOf, rose, ring, trails, paths, tape, answers, legend, head, handles } = daa.art;

  const LAYERS = ["rose", "ring", "trails", "paths", "tapes", "answers", "legend", "head", "handles"];

  /** Draws a display: an svg element, whose layers are written anew only where they change.
   *  @type {(svg: Picture, look: Look, model: Model, size: Size) => View} */
  function draw(svg, look, model, { width, height }) {
    const g = geometryOf(width, height, model);
    const view = { ...look, g };
    if (!svg.daa) {
      const layers = LAYERS.map((name) => `<g data-layer="${name}"></g>`).join("");
      svg.innerHTML = `<rect class="ground" width="100%" height="100%" fill="var(--ground)"/>${layers}`;
      svg.daa = { layers: {}, handles: new Map() };
    }
    svg.setAttribute("viewBox", `0 0 ${width} ${height}`);
    /** @type {(name: string, content: string) => void} */
    const layer = (name, content) => {
      if (svg.daa.layers[name] === content) return;
      svg.daa.layers[name] = content;
      svg.querySelector(`[data-layer=${name}]`).innerHTML = content;
    };
    layer("rose", rose(view));
    layer("ring", ring(view, model));
    layer("trails", trails(view, model));
    layer("paths", paths(view, model));
    layer("tapes", TAPE_KINDS.map((/** @type {TapeKind} */ kind) => tape(view, model, kind)).join(""));
    layer("answers", answers(view, model));
    layer("legend", legend(view, model));
    layer("head", head(view, model));
    putHandles(svg, handles(view, model), view.chosen);
    return view;
  }

  /** Puts the handles: elements that stay while they are held or focused.
   *  @type {(svg: Picture, wanted: Handle[], chosen: string | null) => void} */
  function putHandles(svg, wanted, chosen) {
    const group = svg.querySelector("[data-layer=handles]");
    const kept = svg.daa.handles;
    const keys = new Set(wanted.map((it) => it.key));
    for (const [key, it] of kept) {
      if (keys.has(key)) continue;
      it.remove();
      kept.delete(key);
    }
    for (const one of wanted) putHandle(group, kept, one, chosen);
    // In the order in which they are wanted; the one that has the focus would lose it by a move, so the others go round it.
    let next = null;
    for (const { key } of [...wanted].reverse()) {
      const it = kept.get(key);
      if (it.nextSibling !== next && it !== document.activeElement) group.insertBefore(it, next);
      next = it;
    }
  }

  /** @type {(group: Element, kept: Map<string, SVGGElement>, handle: Handle, chosen: string | null) => void} */
  function putHandle(group, kept, { key, x, y, inside, label, value, level, number, least, most, isReached = true }, chosen) {
    const it = kept.get(key) ?? document.createElementNS("http://www.w3.org/2000/svg", "g");
    if (!kept.has(key)) {
      Object.entries({ "data-key": key, role: "slider" }).forEach((pair) => it.setAttribute(...pair));
      kept.set(key, it);
      group.append(it);
    }
    /** @type {(name: string, words: string | number | undefined) => void} */
    const set = (name, words) => { if (words !== undefined && it.getAttribute(name) !== String(words)) it.setAttribute(name, String(words)); };
    set("transform", `translate(${n(x)} ${n(y)})`);
    set("tabindex", isReached ? "0" : "-1");
    set("aria-label", label);
    set("aria-valuenow", number);
    set("aria-valuemin", least);
    set("aria-valuemax", most);
    set("aria-valuetext", value);
    set("class", key === chosen ? "handle chosen" : "handle");
    set("data-level", level);
    const whole = `<title>${escape(label)}: ${escape(value)}</title>${inside}`;
    if (it.daaInside === whole) return;
    it.daaInside = whole;
    it.innerHTML = whole;
  }

  Object.assign(root.daa, { draw });
})(globalThis);
