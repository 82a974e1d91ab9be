// @ts-check
/* What the words on a display mean, told where they stand: as a title, and after a click or a tap in a box beside it. */
"use strict";
(function (root) {
  const { escape, element } = daa;
  const SHOWN = 9000; // ms: so long an explanation stays

  /** @type {Record<string, string>} */
  const MEANINGS = {
    open: "Open: the nearest value on this side that is clear of the corrective level, and of every level above it, within the lookahead.",
    keep: "Keep: the present value is clear of the corrective level, so nothing has to change. This counts the aircraft that are known.",
    none: "None: no value on this side is open.",
    corrective: "Corrective: the lowest level of which the answers are clear. A value that leads to it, or to a level above it, is not open.",
    recovery: "Recovery: nothing is open. This value is clear again soonest, after so many seconds.",
    last: "May wait: the present flight may be kept for so many seconds, and a manoeuvre of this kind then still finds an open value.",
    height: "Height above (+) or below (−) the ownship, in hundreds of feet. The arrow: it climbs or descends by 100 ft/min or more.",
    alert: "L and a number: the alert level of this aircraft, and in how many seconds its volume is violated.",
  };

  /** Marks what is drawn as a word that is explained.
   *  @type {(word: string, drawn: string) => string} */
  const explained = (word, drawn) => `<g data-word="${word}"><title>${escape(MEANINGS[word])}</title>${drawn}</g>`;

  /** Shows what a word means, near a point of the window. */
  let late = 0;
  /** @type {(word: string, at: Point) => void} */
  function explain(word, { x, y }) {
    const box = element("meaning");
    box.textContent = MEANINGS[word];
    box.hidden = false;
    const { width, height } = box.getBoundingClientRect();
    box.style.left = `${Math.max(4, Math.min(x + 12, innerWidth - width - 8))}px`;
    box.style.top = `${Math.max(4, y + 16 + height > innerHeight ? y - height - 12 : y + 16)}px`;
    clearTimeout(late);
    late = setTimeout(hide, SHOWN);
  }

  function hide() {
    element("meaning").hidden = true;
  }

  // What is held by the pointer takes its clicks, so where it went down counts, and that it went nowhere.
  /** @type {(Point & { word: string }) | null} */
  let pressed = null;
  addEventListener("pointerdown", ({ target, clientX: x, clientY: y }) => {
    hide();
    const word = target?.closest?.("[data-word]")?.getAttribute("data-word");
    pressed = word ? { word, x, y } : null;
  }, { capture: true });
  addEventListener("pointerup", ({ clientX, clientY }) => {
    if (pressed && Math.hypot(clientX - pressed.x, clientY - pressed.y) <= 3) explain(pressed.word, pressed);
    pressed = null;
  }, { capture: true });
  addEventListener("keydown", ({ key }) => { if (key === "Escape") hide(); }, { capture: true });

  daa.art.explained = explained;
  Object.assign(root.daa, { MEANINGS });
})(globalThis);
