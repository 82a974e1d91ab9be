// @ts-check
/* The desk: where questions to the engine are answered, in a worker of the browser, so that a long moment never stops the page.
 *
 * A page that was opened as a file may not load a worker from another file; so the worker's script is put together from the
 * text of the functions that it needs. */
"use strict";

/** What runs in the worker: it opens the engine, or says that it cannot, and answers each question in its turn.
 *  @type {(scope: any) => void} */
function daaWorker(scope) {
  /** @type {any} */
  let engine = null;
  scope.onmessage = async (/** @type {MessageEvent} */ { data }) => {
    if (data.module) {
      engine = await daa.Engine.open(data.module).catch(() => null);
      scope.postMessage(engine ? { ready: true } : { failed: true });
    } else scope.postMessage({ number: data.number, answer: daa.answerOf(engine, data.question) });
  };
}

/** @type {(root: Root) => void} */
function daaAnswer(root) {
  /** The answer to a question, in plain values: of a moment the report, what was refused, or that the engine stopped; of a part of a recording its
   *  notes, packed.
   *  @type {(engine: any, question: Question) => Told} */
  root.daa.answerOf = (engine, { config, moment, part, first, isWhole }) => {
    const before = performance.now();
    try {
      if (part && isWhole) return { texts: root.daa.reportsOf(engine, config, part) };
      if (part) return { notes: root.daa.notesOf(engine, config, part, first), took: performance.now() - before };
      return { text: engine.report(config, moment), took: performance.now() - before };
    } catch (/** @type {any} */ problem) {
      if (problem instanceof daa.Refused) return { code: problem.code, fault: problem.fault };
      if (problem instanceof daa.Stopped) return { stopped: problem.message };
      return { stopped: `The engine stopped (${problem}).` };
    }
  };
}
daaAnswer(globalThis);

(function (root) {
  const PATIENCE = 250; // ms: how long a question that nobody waits for any more may go on

  /** Answers questions one after the other. `ask` gives a promise of the answer; null where `forget` came before it. */
  class Desk {
    /** @type {Uint8Array} */ module;
    /** @type {any[]} */ waiting;
    /** @type {number} */ number;
    /** @type {Worker | null} */ worker = null;
    /** @type {any} */ busy;
    ready = false;
    /** @type {any} */ engine;

    /** @param {Uint8Array} module */
    constructor(module) {
      this.module = module;
      this.waiting = [];
      this.number = 0;
      this.begin();
    }

    /** Starts the worker; where the browser has none, or it fails, the page itself answers. */
    begin() {
      this.ready = false;
      this.busy = null;
      try {
        this.worker = workerOf([daaCore, daaMoments, daaAnswer], daaWorker);
      } catch {
        this.answerHere();
        return;
      }
      const { worker } = this;
      const failed = () => { if (this.worker === worker) this.answerHere(); };
      worker.onmessage = ({ data }) => (data.failed ? failed() : data.ready ? this.opened() : this.answered(data));
      worker.onerror = failed;
      worker.postMessage({ module: this.module });
    }

    /** The page itself answers from now on, first what the worker was asked; where it has no engine either, each answer says so. */
    answerHere() {
      if (this.worker) this.worker.terminate();
      if (this.busy) this.waiting.unshift(this.busy);
      Object.assign(this, { worker: null, ready: false, busy: null });
      /** @type {(problem: Error) => { report(): never }} */
      const none = ({ message }) => ({ report() { throw new daa.Stopped(`The engine can't be opened: ${message}.`); } });
      daa.Engine.open(this.module).catch(none).then((/** @type {any} */ engine) => { this.engine = engine; this.opened(); });
    }

    opened() {
      this.ready = true;
      this.next();
    }

    /** @type {(question: Question) => Promise<Told | null>} */
    ask(question) {
      return new Promise((answer) => {
        this.waiting.push({ question, answer });
        this.next();
      });
    }

    next() {
      if (!this.ready || this.busy || !this.waiting.length) return;
      this.busy = { ...this.waiting.shift(), number: ++this.number, since: performance.now() };
      const { number, question } = this.busy;
      if (this.worker) this.worker.postMessage({ number, question });
      else setTimeout(() => this.answered({ number, answer: daa.answerOf(this.engine, question) }));
    }

    /** @type {(answered: { number: number, answer: Told }) => void} */
    answered({ number, answer }) {
      if (!this.busy || this.busy.number !== number) return;
      const { answer: tell } = this.busy;
      this.busy = null;
      tell(answer);
      this.next();
    }

    /** No question is asked any more. */
    end() {
      if (this.worker) this.worker.terminate();
      this.ready = false;
    }

    /** Nobody waits for what was asked: the rest is not asked, and a worker that is long at one question is stopped. */
    forget() {
      for (const { answer } of this.waiting.splice(0)) answer(null);
      if (!this.busy || !this.worker || performance.now() - this.busy.since < PATIENCE) return;
      this.worker.terminate();
      this.busy.answer(null);
      this.begin();
    }
  }

  /** A worker that runs some of the page's functions, each over its own global object, and lines of script.
   *  @type {(parts: (Function | string)[], main: Function) => Worker} */
  function workerOf(parts, main) {
    const text = parts.map((part) => (typeof part === "string" ? `${part}\n` : `(${part})(self);\n`)).join("");
    const script = `"use strict";\n${text}(${main})(self);`;
    const address = URL.createObjectURL(new Blob([script], { type: "text/javascript" }));
    const worker = new Worker(address);
    URL.revokeObjectURL(address);
    return worker;
  }

  Object.assign(root.daa, { Desk, workerOf });
})(globalThis);
