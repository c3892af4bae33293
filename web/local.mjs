// The page's source of answers: the program in a worker of its own, which can be stopped.
import { it } from "../bindings/python/l4/views/dom.mjs";

const NO_MEMORY64 = "This browser has no WebAssembly with a 64-bit memory, which the proved program needs. "
  + "Chromium has it from version 133 on, and Firefox from version 134 on. Without it, use the programs: `make` builds `l4`, and `l4 run` prints the same answers.";
const STOPPED = "Stopped. The script and the fields are as they were.";

const moduleBytes = () => Uint8Array.from(atob(it("module").textContent.trim()), (letter) => letter.charCodeAt(0));

const scriptFile = (id) => URL.createObjectURL(new Blob([it(id).textContent], { type: "text/javascript" }));

export class LocalSource {
  constructor() {
    Object.assign(this, { name: "page", hasTexts: true, hasGlances: true, waiting: new Map(), count: 0, report: () => {} });
    this.restart();
  }

  /** Begins with a new worker: what the one before was asked is not answered any more. */
  restart(bytes = moduleBytes()) {
    this.worker?.terminate();
    this.worker = new Worker(scriptFile("worker"));
    this.worker.onmessage = ({ data }) => this.#take(data);
    this.worker.onerror = (event) => { event.preventDefault(); this.#fail(`The page's worker stopped: ${event.message ?? "no memory"}. You can run a script again.`); };
    this.#send("module", bytes).catch(() => {});
  }

  #take({ number, report, answer, error }) {
    if (report !== undefined) {
      this.report(report);
      return;
    }
    const waiting = this.waiting.get(number);
    this.waiting.delete(number);
    if (error === undefined) waiting?.resolve(answer);
    else waiting?.reject(new Error(error === "no memory64" ? NO_MEMORY64 : error));
  }

  #fail(text) {
    const waiting = [...this.waiting.values()];
    this.waiting.clear();
    this.restart();
    waiting.forEach(({ reject }) => reject(new Error(text)));
  }

  #send(name, asked) {
    const number = ++this.count;
    return new Promise((resolve, reject) => {
      this.waiting.set(number, { resolve, reject });
      this.worker.postMessage({ number, name, asked });
    });
  }

  async start() {
    const examples = JSON.parse(it("examples").textContent);
    return { script: examples[0].script, examples };
  }

  ask(name, asked) {
    return this.#send(name, asked);
  }

  stop() {
    this.#fail(STOPPED);
  }
}
