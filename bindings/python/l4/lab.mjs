// The lab's source of answers: the server of `python3 -m l4 lab`.
import { begin } from "./views/main.mjs";
import { originOf } from "./views/origin.mjs";
import { shownAt } from "./views/shown.mjs";
import { Timeline } from "./views/timeline.mjs";

class ServerSource {
  constructor() {
    Object.assign(this, { name: "lab", report: () => {}, run: null, stopper: new AbortController() });
  }

  async #fetch(path, question) {
    const asked = question && { method: "POST", headers: { "Content-Type": "application/json" }, body: JSON.stringify(question) };
    const answer = await fetch(path, { ...asked, signal: this.stopper.signal });
    const told = await answer.json();
    if (!answer.ok) throw new Error(told.error);
    return told;
  }

  start() {
    return this.#fetch("/start");
  }

  /** The steps of a script, which are kept until another one is asked for. */
  async #steps({ script, frames, pageBytes }) {
    const key = JSON.stringify([script, frames, pageBytes]);
    if (this.run?.key !== key) {
      this.report("Running the script");
      this.run = { key, ...(await this.#fetch("/run", { script, frames, pageBytes })) };
      this.run.timeline = new Timeline(this.run.steps, pageBytes);
    }
    return this.run;
  }

  async #view(asked) {
    const run = await this.#steps(asked), at = Math.min(asked.at ?? run.steps.length, run.steps.length);
    this.report("Reading the pages of the spaces");
    const told = await this.#fetch("/view", { ...asked, at });
    const text = told.lines.find(({ number }) => number === told.begun)?.text ?? "";
    const shown = shownAt({ ...told, timeline: run.timeline, done: at, before: Math.max(0, at - 1), pageBytes: asked.pageBytes, text });
    shown.events.forEach((event) => { event.says = event.step.says; });
    const { lines, line, notes } = told;
    return { at, count: run.steps.length, line, lineCount: run.lineCount, lines, refusals: run.refusals, notes, pageBytes: asked.pageBytes, ...shown };
  }

  /** How a page got there, in the words of the page. The server answers with the lines of `l4 why`. */
  async #why(asked, at) {
    const { steps } = await this.#steps(asked), { lines, steps: named } = await this.#fetch("/why", { ...asked, at });
    if (lines[0].startsWith("sigma0 ")) return originOf(lines, steps);
    return { isAbsent: lines[0] === "absent", rows: lines.map((text, place) => ({ step: named[place], text })) };
  }

  async ask(name, asked) {
    if (name === "view") return this.#view(asked);
    const at = asked.at ?? this.run?.steps.length ?? 0;
    return name === "why" ? this.#why(asked, at) : this.#fetch(`/${name}`, { ...asked, at });
  }

  stop() {
    this.stopper.abort(new Error("Stopped. The script and the fields are as they were."));
    this.stopper = new AbortController();
  }
}

begin(new ServerSource());
