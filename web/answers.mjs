// Answers the page's questions by the program. It runs in a worker.
import { PRINTS, Program, READINGS, failureText } from "./program.mjs";
import { MOST_TRIED, Run } from "./runs.mjs";
import { tested } from "./testing.mjs";
import { glanceAt, shownAt } from "../bindings/python/l4/views/shown.mjs";
import { runAt } from "../bindings/python/l4/views/changes.mjs";
import { stepText } from "../bindings/python/l4/views/kernel.mjs";
import { originOf, stepName } from "../bindings/python/l4/views/origin.mjs";
import { rightsText } from "../bindings/python/l4/views/words.mjs";
import { counted, cut, cutList, ended, grouped, linesIn, megabytes, pagesText } from "../bindings/python/l4/views/texts.mjs";

const MOST_SCRIPT = 16 << 20, MOST_SHOWN = 256, MOST_WRITTEN = 2 << 20, MOST_ITEMS_SAID = 3, MOST_EXPLAINED = 64, MOST_DRAWN = 300;
const MOST_ORDERS = 2n ** 64n - 1n;

const machineOf = (asked) => ({ frames: asked.frames, pageBytes: asked.pageBytes });

class Answers {
  constructor(program, report) {
    Object.assign(this, { program, report, kept: null, said: new Map() });
  }

  /** The run of a script; what was seen of it before is kept. */
  run(asked) {
    const length = asked.script.length;
    if (length > MOST_SCRIPT) throw new Error(`The script has ${megabytes(length)}. The page runs up to ${megabytes(MOST_SCRIPT)}; \`l4 run\` has no limit.`);
    if (!this.kept?.is(asked.script, machineOf(asked))) {
      this.kept = null;
      this.kept = new Run(this.program, asked.script, machineOf(asked), this.report);
    }
    return this.kept;
  }

  /** The place in a run: the number of steps, the last line that has begun, and the threads, regions and served threads. */
  #place(asked) {
    const run = this.run(asked), { timeline, machine: { pageBytes } } = run, count = run.steps.length;
    const done = Math.min(asked.at ?? count, count), begun = run.begunAt(done), threads = timeline.at(done);
    return { run, count, done, begun, threads, pageBytes, timeline, regions: run.regions(begun, threads.deletions), served: run.served(begun, threads.deletions) };
  }

  /** What is shown of a place, with what does not need the pages of the spaces. */
  #told({ run, count, done, begun, pageBytes }, shown) {
    shown.events.forEach((event) => { if (event.kind === "message" && !event.fault) event.says = this.message(event.words, pageBytes); });
    const lines = run.linesAround(begun, done);
    return { at: done, count, line: run.lineOf(done), lineCount: run.lines.length, lines, refusals: run.refusals, notes: [], pageBytes, ...shown };
  }

  /** What can be shown at once: all but the pages of the spaces. */
  glance(asked) {
    const place = this.#place(asked);
    return this.#told(place, glanceAt(place));
  }

  view(asked) {
    const place = this.#place(asked), { run, done, begun, threads, timeline } = place, before = Math.max(0, done - 1), earlier = timeline.at(before);
    this.report("Reading the pages of the spaces");
    const [old, now] = run.states([{ count: before, spaces: earlier.allSpaces() }, { count: done, spaces: threads.allSpaces() }]);
    return this.#told(place, shownAt({ ...place, before, now, old, text: run.lines[begun - 1] ?? "" }));
  }

  /** The answers to a line, each with what it means. */
  explain(asked) {
    return { answers: cutAnswers(this.run(asked).explained(asked.line)) };
  }

  /** What a message says, in one line. */
  message(words, pageBytes) {
    const key = `${pageBytes} ${words.join(" ")}`;
    if (!this.said.has(key)) this.said.set(key, messageText(linesIn(this.program.decode(words, READINGS.message, { pageBytes }))));
    return this.said.get(key);
  }

  /** How a page of a space got there, or why it is absent. `l4 why` reads whole lines: between two steps of a line, the answer names the last
   * one. */
  why(asked) {
    const run = this.run(asked), at = Math.min(asked.at ?? run.steps.length, run.steps.length), end = run.wholeLineAt(at);
    const threads = run.timeline.at(at), [thread] = threads.threadsOf(asked.space);
    const [{ spaces }] = run.states([{ count: at, spaces: threads.allSpaces() }]);
    if (runAt(spaces.find(({ space }) => space === asked.space)?.runs ?? [], asked.page) === null) return this.#absence(run, asked, at);
    if (end.steps > at) return { isAbsent: false, rows: [{ step: end.steps, text: `known after step ${end.steps}, the last one of this line` }] };
    return originOf(linesIn(this.program.why(ended(run.lines.slice(0, end.line)), run.machine, thread, asked.page).text), run.steps);
  }

  /** Why a page is absent: the step that took it away, messages to the space that did not come, those that mapped other pages in its place,
   * and refused lines. Each step is a link. */
  #absence(run, { space, page }, at) {
    this.report("Looking for the step that took the page away");
    const end = run.endOf(space, at), row = (step, more) => ({ step: step.number, text: `${stepName(step)}: ${stepText(step, run.machine.pageBytes)}. ${more}` });
    const ended = end ? [row(end, `Space ${space} ended with its last thread, and its pages with it.`)] : [], until = end ? end.number - 1 : at;
    const [{ spaces }] = run.states([{ count: until, spaces: run.timeline.at(until).allSpaces() }]);
    const wasThere = end !== null && runAt(spaces.find((it) => it.space === space)?.runs ?? [], page) !== null, reasons = wasThere ? [] : this.#reasons(run, { space, page }, until, row);
    const refused = run.refusedBefore(at), lines = refused.slice(0, MOST_ITEMS_SAID).join(", ");
    const more = refused.length ? [{ step: null, text: `${counted(refused.length, "line")} before this step ${refused.length === 1 ? "was" : "were"} refused: ${lines}${refused.length > MOST_ITEMS_SAID ? " .." : ""}.` }] : [];
    return { isAbsent: true, rows: [{ step: null, text: "absent" }, ...ended, ...reasons, ...more] };
  }

  #reasons(run, { space, page }, at, row) {
    const { step: removal, isWhole } = run.removal(space, page, at), names = `An item of this message names page ${page}`;
    const none = isWhole ? "No step so far has mapped a page here." : `None of the last ${MOST_TRIED} steps of this line took the page away.`;
    return [
      removal ? row(removal, "This step took the page away.") : { step: null, text: none },
      ...run.undelivered(space, page, at).map((step) => row(step, `${names}, but the message was not delivered, and none of its items was mapped.`)),
      ...run.unsent(space, page, at).map(({ step, thread, isWaiting }) => row(step, `${names}, but ${isWaiting ? `thread ${thread} still waits to send it` : "the call ended before it was delivered"}.`)),
      ...run.elsewhere(space, page, at).map((it) => row(it.step, `${names}, but ${placedText(it)}`)),
    ];
  }

  decode({ words, reading, pageBytes }) {
    return { lines: cutList(linesIn(this.program.decode(words, READINGS[reading], { pageBytes }))) };
  }

  plan(asked) {
    const { text, found } = this.program.plan(asked, asked), lines = linesIn(text);
    if (!found && lines[0] !== "too-long") return { text: `${lines[0]}: ${this.#refusedPlan(asked)}`, verdict: "", items: [], pages: [] };
    const verdict = linesIn(this.program.check(asked, asked, text).text)[0];
    const pages = lines.filter((line) => line.includes("page ")).map((line) => Number(line.split(" ").pop()));
    if (!found) return { text: "too long: no 1,984 items move the region", verdict, items: [], pages: pages.slice(0, MOST_SHOWN), claim: text };
    const items = itemsIn(lines, asked.pageBytes), messages = lines.filter((line) => line.startsWith("tag ")).length;
    return { text: `${counted(items.length, "item")} in ${counted(messages, "message")}`, verdict, items, pages: pages.slice(0, MOST_SHOWN), claim: text };
  }

  /** Why a region has no plan: a `delegate` line with this region is refused for the same reason, and `l4 run --explain` says why. */
  #refusedPlan({ source, target, count, rights, pageBytes }) {
    const line = `delegate 2 1 ${source} ${target} ${count} ${rightsText(rights)}`;
    const [, means = ""] = linesIn(this.program.explain(ended([line]), { frames: 1, pageBytes }));
    return means.replace(/^# (line 1: )?/, "");
  }

  /** The outcomes of a plan over all orders of its calls, each with the script of an order that produces it, and the rules that it breaks. */
  orders(asked) {
    this.report("Searching the orders");
    const { end, orders, states, outcomes } = this.program.orders(ended(linesIn(asked.script)), machineOf(asked), asked.most);
    const shown = outcomes.slice(0, MOST_SHOWN).map(({ answers, witness, broken }) => ({ answers: cutList(answers), witness, broken: cutList(broken) }));
    const hasGraph = end === "all" && states <= MOST_DRAWN;
    const graph = hasGraph ? this.program.ordersText(ended(linesIn(asked.script)), machineOf(asked), asked.most, PRINTS.graph).text : null;
    return { end, orders: end === "all" ? orderCount(orders) : "0", states, outcomeCount: outcomes.length, outcomes: shown, graph };
  }

  /** A text as `l4` writes it. */
  text(asked) {
    const script = ended(linesIn(asked.script)), machine = machineOf(asked), words = asked.words;
    const texts = {
      "run": () => this.program.run(script, machine), "run --explain": () => this.program.explain(script, machine),
      "run --number --moves": () => this.program.annotate(script, machine),
      "history": () => this.program.history(script, machine, false), "history --answers": () => this.program.history(script, machine, true),
      "orders": () => this.program.ordersText(script, machine, asked.most, PRINTS.orders).text,
      "orders --outcomes": () => this.program.ordersText(script, machine, asked.most, PRINTS.outcomes).text,
      "orders --dot": () => this.program.ordersText(script, machine, asked.most, PRINTS.graph).text,
      "test": () => tested(this.program, script, machine, false), "test --lenient": () => tested(this.program, script, machine, true),
      "why": () => this.program.why(script, machine, words[0], words[1]).text, "decode": () => this.program.decode(words, READINGS.message, machine),
      "plan": () => this.program.plan(asked.region, machine).text, "check": () => this.program.check(asked.region, machine, asked.claim).text,
    };
    const text = texts[asked.kind]();
    if (asked.isWhole || text.length <= MOST_WRITTEN) return { text };
    return { text: `${text.slice(0, MOST_WRITTEN)}\n.. ${grouped(text.length - MOST_WRITTEN)} more characters: save the text to see all of it` };
  }
}

/** Why an item did not map the page that it names: the sender lacked its own page, or the receive window placed it elsewhere. */
function placedText({ pages, sender, lacked }) {
  if (lacked !== null) return `thread ${sender} had no page ${lacked} then.`;
  const texts = pages.slice(0, MOST_ITEMS_SAID).map(({ first, count }) => pagesText(first, count)), left = pages.length - texts.length;
  return `the receive window decides where pages go. The step mapped ${pages.length ? `${texts.join(", ")}${left ? ` and ${counted(left, "more range")}` : ""}` : "no page here"}.`;
}

/** A number of orders. The module's greatest number stands for more, too. */
const orderCount = (orders) => (orders === MOST_ORDERS ? `at least ${grouped(orders)}` : grouped(orders));

/** At most so many explained answers. */
const cutAnswers = (answers) => answers.slice(0, MOST_EXPLAINED).map(({ answer, means }) => ({ answer: cut(answer), means: cutList(means) }));

/** The lines of `l4 decode` about a message, in short: its items with their pages, else its label and words. */
function messageText(lines) {
  const last = lines.at(-1) ?? "";
  if (!last.startsWith("message: ")) return last;
  const label = /label (0x[0-9a-f]+)/.exec(lines[0])[1], untyped = lines.filter((line) => line.startsWith("word ")).map((line) => line.split(", ").pop());
  const items = lines.filter((line) => line.startsWith("item ")).map((line) => {
    const [kind, , , pages, rights] = line.slice(line.indexOf(": ") + 2).split(", ");
    return `${kind} ${pages === "nil" ? "no page" : pages}${rights === undefined ? "" : ` ${rights}`}`;
  });
  const parts = Number(label) ? [`label ${label}`] : [];
  if (untyped.length) parts.push(`${untyped.length === 1 ? "word" : "words"} ${untyped.join(" ")}`);
  parts.push(...items.slice(0, MOST_ITEMS_SAID));
  if (items.length > MOST_ITEMS_SAID) parts.push(`and ${counted(items.length - MOST_ITEMS_SAID, "more item")}`);
  return parts.join("; ") || "an empty message";
}

/** The items of a plan, each with its first page counted from 0, its number of pages, and its witness page. */
function itemsIn(lines, pageBytes) {
  let place = 0;
  return lines.filter((line) => line.startsWith("item ")).map((line) => {
    const [, base, fpage, , page] = line.split(" "), size = (parseInt(fpage, 16) >> 4) & 63;
    const pages = 2 ** (size === 1 ? 32 : size) / pageBytes, item = { place, pages, page: Number(page), text: `${base} ${fpage}` };
    place += pages;
    return item;
  });
}

/** Answers messages: first the module's bytes, then questions, one after another. */
export function listen(port) {
  const report = (text) => port.postMessage({ report: text });
  let answers = null;
  port.onmessage = async ({ data: { number, name, asked } }) => {
    try {
      if (name === "module") answers = Program.of(asked).then((program) => new Answers(program, report));
      const made = await answers;
      port.postMessage({ number, answer: name === "module" ? {} : made[name](asked) });
    } catch (fault) {
      const unable = fault instanceof WebAssembly.CompileError;
      port.postMessage({ number, error: unable ? "no memory64" : failureText(fault) });
    }
  };
}
