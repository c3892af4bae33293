// Threads, spaces, waits and messages, as the steps of a history and their answers show them.
import { ANY, NIL, callText, partnerText, receiveText, rightsText, threadOf } from "./words.mjs";
import { hexadecimal } from "./texts.mjs";

// threads 1 and 2, and the id of thread 1, which is root's pager at boot
const SIGMA0 = 1, ROOT = 2, SIGMA0_ID = 0x4001;

/** What the steps up to one have led to. `events` has the events of all steps that were ever executed, and `eventCount` of them are those of
 * these steps. */
export class Threads {
  constructor(pageBytes) {
    this.pageBytes = pageBytes;
    this.spaces = new Map([[SIGMA0, 0], [ROOT, 1]]);
    this.pagers = new Map([[ROOT, SIGMA0_ID]]);
    // the call of each thread that waits, and the partners of those that wait to send, first come first
    this.waits = new Map();
    this.sending = new Map();
    this.nextSpace = 2;
    // what the chart shows: messages, Unmaps, waits that a line ends, and threads that come and go
    this.events = [];
    this.eventCount = 0;
    this.deletions = new Map();
  }

  /** A copy with the same list of events. */
  copy() {
    const made = Object.assign(new Threads(this.pageBytes), this);
    for (const name of ["spaces", "pagers", "waits", "sending", "deletions"]) made[name] = new Map(this[name]);
    return made;
  }

  /** Notes an event. If these steps are executed again, it is there already. */
  #happens(event) {
    if (this.events.length === this.eventCount) this.events.push(event);
    this.eventCount += 1;
  }

  /** Executes a step: its number, its line of a step list, and its answers. */
  note(step) {
    const [kind, first, second, ...rest] = step.text.split(" ");
    if (kind === "start") this.#start(step, Number(first), second, rest.map(Number));
    if (kind === "transfer") this.#send(step, Number(first), Number(second));
    if (kind === "timeout") this.#happens({ kind: "end", step, thread: Number(first), text: "a clock ends its wait" });
    if (kind === "cancel") this.#happens({ kind: "end", step, thread: Number(first), text: "its wait is canceled" });
    step.answers.slice(1).forEach((answer) => this.#end(step, ...answer.split(" ")));
  }

  #start(step, thread, kind, numbers) {
    this.waits.set(thread, { kind, numbers });
    this.sending.delete(thread);
    const to = kind === "ipc" ? numbers[0] : kind === "fault" ? this.pagers.get(thread) ?? NIL : NIL;
    if (to !== NIL) this.sending.set(thread, to);
    if (kind === "unmap") this.#happens({ kind, step, thread, words: numbers.slice(1), text: callText(kind, numbers, this.pageBytes) });
  }

  #send(step, sender, receiver) {
    const call = this.waits.get(sender), outcome = step.answers[0];
    const fault = call?.kind === "fault" ? call.numbers : null;
    const words = call?.kind === "ipc" ? call.numbers.slice(4) : [];
    this.#happens({ kind: "message", step, sender, receiver, isDone: outcome === "done", outcome, words, fault: fault && faultWords(fault) });
    this.sending.delete(sender);
  }

  /** Notes that a thread's call has ended; a thread control of root has then taken effect. */
  #end(step, name, how) {
    const thread = Number(name), call = this.waits.get(thread);
    this.waits.delete(thread);
    this.sending.delete(thread);
    if (!how.startsWith("control") || call === undefined) return;
    const [id, second, third] = call.numbers, number = threadOf(id);
    if (call.kind === "create") {
      this.spaces.set(number, second === id ? this.nextSpace++ : this.spaces.get(threadOf(second)));
      this.pagers.set(number, third);
      this.#happens({ kind: "create", step, thread: number, text: `created in space ${this.spaces.get(number)}` });
    }
    if (call.kind === "setpager") this.pagers.set(number, second);
    if (call.kind === "delete") this.#delete(step, number);
  }

  #delete(step, number) {
    this.#happens({ kind: "delete", step, thread: number, text: `deleted; it was in space ${this.spaces.get(number)}` });
    this.deletions.set(number, step.line);
    [this.spaces, this.pagers, this.waits, this.sending].forEach((map) => map.delete(number));
  }

  numbers() {
    return [...this.spaces.keys()].sort((a, b) => a - b);
  }

  allSpaces() {
    return [...new Set(this.spaces.values())].sort((a, b) => a - b);
  }

  threadsOf(space) {
    return this.numbers().filter((thread) => this.spaces.get(thread) === space);
  }

  /** The pager of a thread, in words. */
  pagerOf(thread) {
    const id = this.pagers.get(thread) ?? NIL;
    return id === NIL ? "none" : partnerText(id);
  }

  /** What a thread waits for: the kind of the wait, the partner's number (null for any), what it sends if that is a fault, and the wait in words. */
  waitOf(thread) {
    const call = this.waits.get(thread);
    if (call === undefined) return null;
    const { kind, numbers } = call;
    if (this.sending.has(thread)) {
      const partner = threadOf(this.sending.get(thread));
      if (kind === "fault") return { kind, partner, what: faultWords(numbers), text: `its pager to take the ${faultWords(numbers)}` };
      return { kind: "send", partner, what: "", text: `thread ${partner} to receive` };
    }
    if (kind === "fault") return { kind, partner: threadOf(this.pagers.get(thread) ?? NIL), text: `its pager to answer the ${faultWords(numbers)}` };
    const from = numbers[1];
    return { kind: "receive", partner: from === ANY || from === NIL ? null : threadOf(from), text: receiveText(from, numbers[3], this.pageBytes) };
  }
}

/** A fault by its address and access. */
const faultWords = ([address, , access]) => `fault at ${hexadecimal(address)} (${rightsText(access)})`;

/** A step in words. */
export function stepText({ text, answers }, pageBytes) {
  const [kind, first, second, ...rest] = text.split(" ");
  if (kind === "start") return `thread ${first} calls: ${callText(second, rest.map(Number), pageBytes)}`;
  const ends = answers.slice(1).map((answer) => answer.split(" ")[0]);
  const more = ends.length === 1 ? `; the call of thread ${ends[0]} ends` : ends.length ? `; the calls of ${ends.map((it) => `thread ${it}`).join(" and ")} end` : "";
  if (kind === "timeout") return `a clock ends the wait of thread ${first}${more}`;
  if (kind === "cancel") return `the wait of thread ${first} is canceled${more}`;
  if (kind === "expire") return `the zero timeout of thread ${first} expires${more}`;
  return `thread ${first} sends to thread ${second}: ${answers[0]}${more}`;
}
