// The program l4 in its WebAssembly module (crates/l4_page): bytes in, a text out.
import { linesIn, megabytes } from "../bindings/python/l4/views/texts.mjs";

const WASM_PAGE = 65536;
// the bytes of a call's answer, the room for its text at first, and the longest text that is read
const TOLD_BYTES = 64, ROOM = 1 << 16, MOST_TEXT = 128 << 20;
// the room for the texts of a search at first, and for their lengths: a search that finds more is made again
const SEARCH_ROOM = 1 << 22, LENGTHS = 1 << 13;

export const RIGHTS = { x: 1, w: 2, r: 4 };
/** How words are read: as a message, each alone, as an fpage, as a window, as a thread id, as the control of an Unmap. */
export const READINGS = { message: 0, each: 1, fpage: 2, window: 3, id: 4, control: 5 };
/** What `l4 orders` writes: the outcomes with an order of each, the outcomes alone (`--outcomes`), and the graph of the states (`--dot`). */
export const PRINTS = { orders: 0, outcomes: 1, graph: 2 };

const REFUSALS = {
  B4: "A page has 4,096 or 1,024 bytes.",
  K6: "The number of frames must be from 1 to 4,096.",
  No: "The script needs more memory than the module gets (1 GB). `l4 run` can use all of the machine's memory.",
};

/** The code of a refusal: its number is its first two bytes. */
const codeOf = (refusal) => String.fromCharCode(refusal >> 8, refusal & 255);

/** A call that the program refused. */
export class Refused extends Error {
  constructor(refusal, text = "") {
    super(REFUSALS[codeOf(refusal)] ?? text);
    this.code = codeOf(refusal);
  }
}

/** The code `NoMemory`. */
const NO_MEMORY = 0x4e6f;

/** The ends of a search, by the module's numbers. */
const ENDS = { 1: "all", 2: "most", 3: "memory", 4: "history" };

/** Why a call failed, in words. */
export function failureText(fault) {
  const { message } = fault;
  if (fault instanceof WebAssembly.RuntimeError) return `The module stopped at a trap (${message}). This is a bug of the page: please report the script. You can run another script.`;
  if (fault instanceof RangeError) return `The browser has no memory left for this (${message}). Make the script shorter, or use \`l4 run\`.`;
  return message;
}

/** Words that are passed by their address. */
class Given {
  constructor(...words) {
    this.words = Uint32Array.from(words);
  }
}

/** Room for items of some bytes each, which a call writes. */
class Room {
  constructor(length, bytes = 1) {
    Object.assign(this, { length, byteLength: length * bytes });
  }
}

const bytesOf = (value) => (typeof value === "string" ? new TextEncoder().encode(value) : value instanceof Given ? value.words : value);

const rounded = (bytes) => Math.ceil(bytes / 16) * 16;

/** Adds pages to a memory. The number is a BigInt for a 64-bit memory, and a Number in engines from before that was settled. */
function grow(memory, pages) {
  try {
    memory.grow(BigInt(pages));
  } catch (fault) {
    if (!(fault instanceof TypeError)) throw fault;
    memory.grow(pages);
  }
}

/** The program. Each call has an instance and a memory of its own, so nothing of a call is left, whatever came of it. */
export class Program {
  constructor(module) {
    this.module = module;
  }

  static async of(bytes) {
    return new Program(await WebAssembly.compile(bytes));
  }

  /** What a function returns: its text, whether what was asked for is there, and the number of lines of a script. */
  call(name, ...given) {
    let told = this.once(name, ROOM, given);
    if (told.length > MOST_TEXT) throw new Error(`The text has ${megabytes(told.length)}. The page shows up to ${megabytes(MOST_TEXT)}; \`l4 run\` writes all of it.`);
    if (told.length > told.room) told = this.once(name, told.length, given);
    return { text: new TextDecoder().decode(told.bytes), found: told.found, lines: told.lines };
  }

  once(name, room, given) {
    const { buffer, answer, rooms: [place] } = this.enter(name, [...given, new Room(room)]);
    const refusal = answer.getUint32(0, true);
    if (refusal) throw new Refused(refusal);
    const length = Number(answer.getBigUint64(8, true));
    return {
      length, room, found: answer.getUint32(4, true) === 1, lines: Number(answer.getBigUint64(16, true)),
      bytes: new Uint8Array(buffer, place, Math.min(length, room)),
    };
  }

  /** Calls a function. Returns the memory after the call, its answer there, and the place of each room. */
  enter(name, given) {
    const { exports } = new WebAssembly.Instance(this.module);
    const values = given.map(bytesOf);
    // the module grows its memory itself, so what lies behind its first memory is the caller's
    const base = exports.memory.buffer.byteLength;
    const need = values.reduce((sum, value) => sum + (value.byteLength === undefined ? 0 : rounded(value.byteLength)), TOLD_BYTES);
    grow(exports.memory, Math.ceil(need / WASM_PAGE));
    let place = base + TOLD_BYTES;
    const words = [BigInt(base)], rooms = [];
    values.forEach((value, k) => {
      if (value.byteLength === undefined) {
        words.push(Number(value));
        return;
      }
      if (value instanceof Room) rooms.push(place);
      else new Uint8Array(exports.memory.buffer, place, value.byteLength).set(new Uint8Array(value.buffer, value.byteOffset, value.byteLength));
      words.push(BigInt(place), ...(given[k] instanceof Given ? [] : [BigInt(value.length)]));
      place += rounded(value.byteLength);
    });
    exports[name](...words);
    const { buffer } = exports.memory;
    return { buffer, answer: new DataView(buffer, base, TOLD_BYTES), rooms };
  }

  run(script, { frames, pageBytes }) {
    return this.call("page_run", script, frames, pageBytes).text;
  }

  explain(script, { frames, pageBytes }) {
    return this.call("page_explain", script, frames, pageBytes).text;
  }

  /** The answers with the number of each line and the pages that each transfer moved. */
  annotate(script, { frames, pageBytes }) {
    return this.call("page_annotate", script, frames, pageBytes).text;
  }

  history(script, { frames, pageBytes }, answers) {
    return this.call("page_history", script, frames, pageBytes, answers ? 1 : 0).text;
  }

  /** The answers to a list of steps and queries. */
  steps(list, { frames, pageBytes }) {
    return this.call("page_steps", list, frames, pageBytes).text;
  }

  /** How a page of a thread's space got there, and whether it is there. */
  why(script, { frames, pageBytes }, thread, page) {
    return this.call("page_why", script, frames, pageBytes, new Given(thread, page));
  }

  /** The number of the line that caused each step of a script's history, which has this number of steps. */
  causes(script, { frames, pageBytes }, count) {
    const { buffer, answer, rooms: [place] } = this.enter("page_causes", [script, frames, pageBytes, new Room(count, 8)]);
    const refusal = answer.getUint32(0, true);
    if (refusal) throw new Refused(refusal);
    if (Number(answer.getBigUint64(8, true)) !== count) throw new Refused(NO_MEMORY);
    return Float64Array.from(new BigUint64Array(buffer, place, count), Number);
  }

  /** What a test of a script finds: how it ends, by the module's numbers; the line; how many answers are expected; and the expected and the
   * actual answer that differ, or the refusal that is not expected. */
  test(script, machine, isLenient, room = ROOM) {
    const { buffer, answer, rooms: [place] } = this.enter("page_test", [script, machine.frames, machine.pageBytes, isLenient ? 1 : 0, new Room(room)]);
    const number = (at) => Number(answer.getBigUint64(at, true)), refusal = answer.getUint32(0, true), [expected, found] = [number(24), number(32)];
    if (refusal) throw new Refused(refusal);
    if (expected + found > room) return this.test(script, machine, isLenient, expected + found);
    const text = (from, length) => new TextDecoder().decode(new Uint8Array(buffer, place + from, length));
    return { end: answer.getUint32(4, true), line: number(8), expectations: number(16), expected: text(0, expected), found: text(expected, found) };
  }

  plan({ source, target, count, rights }, { pageBytes }) {
    return this.call("page_plan", new Given(source, target, count, rights), pageBytes);
  }

  check({ source, target, count, rights }, { pageBytes }, claim) {
    return this.call("page_check", new Given(source, target, count, rights), pageBytes, claim);
  }

  decode(words, reading, { pageBytes }) {
    return this.call("page_decode", Uint32Array.from(words), reading, pageBytes).text;
  }

  /** Searches all orders of a plan, and visits at most `most` states. Returns the outcomes with the lines of their answers, each with the
   * script of an order that produces it and the rules that it breaks; how the search ended ("all", "most", "memory" or "history"); and the
   * numbers of orders (a BigInt) and states. */
  orders(plan, machine, most) {
    let told = this.search(plan, machine, most, SEARCH_ROOM, LENGTHS);
    if (told.length > MOST_TEXT) throw new Error(`The outcomes have ${megabytes(told.length)}. The page shows up to ${megabytes(MOST_TEXT)}; \`l4 orders\` prints all of them.`);
    if (told.length > SEARCH_ROOM || told.lengthCount > LENGTHS) told = this.search(plan, machine, most, told.length, told.lengthCount);
    const { end, orders, states } = told;
    return { end, orders, states, outcomes: outcomesIn(told.bytes, told.lengths) };
  }

  search(plan, machine, most, room, count) {
    const { buffer, answer, rooms: [place, lengths] } = this.enter("page_orders", [plan, searchGiven(machine, most), new Room(room), new Room(count, 8)]);
    const { bytes, length, number } = searchText(buffer, answer, place, room), lengthCount = 3 * Number(number(24));
    return {
      length, lengthCount, bytes, end: ENDS[answer.getUint32(16, true)], orders: number(32), states: Number(number(40)),
      lengths: Array.from(new BigUint64Array(buffer, lengths, Math.min(lengthCount, count)), Number),
    };
  }

  /** What `l4 orders` writes about a plan, a kind of PRINTS, and how the search ended. */
  ordersText(plan, machine, most, kind, room = SEARCH_ROOM) {
    const { buffer, answer, rooms: [place] } = this.enter("page_orders_text", [plan, searchGiven(machine, most), kind, new Room(room)]);
    const { bytes, length } = searchText(buffer, answer, place, room);
    if (length > MOST_TEXT) throw new Error(`The text has ${megabytes(length)}. The page shows up to ${megabytes(MOST_TEXT)}; \`l4 orders\` prints all of it.`);
    return length > room ? this.ordersText(plan, machine, most, kind, length) : { text: new TextDecoder().decode(bytes), end: ENDS[answer.getUint32(16, true)] };
  }
}

const searchGiven = ({ frames, pageBytes }, most) => new Given(frames, pageBytes, most % 2 ** 32, Math.floor(most / 2 ** 32));

/** The text that a search wrote, as far as there was room, and its length. Throws an error if the search was refused. */
function searchText(buffer, answer, place, room) {
  const number = (at) => answer.getBigUint64(at, true), refusal = answer.getUint32(0, true), length = Number(number(48));
  const bytes = new Uint8Array(buffer, place, Math.min(length, room));
  if (refusal) throw new Refused(refusal, refusalText(refusal, answer.getUint32(4, true), number(8), new TextDecoder().decode(bytes)));
  return { bytes, length, number };
}

/** Why a text is not a plan: the line, the code with the thread that it names, and what the code means. */
function refusalText(refusal, thread, line, meaning) {
  const code = thread ? `${codeOf(refusal)} ${thread}` : codeOf(refusal);
  return `${line ? `line ${line}: ` : ""}${code}: ${meaning}`;
}

/** The outcomes in a text that has the answers of each, its script and the rules that it breaks, which have these lengths. */
function outcomesIn(bytes, lengths) {
  const texts = [];
  let place = 0;
  for (const length of lengths) {
    texts.push(new TextDecoder().decode(bytes.subarray(place, place + length)));
    place += length;
  }
  return Array.from({ length: texts.length / 3 }, (_, k) => ({ answers: linesIn(texts[3 * k]), witness: texts[3 * k + 1], broken: linesIn(texts[3 * k + 2]) }));
}
