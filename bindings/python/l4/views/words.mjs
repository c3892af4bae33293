// Words of calls in English: thread ids, windows, rights and timeouts.
import { counted, hexadecimal, pagesText } from "./texts.mjs";

export const NIL = 0;
export const ANY = 0xffffffff;
const THREAD_BITS = 14, ZERO_TIMEOUT = 0x400, MOST_FPAGES = 3;

export const threadOf = (id) => Math.floor(id / 2 ** THREAD_BITS);

/** The partner of a phase. */
export const partnerText = (id) => (id === NIL ? "nobody" : id === ANY ? "any thread" : `thread ${threadOf(id)}`);

export const rightsText = (bits) => ["r", "w", "x"].map((letter, place) => (bits & (4 >> place) ? letter : "-")).join("");

/** Where a receive window accepts pages. */
export function windowText(word, pageBytes) {
  const size = (word >>> 4) & 63;
  if (size === 0) return "accepts no pages";
  if (size === 1 || size === 32) return "accepts pages anywhere";
  const bytes = 2 ** size, first = Math.floor((word >>> 0) / bytes) * bytes;
  if (bytes < pageBytes) return `accepts no page (${bytes} bytes at ${hexadecimal(first)})`;
  return `accepts ${pagesText(first / pageBytes, bytes / pageBytes)}`;
}

/** The pages of an fpage, and its rights. */
function fpageText(word, pageBytes) {
  const size = (word >>> 4) & 63, rights = `(rights ${rightsText(word)})`;
  if (size === 0) return "no page";
  if (size === 1 || size === 32) return `all pages ${rights}`;
  const bytes = 2 ** size;
  return bytes < pageBytes ? "less than a page" : `${pagesText(Math.floor((word >>> 0) / bytes) * (bytes / pageBytes), bytes / pageBytes)} ${rights}`;
}

/** The fpages of an Unmap. */
function fpagesText(words, pageBytes) {
  const texts = words.slice(0, MOST_FPAGES).map((word) => fpageText(word, pageBytes)), left = words.length - texts.length;
  return [...texts, ...(left ? [`and ${counted(left, "more fpage")}`] : [])].join(", ");
}

/** The map and grant items of a message: the first page that an item is for, the number of its pages, and the first one of the sender's. */
export function itemsOf([tag = 0, ...words], pageBytes) {
  const untyped = tag & 63, items = words.slice(untyped, untyped + ((tag >>> 6) & 63));
  return items.flatMap((base, place) => {
    const fpage = (items[place + 1] ?? 0) >>> 0, size = (fpage >>> 4) & 63, bytes = 2 ** (size === 1 ? 32 : size);
    if (place % 2 || bytes < pageBytes) return [];
    return [{ first: Math.floor((base >>> 10) / (pageBytes / 1024)), count: bytes / pageBytes, source: Math.floor(fpage / bytes) * (bytes / pageBytes) }];
  });
}

/** The receive phase of an Ipc. */
export const receiveText = (from, window, pageBytes) => `receive from ${partnerText(from)}; ${windowText(window, pageBytes)}`;

const atOnce = (timeout) => (timeout === ZERO_TIMEOUT ? ", if possible at once" : "");

/** An Ipc by its phases. The numbers are TO, FROM, TIMEOUTS, WINDOW and the words of the message. */
function ipcText([to, from, timeouts, window, ...words], pageBytes) {
  const phases = [];
  if (to !== NIL) phases.push(`send ${words.length === 1 ? "1 word" : `${words.length} words`} to ${partnerText(to)}${atOnce(timeouts >>> 16)}`);
  if (from !== NIL) phases.push(`${receiveText(from, window, pageBytes)}${atOnce(timeouts & 0xffff)}`);
  return phases.join(", then ") || "neither send nor receive";
}

const faultText = ([address, ip, access]) => `fault at ${hexadecimal(address)} (needs ${rightsText(access)}), by ${hexadecimal(ip)}`;

/** What a thread's call does. The kind and the numbers are those of a step list. */
export function callText(kind, numbers, pageBytes) {
  const [first, second, third] = numbers;
  switch (kind) {
    case "ipc": return ipcText(numbers, pageBytes);
    case "fault": return faultText(numbers);
    case "unmap": return `unmap ${fpagesText(numbers.slice(1), pageBytes)}${first & 0x40 ? ", from its own pages too" : ""}`;
    case "create": return `create thread ${threadOf(first)} in ${second === first ? "a new space" : `the space of ${partnerText(second)}`}, pager ${partnerText(third)}`;
    case "setpager": return `make ${partnerText(second)} the pager of thread ${threadOf(first)}`;
    default: return `delete thread ${threadOf(first)}`;
  }
}
