// The machine that a script needs: the one that its first line names, or as many frames as the pages of sigma0 that its lines name.

const DEFAULT = 256, LEAST = 16, MOST = 4096;
// where the lines of these commands have a first page of their thread, and a number of pages
const REGIONS = { delegate: [3, 5], part: [4, 6], region: [3, 4], show: [2, 3], parent: [2, null] };

/** Whether a script is a litmus test. */
export const isLitmus = (script) => /^ *unordered *$/m.test(script);

const numberOf = (token) => (/^(0x[0-9A-Fa-f]{1,8}|[0-9]{1,10})$/.test(token ?? "") ? Number(token) : 0);

/** The first page behind those that a token names: of an item or an fpage, as a symbol or as the second word of an item. */
function endOf(token) {
  const pages = /^(?:map:|grant:)?(\w+)(?:\+(\w+))?(?:>\w+)?:[r-][w-][x-]$/.exec(token);
  if (pages) return numberOf(pages[1]) + numberOf(pages[2] ?? "1");
  const word = /^0x/.test(token) ? numberOf(token) : 0, size = (word >>> 4) & 63;
  return size >= 10 && size < 32 ? Math.floor(word / 2 ** size) * 2 ** (size - 12) + 2 ** Math.max(0, size - 12) : 0;
}

function endIn(line, sigma0) {
  const [command, ...tokens] = line.split(" ").filter((token) => token !== "");
  if (!sigma0.includes(tokens[0])) return 0;
  if (["send", "ipc", "unmap"].includes(command)) return Math.max(0, ...tokens.slice(2).map(endOf));
  if (!Object.hasOwn(REGIONS, command)) return 0;
  const [first, count] = REGIONS[command], pages = command === "show" ? 0 : count === null ? 1 : numberOf(tokens[count - 1]);
  return numberOf(tokens[first - 1]) + pages;
}

/** The value of an option in the first line of a script that names its program, as in `#!/usr/bin/env -S l4 run --frames 32`. */
function optionOf(script, name) {
  const found = new RegExp(`^#!.* --${name}[ =]([0-9]{1,4})(?= |$)`).exec(script.split("\n", 1)[0]);
  return found ? Number(found[1]) : undefined;
}

/** The page size that a script names; undefined if it names none. */
export function pageBytesFor(script) {
  const named = optionOf(script, "page-size");
  return [1024, 4096].includes(named) ? named : undefined;
}

/** How many pages sigma0 must have so that it has all that the lines of a script name. */
export function pagesNamed(script) {
  const lines = script.length > 1 << 20 ? [] : script.split("\n");
  const sigma0 = ["1", ...lines.flatMap((line) => { const found = /^ *name +(\S+) +1 *$/.exec(line); return found ? [found[1]] : []; })];
  return lines.reduce((most, line) => Math.max(most, endIn(line, sigma0)), 0);
}

/** The number of frames that a script names, or one that has all of sigma0's pages which its lines name: 256 or more for a script, and 16 or
 * more for a litmus test, because a search is faster with few frames. */
export function framesFor(script) {
  const named = optionOf(script, "frames");
  if (named >= 1 && named <= MOST) return named;
  const need = pagesNamed(script);
  let frames = isLitmus(script) ? LEAST : DEFAULT;
  while (frames < need && frames < MOST) frames *= 2;
  return frames;
}
