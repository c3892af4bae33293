// What a step changed: the pages that came, went or lost rights, and the threads that came and went.
import { pagesText } from "./texts.mjs";

// The pages of a space are stored as runs: [first page, count, first frame, rights, parent's space or null, parent's first page]. The frames of a run
// follow one another, and so do the parents.

/** The run of a page in a list of runs, shortened to begin at that page; null where the page isn't present. */
export function runAt(runs, page) {
  const found = runs.find(([first, count]) => first <= page && page < first + count);
  if (!found) return null;
  const [first, count, frame, rights, space, parent] = found, passed = page - first;
  return [page, count - passed, frame + passed, rights, space, space === null ? parent : parent + passed];
}

const sameRun = (a, b) => a === b || (a !== null && b !== null && [2, 3, 4, 5].every((place) => a[place] === b[place]));

/** The pages at which a run of either list begins or ends. */
function borders(...lists) {
  const pages = lists.flat().flatMap(([first, count]) => [first, first + count]);
  return [...new Set(pages)].sort((a, b) => a - b);
}

/** The changes of one space: where the pages of two lists of runs differ. Walks both lists once. */
export function changesOfSpace(space, before, now) {
  const edges = borders(before, now), changes = [];
  let a = 0, b = 0;
  const at = (runs, place, page) => {
    const run = runs[place];
    return run && run[0] <= page ? runAt([run], page) : null;
  };
  for (let k = 0; k + 1 < edges.length; k += 1) {
    const page = edges[k];
    while (a < before.length && before[a][0] + before[a][1] <= page) a += 1;
    while (b < now.length && now[b][0] + now[b][1] <= page) b += 1;
    const was = at(before, a, page), is = at(now, b, page);
    if (!sameRun(was, is)) changes.push({ space, first: page, count: edges[k + 1] - page, was, is });
  }
  return changes;
}

/** All changes of pages between two states, which are lists of spaces with their runs. */
export function changesBetween(before, now) {
  const old = new Map(before.map(({ space, runs }) => [space, runs]));
  const current = new Map(now.map(({ space, runs }) => [space, runs]));
  const spaces = [...new Set([...old.keys(), ...current.keys()])].sort((a, b) => a - b);
  return spaces.flatMap((space) => changesOfSpace(space, old.get(space) ?? [], current.get(space) ?? []));
}

const framesText = (frame, count) => (count === 1 ? `frame ${frame}` : `frames ${frame} to ${frame + count - 1}`);

const fromText = ([, , , , space, page]) => (space === null ? "" : `, from space ${space} page ${page}`);

/** A change in words, with its kind: "came", "went" or "altered". */
export function changeText({ space, first, count, was, is }) {
  const where = `space ${space}, ${pagesText(first, count)}`;
  if (was === null) return { kind: "came", text: `${where}: ${framesText(is[2], count)} ${is[3]}${fromText(is)}` };
  if (is === null) return { kind: "went", text: `${where}: taken away (${framesText(was[2], count)} ${was[3]}${fromText(was)})` };
  if (was[2] !== is[2]) return { kind: "altered", text: `${where}: ${framesText(is[2], count)} ${is[3]}${fromText(is)}, in place of ${framesText(was[2], count)} ${was[3]}` };
  if (was[3] !== is[3]) return { kind: "altered", text: `${where}: now ${is[3]}, before ${was[3]}` };
  return { kind: "altered", text: `${where}: parent now ${is[4] === null ? "none" : `space ${is[4]} page ${is[5]}`}` };
}
