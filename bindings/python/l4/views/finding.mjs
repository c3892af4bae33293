// Finds a thread, a space or a page by its number.

/** Goes to what the text names, and says what was done. */
export function find(text, view, acts) {
  const found = /^ *(?:(thread|t|space|s)? *([0-9]+))?[, ]*(?:(?:page|p) *(0x[0-9a-f]+|[0-9]+))? *$/i.exec(text);
  if (!found || (found[2] === undefined && found[3] === undefined)) return "Find: name a thread, a space or a page, as in: thread 3, space 2, page 32, space 2 page 32.";
  const [, kind, first, page] = found, isSpace = kind?.toLowerCase().startsWith("s");
  if (page === undefined) return isSpace ? findSpace(Number(first), view, acts) : findThread(Number(first), acts);
  return findPage(Number(page), spaceOf(isSpace, first, view), view, acts);
}

function findThread(number, acts) {
  return acts.focusThread(number) ? `Thread ${number} is found.` : `There is no thread ${number} here.`;
}

function findSpace(space, view, acts) {
  if (!view.spaces.some((it) => it.space === space)) return `There is no space ${space} here.`;
  acts.chooseSpace(space);
  return `Space ${space} is shown.`;
}

/** The named space, or that of the named thread; null if there is none. */
function spaceOf(isSpace, first, view) {
  if (first === undefined) return null;
  return isSpace ? Number(first) : view.threads.find(({ number }) => number === Number(first))?.space ?? NaN;
}

function findPage(page, space, view, acts) {
  const holds = ({ space: it, runs }) => (space === null || it === space) && runs.some(([first, count]) => first <= page && page < first + count);
  // a page of sigma0's is what every number finds, so other spaces come first
  const found = view.spaces.filter(holds).sort((a, b) => Number(a.space === 0) - Number(b.space === 0))[0];
  if (!found && view.spaces.some((it) => it.space === space)) {
    acts.choose(space, page);
    return `Page ${page} of space ${space} is absent here.`;
  }
  if (!found) return `No space${space === null ? "" : ` ${space}`} has a page ${page} here.`;
  acts.choose(found.space, page);
  return `Page ${page} of space ${found.space} is chosen.`;
}
