// A run of a script, as the program's own texts show it after each step: its answers, its history, and the pages of every space.
import { changesBetween, runAt } from "../bindings/python/l4/views/changes.mjs";
import { Timeline } from "../bindings/python/l4/views/timeline.mjs";
import { itemsOf, threadOf } from "../bindings/python/l4/views/words.mjs";
import { cut, cutList, ended, linesIn } from "../bindings/python/l4/views/texts.mjs";

const MOST_LINES = 120, MOST_REFUSALS = 64, MOST_KEPT = 8, MOST_NAMED = 3, MOST_READ = 64;
/** How many steps of a line are tried to find the one that took a page away. */
export const MOST_TRIED = 500;
const UNDELIVERED = ["no-window", "entangled", "no-memory"];

/** The answers of a script, from the output of `l4 run --number --moves`: all of them, and for each the number of its line. */
function answersIn(text) {
  const answers = [], lines = [];
  for (const row of linesIn(text)) {
    // a line about a moved page
    if (row.startsWith("#")) continue;
    const end = row.indexOf(": ");
    lines.push(Number(row.slice(0, end)));
    answers.push(row.slice(end + 2));
  }
  return { answers, lines };
}

/** The steps of a history with their answers (`l4 history --answers`), without the lines that caused them. */
function stepsIn(text) {
  const steps = [];
  for (const row of linesIn(text)) {
    if (row.startsWith("# ")) steps.at(-1).answers.push(row.slice(2));
    else steps.push({ number: steps.length + 1, line: 0, text: row, answers: [] });
  }
  return steps;
}

/** How many of the things that lines caused there are by the end of each line. The numbers of their lines rise. */
function countsBy(lines, lineCount) {
  const counts = new Float64Array(lineCount + 1);
  lines.forEach((line) => { counts[line] += 1; });
  counts.forEach((count, line) => { counts[line] = count + (counts[line - 1] ?? 0); });
  return counts;
}

/** Pages in runs; see views/changes.mjs. */
export function runsOf(pages) {
  const runs = [];
  for (const { page, frame, rights, parent } of pages) {
    const last = runs.at(-1), passed = last?.[1];
    const goesOn = last && last[0] + passed === page && last[2] + passed === frame && last[3] === rights && last[4] === (parent ? parent.space : null)
      && (!parent || last[5] + passed === parent.page);
    if (goesOn) last[1] += 1;
    else runs.push([page, 1, frame, rights, parent ? parent.space : null, parent ? parent.page : null]);
  }
  return runs;
}

/** A page as the query `pages` lists it: with its parent, or with `none`. */
function pageIn(line) {
  const [, page, , frame, rights, space, parent] = line.split(" ");
  return { page: Number(page), frame: Number(frame), rights, parent: parent === undefined ? null : { space: Number(space), page: Number(parent) } };
}

/** How many lines of its script line's answers a step has: `l4 run` does not say that a call has started. */
const answerCount = ({ text, answers }) => answers.length - (text.startsWith("start ") ? 1 : 0);

/** The explanations of a script's answers, from the output of `l4 run --explain`: for each answer, its lines without the mark. */
function explanationsIn(text) {
  const found = [];
  for (const row of linesIn(text)) {
    if (row.startsWith("# ")) found.at(-1).push(row.slice(2));
    else found.push([]);
  }
  return found;
}

/** The lines of a script on a machine, and what the program answers to them. */
export class Run {
  constructor(program, script, machine, report) {
    Object.assign(this, { program, script, machine, lines: linesIn(script) });
    report("Answering the script");
    const { answers, lines } = answersIn(program.annotate(ended(this.lines), machine));
    report("Reading the history");
    this.steps = stepsIn(program.history(ended(this.lines), machine, true));
    report("Finding the line of each step");
    const causes = program.causes(ended(this.lines), machine, this.steps.length);
    this.steps.forEach((step, place) => { step.line = causes[place]; });
    Object.assign(this, { answers, answersBy: countsBy(lines, this.lines.length), stepsBy: countsBy(causes, this.lines.length) });
    this.timeline = new Timeline(this.steps, machine.pageBytes);
    this.refusals = this.#refusals(report);
    this.tables = this.#tables();
    this.kept = new Map();
  }

  is(script, machine) {
    return this.script === script && this.machine.frames === machine.frames && this.machine.pageBytes === machine.pageBytes;
  }

  /** The answers to a line, by its number from 1. */
  answersTo(number) {
    return this.answers.slice(this.answersBy[number - 1], this.answersBy[number]);
  }

  /** The refused lines, with the reason that `l4 run --explain` prints for each. */
  #refusals(report) {
    const isRefused = (answer) => /^line \d+ refused /.test(answer);
    const count = this.answers.filter(isRefused).length;
    if (!count) return { count, first: [] };
    report("Explaining the refused lines");
    const told = linesIn(this.program.explain(ended(this.lines), this.machine)), first = [];
    for (let place = 0; place < told.length && first.length < MOST_REFUSALS; place += 1) {
      if (!isRefused(told[place])) continue;
      const [, line, , ...code] = told[place].split(" ");
      first.push({ line: Number(line), text: this.lines[line - 1], at: this.stepsBy[line], code: code.join(" "), means: (told[place + 1] ?? "").replace(/^# (line \d+: )?/, "") });
    }
    return { count, first };
  }

  /** The pages of these spaces after the first steps, by executing the steps as a list. The places rise. */
  #pagesAfter(places) {
    const list = places.flatMap(({ count, spaces }, k) => [
      ...this.steps.slice(places[k - 1]?.count ?? 0, count).map(({ text }) => text), ...spaces.map((space) => `pages ${space}`)]);
    const told = linesIn(this.program.steps(ended(list), this.machine));
    let at = 0;
    return places.map(({ count, spaces }, k) => {
      at += this.steps.slice(places[k - 1]?.count ?? 0, count).reduce((sum, { answers }) => sum + answers.length, 0);
      return spaces.map((space) => {
        const first = at;
        while (!told[at].startsWith("shown ")) at += 1;
        at += 1;
        return { space, runs: runsOf(told.slice(first, at - 1).map(pageIn)) };
      });
    });
  }

  /** Whether a page of a space is present after each of these steps, whose numbers rise. */
  #presence(space, page, places) {
    const told = linesIn(this.program.steps(ended(places.flatMap((place, k) => [
      ...this.steps.slice(places[k - 1] ?? 0, place).map(({ text }) => text), `pages ${space}`])), this.machine));
    let at = 0;
    return places.map((place, k) => {
      at += this.steps.slice(places[k - 1] ?? 0, place).reduce((sum, { answers }) => sum + answers.length, 0);
      const first = at;
      while (!told[at].startsWith("shown ")) at += 1;
      at += 1;
      return told.slice(first, at).some((line) => line.startsWith(`page ${page} `));
    });
  }

  /** The step that took a page away that is absent after these steps; null if none did. `l4 why` names it at the end of a line. Of the steps
   * of a line that has not ended, the last ones that can change pages are tried. */
  removal(space, page, count) {
    const begun = this.begunAt(count), line = this.stepsBy[begun] > count ? begun - 1 : begun, within = this.#removalWithin(space, page, this.stepsBy[line], count);
    if (within.step || !within.isWhole) return within;
    const [thread] = this.timeline.at(this.stepsBy[line]).threadsOf(space);
    const told = thread === undefined ? "" : this.program.why(ended(this.lines.slice(0, line)), this.machine, thread, page).text, entry = /^removed by entry (\d+) /m.exec(told);
    return { step: entry ? this.steps[Number(entry[1])] : null, isWhole: true };
  }

  /** The step behind the first ones, up to the last one, that took a page away; whether all of them were tried. */
  #removalWithin(space, page, first, count) {
    const changes = this.steps.slice(first, count).filter(({ text, answers }) => /^start \d+ (unmap|delete) /.test(text) || (text.startsWith("transfer ") && answers[0] === "done"));
    const tried = changes.slice(-MOST_TRIED);
    if (!tried.length) return { step: null, isWhole: true };
    const [before, ...after] = this.#presence(space, page, [tried[0].number - 1, ...tried.map(({ number }) => number)]);
    const place = tried.findLastIndex((_, k) => !after[k] && (after[k - 1] ?? before));
    return { step: tried[place] ?? null, isWhole: tried.length === changes.length };
  }

  /** The last messages to a space's threads with an item for a page that were not delivered because of their items. */
  undelivered(space, page, count) {
    const { events, eventCount } = this.timeline.at(count);
    const isFor = ({ kind, outcome, words }) => kind === "message" && UNDELIVERED.includes(outcome) && this.#names(words, page);
    return this.#lastTo(space, events.slice(0, eventCount).filter(isFor)).map(({ step }) => step);
  }

  /** Whether a message has an item for a page. */
  #names(words, page) {
    return itemsOf(words, this.machine.pageBytes).some(({ first, count }) => first <= page && page < first + count);
  }

  /** The last of some messages whose receiver was in a space. */
  #lastTo(space, messages) {
    return messages.slice(-MOST_READ).filter(({ step, receiver }) => this.timeline.at(step.number).spaces.get(receiver) === space).slice(-MOST_NAMED);
  }

  /** The last calls that send a message with an item for a page to a space, and whose message has not come: each with whether it still waits. */
  unsent(space, page, count) {
    const threads = this.timeline.at(count), calls = this.steps.slice(0, count).filter(({ text }) => /^start \d+ ipc /.test(text)).map((step) => {
      const [, thread, , to, , , , ...words] = step.text.split(" ").map(Number);
      return { step, thread, receiver: threadOf(to), words };
    });
    return this.#lastTo(space, calls.filter(({ words }) => this.#names(words, page))).flatMap(({ step, thread }) => {
      const next = this.steps.slice(step.number, count).find(({ text }) => text.startsWith(`transfer ${thread} `) || text.startsWith(`start ${thread} `));
      return next?.text.startsWith("transfer ") ? [] : [{ step, thread, isWaiting: next === undefined && threads.sending.has(thread) }];
    });
  }

  /** The step that deleted the last thread of a space that is gone; null if it is not gone. */
  endOf(space, count) {
    const { events, eventCount, spaces } = this.timeline.at(count);
    if ([...spaces.values()].includes(space)) return null;
    return events.slice(0, eventCount).findLast(({ kind, text }) => kind === "delete" && text.endsWith(` in space ${space}`))?.step ?? null;
  }

  /** The first refused lines up to a step. */
  refusedBefore(count) {
    return this.refusals.first.filter(({ at }) => at <= count).map(({ line }) => line);
  }

  /** The last delivered messages to a space that have an item for a page, but did not map that page: each with its step, the pages of the
   * space that the step mapped, and the sender with the page that it lacked, if it lacked the item's. */
  elsewhere(space, page, count) {
    const { events, eventCount } = this.timeline.at(count), isIn = (range) => range.first <= page && page < range.first + range.count;
    const isFor = ({ kind, isDone, words }) => kind === "message" && isDone && this.#names(words, page);
    return this.#lastTo(space, events.slice(0, eventCount).filter(isFor)).map((event) => this.#placed(event, space, page)).filter(({ pages }) => !pages.some(isIn));
  }

  /** What a message did for a page of a space that an item of it names. */
  #placed({ step, sender, words }, space, page) {
    const places = [step.number - 1, step.number].map((count) => ({ count, spaces: this.timeline.at(count).allSpaces() })), [old, now] = this.states(places);
    const pages = changesBetween(old.spaces, now.spaces).filter((change) => change.space === space && change.is !== null);
    const item = itemsOf(words, this.machine.pageBytes).find(({ first, count }) => first <= page && page < first + count), source = item.source + page - item.first;
    const own = old.spaces.find((it) => it.space === this.timeline.at(step.number - 1).spaces.get(sender))?.runs ?? [];
    return { step, pages, sender, lacked: runAt(own, source) === null ? source : null };
  }

  /** The pages of every space at some places, which rise: each has a number of steps, and the spaces that there are after them. */
  states(places) {
    const asked = places.filter(({ count }) => !this.kept.has(count));
    // those that are kept become the newest, so that the others do not displace them
    places.forEach(({ count }) => { if (this.kept.has(count)) this.#keep(count, this.kept.get(count)); });
    if (asked.length) this.#pagesAfter(asked).forEach((spaces, k) => this.#keep(asked[k].count, { spaces }));
    return places.map(({ count }) => this.kept.get(count));
  }

  #keep(count, state) {
    this.kept.delete(count);
    if (this.kept.size > MOST_KEPT) this.kept.delete(this.kept.keys().next().value);
    this.kept.set(count, state);
  }

  /** The lines that added a region to a pager's table, with the region, and those that made a thread answer by itself. */
  #tables() {
    const regions = [], served = [], names = new Map();
    const threadOf = (word) => names.get(word) ?? Number(word);
    this.lines.forEach((text, place) => {
      if (!/^ *(name|region|serve) /.test(text)) return;
      const number = place + 1, [command, ...words] = text.split(" ").filter((word) => word !== "");
      if (command === "name") {
        const [said, thread] = (this.answersTo(number)[0] ?? "").split(" ");
        if (said === "named") names.set(words[0], Number(thread));
      }
      if (command === "region" && this.answersTo(number)[0] === "region ok") {
        const rights = words.pop(), [first, source, count] = words.slice(1).map(Number);
        regions.push({ number, thread: threadOf(words[0]), first, source, count, rights });
      }
      if (command === "serve" && words.length === 1 && !this.answersTo(number)[0]?.includes(" refused ")) served.push({ number, thread: threadOf(words[0]) });
    });
    return { regions, served };
  }

  /** The regions of pagers after a line. A table ends with its thread. */
  regions(line, deletions) {
    return this.tables.regions.filter(({ number, thread }) => number <= line && !(deletions.get(thread) > number)).map(({ number, ...region }) => region);
  }

  /** The threads that answer by themselves after a line. */
  served(line, deletions) {
    return [...new Set(this.tables.served.filter(({ number, thread }) => number <= line && !(deletions.get(thread) > number)).map(({ thread }) => thread))];
  }

  /** The answers to a line with their explanations, which are those of `l4 run --explain`. */
  explained(number) {
    this.explanations ??= explanationsIn(this.program.explain(ended(this.lines), this.machine));
    const first = this.answersBy[number - 1] ?? 0;
    return this.answersTo(number).map((answer, place) => ({ answer, means: this.explanations[first + place] ?? [] }));
  }

  /** The line that caused the last of these steps; 0 before the first one. */
  lineOf(at) {
    return at === 0 ? 0 : this.steps[at - 1].line;
  }

  /** The last line that has begun after these steps: all lines have after the last step. */
  begunAt(at) {
    return at === this.steps.length ? this.lines.length : this.lineOf(at);
  }

  /** The line by whose end there are these pages, and the number of steps by then. It is the current line, with its steps that come later,
   * or the line before it if the current one has only started Ipcs and faults, which changes no page. */
  wholeLineAt(at) {
    const line = this.begunAt(at), steps = this.stepsBy[line];
    const hasOnlyStarted = steps > at && this.steps.slice(this.stepsBy[line - 1], at).every(({ text }) => /^start \d+ (ipc|fault) /.test(text));
    return hasOnlyStarted ? { line: line - 1, steps: at } : { line, steps };
  }

  /** The answers to a line. If its last steps come later, their answers are left out. */
  #answersBy(number, at) {
    const answers = this.answersTo(number), first = this.stepsBy[number - 1];
    if (at <= first || this.stepsBy[number] <= at) return answers;
    return answers.slice(0, this.steps.slice(first, at).reduce((sum, step) => sum + answerCount(step), 0));
  }

  /** The lines around the last one that has begun, with their answers, and the number of steps by the end of each. */
  linesAround(begun, at) {
    const first = Math.max(0, Math.min(begun - MOST_LINES / 2, this.lines.length - MOST_LINES));
    return this.lines.slice(first, first + MOST_LINES).map((text, place) => {
      const number = first + place + 1;
      return { number, at: this.stepsBy[number], text: cut(text), answers: cutList(this.#answersBy(number, at)), isLater: number > begun };
    });
  }
}
