// What the page shows of a run at one place: threads, events and changes, from the steps and the pages of the spaces.
import { changeText, changesBetween } from "./changes.mjs";
import { stepText } from "./kernel.mjs";

const MOST_STEPS = 120, MOST_LATER = 30, MOST_EVENTS = 40, MOST_CHANGES = 128;
// a step has at most two events: a message, and a thread that comes or goes
const MOST_OF_STEP = 2;

/** The last steps up to the current one, and the next of those that come later. */
function stepsShown(steps, count, pageBytes) {
  return steps.slice(Math.max(0, count - MOST_STEPS), count + MOST_LATER)
    .map((step) => ({ number: step.number, line: step.line, isServed: step.isServed, text: stepText(step, pageBytes), isLater: step.number > count }));
}

function threadsShown(threads, regions, served) {
  return threads.numbers().map((number) => ({
    number, space: threads.spaces.get(number), pager: threads.pagerOf(number), wait: threads.waitOf(number), isServed: served.includes(number),
    regions: regions.filter(({ thread }) => thread === number),
  }));
}

/** The page that a line names, if it is present: of `parent` and `fault` that page, of `show` the first one in its range. */
function namedPage([command, , first, second], runs, pageBytes) {
  const from = command === "fault" ? Math.floor(Number(first) / pageBytes) : Number(first), count = command === "show" ? Number(second) : 1;
  if (!["parent", "fault", "show"].includes(command) || !Number.isInteger(from)) return null;
  const run = runs.find(([start, pages]) => start < from + count && from < start + pages);
  return run ? Math.max(run[0], from) : null;
}

/** The first page of a space other than sigma0's. */
const firstPage = (space, runs) => (space !== 0 && runs.length ? runs[0][0] : null);

/** Where the page goes: to the first page that the step gave to a space other than sigma0's, else to any that it changed, else to what its line
 * names. Null if there is none of these: then it stays where it is. */
function focusOf(changes, threads, { text, now, pageBytes }) {
  const first = changes.find(({ space, is }) => space !== 0 && is !== null) ?? changes.find(({ space }) => space !== 0) ?? changes[0];
  if (first) return { space: first.space, page: first.first };
  const tokens = text.split(" ").filter((token) => token !== ""), space = threads.spaces.get(Number(tokens[1]));
  const runs = now.spaces.find((it) => it.space === space)?.runs ?? [], page = namedPage(tokens, runs, pageBytes) ?? firstPage(space, runs);
  return page === null ? null : { space, page };
}

/** What needs no pages. `given` has the timeline of the run, how many steps are done, the regions and the served threads. */
export function glanceAt({ timeline, done, pageBytes, regions, served, threads = timeline.at(done) }) {
  const { steps } = timeline, { events, eventCount, sending } = threads;
  return {
    stepCount: done, steps: stepsShown(steps, done, pageBytes), threads: threadsShown(threads, regions, served),
    senders: [...sending.keys()].map((thread) => ({ thread, ...threads.waitOf(thread) })),
    events: events.slice(Math.max(0, eventCount - MOST_EVENTS), eventCount), earlierEvents: Math.max(0, eventCount - MOST_EVENTS),
    said: done === 0 ? "" : stepText(steps[done - 1], pageBytes),
  };
}

/** All of it. `given` also has how many steps were done before, the states of both places, and the text of the current line. */
export function shownAt(given) {
  const { timeline, done, before, now, old } = given, threads = timeline.at(done);
  const changes = changesBetween(old.spaces, now.spaces);
  const came = threads.events.slice(Math.max(0, threads.eventCount - MOST_OF_STEP), threads.eventCount).filter(({ kind, step }) => ["create", "delete"].includes(kind) && step.number > before);
  return {
    ...glanceAt({ ...given, threads }),
    spaces: now.spaces.map((it) => ({ ...it, threads: threads.threadsOf(it.space) })),
    changes: changes.slice(0, MOST_CHANGES).map((change) => ({ ...change, ...changeText(change) })), changeCount: changes.length,
    threadChanges: came.map(({ kind, thread, text }) => ({ kind, text: `thread ${thread} ${text}` })),
    focus: focusOf(changes, threads, given),
  };
}
