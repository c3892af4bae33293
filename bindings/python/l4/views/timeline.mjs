// The steps of a run, and the threads after each of them.
import { Threads } from "./kernel.mjs";

// the threads are kept after each so many steps, so that a place in a long run is reached from a near one
const EVERY = 1024;

/** Marks the steps of served threads: in one line, the first call that starts, or the wait that ends, is the line's own, and served threads start
 * the other calls. */
function markServed(steps) {
  let line = 0, calls = 0;
  for (const step of steps) {
    if (step.line !== line) [line, calls] = [step.line, 0];
    if (/^(start|timeout|cancel) /.test(step.text)) calls += 1;
    step.isServed = calls > 1;
  }
}

export class Timeline {
  constructor(steps, pageBytes) {
    Object.assign(this, { steps, kept: [] });
    markServed(steps);
    const threads = new Threads(pageBytes);
    steps.forEach((step, place) => {
      if (place % EVERY === 0) this.kept.push(threads.copy());
      threads.note(step);
    });
    if (!steps.length) this.kept.push(threads);
  }

  /** The threads after the first steps. */
  at(count) {
    const place = Math.min(Math.floor(count / EVERY), this.kept.length - 1), threads = this.kept[place].copy();
    for (let step = place * EVERY; step < count; step += 1) threads.note(this.steps[step]);
    return threads;
  }
}
