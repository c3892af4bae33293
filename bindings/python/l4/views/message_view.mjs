// The chart of messages, Unmaps, and threads that come and go.
import { chartOf } from "./chart.mjs";
import { fill, follow, it, made } from "./dom.mjs";

// the padding at both sides, and a scrollbar
const ROOM = 24;

export function showChart(view, go) {
  const chart = view.events.length ? [chartOf(view.events, view.earlierEvents, { step: view.stepCount, go, room: it("chart").clientWidth - ROOM })] : [made("p", { class: "hint" }, "No message so far.")];
  fill("chart", chart);
  // the newest is at the bottom
  follow(it("chart"), null);
}
