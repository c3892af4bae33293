// Messages, Unmaps, waits that a line ends, and threads that come and go, as a sequence chart.
import { active, drawing, drawn } from "./dom.mjs";
import { counted } from "./texts.mjs";

const COLUMN = 84, LEAST_COLUMN = 56, ROW = 30, LINE = 20, DIGIT = 9, TEXT = 440, LETTER = 7.2;

/** Where the lines of the threads begin, behind the numbers of the steps. */
const leftOf = (events) => 26 + DIGIT * Math.max(2, `${events.at(-1).step.number}`.length);

/** A text in at most `most` lines, each at most `width` pixels wide. */
function wrapped(text, width, most) {
  const letters = Math.max(8, Math.floor(width / LETTER)), lines = [];
  let left = text;
  while (left.length > letters && lines.length < most - 1) {
    const place = left.lastIndexOf(" ", letters), end = place > 0 ? place : letters;
    lines.push(left.slice(0, end));
    left = left.slice(end).trimStart();
  }
  return [...lines, left.length <= letters ? left : `${left.slice(0, letters - 2)}..`];
}

/** The threads of an event. */
const threadsOf = (event) => (event.kind === "message" ? [event.sender, event.receiver] : [event.thread]);

function messageText({ fault, says, outcome, isDone }) {
  const text = fault ?? says ?? "";
  return isDone ? text : `${outcome}: ${text}`;
}

function arrow(event, columns, y) {
  const [start, end] = [columns.get(event.sender), columns.get(event.receiver)], back = start < end ? -7 : 7;
  const kind = event.isDone ? "arrow" : "arrow failed";
  return drawn("path", { d: `M${start} ${y} H${end} M${end + back} ${y - 4} L${end} ${y} L${end + back} ${y + 4}`, class: kind });
}

/** What an event says. */
const textOf = (event) => (event.kind === "message" ? messageText(event) : event.text);

/** Where everything is drawn in `room` pixels: the texts beside the lines of the threads, or below the arrows if there is no room beside. */
function placesOf(events, room) {
  const threads = [...new Set(events.flatMap(threadsOf))].sort((a, b) => a - b), left = leftOf(events);
  const isBeside = left + COLUMN * threads.length + TEXT <= room;
  const column = isBeside ? COLUMN : Math.min(COLUMN, Math.max(LEAST_COLUMN, (room - left) / threads.length));
  const right = left + column * threads.length, columns = new Map(threads.map((thread, place) => [thread, left + column / 2 + place * column]));
  const width = Math.max(room, right), text = isBeside ? { x: right - 20, y: 5, width: width - right + 20, most: 1 } : { x: left, y: 5 + LINE, width: width - left, most: 3 };
  return { left, columns, width, text };
}

function rowOf(event, lines, y, height, { left, columns, text: spot, width }, view) {
  const is = event.kind === "message", number = event.step.number;
  const sign = is ? arrow(event, columns, y) : drawn("circle", { cx: columns.get(event.thread), cy: y, r: 5, class: `sign ${event.kind}` });
  const name = `step ${number}: ${is ? `thread ${event.sender} to thread ${event.receiver}` : `thread ${event.thread}`}, ${textOf(event)}`;
  const ground = drawn("rect", { x: 0, y: y - ROW / 2, width, height, class: number === view.step ? "row now" : "row" });
  const label = drawn("text", { x: left - 12, y: y + 5, "text-anchor": "end" }, `${number}`);
  const says = drawn("text", { class: event.isDone === false ? "failed" : "" }, ...lines.map((line, place) => drawn("tspan", { x: spot.x, y: y + spot.y + place * LINE }, line)));
  return active(drawn("g", { class: `${is ? "message" : "event"}${number === view.step ? " now" : ""}` }, ground, label, sign, says), name, () => view.go(number));
}

/** The events one below another, with the number of those before them. The last is the newest. */
export function chartOf(events, before, view) {
  const places = placesOf(events, view.room), { text } = places;
  let y = before ? 64 : 34;
  const rows = events.map((event) => {
    const lines = wrapped(textOf(event), text.width, text.most), height = text.most === 1 ? ROW : ROW + LINE * lines.length, top = y;
    y += height;
    return rowOf(event, lines, top, height, places, view);
  });
  // the names are at both ends, because a long chart shows its newest events
  const bottom = y - 4, lives = [...places.columns].flatMap(([thread, x]) => [
    ...[12, bottom + 12].map((at) => drawn("text", { x, y: at + 2, "text-anchor": "middle" }, `thread ${thread}`)),
    drawn("line", { x1: x, y1: 18, x2: x, y2: bottom, class: "life" })]);
  const earlier = before ? [drawn("text", { x: 4, y: 38 }, `${counted(before, "earlier event")}`)] : [];
  return drawing(places.width, bottom + 18, "messages", [...lives, ...earlier, ...rows]);
}
