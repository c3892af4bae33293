// The items of a plan as blocks over the region's pages, in a row for the source and one for the target.
import { drawing, drawn } from "./dom.mjs";
import { counted, grouped } from "./texts.mjs";

const MOST_WIDTH = 780, LEAST_WIDTH = 240, HEIGHT = 34, LEFT = 66, RIGHT = 12, DIGIT = 8.5, MOST_ITEMS = 256, ITEMS_OF_A_MESSAGE = 31;

/** The block of an item in one row. */
function blockOf(item, x, y, first, number) {
  const [left, right] = [x(item.place), x(item.place + item.pages)], width = Math.max(right - left, 1), last = first + item.pages - 1;
  const label = item.pages === 1 ? `${first}` : `${first}–${last}`;
  const text = width > DIGIT * label.length + 6 ? label : width > DIGIT * `${first}`.length + 4 ? `${first}` : "";
  const box = drawn("rect", { x: left, y, width, height: HEIGHT - 6, class: number % 2 ? "item odd" : "item" });
  const block = drawn("g", { class: "block" }, drawn("title", {}, `item ${number}: pages ${first} to ${last}, ${item.text}`), box);
  if (text) block.append(drawn("text", { x: left + 3, y: y + 19 }, text));
  return block;
}

/** A line at the first item of each message but the first, with the message's number. */
function boundaryOf(item, number, x) {
  const at = x(item.place);
  return drawn("g", { class: "boundary" }, drawn("title", {}, `message ${number / ITEMS_OF_A_MESSAGE} begins here`),
    drawn("line", { x1: at, y1: 2, x2: at, y2: 2 * HEIGHT + 12 }));
}

function markOf(item, x, source) {
  const at = x(item.page - source) + 2, y = 2 * HEIGHT + 16;
  return drawn("g", { class: "witness" }, drawn("title", {}, `page ${item.page}: no other item could move it`), drawn("path", { d: `M${at} ${y} l-4 10 h8 z` }));
}

/** The plan, with at most 256 items, at most `room` pixels wide. */
export function blocksOf(items, { source, target, count }, room) {
  const width = Math.min(Math.max(room - LEFT - RIGHT - 8, LEAST_WIDTH), MOST_WIDTH);
  const x = (place) => LEFT + Math.floor((place * width) / count), shown = items.slice(0, MOST_ITEMS);
  const names = [["source", 24], ["target", HEIGHT + 30], ["pages", 2 * HEIGHT + 26]].map(([name, y]) => drawn("text", { x: 0, y }, name));
  const blocks = shown.flatMap((item, number) => [blockOf(item, x, 6, source + item.place, number), blockOf(item, x, HEIGHT + 12, target + item.place, number)]);
  const boundaries = shown.map((item, number) => (number && number % ITEMS_OF_A_MESSAGE === 0 ? boundaryOf(item, number, x) : null)).filter((it) => it !== null);
  const left = items.length - shown.length;
  const more = left ? [drawn("text", { x: LEFT, y: 2 * HEIGHT + 46 }, `and ${grouped(left)} more items`)] : [];
  const name = `plan: ${counted(items.length, "item")}`;
  return drawing(LEFT + width + RIGHT, 2 * HEIGHT + (left ? 54 : 34), name, [...names, ...blocks, ...boundaries, ...shown.map((item) => markOf(item, x, source)), ...more]);
}
