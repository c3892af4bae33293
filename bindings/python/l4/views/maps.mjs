// Spaces as maps: each block of pages in the colour of its frames, or of the space that it came from.
import { active, drawing, drawn } from "./dom.mjs";
import { grouped, pagesText } from "./texts.mjs";

const CELL = 16, COLUMNS = 16, MOST_AREAS = 8, MOST_PAGES_OF_AREA = 1024, MOST_BLOCKS = 128, MOST_RUNS = 1024, LABEL = 16, TITLE = 76, RING = 4;

const hue = (number) => `hsl(${Math.round(number * 137.5) % 360} 62% 66%)`;

/** The place of the first number above a value in a sorted list. */
function firstAbove(numbers, value) {
  let low = 0, high = numbers.length;
  while (low < high) {
    const middle = (low + high) >> 1;
    if (numbers[middle] > value) high = middle;
    else low = middle + 1;
  }
  return low;
}

/** The frames that were mapped on: the borders between their blocks, and for each border whether the frames behind it are among them. */
function mappedFrames(spaces) {
  const ends = new Map(), mapped = spaces.flatMap(({ runs }) => runs.filter((run) => run[4] !== null));
  mapped.forEach(([, count, frame]) => {
    ends.set(frame, (ends.get(frame) ?? 0) + 1);
    ends.set(frame + count, (ends.get(frame + count) ?? 0) - 1);
  });
  const borders = [...ends.keys()].sort((a, b) => a - b);
  let open = 0;
  return { borders, isMapped: borders.map((border) => (open += ends.get(border)) > 0) };
}

/** The colour of a block by its frames, or by the space that it came from; grey (null) for frames that only sigma0 has. */
export function colouring(spaces, by) {
  if (by === "origin") return { borders: [], colour: ([, , , , space]) => (space === null ? null : hue(space)) };
  const { borders, isMapped } = mappedFrames(spaces);
  const colour = ([, , frame]) => {
    const place = firstAbove(borders, frame) - 1;
    return isMapped[place] ? hue(place) : null;
  };
  return { borders, colour };
}

/** A run of pages, cut where its frames pass a border. */
function blocksOf([first, count, frame, rights, space, parent], borders) {
  const cuts = [frame, ...borders.slice(firstAbove(borders, frame), firstAbove(borders, frame + count - 1)), frame + count];
  return cuts.slice(0, -1).map((start, k) => {
    const passed = start - frame;
    return [first + passed, cuts[k + 1] - start, start, rights, space, space === null ? parent : parent + passed];
  });
}

/** The parts of a space that have pages, each a whole number of rows. */
export function areasOf(ranges) {
  const areas = [];
  [...ranges].sort((a, b) => a.first - b.first).forEach(({ first, count }) => {
    const start = Math.floor(first / COLUMNS) * COLUMNS, end = Math.ceil((first + count) / COLUMNS) * COLUMNS;
    const last = areas.at(-1);
    if (last && start <= last.end + COLUMNS) last.end = Math.max(last.end, end);
    else areas.push({ start, end });
  });
  return areas;
}

/** The rectangles that pages fill in an area: a part of a row, whole rows, and a part of a row. */
function rectangles(area, first, count) {
  const from = Math.max(first, area.start), to = Math.min(first + count, area.shownEnd), parts = [];
  for (let page = from; page < to;) {
    const column = page % COLUMNS, rows = column ? 0 : Math.floor((to - page) / COLUMNS);
    const pages = rows ? rows * COLUMNS : Math.min(COLUMNS - column, to - page);
    const y = area.y + ((page - column - area.start) / COLUMNS) * CELL;
    parts.push({ x: column * CELL + TITLE, y, width: (rows ? COLUMNS : pages) * CELL, height: (rows || 1) * CELL });
    page += pages;
  }
  return parts;
}

/** Gives each area its place below the one before, and returns the height of all. */
function laidOut(areas) {
  let y = 2;
  areas.forEach((area, place) => {
    area.isShown = place < MOST_AREAS;
    area.shownEnd = area.isShown ? Math.min(area.end, area.start + MOST_PAGES_OF_AREA) : area.start;
    area.y = y;
    if (area.isShown) y += ((area.shownEnd - area.start) / COLUMNS) * CELL + LABEL / 2;
  });
  return y;
}

function blockOf(shown, areas, block, view) {
  const [first, count, frame, rights, space, parent] = block;
  const parts = areas.flatMap((area) => rectangles(area, first, count));
  if (!parts.length) return null;
  const from = space === null ? "" : `, from space ${space} page ${parent}`;
  const name = `space ${shown.space}, ${pagesText(first, count)}: frame ${frame}${count > 1 ? ` to ${frame + count - 1}` : ""} ${rights}${from}`;
  const boxes = parts.map((part) => drawn("rect", { ...part, fill: view.colour(block) ?? "var(--grey, #d5d9de)", class: "cells" }));
  const choose = (event) => view.choose(shown.space, pageUnder(event, areas, first));
  const picture = active(drawn("g", { "data-space": shown.space, "data-page": first }, ...boxes), name, choose);
  return { picture, shownPages: parts.reduce((sum, { width, height }) => sum + (width * height) / CELL ** 2, 0) };
}

/** The page that was clicked, or the first of the block where a key was pressed. */
function pageUnder(event, areas, first) {
  const box = event.currentTarget?.ownerSVGElement?.getBoundingClientRect();
  if (!box || !event.clientX) return first;
  const x = event.clientX - box.left - TITLE, y = event.clientY - box.top;
  const area = areas.find((it) => it.isShown && it.y <= y && y < it.y + ((it.shownEnd - it.start) / COLUMNS) * CELL);
  return area ? area.start + Math.floor((y - area.y) / CELL) * COLUMNS + Math.min(Math.max(Math.floor(x / CELL), 0), COLUMNS - 1) : first;
}

/** A rectangle inside another, so that the border of the other can be seen. */
const inside = ({ x, y, width, height }) => ({ x: x + RING, y: y + RING, width: width - 2 * RING, height: height - 2 * RING });

/** The map of a space. A page that a step changed has a frame, which is dashed if the page was removed. The chosen page has a small frame inside. */
export function mapOf(shown, changes, view) {
  const own = changes.filter(({ space }) => space === shown.space);
  const runs = shown.runs.slice(0, MOST_RUNS), areas = areasOf([...runs.map(([first, count]) => ({ first, count })), ...own]);
  const height = laidOut(areas), all = runs.flatMap((run) => blocksOf(run, view.borders));
  const grounds = areas.filter(({ isShown }) => isShown).flatMap((area) => [
    drawn("text", { x: TITLE - 6, y: area.y + CELL - 2, "text-anchor": "end" }, grouped(area.start)),
    drawn("rect", { x: TITLE, y: area.y, width: COLUMNS * CELL, height: ((area.shownEnd - area.start) / COLUMNS) * CELL, class: "ground" })]);
  const blocks = all.slice(0, MOST_BLOCKS).map((block) => blockOf(shown, areas, block, view)).filter((block) => block !== null);
  const marks = own.slice(0, MOST_BLOCKS).flatMap(({ first, count, is }) =>
    areas.flatMap((area) => rectangles(area, first, count)).map((part) => drawn("rect", { ...part, class: is === null ? "mark went" : "mark" })));
  const isChosen = view.space === shown.space && view.page !== null;
  const ring = isChosen ? areas.flatMap((area) => rectangles(area, view.page, 1)).map((part) => drawn("rect", { ...inside(part), class: "ring" })) : [];
  const parts = [...grounds, ...blocks.map((it) => it.picture), ...marks, ...ring];
  const picture = drawing(TITLE + COLUMNS * CELL + 4, Math.max(height, CELL + 4), `map of space ${shown.space}`, parts);
  return { picture, left: shown.runs.reduce((sum, [, count]) => sum + count, 0) - blocks.reduce((sum, it) => sum + it.shownPages, 0) };
}
