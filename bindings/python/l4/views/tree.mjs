// The mappings of a frame as a tree, each below the one that it was mapped from.
import { active, drawing, drawn } from "./dom.mjs";
import { grouped } from "./texts.mjs";

const WIDTH = 108, HEIGHT = 78, LINE = 18, GAP = 12, DROP = 30, MOST_BOXES = 256;

const keyOf = ({ space, page }) => `${space}:${page}`;

/** Every mapping of a frame, in all spaces. */
export function mappingsOf(spaces, frame) {
  return spaces.flatMap(({ space, runs }) => runs.filter(([, count, first]) => first <= frame && frame < first + count).map(([page, , first, rights, from, parent]) => {
    const passed = frame - first;
    return { space, page: page + passed, frame, rights, parent: from === null ? null : { space: from, page: parent + passed } };
  }));
}

/** The column and row of each mapping: leaves side by side, and each parent above the middle of its children. */
function spotsOf(shown) {
  const children = new Map(shown.map((it) => [keyOf(it), []])), roots = [];
  shown.forEach((it) => ((it.parent && children.get(keyOf(it.parent))) || roots).push(it));
  const spots = new Map();
  let columns = 0;
  const walk = (it, row) => {
    const below = children.get(keyOf(it)).map((child) => walk(child, row + 1));
    const column = below.length ? (below[0] + below.at(-1)) / 2 : columns++;
    spots.set(keyOf(it), [column, row]);
    return column;
  };
  roots.forEach((it) => walk(it, 0));
  return spots;
}

const corner = ([column, row]) => [Math.floor(column * (WIDTH + GAP)) + 2, row * (HEIGHT + DROP) + 2];

function edgeOf(it, spots) {
  const [[x1, y1], [x2, y2]] = [corner(spots.get(keyOf(it.parent))), corner(spots.get(keyOf(it)))];
  return drawn("line", { x1: x1 + WIDTH / 2, y1: y1 + HEIGHT, x2: x2 + WIDTH / 2, y2, class: "edge" });
}

function boxOf(it, spot, view) {
  const [x, y] = corner(spot), isChosen = it.space === view.space && it.page === view.page;
  const texts = [`space ${it.space}`, `page ${it.page}`, `frame ${it.frame}`, it.rights].map((text, line) => drawn("text", { x: x + 6, y: y + LINE * (line + 1) - 2 }, text));
  const box = drawn("rect", { x, y, width: WIDTH, height: HEIGHT, class: isChosen ? "box chosen" : "box" });
  const from = it.parent ? `from space ${it.parent.space} page ${it.parent.page}` : "no parent";
  const name = `space ${it.space} page ${it.page}, frame ${it.frame} ${it.rights}, ${from}${isChosen ? ", chosen" : ""}`;
  return active(drawn("g", { class: isChosen ? "now" : null, "data-space": it.space, "data-page": it.page }, box, ...texts), name, () => view.choose(it.space, it.page), keyOf(it));
}

/** The tree, with at most 256 boxes. */
export function treeOf(mappings, view) {
  const shown = mappings.slice(0, MOST_BOXES), spots = spotsOf(shown);
  const edges = shown.filter((it) => it.parent && spots.has(keyOf(it.parent))).map((it) => edgeOf(it, spots));
  const boxes = shown.map((it) => boxOf(it, spots.get(keyOf(it)), view));
  const places = [...spots.values()];
  const right = Math.max(0, ...places.map(([column]) => column)) + 1, bottom = (Math.max(0, ...places.map(([, row]) => row)) + 1) * (HEIGHT + DROP) - DROP;
  const left = mappings.length - shown.length;
  const more = left ? [drawn("text", { x: 4, y: bottom + 22 }, `and ${grouped(left)} more`)] : [];
  return drawing(Math.floor(right * (WIDTH + GAP)), bottom + (left ? 30 : 4), "mapping tree", [...edges, ...boxes, ...more]);
}
