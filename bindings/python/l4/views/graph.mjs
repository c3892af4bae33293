// Which thread waits for which, as a graph.
import { active, drawing, drawn } from "./dom.mjs";

const RADIUS = 21, ANYONE = "any";

/** The waits of threads: from a thread to the one that it waits for. */
export const waitsOf = (threads) => threads.filter(({ wait }) => wait !== null).map(({ number, wait }) => ({ from: number, to: wait.partner ?? ANYONE, ...wait }));

/** The nodes on a circle, the first at the top. */
function placesOf(names) {
  const round = names.length < 3 ? 62 : Math.max(74, (names.length * (2 * RADIUS + 16)) / (2 * Math.PI)), middle = round + RADIUS + 6;
  const at = (place) => {
    const angle = (2 * Math.PI * place) / names.length - (names.length === 2 ? Math.PI : Math.PI / 2);
    return [middle + round * Math.cos(angle), (names.length < 3 ? RADIUS + 8 : middle) + round * Math.sin(angle)];
  };
  return { width: 2 * middle, height: names.length < 3 ? 2 * RADIUS + 16 : 2 * middle, places: new Map(names.map((name, place) => [name, at(place)])) };
}

function edgeOf({ from, to, kind, text }, places) {
  const [[x1, y1], [x2, y2]] = [places.get(from), places.get(to)], length = Math.hypot(x2 - x1, y2 - y1) || 1;
  const [dx, dy] = [(x2 - x1) / length, (y2 - y1) / length];
  // a little aside, so that two threads that wait for each other have two arrows
  const [sx, sy] = [-dy * 5, dx * 5];
  const [ax, ay, bx, by] = [x1 + dx * RADIUS + sx, y1 + dy * RADIUS + sy, x2 - dx * (RADIUS + 2) + sx, y2 - dy * (RADIUS + 2) + sy];
  const wing = (turn) => `${bx - 9 * (dx * 0.87 - turn * dy * 0.5)} ${by - 9 * (dy * 0.87 + turn * dx * 0.5)}`;
  const path = drawn("path", { d: `M${ax} ${ay} L${bx} ${by} M${wing(1)} L${bx} ${by} L${wing(-1)}`, class: `wait ${kind}` });
  path.append(drawn("title", {}, `thread ${from} waits: ${text}`));
  return path;
}

function nodeOf(name, [x, y], view) {
  const circle = drawn("circle", { cx: x, cy: y, r: RADIUS, class: name === ANYONE ? "node any" : "node" });
  const text = drawn("text", { x, y: y + 5, "text-anchor": "middle" }, `${name}`);
  const node = drawn("g", {}, circle, text);
  return name === ANYONE ? node : active(node, `thread ${name}`, () => view.findThread(name));
}

/** The graph, or null where no thread waits. */
export function graphOf(threads, view) {
  const waits = waitsOf(threads);
  if (!waits.length) return null;
  const named = new Set(waits.flatMap(({ from, to }) => [from, to]));
  const names = [...[...named].filter((name) => name !== ANYONE).sort((a, b) => a - b), ...(named.has(ANYONE) ? [ANYONE] : [])];
  const { width, height, places } = placesOf(names);
  const edges = waits.filter(({ from, to }) => from !== to).map((wait) => edgeOf(wait, places));
  return drawing(width, height, "waits", [...edges, ...names.map((name) => nodeOf(name, places.get(name), view))]);
}
