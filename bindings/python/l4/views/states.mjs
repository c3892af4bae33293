// The graph of a litmus test's states, which `l4 orders --dot` writes: its nodes level by level, from the state at `unordered` on.
import { active, drawing, drawn } from "./dom.mjs";

const RADIUS = 17, ACROSS = 78, DOWN = 74, EDGE = 30, SWEEPS = 6, LINES_IN_TITLE = 12;

/** The states and calls of a graph: for each state its outcome, if it has one, and for each call the two states and the number of its line. */
export function readGraph(text) {
  const states = new Map(), calls = [];
  let start = null;
  const state = (name) => { if (!states.has(name)) states.set(name, { name, outcome: null }); return states.get(name); };
  for (const line of text.split("\n")) {
    const edge = /^ *(\w+) -> (\d+)(?: \[label="(\d+))?/.exec(line), node = /^ *(\d+) \[label="\d+: outcome (\d+)/.exec(line);
    if (edge && edge[1] === "start") start = state(edge[2]).name;
    else if (edge) calls.push({ from: state(edge[1]).name, to: state(edge[2]).name, line: Number(edge[3]) });
    else if (node) state(node[1]).outcome = Number(node[2]);
  }
  return { start, states, calls };
}

/** The calls of a graph that an order takes, which is given by the numbers of its lines. */
export function takenBy(graph, order) {
  const taken = new Set();
  let at = graph.start;
  for (const { number } of order) {
    const call = graph.calls.find(({ from, line }) => from === at && line === number);
    if (!call) break;
    taken.add(call);
    at = call.to;
  }
  return taken;
}

/** The states level by level: each as many calls from the start as its longest path has. */
function levelsOf({ start, states, calls }) {
  const depth = new Map([...states.keys()].map((name) => [name, 0]));
  // a state has no path to itself, so at most as many rounds as there are states change anything
  for (let round = 0, isChanged = start !== null; isChanged && round <= states.size; round += 1) {
    isChanged = false;
    calls.forEach(({ from, to }) => {
      if (depth.get(to) < depth.get(from) + 1) { depth.set(to, depth.get(from) + 1); isChanged = true; }
    });
  }
  const levels = [];
  depth.forEach((level, name) => (levels[level] ??= []).push(name));
  return levels;
}

/** Sorts the states of each level by the middle of their neighbours on the level before, and then on the level behind, some times. */
function sortLevels(levels, calls) {
  const places = new Map(), before = new Map(), behind = new Map();
  const note = (level) => level.forEach((name, place) => places.set(name, place - level.length / 2));
  calls.forEach(({ from, to }) => { before.set(to, [...(before.get(to) ?? []), from]); behind.set(from, [...(behind.get(from) ?? []), to]); });
  levels.forEach(note);
  const middle = (name, near) => { const all = near.get(name) ?? [name]; return all.reduce((sum, it) => sum + places.get(it), 0) / all.length; };
  const sort = (level, near) => {
    const by = new Map(level.map((name) => [name, middle(name, near)]));
    level.sort((a, b) => by.get(a) - by.get(b));
    note(level);
  };
  for (let sweep = 0; sweep < SWEEPS; sweep += 1) {
    if (sweep % 2) levels.toReversed().forEach((level) => sort(level, behind));
    else levels.forEach((level) => sort(level, before));
  }
}

function arrow(call, [x1, y1], [x2, y2], isTaken, lines) {
  const length = Math.hypot(x2 - x1, y2 - y1), [dx, dy] = [(x2 - x1) / length, (y2 - y1) / length], kind = isTaken ? " taken" : "";
  const [ax, ay, bx, by] = [x1 + dx * RADIUS, y1 + dy * RADIUS, x2 - dx * (RADIUS + 6), y2 - dy * (RADIUS + 6)];
  const tip = `M${x2 - dx * RADIUS} ${y2 - dy * RADIUS} L${bx - dy * 4} ${by + dx * 4} L${bx + dy * 4} ${by - dx * 4} Z`;
  const title = drawn("title", {}, `line ${call.line}: ${lines[call.line - 1] ?? ""}`);
  const label = drawn("text", { x: ax + (bx - ax) * 0.4, y: ay + (by - ay) * 0.4 + 5, "text-anchor": "middle", class: "label" }, `${call.line}`);
  return [drawn("g", {}, title, drawn("path", { d: `M${ax} ${ay} L${bx} ${by}`, class: `call${kind}` }), drawn("path", { d: tip, class: `tip${kind}` })), label];
}

function circle({ name, outcome }, [x, y], { outcomes, choose }) {
  const shown = outcomes[outcome - 1], kind = shown?.broken.length ? " broken" : "";
  const parts = [drawn("circle", { cx: x, cy: y, r: RADIUS, class: `state${outcome ? " outcome" : ""}${kind}` })];
  if (!outcome) return drawn("g", { class: kind }, ...parts, drawn("title", {}, `state ${name}`));
  parts.push(drawn("circle", { cx: x, cy: y, r: RADIUS - 4, class: `inner state outcome${kind}` }), drawn("text", { x, y: y + 5, "text-anchor": "middle" }, `${outcome}`));
  const said = [...(shown?.answers ?? []).slice(0, LINES_IN_TITLE), ...(shown?.broken ?? []).map((rule) => `breaks: ${rule}`)].join("; ");
  return active(drawn("g", {}, ...parts), `outcome ${outcome}: ${said}; load the script of an order`, () => choose(outcome), `outcome ${outcome}`);
}

/** The graph. The calls that were taken are strong; the number of an outcome loads its order. */
export function drawStates(graph, taken, view) {
  const levels = levelsOf(graph), widest = Math.max(1, ...levels.map((level) => level.length)), places = new Map();
  sortLevels(levels, graph.calls);
  levels.forEach((level, row) => level.forEach((name, place) => places.set(name, [EDGE + ACROSS * (place + (widest - level.length) / 2), EDGE + DOWN * row])));
  const ordered = [...graph.calls].sort((a, b) => Number(taken.has(a)) - Number(taken.has(b)));
  const arrows = ordered.map((call) => arrow(call, places.get(call.from), places.get(call.to), taken.has(call), view.lines));
  const circles = [...graph.states.values()].map((state) => circle(state, places.get(state.name), view));
  const parts = [...arrows.map(([line]) => line), ...circles, ...arrows.map(([, label]) => label)];
  return drawing(2 * EDGE + ACROSS * (widest - 1), 2 * EDGE + DOWN * (levels.length - 1), "graph of the states", parts);
}
