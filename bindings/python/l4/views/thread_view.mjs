// The threads with their pagers and regions, the waits as a graph, and the queue of senders.
import { fill, focusPart, it, link, made } from "./dom.mjs";
import { graphOf } from "./graph.mjs";
import { counted, pagesText } from "./texts.mjs";

const MOST_THREADS = 128, MOST_REGIONS = 8;

function regionText({ first, source, count, rights }) {
  return `${pagesText(first, count)} from its ${pagesText(source, count)} ${rights}`;
}

function threadRow(thread, chooseSpace) {
  const { number, space, pager, wait, isServed, regions } = thread;
  const own = regions.slice(0, MOST_REGIONS).map((region) => made("div", {}, regionText(region)));
  if (regions.length > MOST_REGIONS) own.push(made("div", {}, `and ${counted(regions.length - MOST_REGIONS, "more region")}`));
  const role = number === 1 ? " sigma0" : number === 2 ? " root" : "";
  const cells = [`${number}${role}${isServed ? " (served)" : ""}`, "", pager, wait ? wait.text : "nothing"].map((text) => made("td", {}, text));
  cells[1].append(`${space}`);
  cells[2].append(...own);
  cells[3].className = wait ? "" : "idle";
  const name = `thread ${number}, space ${space}, pager ${pager}, waits for ${wait ? wait.text : "nothing"}: show its space`;
  cells[0].replaceChildren(link(cells[0].textContent, () => chooseSpace(space), name, `thread ${number}`));
  const row = made("tr", { "data-thread": number }, ...cells);
  row.addEventListener("click", () => chooseSpace(space));
  return row;
}

export function showThreads(view, acts) {
  fill("threads", view.threads.slice(0, MOST_THREADS).map((thread) => threadRow(thread, acts.chooseSpace)));
  const left = view.threads.length - MOST_THREADS;
  it("threads-more").textContent = left > 0 ? `and ${counted(left, "more thread")}; find one by its number with /` : "";
  fill("senders", view.senders.map(({ thread, partner, what }) => made("li", {}, `thread ${thread} to thread ${partner}${what ? `: ${what}` : ""}`)));
  it("no-senders").hidden = view.senders.length > 0;
  const graph = graphOf(view.threads.slice(0, MOST_THREADS), acts);
  fill("graph", graph ? [graph] : []);
  it("no-waits").hidden = graph !== null;
}

export function focusThread(number) {
  const row = it("threads").querySelector(`[data-thread="${number}"]`);
  if (row) focusPart(row.querySelector("[data-key]"));
  return row !== null;
}
