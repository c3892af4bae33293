// The spaces as maps, the pages of one as a table, why a page is there, and the tree of its frame.
import { runAt } from "./changes.mjs";
import { fill, it, link, made, unbroken } from "./dom.mjs";
import { colouring, mapOf } from "./maps.mjs";
import { counted, grouped } from "./texts.mjs";
import { mappingsOf, treeOf } from "./tree.mjs";

const MOST_ROWS = 64;

const countOf = (runs) => runs.reduce((sum, [, count]) => sum + count, 0);

/** The maps of all spaces. */
export function showMaps(view, acts) {
  const { borders, colour } = colouring(view.spaces, acts.colour);
  fill("maps", view.spaces.map((shown) => {
    const threads = shown.threads.map((number) => `${number}`).join(", ");
    const text = ` of ${shown.threads.length === 1 ? "thread" : "threads"} ${threads}: ${counted(countOf(shown.runs), "page")}`;
    const title = made("figcaption", {}, link(`space ${shown.space}`, () => acts.chooseSpace(shown.space)), text);
    const figure = made("figure", { class: shown.space === acts.space ? "now" : "" }, title);
    const own = view.changes.filter(({ space }) => space === shown.space);
    if (shown.runs.length || own.length) {
      const { picture, left } = mapOf(shown, own, { ...acts, borders, colour });
      figure.append(picture);
      if (left) figure.append(made("p", { class: "hint" }, `and ${counted(left, "more page")}, which the table lists`));
    }
    return figure;
  }));
}

/** The pages of a space from one on, one by one. */
function pagesFrom(runs, first) {
  const rows = [];
  for (const run of runs) {
    for (let page = Math.max(run[0], first); page < run[0] + run[1]; page += 1) {
      if (rows.length > MOST_ROWS) return rows;
      rows.push(runAt([run], page));
    }
  }
  return rows;
}

function pageRow([page, , frame, rights, from, parent], view, acts) {
  const isNow = page === acts.page;
  const isNew = view.changes.some((it) => it.space === acts.space && it.first <= page && page < it.first + it.count);
  const choose = () => acts.choose(acts.space, page), origin = from === null ? "none" : `space ${from} page ${parent}`;
  const first = made("td", {}, link(`${page}`, choose, `space ${acts.space} page ${page}: why it is there`));
  const cells = [`${frame}`, rights, origin].map((text) => made("td", {}, text));
  const row = made("tr", { class: [isNow ? "now" : "", isNew ? "changed" : ""].join(" ").trim() }, first, ...cells);
  row.addEventListener("click", choose);
  return row;
}

export function showPages(view, acts) {
  const { space } = acts, runs = view.spaces.find((it) => it.space === space)?.runs ?? [], found = pagesFrom(runs, acts.first), rows = found.slice(0, MOST_ROWS);
  fill("space", view.spaces.map((it) => made("option", { value: it.space }, `${it.space}`)));
  it("space").value = `${space}`;
  fill("pages", rows.map((row) => pageRow(row, view, acts)));
  it("pages-table").hidden = rows.length === 0;
  it("no-pages").hidden = rows.length > 0;
  const count = countOf(runs), isPart = rows.length < count;
  const isGone = !view.spaces.some((it) => it.space === space);
  it("no-pages").textContent = isGone ? `There is no space ${space} at this step.` : `Space ${space} has no pages${isPart ? ` from page ${acts.first} on` : ""}.`;
  it("more").setAttribute("aria-disabled", found.length <= MOST_ROWS);
  it("more").value = found.length > MOST_ROWS ? found[MOST_ROWS][0] : "";
  it("first").setAttribute("aria-disabled", !isPart || acts.first === 0);
  it("pages-more").textContent = isPart ? `${counted(rows.length, "page")} of ${grouped(count)}, starting at page ${acts.first}` : "";
}

/** The tree of the chosen page's frame. */
export function showTree(view, acts) {
  const run = acts.page === null ? null : runAt(view.spaces.find(({ space }) => space === acts.space)?.runs ?? [], acts.page);
  it("tree-title").textContent = run ? `Mapping tree of frame ${run[2]}` : "Mapping tree";
  fill("tree", run ? [treeOf(mappingsOf(view.spaces, run[2]), acts)] : [made("p", { class: "hint" }, "Choose a page that is present.")]);
  const chosen = it("tree").querySelector(".chosen");
  if (chosen) it("tree").scrollLeft = chosen.getBBox().x - it("tree").clientWidth / 2 + 52;
}

/** How the chosen page got there: each transfer is a link to its step, which keeps the page. */
export function showWhy(told, acts) {
  it("why-title").textContent = acts.page === null ? "Why a page is there, or absent" : `Why page ${acts.page} of space ${acts.space} is ${told?.isAbsent ? "absent" : "there"}`;
  if (document.activeElement !== it("asked-page")) it("asked-page").value = acts.page ?? "";
  if (!told) return fill("why", [made("li", { class: "hint" }, "Choose a page in a map or in the table, or write its number: it may be absent.")]);
  return fill("why", told.rows.map(({ step, text }) => made("li", {}, ...step === null ? unbroken(text) : [link(text, () => acts.goKeeping(step))])));
}
