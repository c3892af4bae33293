// Plans of regions: blocks, witnesses, and the verdict of the check.
import { blocksOf } from "./blocks.mjs";
import { fill, it, made } from "./dom.mjs";
import { number, shown } from "./state.mjs";

let planned = 0;
// the plan that is shown, and its region
let shownPlan = null;

export const region = () => ({ source: number("source"), target: number("target"), count: number("pages-of-region"), rights: number("rights") });

/** A field that is not a number, if there is one. */
function wrongField() {
  const names = { source: "the source page", target: "the target page", "pages-of-region": "the number of pages" };
  const wrong = Object.keys(names).find((id) => !/^[0-9]+$/.test(it(id).value.trim()) || number(id) >= 2 ** 32);
  return wrong ? `Plan: ${names[wrong]} must be a number from 0 to 4,294,967,295.` : "";
}

export const REGION_FIELDS = ["source", "target", "pages-of-region", "rights", "page-bytes"];

/** Removes the plan that is shown, and one that is still awaited. */
export function clearPlan() {
  planned += 1;
  clear();
  it("plan-text").textContent = "The fields were changed: press Enter or Plan.";
}

function clear() {
  shownPlan = null;
  it("plan-text").textContent = it("verdict").textContent = "";
  ["blocks", "items"].forEach((id) => fill(id, []));
  it("items-table").hidden = true;
}

/** Draws the plan that is shown, as wide as there is room. */
export function drawPlan() {
  const { told, asked } = shownPlan ?? { told: { items: [] } };
  fill("blocks", told.items.length ? [blocksOf(told.items, asked, it("blocks").clientWidth)] : []);
}

function show(told, asked) {
  shownPlan = { told, asked };
  it("plan-text").textContent = `${told.text}${told.verdict ? "; l4 check says" : ""}`;
  it("verdict").textContent = told.verdict;
  it("items-table").hidden = told.pages.length === 0;
  drawPlan();
  fill("items", told.pages.map((page, k) => made("tr", {}, made("td", {}, `${k}`), made("td", {}, told.items[k]?.text ?? ""), made("td", {}, `${page}`))));
}

/** Plans the region of the fields. An error leaves no plan beside it. */
export async function plan(source, say) {
  const place = ++planned, asked = { ...region(), pageBytes: shown.pageBytes }, wrong = wrongField();
  clear();
  try {
    if (wrong) throw new Error(wrong);
    const told = await source.ask("plan", asked);
    if (place === planned) { show(told, asked); say(""); }
  } catch (fault) {
    if (place === planned) { clear(); say(fault.message); }
  }
  document.body.dataset.planned = place;
}
