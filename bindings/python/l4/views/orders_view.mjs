// Every order of a litmus test's calls: a table of outcomes, each with an order that produces it and the rules that it breaks, and the graph of
// the states. The number of an outcome loads the script of its order.
import { drawStates, readGraph, takenBy } from "./states.mjs";
import { fill, focusPart, focusStep, it, link, made } from "./dom.mjs";
import { goToScriptLine } from "./editor.mjs";
import { isLitmus } from "./frames.mjs";
import { fields, number } from "./state.mjs";
import { counted, grouped } from "./texts.mjs";

const MOST = 2 ** 32, MOST_CALLS = 40, EARLY = {
  most: "it visited as many states as the field “at most” allows", memory: "memory ran out", history: "the history of an order is full",
};

let searched = 0;
// the search that is shown, with its litmus test; the outcome whose order is in the editor; and the script whose search failed, with the reason
let found = null, loaded = null, failure = null;

/** Removes the outcomes that are shown. What is still being searched is not shown either. */
function clear() {
  searched += 1;
  found = loaded = failure = null;
  document.body.classList.remove("searching");
  it("orders-text").textContent = it("outcomes-more").textContent = "";
  fill("outcomes", []);
  it("outcomes-table").hidden = it("order-shown").hidden = it("states-part").hidden = it("orders-old").hidden = true;
  it("orders-error").hidden = true;
}

/** Whether the outcomes that are shown are those of this script and machine: it is the litmus test, or the loaded order of it. */
function isOfSearch({ script, frames, pageBytes }) {
  const { asked } = found, order = loaded ? found.outcomes[loaded.outcome - 1].witness : null;
  return [asked.script, order].includes(script) && asked.frames === frames && asked.pageBytes === pageBytes;
}

function summary({ outcomeCount, end, orders, states }) {
  const count = counted(outcomeCount, "outcome"), visited = `${counted(states, "state")} visited`;
  if (end === "all") return `${count} in ${orders} ${orders === "1" ? "order" : "orders"}, ${visited}. No order has another outcome.`;
  return `${count}, ${visited}. The search ended early, because ${EARLY[end]}: there may be other outcomes.`;
}

const RULE = /^(never|always)( |$)/;

/** How many outcomes break a rule; nothing, if the test has no rule or no outcome was found. Rules are known of the outcomes in the table alone. */
function verdict({ outcomeCount, end, outcomes, asked }) {
  if (!outcomeCount) return [];
  const broken = outcomes.filter((it) => it.broken.length).length, hasAll = outcomeCount === outcomes.length;
  if (!broken && !partsOf(asked.script)[2].some(({ text }) => RULE.test(text.trim()))) return [];
  const some = `${hasAll ? "" : "At least "}${grouped(broken)} of ${counted(outcomeCount, "outcome")} ${broken === 1 ? "breaks" : "break"} a rule.`;
  const none = hasAll && end === "all" ? "No outcome breaks a rule." : `None of ${hasAll ? "these" : `the first ${grouped(outcomes.length)}`} outcomes breaks a rule.`;
  return [made("strong", { class: broken ? "broken" : "kept" }, broken ? some : none), " "];
}

/** The lines of a litmus test that are neither empty nor comments, with their numbers: those before `unordered`, the calls, and those after
 * `finally`. */
function partsOf(script) {
  const parts = [[], [], []];
  let place = 0;
  script.replace(/\n$/, "").split("\n").forEach((text, at) => {
    const word = text.trim();
    if (word === "" || text.startsWith("#")) return;
    if (word === "unordered" || word === "finally") place = word === "unordered" ? 1 : 2;
    else parts[place].push({ number: at + 1, text });
  });
  return parts;
}

/** The calls of an order, with the numbers of their lines in the litmus test, from the script of the order: the lines behind those before
 * `unordered`, and before the queries. A thread's calls keep their order, so a text that occurs twice is first the line above. */
function callsOf(script, witness) {
  const [first, calls, last] = partsOf(script), left = [...calls], lines = witness.replace(/\n$/, "").split("\n");
  return lines.slice(first.length, lines.length - last.length).map((text) => {
    const place = left.findIndex((it) => it.text === text);
    return place < 0 ? { number: 0, text } : left.splice(place, 1)[0];
  });
}

function row({ answers, witness, broken }, place, script) {
  const name = `outcome ${place + 1}: load the script of an order`, calls = callsOf(script, witness);
  const lines = answers.length ? answers.map((text) => made("div", {}, text)) : [made("span", { class: "hint" }, "no answer, and no thread is stuck")];
  const rules = broken.map((text) => made("div", { class: "broken" }, `breaks: ${text}`));
  const order = calls.slice(0, MOST_CALLS).map(({ number: at, text }) => made("li", {}, `${at}: ${text}`));
  if (calls.length > MOST_CALLS) order.push(made("li", {}, `and ${counted(calls.length - MOST_CALLS, "more call")}`));
  return made("tr", { class: broken.length ? "breaks" : null }, made("td", {}, link(`${place + 1}`, () => chooseOrder(place + 1), name)),
    made("td", { class: "outcome" }, ...lines, ...rules), made("td", {}, made("ol", { class: "order" }, ...order)));
}

let load = null;

/** Loads the script of an outcome's order, at a step and a page of it if they are given. */
export function loadedOrder(outcome, { step = null, chosen = null } = {}) {
  const one = found?.outcomes[outcome - 1];
  return one ? load({ ...found.asked, script: one.witness, order: outcome, step, chosen }) : undefined;
}

/** Loads the order of an outcome that was chosen. The keyboard's focus goes where the order is stepped through. */
function chooseOrder(outcome) {
  loadedOrder(outcome);
  focusStep();
}

/** The outcome whose order is in the editor, and its litmus test; null if there is none. */
export const orderShown = () => loaded;

/** Which rules an outcome breaks, with their lines in the script of its order. */
function brokenText({ broken, witness }) {
  const lines = witness.split("\n").map((line) => line.trim());
  const rules = broken.map((text) => { const line = lines.lastIndexOf(text) + 1; return line ? `line ${line}: ${text}` : text; });
  return rules.length ? `This outcome breaks ${rules.length === 1 ? "the rule" : "the rules"} in ${rules.join("; ")}.` : "";
}

/** Says of which outcome the script in the editor is an order, and marks that order in the graph. */
export function showOrderNumber(outcome) {
  loaded = outcome === null || found === null ? null : { outcome, ...found.asked };
  it("order-shown").hidden = loaded === null;
  it("order-text").textContent = loaded ? `This is the script of an order that produces outcome ${outcome} of the litmus test.` : "";
  it("order-broken").textContent = loaded ? brokenText(found.outcomes[outcome - 1]) : "";
  [...it("outcomes").rows].forEach((row, place) => row.classList.toggle("now", place + 1 === loaded?.outcome));
  if (!found?.graph) return;
  const calls = loaded ? callsOf(found.asked.script, found.outcomes[outcome - 1].witness) : [];
  fill("states", [drawStates(found.graph, takenBy(found.graph, calls), { outcomes: found.outcomes, choose: chooseOrder, lines: found.asked.script.split("\n") })]);
}

/** Brings the outcomes into view, and in their table the first one that breaks a rule. */
function goToOutcomes() {
  it("orders-title").scrollIntoView({ block: "start" });
  const broken = it("outcomes").querySelector(".breaks"), table = it("outcomes-table"), part = (broken ?? it("outcomes")).querySelector("[data-key]");
  if (broken) table.scrollTop += broken.getBoundingClientRect().top - table.getBoundingClientRect().top;
  if (part) focusPart(part, false);
}

/** What helps with a refusal of a search. */
const helpFor = (text) => (/: O7: /.test(text) ? " A rule names a whole line that a query after finally prints: “4 waits” needs the query “reply 4”." : "");

/** Says beside the script that it is a litmus test, with what a search has found or a link that searches its orders. */
function showLitmus(asked) {
  it("litmus").hidden = !isLitmus(asked.script);
  if (it("litmus").hidden) return;
  const isSearched = found !== null && isOfSearch(asked), isSearching = document.body.classList.contains("searching");
  const isFailed = failure?.script === asked.script;
  const text = isSearched ? summary(found) : isFailed ? made("span", { class: "broken" }, `The orders of this litmus test were not searched: ${failure.text}.${helpFor(failure.text)}`)
    : isSearching ? "This is a litmus test: every order of its calls is being searched." : "This is a litmus test: its calls may come in any order.";
  const line = /^line (\d+): /.exec(isFailed ? failure.text : "")?.[1];
  const act = isSearched ? link("Show the orders", goToOutcomes) : line ? link(`Go to line ${line}`, () => goToScriptLine(Number(line))) : link("Search every order", () => { goToOutcomes(); it("search").click(); });
  const parts = [...(isSearched ? ["Every order of this litmus test: ", ...verdict(found)] : []), text, ...(isSearching ? [] : [" ", act])];
  const whole = parts.map((part) => part.textContent ?? part).join("");
  if (it("litmus").textContent !== whole) fill("litmus", parts);
}

/** Marks the outcomes that are shown if the fields have changed since the search, beside the script too. */
export function markOutcomes() {
  const asked = fields(), isOld = found !== null && !isOfSearch(asked);
  it("orders-old").hidden = !isOld;
  document.body.classList.toggle("old-orders", isOld);
  showLitmus(asked);
}

/** Whether a script that is run has orders that are to be searched. Outcomes of another script are removed. */
export function needsSearch(asked) {
  if (found !== null && isOfSearch(asked)) return false;
  clear();
  const isToSearch = isLitmus(asked.script) && Number.isInteger(asked.frames);
  document.body.classList.toggle("searching", isToSearch);
  return isToSearch;
}

function show(told, asked) {
  found = { ...told, asked, graph: told.graph ? readGraph(told.graph) : null };
  it("orders-text").replaceChildren(...verdict(found), summary(told));
  it("outcomes-table").hidden = told.outcomes.length === 0;
  fill("outcomes", told.outcomes.map((outcome, place) => row(outcome, place, asked.script)));
  it("outcomes-more").textContent = told.outcomeCount > told.outcomes.length ? `${grouped(told.outcomeCount - told.outcomes.length)} more outcomes: \`l4 orders\` prints all.` : "";
  it("states-part").hidden = told.states === undefined;
  it("states-more").textContent = found.graph ? "" : `There are ${counted(told.states, "state")}: \`l4 orders --dot\` writes a graph of any number of states, if every order was followed. The page draws up to 300.`;
  if (!found.graph) fill("states", []);
  it("plan-again").onclick = () => { load(asked); focusStep(); };
  showOrderNumber(null);
}

/** What is wrong in the fields. */
function wrongField({ frames }) {
  if (!Number.isInteger(frames)) return "frames: the number of frames must be from 1 to 4,096.";
  const most = it("most").value.trim();
  return /^[0-9]+$/.test(most) && Number(most) < MOST ? "" : "Every order: the number of states must be a number from 0 to 4,294,967,295.";
}

/** Searches the script of the field. An error leaves no outcomes beside it. */
export async function search(source, say) {
  const asked = fields(), wrong = wrongField(asked);
  clear();
  const place = searched;
  document.body.classList.add("searching");
  markOutcomes();
  try {
    if (wrong) throw new Error(wrong);
    const told = await source.ask("orders", { ...asked, most: number("most") });
    if (place !== searched) return;
    show(told, asked);
    say("");
  } catch (fault) {
    if (place !== searched) return;
    failure = { script: asked.script, text: fault.message };
    say(fault.message);
  }
  document.body.classList.remove("searching");
  markOutcomes();
  document.body.dataset.searched = place;
}

/** Loads scripts by this function. */
export function listenToOrders(loads) {
  load = loads;
}
