// The page: asks its source about the run, and shows what it answers.
import { decodeBy, forgetLines, listenToWords } from "./decoding.mjs";
import { focusStep, goTo, it, made, moveFocus, scrollLists } from "./dom.mjs";
import { forgetForm, hideOffers, listenToEditor, markLines, showText } from "./editor.mjs";
import { find } from "./finding.mjs";
import { framesFor, pageBytesFor, pagesNamed } from "./frames.mjs";
import { FORMS } from "./grammar.mjs";
import { showChart } from "./message_view.mjs";
import { listenToOrders, loadedOrder, markOutcomes, needsSearch, search, showOrderNumber } from "./orders_view.mjs";
import { showMaps, showPages, showTree, showWhy } from "./page_view.mjs";
import { REGION_FIELDS, clearPlan, drawPlan, plan } from "./plan_view.mjs";
import { showChanges, showLines, showRefusals, showSteps } from "./run_view.mjs";
import { firstScript, keep, openFile, saveHistory, savePicture, saveScript, shareLink } from "./sharing.mjs";
import { fields, isEdited, number, openingOf, question, shown } from "./state.mjs";
import { saveText, showFields, tell } from "./text_view.mjs";
import { grouped } from "./texts.mjs";
import { focusThread, showThreads } from "./thread_view.mjs";

const BUSY_AFTER = 200;
// in a run with more steps, what needs the pages of the spaces is shown once the slider rests for so many milliseconds
const LONG_RUN = 5000, REST = 120, NEAR = 12;
const MOST_FILE = 16 << 20, MOST_ANNOUNCED = 3;

let source = null;
// the script that a loaded one displaced; the scripts that the page offers itself, which need no keeping
let former = null;
const offered = new Set();
// whether the source is asked, and is to be asked again; how often the page was shown
let isAsking = false, isWanted = false, shownCount = 0;

/** How an error is announced beside what caused it and brought into view, or that there is none any more. */
const sayErrorAt = (id) => (text) => {
  it(id).textContent = text;
  it(id).hidden = text === "";
  if (text) it(id).scrollIntoView({ block: "nearest" });
};

const sayError = sayErrorAt("error"), sayPlanError = sayErrorAt("plan-error"), sayTextError = sayErrorAt("text-error"), sayOrdersError = sayErrorAt("orders-error");
const sayWhyError = sayErrorAt("why-error");

/** How a run says why it has searched no orders: beside the table too, but the script stays in view. */
const sayOrders = (text) => {
  it("orders-error").textContent = text;
  it("orders-error").hidden = text === "";
};

/** Announces what has been done. */
const sayDone = (text) => { it("status").textContent = text; };

/** Says to readers of screens what is shown elsewhere. */
const sayUnseen = (text) => { it("announced").textContent = text; };

/** Shows that the source is working, with a button that stops it, if it takes long. */
async function busy(work) {
  const wait = setTimeout(() => { document.body.classList.add("busy"); it("progress").hidden = false; }, BUSY_AFTER);
  try {
    return await work;
  } finally {
    clearTimeout(wait);
    it("progress").hidden = true;
    document.body.classList.remove("busy");
  }
}

/** Shows the run at its place. One question is asked at a time, and the last of those that came meanwhile next. */
async function refresh() {
  isWanted = true;
  if (isAsking) return;
  isAsking = true;
  while (isWanted) {
    isWanted = false;
    await busy(showOnce());
  }
  isAsking = false;
  document.body.dataset.shown = ++shownCount;
  if (shownCount === 1) performance.mark("first answer");
}

const rest = () => new Promise((done) => { setTimeout(done, REST); });

async function showOnce() {
  try {
    if (source.hasGlances && shown.view?.count > LONG_RUN && shown.isSameRun) {
      takeGlance(await source.ask("glance", question()));
      await rest();
      if (isWanted) return;
    }
    const view = await source.ask("view", question());
    if (isWanted) return;
    sayError("");
    document.body.classList.remove("failed");
    takeView(view);
    const why = shown.page === null ? null : await source.ask("why", { ...question(), space: shown.space, page: shown.page });
    if (!isWanted) showWhy(why, acts());
  } catch (fault) {
    // an earlier run is not shown beside an error
    document.body.classList.add("failed");
    sayError(fault.message);
  }
}

/** The rows of a list around the current one. */
function near(rows, isNow) {
  const place = Math.max(0, rows.findIndex(isNow));
  return rows.slice(Math.max(0, place - NEAR), place + NEAR);
}

/** Shows the place at once, with the nearest lines and steps. All else follows when the slider rests. */
function takeGlance(view) {
  document.body.classList.add("behind");
  showPlace(view);
  showLines({ ...view, lines: near(view.lines, ({ number: it }) => it === view.line) }, go);
  showSteps({ ...view, steps: near(view.steps, ({ number: it }) => it === view.stepCount) }, go);
  scrollLists();
  document.body.dataset.glanced = view.at;
}

/** Shows the script, the steps, the threads and the messages. */
function showRun(view) {
  showLines(view, go);
  showSteps(view, go);
  showThreads(view, acts());
  showChart(view, go);
  scrollLists();
  markLines(view.refusals.first, view.line);
}

/** Says the step that is shown, for readers of screens. */
function announce(view) {
  const changes = [...view.threadChanges, ...view.changes.slice(0, MOST_ANNOUNCED)].map(({ text }) => text).join("; ");
  const text = view.at === 0 ? "At boot" : `Step ${view.at} of ${view.count}, line ${view.line}: ${view.said}`;
  sayUnseen(changes ? `${text}. ${changes}` : text);
}

function takeView(view) {
  Object.assign(shown, { view, isSameRun: true });
  document.body.classList.remove("behind");
  shown.at = view.at === view.count ? null : view.at;
  const { isFollowing, space } = shown, isGone = !view.spaces.some((it) => it.space === space);
  if (isGone || (isFollowing && (view.focus || space === 0))) choosePlace(openingOf(view));
  showPlace(view);
  showRun(view);
  showRefusals(view, go);
  showChanges(view, choose);
  showSelection();
  announce(view);
}

function showPlace(view) {
  it("step").max = view.count;
  [["at", view.at], ["count", view.count], ["step", shown.at ?? view.count]].forEach(([id, value]) => { it(id).value = value; });
  it("step").setAttribute("aria-valuetext", `step ${view.at} of ${view.count}`);
  it("back").setAttribute("aria-disabled", view.at === 0);
  it("on").setAttribute("aria-disabled", view.at === view.count);
  it("notes").replaceChildren(...view.notes.map((note) => made("li", {}, note)));
  decodeBy(view.pageBytes);
}

function showSelection() {
  it("asked-space").textContent = `space ${shown.space}`;
  showMaps(shown.view, acts());
  showPages(shown.view, acts());
  showTree(shown.view, acts());
}

/** What the views can do, and what is chosen. */
const acts = () => ({ space: shown.space, page: shown.page, first: shown.first, colour: shown.colour, choose, chooseSpace, go, goKeeping, findThread: focusThread });

function choosePlace({ space, page }) {
  Object.assign(shown, { space, page, first: page ?? 0 });
}

/** Goes to the place after some steps, whose page is shown then. */
function go(at, isFollowing = true) {
  Object.assign(shown, { at: Math.max(0, at), isFollowing });
  return refresh();
}

/** Goes to a place, and keeps the page that was chosen: what is asked about a page leads to steps of it. */
const goKeeping = (at) => go(at, false);

/** Goes some steps on, or back, from the place that was asked for last, which may not be shown yet. */
function goBy(count) {
  const most = shown.view.count;
  return go(Math.min((shown.at ?? most) + count, most));
}

/** Shows why a page is there, and the tree of its frame. */
function choose(space, page) {
  sayWhyError("");
  if (space !== shown.space || page < shown.first || page >= number("more")) shown.first = page;
  Object.assign(shown, { space, page, isFollowing: false });
  refresh();
}

/** Explains the page of the field, in the space that is shown. */
function askWhy() {
  const most = 2 ** 32 / shown.pageBytes - 1, isPage = /^[0-9]+$/.test(it("asked-page").value) && number("asked-page") <= most;
  sayWhyError(isPage ? "" : `A page is a number from 0 to ${grouped(most)}.`);
  if (isPage) choose(shown.space, number("asked-page"));
}

function chooseSpace(space) {
  Object.assign(shown, { space, page: null, first: 0, isFollowing: false });
  refresh();
}

/** Runs the script of the field, and shows a place in it: the end, if none is given, and the page of that step, if none is chosen. The orders of
 * a litmus test are searched then. */
async function run(at = null, chosen = null) {
  const asked = fields();
  Object.assign(shown, asked, { at, isFollowing: chosen === null, isSameRun: false });
  choosePlace(chosen ?? { space: null, page: null });
  hideOffers();
  showText();
  const isToSearch = needsSearch(asked);
  markOutcomes();
  showExample(asked.script);
  showFrames(asked);
  it("found").textContent = "";
  forgetLines();
  it("edited").hidden = true;
  keep();
  if (!Number.isInteger(asked.frames)) return fail("frames: the number of frames must be from 1 to 4,096.");
  await refresh();
  if (isToSearch && shown.script === asked.script) await busy(search(source, sayOrders));
}

/** Says that a script names pages that sigma0 does not have, with a button for as many frames as it needs. */
function showFrames({ script, frames }) {
  const need = pagesNamed(script), enough = framesFor(script);
  it("few").hidden = !(need > frames && enough >= need);
  it("few-text").textContent = `The script names page ${need - 1} of sigma0, which has as many pages as there are frames: ${frames}.`;
  it("more-frames").textContent = `Run with ${enough} frames`;
  it("more-frames").value = enough;
}

function fail(text) {
  document.body.classList.add("failed");
  sayError(text);
  document.body.dataset.shown = ++shownCount;
}

/** Puts a script into the field, and runs it. A script of the field that would be lost is kept: `former` brings it back. */
function load({ script, frames = framesFor(script), pageBytes = pageBytesFor(script), step = null, chosen = null, order = null }) {
  keepFormer(script);
  it("script").value = script;
  forgetForm();
  it("frames").value = frames;
  if (pageBytes !== undefined) it("page-bytes").value = pageBytes;
  showOrderNumber(order);
  return run(step, chosen);
}

/** Puts the script of an order into the field, runs it, and brings the field into view. */
function loadOrder(found) {
  if (found.script !== former?.script) offered.add(found.script);
  it("script").scrollIntoView({ block: "center" });
  return load(found);
}

/** Loads what a link, the browser's store or the source gives: a script; a litmus test and one of its orders, by the outcome's number; and a
 * step of either, with the page that was chosen there. */
async function begins(start) {
  if (!start.order) return load({ ...start, order: null });
  await load({ ...start, step: null, chosen: null, order: null });
  return loadedOrder(start.order, start);
}

/** Keeps the script of the field if another one takes its place. The kept one is dropped when it comes back. */
function keepFormer(next) {
  const now = it("script").value;
  if (now !== "" && now !== next && !offered.has(now)) former = fields();
  if (former?.script === next) former = null;
  it("former-choice").hidden = former === null;
}

function enter() {
  const text = it("script").value, between = text === "" || text.endsWith("\n") ? "" : "\n";
  it("script").value = `${text}${between}${it("next-line").value}\n`;
  it("next-line").value = "";
  sayDone("");
  runAgain();
}

/** Keys that act where no field has the focus: arrows step, / finds. */
function onKey(event) {
  if (event.key === "Enter" && (event.ctrlKey || event.metaKey)) return runAgain();
  const isField = event.target.closest("input, textarea, select");
  if (isField || event.ctrlKey || event.metaKey || event.altKey || !shown.view) return undefined;
  if (["ArrowUp", "ArrowDown"].includes(event.key)) {
    if (moveFocus(event.key === "ArrowUp" ? -1 : 1)) event.preventDefault();
    return undefined;
  }
  if (!Object.hasOwn(KEYS, event.key)) return undefined;
  event.preventDefault();
  return KEYS[event.key]();
}

const KEYS = {
  "ArrowLeft": () => goBy(-1), "ArrowRight": () => goBy(1),
  "Home": () => go(0), "End": () => go(shown.view.count), "/": () => it("find").focus(),
};

/** Runs what was written. A script that was edited is no order of a litmus test any more. */
function runAgain() {
  if (isEdited()) showOrderNumber(null);
  return run();
}

const on = (id, event, act) => it(id).addEventListener(event, act);

function listenToRun() {
  on("run", "click", runAgain);
  on("enter", "click", enter);
  on("next-line", "keydown", (event) => { if (event.key === "Enter" && !event.ctrlKey) enter(); });
  on("back", "click", () => goBy(-1));
  on("on", "click", () => goBy(1));
  on("step", "input", () => go(number("step")));
  on("script", "input", () => { keep(); sayDone(""); it("edited").hidden = !isEdited(); it("refusals").hidden = it("few").hidden = true; markOutcomes(); });
  on("former", "click", () => { load(former); focusStep(); });
  ["frames", "page-bytes"].forEach((id) => on(id, "change", runAgain));
  on("more-frames", "click", () => { it("frames").value = it("more-frames").value; runAgain(); it("run").focus({ preventScroll: true }); });
  on("stop", "click", () => source.stop());
  document.addEventListener("keydown", onKey);
  document.querySelectorAll("[data-to]").forEach((button) => button.addEventListener("click", () => goTo(button.dataset.to)));
  // what is scrolled to, or gets the keyboard's focus, is not below the header
  new ResizeObserver(([{ target }]) => document.documentElement.style.setProperty("--header", `${target.offsetHeight}px`)).observe(document.querySelector("header"));
}

function listenToViews() {
  on("space", "change", () => chooseSpace(number("space")));
  on("first", "click", () => { shown.first = 0; showSelection(); });
  on("more", "click", () => { if (it("more").value !== "") shown.first = number("more"); showSelection(); });
  on("colour", "change", () => { shown.colour = it("colour").value; showSelection(); });
  on("plan", "click", () => plan(source, sayPlanError));
  REGION_FIELDS.forEach((id) => on(id, "input", clearPlan));
  REGION_FIELDS.forEach((id) => on(id, "keydown", (event) => { if (event.key === "Enter" && !event.ctrlKey) plan(source, sayPlanError); }));
  on("search", "click", () => busy(search(source, sayOrdersError)));
  on("tell", "click", () => tell(source, sayTextError, sayUnseen));
  on("words", "keydown", (event) => { if (event.key === "Enter") tell(source, sayTextError, sayUnseen); });
  on("kind", "change", showFields);
  on("ask-why", "click", askWhy);
  on("asked-page", "keydown", (event) => { if (event.key === "Enter") askWhy(); });
  on("find", "keydown", (event) => { if (event.key === "Enter") it("found").textContent = find(it("find").value, shown.view, { choose, chooseSpace, focusThread }); });
  on("find", "input", () => { it("found").textContent = ""; });
}

function listenToFiles() {
  on("share", "click", () => shareLink(sayDone));
  on("save-script", "click", saveScript);
  on("save-history", "click", () => saveHistory(source, sayError));
  on("save-text", "click", () => saveText(source, sayTextError));
  document.querySelectorAll("[data-picture]").forEach((button) => button.addEventListener("click", () => savePicture(button.dataset.picture, sayDone)));
  on("file", "change", async () => {
    const [file] = it("file").files, script = file && await openFile(file, MOST_FILE, sayError);
    if (typeof script === "string") load({ script });
    it("file").value = "";
  });
}

/** A text with code between backquotes. */
const withCode = (text) => text.split("`").map((part, place) => (place % 2 ? made("code", {}, part) : part));

/** Lists the forms of the commands. */
function listCommands() {
  it("commands").append(...FORMS.map(([form, means]) => made("li", {}, made("code", {}, form), " ", ...withCode(means))));
}

/** Offers the examples of the source. */
function listExamples(examples) {
  examples.forEach(({ script }) => offered.add(script));
  it("examples-choice").hidden = examples.length === 0;
  it("example").append(...examples.map(({ name, script }) => Object.assign(made("option", {}, name), { script })));
  on("example", "change", () => {
    const found = examples.find(({ name }) => name === it("example").value);
    sayDone("");
    if (found) load({ script: found.script });
  });
}

/** Names the example that is run; the list says "choose one" for another script. */
function showExample(script) {
  it("example").selectedIndex = [...it("example").options].findIndex((option) => option.script === script);
  if (it("example").selectedIndex < 0) it("example").selectedIndex = 0;
}

export async function begin(given) {
  source = given;
  source.report = (text) => { it("doing").textContent = text; };
  document.body.dataset.source = source.name;
  listCommands();
  [listenToRun, listenToViews, listenToFiles, listenToEditor, showFields].forEach((act) => act());
  listenToOrders(loadOrder);
  listenToWords(source);
  try {
    const start = await source.start();
    if (start.mostBytes) it("script").maxLength = start.mostBytes;
    listExamples(start.examples ?? []);
    await begins(await firstScript(start, source.name === "page", sayDone));
    plan(source, sayPlanError);
    globalThis.addEventListener("hashchange", async () => begins(await firstScript(fields(), false, sayDone)));
    globalThis.addEventListener("resize", () => { if (shown.view) showChart(shown.view, go); drawPlan(); });
  } catch (fault) {
    fail(fault.message);
  }
}
