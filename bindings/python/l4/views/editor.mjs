// The editor of the script: a text field with line numbers, colours below its letters, marks at refused tokens, and offers at the caret.
//
// The field is the browser's own, so undo, selection, keyboards of phones and readers of screens work as in every page. What is drawn under it
// has the same letters at the same places, for the lines that are in view.
import { coloursIn, offersFor, threadsIn } from "./grammar.mjs";
import { it, made } from "./dom.mjs";

// beyond these sizes there are no colours; so many offers are shown
const MOST_COLOURED = 1 << 20, MOST_OF_LINE = 1000, MOST_OFFERS = 12, MOST_COMMENT = 2000;

let lines = [], threads = [], refusals = new Map(), current = 0, chosen = -1;

const field = () => it("script");

/** The height of a line and the width of a letter, in pixels. */
function measures() {
  const style = getComputedStyle(field()), probe = it("letter").getBoundingClientRect();
  return { height: Number.parseFloat(style.lineHeight), width: probe.width / it("letter").textContent.length, above: Number.parseFloat(style.paddingTop), left: Number.parseFloat(style.paddingLeft) };
}

/** The comment that a script begins with, as one text. */
function commentOf(text) {
  const [, found] = /^(?:#!.*\n)?((?:#(?![!=]).*(?:\n|$))+)/.exec(text.slice(0, MOST_COMMENT)) ?? [null, ""];
  return found.split("\n").map((line) => line.replace(/^# ?/, "").trim()).filter((line) => line !== "").join(" ");
}

/** Reads the text of the field again, and draws it. The comment at its head is shown above it too, where it has room. */
export function showText() {
  const text = field().value, isPlain = text.length > MOST_COLOURED, comment = commentOf(text);
  it("says").textContent = comment;
  it("says").hidden = comment === "";
  it("editor").classList.toggle("plain", isPlain);
  lines = isPlain ? [] : text.split("\n");
  threads = isPlain ? [] : threadsIn(text);
  it("editor").style.setProperty("--digits", `${Math.max(2, `${lines.length}`.length)}`);
  draw();
}

/** Marks the refused lines of a run at their tokens, and the line of the step that is shown. Marks are for lines that were not changed since. */
export function markLines(found, line) {
  refusals = new Map(found.map((refusal) => [refusal.line, refusal]));
  if (line !== current && document.activeElement !== field()) bringIntoView(line);
  current = line;
  draw();
}

/** Selects a line of the script, with the keyboard's focus. */
export function goToScriptLine(number) {
  const before = lines.slice(0, number - 1).reduce((sum, line) => sum + line.length + 1, 0);
  field().focus();
  field().setSelectionRange(before, before + (lines[number - 1] ?? "").length);
  bringIntoView(number);
}

/** Scrolls the editor to a line that is not in view. The page stays where it is. */
function bringIntoView(line) {
  const { scrollTop, clientHeight } = field(), { height } = measures(), place = (line - 1) * height;
  if (place < scrollTop || place + height > scrollTop + clientHeight) field().scrollTop = place - clientHeight / 2;
}

/** The parts of a line, with a mark at the refused token, or at the end of the line if a token is missing. */
function partsOf(text, refusal) {
  const parts = coloursIn(text.slice(0, MOST_OF_LINE)), token = refusal ? Number(/^token (\d+)/.exec(refusal.means)?.[1] ?? 0) : -1;
  let place = 0;
  const shown = parts.map(([part, colour]) => {
    if (part.trim() !== "") place += 1;
    const isWrong = token === 0 || (token === place && part.trim() !== "");
    return colour === null && !isWrong ? part : made("span", { class: `${colour ?? ""}${isWrong ? " wrong" : ""}`.trim() }, part);
  });
  if (token > place) shown.push(made("span", { class: "wrong" }, "   "));
  return shown;
}

const refusalOf = (number) => (refusals.get(number)?.text === lines[number - 1] ? refusals.get(number) : undefined);

/** Draws the lines that are in view. */
function draw() {
  const { scrollTop, scrollLeft, clientHeight, clientWidth } = field(), { height } = measures();
  if (!height) return;
  const first = Math.floor(scrollTop / height), last = Math.min(lines.length, first + Math.ceil(clientHeight / height) + 1);
  const rows = [], numbers = [];
  for (let place = first; place < last; place += 1) {
    const number = place + 1, refusal = refusalOf(number), kind = `${number === current ? "now" : ""}${refusal ? " refused" : ""}`.trim();
    rows.push(made("div", { class: kind }, ...partsOf(lines[place], refusal), "\n"));
    numbers.push(made("div", { class: kind }, `${number}`));
  }
  it("coloured").replaceChildren(...rows);
  it("gutter").replaceChildren(...numbers);
  Object.assign(it("behind").style, { width: `${clientWidth}px`, height: `${clientHeight}px` });
  it("coloured").style.transform = `translate(${-scrollLeft}px, ${first * height - scrollTop}px)`;
  it("gutter").style.transform = `translateY(${first * height - scrollTop}px)`;
}

// OFFERS AT THE CARET

/** The line of the caret, and its text up to there. */
function caretLine() {
  const { value, selectionStart } = field(), start = value.lastIndexOf("\n", selectionStart - 1) + 1;
  return { before: value.slice(start, selectionStart), number: it("editor").classList.contains("plain") ? 0 : value.slice(0, start).split("\n").length };
}

/** Shows what can be written at the caret, what the command of the line takes, and why the line was refused. */
function showOffers(isTyping) {
  const { before, number } = caretLine(), { begun, offers, forms } = offersFor(before, threads), refusal = refusalOf(number);
  it("form").textContent = refusal ? `line ${number} (code ${refusal.code}): ${refusal.means}` : forms.join("; ").replaceAll("`", "");
  it("form").classList.toggle("refused", refusal !== undefined);
  if (!isTyping || field().selectionStart !== field().selectionEnd || !offers.length) return hideOffers();
  chosen = -1;
  it("offers").replaceChildren(...offers.slice(0, MOST_OFFERS).map((text, place) => {
    const option = made("li", { role: "option", id: `offer-${place}`, "aria-selected": "false" }, text);
    option.addEventListener("pointerdown", (event) => { event.preventDefault(); take(text, begun); });
    return option;
  }));
  it("offers").hidden = false;
  field().setAttribute("aria-expanded", "true");
  return placeOffers(before.length - begun.length, number);
}

/** Empties the line of help: it was for the caret's line of another text. */
export function forgetForm() {
  it("form").textContent = "";
  it("form").classList.remove("refused");
}

function placeOffers(column, number) {
  const { height, width, above, left } = measures(), { scrollLeft, scrollTop, clientWidth } = field();
  const x = left + column * width - scrollLeft, y = above + number * height - scrollTop;
  it("offers").style.left = `${Math.max(0, Math.min(x, clientWidth - 160))}px`;
  it("offers").style.top = `${y}px`;
}

export function hideOffers() {
  it("offers").hidden = true;
  field().setAttribute("aria-expanded", "false");
  field().removeAttribute("aria-activedescendant");
}

/** Writes an offer in place of what was begun. It can be undone as typed text. */
function take(text, begun) {
  field().focus();
  field().setSelectionRange(field().selectionStart - begun.length, field().selectionStart);
  document.execCommand("insertText", false, `${text} `);
  hideOffers();
}

function choose(by) {
  const options = [...it("offers").children];
  chosen = (chosen + by + options.length + (chosen < 0 && by < 0 ? 1 : 0)) % options.length;
  options.forEach((option, place) => option.setAttribute("aria-selected", `${place === chosen}`));
  field().setAttribute("aria-activedescendant", `offer-${chosen}`);
}

/** Keys of the list of offers. Enter takes a chosen one, Tab the chosen one or the first. Without a list, all keys are the field's own. */
function onKey(event) {
  const isOpen = !it("offers").hidden, { begun } = offersFor(caretLine().before, threads), takes = (place) => take(it("offers").children[place].textContent, begun);
  if (event.key === " " && event.ctrlKey) {
    event.preventDefault();
    return showOffers(true);
  }
  if (!isOpen || event.ctrlKey || event.metaKey || event.altKey) return undefined;
  const acts = {
    ArrowDown: () => choose(1), ArrowUp: () => choose(-1), Escape: hideOffers,
    Tab: event.shiftKey ? undefined : () => takes(Math.max(0, chosen)), Enter: chosen < 0 ? undefined : () => takes(chosen),
  };
  if (!acts[event.key]) return hideOffers();
  event.preventDefault();
  event.stopPropagation();
  return acts[event.key]();
}

/** Shows colours and offers as the text changes. */
export function listenToEditor() {
  const area = field();
  area.addEventListener("input", (event) => { showText(); showOffers(event.inputType === "insertText" || event.inputType?.startsWith("delete")); });
  area.addEventListener("scroll", () => { draw(); hideOffers(); });
  area.addEventListener("keydown", onKey);
  area.addEventListener("blur", hideOffers);
  document.addEventListener("selectionchange", () => { if (document.activeElement === area && it("offers").hidden) showOffers(false); });
  new ResizeObserver(draw).observe(area);
  showText();
}
