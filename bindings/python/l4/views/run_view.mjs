// The lines of the script with their answers, the refused lines, and the steps.
import { fill, follow, goTo, it, link, made, scrollLists, unbroken } from "./dom.mjs";
import { wrongToken } from "./grammar.mjs";
import { wordsIn } from "./decoding.mjs";
import { counted, grouped } from "./texts.mjs";

const place = ({ isLater }, isNow) => (isNow ? "now" : isLater ? "later" : "");

/** One line with its answers. A refusal is red, with its meaning below. */
function lineRow(line, view, refusals, go) {
  const isNow = line.number === view.line, row = made("li", { value: line.number, class: place(line, isNow), "aria-current": isNow ? "step" : null });
  const text = made("span", { class: "source" }, ...wordsIn(line.text, "script"));
  const jump = link(`${line.number}`, () => go(line.at), `line ${line.number}: ${line.text}`);
  row.append(made("span", { class: "jump" }, jump), text);
  row.append(...line.answers.map((answer) => answerRow(answer, line, refusals)));
  return row;
}

function answerRow(answer, line, refusals) {
  if (!/(^line \d+|^\d+) refused /.test(answer)) return made("pre", { class: "answer" }, ...wordsIn(answer, "answer"));
  const known = refusals.find(({ line: number }) => number === line.number);
  const row = made("pre", { class: "answer refused" }, answer);
  if (known) row.append(made("span", { class: "why" }, "\n", ...refusalParts(known, line.text)));
  return row;
}

/** A refusal in words, with the token that is wrong and the commands if the line can't be read. The program names that token itself. */
function refusalParts({ code, means, names, line }, text) {
  const isToken = means.startsWith("token "), token = !isToken && (code === "S1" || code === "S2") ? wrongToken(text, names) : "";
  const commands = link("Commands of a script", () => goTo("commands-title"), "Commands of a script", `commands, line ${line}`);
  return isToken || token ? [`${means}${token ? `: ${token}` : ""}; see “`, commands, "”"] : [means];
}

export function showLines(view, go) {
  fitNumbers("lines", view.lineCount);
  fill("lines", view.lines.map((line) => lineRow(line, view, view.refusals.first, go)));
  const left = view.lineCount - view.lines.length;
  it("lines-more").textContent = left > 0 ? `${grouped(view.lines.length)} of ${grouped(view.lineCount)} lines are shown: those around the current one.` : "";
  follow(it("lines"), it("lines").querySelector(".now") ?? undefined);
}

/** Goes to the last step of a line or before it, and moves the line into view. */
async function goToLine({ line, at }, go) {
  await go(at);
  follow(it("lines"), it("lines").querySelector(`li[value="${line}"]`) ?? undefined);
  scrollLists();
}

/** The count of refused lines, and a link to the next one. */
export function showRefusals(view, go) {
  const { count, first } = view.refusals;
  it("refusals").hidden = count === 0;
  if (!count) return fill("refusals", []);
  const next = first.find(({ at }) => at > view.at) ?? first[0];
  const jump = link(`go to line ${next.line}`, () => goToLine(next, go), `go to the refused line ${next.line}`);
  const text = view.lines.find(({ number }) => number === next.line)?.text ?? "";
  const title = made("strong", {}, `${counted(count, "line")} refused`);
  return fill("refusals", [title, ` — line ${next.line} (code ${next.code}): `, ...refusalParts(next, text), " ", jump]);
}

/** One step, with the line that caused it, and whether a served thread acted by itself. */
function stepRow(step, view, go) {
  const isNow = step.number === view.stepCount, row = made("li", { value: step.number, class: place(step, isNow), "aria-current": isNow ? "step" : null });
  const cause = `line ${step.line}${step.isServed ? ", served thread" : ""}`;
  row.append(made("span", { class: "jump" }, link(`${step.number}`, () => go(step.number), `step ${step.number}, ${cause}: ${step.text}`)),
    made("span", { class: "source" }, ...unbroken(step.text)), made("span", { class: "cause" }, ` ${cause}`));
  return row;
}

export function showSteps(view, go) {
  fitNumbers("steps", view.count);
  fill("steps", view.steps.map((step) => stepRow(step, view, go)));
  follow(it("steps"), it("steps").querySelector(".now") ?? undefined);
}

/** Makes room for the numbers of a list, up to the greatest one. */
function fitNumbers(id, most) {
  it(id).style.setProperty("--digits", `${Math.max(2, `${most}`.length)}`);
}

/** What the step changed. */
export function showChanges(view, choose) {
  it("changes-title").textContent = view.at === 0 ? "At boot" : "What this step changed";
  const rows = view.threadChanges.map(({ kind, text }) => made("li", { class: kind === "delete" ? "went" : "came" }, text));
  const pages = view.changes.map((change) => made("li", { class: change.kind }, link(change.text, () => choose(change.space, change.first))));
  const left = view.changeCount - view.changes.length;
  const more = left > 0 ? [made("li", {}, `and ${grouped(left)} more`)] : [];
  const all = [...rows, ...pages, ...more];
  fill("changes", all.length ? all : [made("li", { class: "nothing" }, view.at === 0 ? "sigma0 has every frame, at the page with the frame's number" : "no page and no thread")]);
}
