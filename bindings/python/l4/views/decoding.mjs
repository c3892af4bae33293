// Words that say what they mean: those of a line or an answer, when the pointer or the keyboard's focus is on them.
import { it, made } from "./dom.mjs";
import { question } from "./state.mjs";

const MOST_WORDS = 64;
let source = null, hint = "", pageBytes = 4096, asked = 0, runs = 0;
const known = new Map();

/** Which tokens of a text are words, and how they are read: by the command's name or the kind of the answer. */
function readingsOf(tokens, kind) {
  const from = (first) => [...tokens.keys()].slice(first);
  if (kind === "answer") return tokens[1] === "ipc" ? { message: [tokens[2], ...tokens.slice(5)].map((word) => Number(`0x${word}`)), places: [2, ...from(5)] } : null;
  switch (tokens[0]) {
    case "recv": return { windows: [3] };
    case "send": return { message: tokens.slice(3).map(Number), places: from(3) };
    case "ipc": return { message: tokens.slice(6).map(Number), places: from(6), windows: [5] };
    case "unmap": return { fpages: from(3) };
    default: return null;
  }
}

function wordSpan(token, words, reading) {
  return made("span", { class: "word", "data-words": words.join(" "), "data-reading": reading }, token);
}

/** The parts of a text, with an element for each word that can be decoded. */
export function wordsIn(text, kind) {
  const parts = text.split(/( +)/), tokens = parts.filter((part) => part.trim() !== "");
  const found = readingsOf(tokens, kind);
  if (!found || (found.message ?? []).some((word) => !Number.isInteger(word))) return [text];
  let place = -1;
  return parts.map((part) => {
    if (part.trim() === "") return part;
    place += 1;
    const word = Number(kind === "answer" ? `0x${part}` : part);
    if (found.places?.includes(place)) return wordSpan(part, found.message.slice(0, MOST_WORDS + 1), "message");
    if (found.windows?.includes(place) && Number.isInteger(word)) return wordSpan(part, [word], "window");
    if (found.fpages?.includes(place) && Number.isInteger(word)) return wordSpan(part, [word], "fpage");
    return part;
  });
}

/** Shows a text below the list, unless something else was asked about meanwhile. */
async function tell(element, key, asks) {
  const turn = ++asked;
  try {
    if (!known.has(key)) known.set(key, await asks());
  } catch {
    return;
  }
  if (turn !== asked) return;
  if (element) element.title = known.get(key);
  it("decoded").textContent = known.get(key);
  document.body.dataset.decoded = turn;
}

/** What a word's message means. */
async function meaningOf({ words, reading }) {
  return (await source.ask("decode", { words: words.split(" ").map(Number), reading, pageBytes })).lines.join("\n");
}

const tellWord = (element) => tell(element, `${pageBytes} ${element.dataset.reading} ${element.dataset.words}`, () => meaningOf(element.dataset));

/** What the answers to a line mean, as `l4 run --explain` prints it. */
async function explanationOf(line) {
  const { answers } = await source.ask("explain", { ...question(), line });
  return answers.map(({ answer, means }) => [answer, ...means.map((text) => `  ${text}`)].join("\n")).join("\n") || "This line has no answer.";
}

/** Explains the answers to a line. A source without explanations decodes the line's first word. */
function tellLine(row) {
  const word = row.querySelector(".word");
  if (source.hasTexts && row.querySelector(".answer")) tell(null, `line ${row.value} of run ${runs}`, () => explanationOf(row.value));
  else if (word) tellWord(word);
}

/** Decodes words under the pointer, and explains the answers to a line that the pointer or the keyboard's focus is on. */
export function listenToWords(given) {
  source = given;
  hint = it("decoded").textContent;
  document.addEventListener("pointerover", ({ target }) => {
    if (target.classList?.contains("word") && target.dataset.words) tellWord(target);
    else if (target.closest?.("#lines .answer") && source.hasTexts) tellLine(target.closest("li"));
  });
  it("lines").addEventListener("focusin", ({ target }) => { if (target.closest("li")) tellLine(target.closest("li")); });
}

/** Words have pages of this size from now on. */
export function decodeBy(bytes) {
  pageBytes = bytes;
}

/** The explanations of the run before are no longer those of the lines, nor is the text that is shown. */
export function forgetLines() {
  runs += 1;
  known.clear();
  asked += 1;
  it("decoded").textContent = hint;
}
