// The texts as `l4` writes them.
import { fields, number } from "./state.mjs";
import { it, save } from "./dom.mjs";
import { region } from "./plan_view.mjs";

let told = 0;

const wordsIn = (text) => text.trim().split(/\s+/).filter((word) => word !== "").map(Number);

/** What is missing or wrong in the fields. */
function wrongWords(kind, words) {
  if (words.some((word) => !Number.isInteger(word) || word < 0 || word >= 2 ** 32)) return `${kind}: each word is a number from 0 to 4,294,967,295, decimal or after 0x.`;
  if (kind === "why" && words.length !== 2) return "why: give a thread and a page, as in 3 32.";
  if (kind === "check" && it("claim").value.trim() === "") return "check: write the lines of a plan into the field below, as plan prints them.";
  if (kind === "decode" && !words.length) return "decode: give the words of a message, as in 0x80 0x20008 0x100c7.";
  return "";
}

async function ask(source, isWhole) {
  const kind = it("kind").value, words = ["why", "decode"].includes(kind) ? wordsIn(it("words").value) : [], wrong = wrongWords(kind, words);
  if (wrong) throw new Error(wrong);
  return (await source.ask("text", { ...fields(), kind, words, region: region(), most: number("most"), claim: it("claim").value, isWhole })).text;
}

/** Shows a text. The verdict of a check is announced. */
export async function tell(source, say, announce) {
  it("told-text").textContent = "";
  try {
    const text = await ask(source, false);
    it("told-text").textContent = text;
    say("");
    if (it("kind").value === "check") announce(`check: ${text.trim()}`);
  } catch (fault) {
    say(fault.message);
  }
  document.body.dataset.told = ++told;
}

export async function saveText(source, say) {
  try {
    save(`l4-${it("kind").value.replace(/[ -]+/g, "-")}.txt`, "text/plain", await ask(source, true));
  } catch (fault) {
    say(fault.message);
  }
}

/** Shows the fields that the kind of text needs. */
export function showFields() {
  const kind = it("kind").value;
  it("words").hidden = !["why", "decode"].includes(kind);
  it("words").placeholder = kind === "why" ? "THREAD PAGE, as in 3 32" : "words, as in 0x80 0x20008 0x100c7";
  it("claim").hidden = kind !== "check";
}
