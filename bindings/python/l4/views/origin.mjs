// Why a page is there, in words: the lines of `l4 why`.
import { grouped } from "./texts.mjs";

const MOST_ROWS = 64;

/** A step by its number and the line that caused it. */
export const stepName = ({ number, line }) => `step ${number}, line ${line}`;

/** What a line says, and the number of the step that it names; null if it names none. An entry of a history is the step with the next number. */
function rowOf(text, steps) {
  const [kind, first, , sender, receiver, how, source, target, had, named] = text.split(" ");
  if (kind === "sigma0") return { step: null, text: `${text.slice(kind.length + 1)} of sigma0, at boot` };
  if (kind === "entry") {
    const step = steps[Number(first)];
    return { step: step.number, text: `${stepName(step)}: thread ${sender} ${how}s its page ${source} (${had}) to page ${target} of thread ${receiver}; the item names the rights ${named}` };
  }
  const [, page, , frame, rights] = text.split(" ");
  return { step: null, text: frame === undefined ? `page ${page}` : `page ${page} is frame ${frame}, with the rights ${rights}` };
}

/** How a present page got there, by the lines of `l4 why` and the steps of the history. */
export function originOf(lines, steps) {
  const rows = lines.slice(0, MOST_ROWS).map((text) => rowOf(text, steps)), left = lines.length - rows.length;
  return { isAbsent: false, rows: left > 0 ? [...rows, { step: null, text: `.. and ${grouped(left)} more` }] : rows };
}
