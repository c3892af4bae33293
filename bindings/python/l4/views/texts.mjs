// Texts: lines, cut lists, and counted nouns.

const MOST_CHARACTERS = 300, MOST_ANSWERS = 64;

/** The lines of a text, whose last one may lack its newline. */
export const linesIn = (text) => (text === "" ? [] : text.replace(/\n$/, "").split("\n"));

export const ended = (lines) => lines.map((line) => `${line}\n`).join("");

export const grouped = (number) => number.toLocaleString("en");

export const counted = (number, noun) => `${grouped(number)} ${number === 1 ? noun : `${noun}s`}`;

export const cut = (text) => (text.length <= MOST_CHARACTERS ? text : `${text.slice(0, MOST_CHARACTERS)}..`);

/** At most 64 texts, with the number of the others behind them. */
export function cutList(texts) {
  if (texts.length <= MOST_ANSWERS) return texts.map(cut);
  return [...texts.slice(0, MOST_ANSWERS).map(cut), `.. and ${grouped(texts.length - MOST_ANSWERS)} more`];
}

export const megabytes = (length) => `${grouped(Math.floor(length / 1e6))} MB`;

/** A range of pages in words. */
export const pagesText = (first, count) => (count === 1 ? `page ${first}` : `pages ${first} to ${first + count - 1}`);

export const hexadecimal = (word) => `0x${word.toString(16)}`;
