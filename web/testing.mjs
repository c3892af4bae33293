// What `l4 test` says of a script or a litmus test, without the name of its file. What it writes to standard error is an error here.
import { isLitmus } from "../bindings/python/l4/views/frames.mjs";
import { ended, linesIn } from "../bindings/python/l4/views/texts.mjs";
import { PRINTS } from "./program.mjs";

// how many states are visited at most
const MOST_STATES = 1_000_000;
const NO_EXPECTATIONS = "the script expects no answers, apart from '#= ..', so it tests nothing";
const NO_RULE = "the litmus test has no rule, so it tests nothing";
/** Why a line cannot be part of a test, by the module's numbers. */
const FAULTS = {
  4: "the line does not end with a newline", 5: "the line is longer than 4,096 bytes", 6: "'#=' must be followed by a space and an answer, or by a space and '..'",
  7: "the line expects an answer, but no line above it has answers", 8: "the line expects an answer, but '#= ..' above it has ended the expectations",
};

const counted = (count, noun) => `${count} ${noun}${count === 1 ? "" : "s"}`;

const named = (answer) => (answer === "" ? "no further answer" : answer);

function scriptTested(program, script, machine, isLenient) {
  const { end, line, expectations, expected, found } = program.test(script, machine, isLenient);
  switch (end) {
    case 0: return `${counted(line, "line")}, ${counted(expectations, "expectation")}, passed\n`;
    case 1: return `line ${line}: expected ${named(expected)}, found ${named(found)}\n`;
    case 2: return `line ${line}: expected no refusal, found ${named(found)}\n`;
    case 3: throw new Error(NO_EXPECTATIONS);
    default: throw new Error(`line ${line}: ${FAULTS[end]}`);
  }
}

/** Refuses a litmus test with a line before `unordered` that is refused. */
function checkSetup(program, lines, machine) {
  const setup = lines.slice(0, lines.findIndex((line) => line.trim() === "unordered"));
  const told = linesIn(program.explain(ended(setup), machine)), place = told.findIndex((line) => /^line \d+ refused /.test(line));
  if (place < 0) return;
  throw new Error(`line ${told[place].split(" ")[1]}: ${(told[place + 1] ?? "").replace(/^# (line \d+: )?/, "")}`);
}

function litmusTested(program, script, machine, isLenient) {
  const { text, end } = program.ordersText(script, machine, MOST_STATES, PRINTS.outcomes), lines = linesIn(script);
  if (!isLenient) {
    checkSetup(program, lines, machine);
    if (!lines.slice(lines.findIndex((line) => line.trim() === "finally")).some((line) => /^ *(never|always)( |$)/.test(line))) throw new Error(NO_RULE);
  }
  const told = linesIn(text), place = told.findLastIndex((line) => /^\d+ outcomes?, /.test(line)), broken = told.slice(place + 1);
  return ended([`${told[place]}, ${end === "all" && !broken.length ? "passed" : "failed"}`, ...broken]);
}

/** What `l4 test` says, or `l4 test --lenient`. */
export const tested = (program, script, machine, isLenient) => (isLitmus(script) ? litmusTested : scriptTested)(program, script, machine, isLenient);
