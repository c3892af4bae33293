// The page's module in node. What it writes for the files of tests/scripts, explained, annotated, histories, steps, whys, plans and decodes must be
// NAME.out, byte for byte. Then come cases on standard input, one per line in JSON: the words of `l4`, or `steps` for `l4_steps`, with the input,
// and what the program wrote with its status (of `l4 orders`, the outcomes or a witness); or what a model knows after a script, which must be
// what the page's views are made from.
//
// usage: node [--experimental-wasm-memory64] tests/browser/module.mjs MODULE
import fs from "node:fs";
import path from "node:path";
import readline from "node:readline";
import { PRINTS, Program, READINGS, RIGHTS } from "../../web/program.mjs";
import { Run } from "../../web/runs.mjs";
import { tested } from "../../web/testing.mjs";
import { changesBetween } from "../../bindings/python/l4/views/changes.mjs";

const TESTS = path.dirname(import.meta.dirname);
const KINDS = { scripts: ["run"], explained: ["run", "--explain"], annotated: ["run"], histories: ["history", "--answers"], steps: ["steps"], whys: ["why"], plans: [], decodes: [] };
let passed = 0, failed = 0, left = 0;

const read = (file) => (fs.existsSync(file) ? fs.readFileSync(file) : Buffer.alloc(0));
const wordsOf = (text) => text.toString().split(/\s+/).filter((word) => word);

/** The words of a command line without its options, and the options. */
function parsed(words) {
  const options = { frames: 256, "page-size": 4096, as: undefined, most: 1_000_000, witness: undefined }, rest = [];
  for (let k = 0; k < words.length; k += 1) {
    const found = /^--([a-z-]+)(?:=(.*))?$/.exec(words[k]);
    if (!found) rest.push(words[k]);
    else if (found[1] in options) options[found[1]] = found[2] ?? words[++k];
    else options[found[1]] = true;
  }
  return { rest, options, machine: { frames: Number(options.frames), pageBytes: Number(options["page-size"]) } };
}

const regionOf = ([source, target, count, rights]) => ({
  source: Number(source), target: Number(target), count: Number(count), rights: [...rights].reduce((sum, letter) => sum + (RIGHTS[letter] ?? 0), 0),
});

/** What `l4` writes for these words and this input, and its status. */
function written(program, [command, ...words], input) {
  const { rest, options, machine } = parsed(words), done = (text) => ({ text, found: true });
  switch (command) {
    case "run":
      if (options.number && options.moves) return done(program.annotate(input, machine));
      return done(options.explain ? program.explain(input, machine) : program.run(input, machine));
    case "orders": {
      const most = Number(options.most), found = program.orders(input, machine, most), prints = options.dot ? PRINTS.graph : options.outcomes ? PRINTS.outcomes : PRINTS.orders;
      if (options.witness !== undefined) return { text: found.outcomes[Number(options.witness) - 1].witness, found: found.end === "all" };
      return { text: program.ordersText(input, machine, most, prints).text, found: found.end === "all" && found.outcomes.every(({ broken }) => !broken.length) };
    }
    case "test": {
      const text = tested(program, new TextDecoder().decode(input), machine, options.lenient === true);
      return { text, found: text.split("\n")[0].endsWith(", passed") };
    }
    case "steps": return program.call("page_steps", input, machine.frames, machine.pageBytes);
    case "history": return done(program.history(input, machine, options.answers === true));
    case "why": return program.why(input, machine, Number(rest[0]), Number(rest[1]));
    case "plan": return program.plan(regionOf(rest), machine);
    case "check": return program.check(regionOf(rest), machine, input);
    default: return done(program.decode(rest.map(Number), READINGS[options.as ?? (rest.length === 1 ? "each" : "message")], machine));
  }
}

function say(what, got, wanted) {
  if (got === wanted) passed += 1;
  else {
    failed += 1;
    console.log(`FAILED ${what}: ${got.slice(0, 300)}, wanted ${wanted.slice(0, 300)}`);
  }
}

function tried(program, words, input) {
  try {
    return written(program, words, input);
  } catch (fault) {
    return { text: `${fault}`, found: false };
  }
}

function file(program, folder, name) {
  const place = path.join(TESTS, folder, name), words = [...KINDS[folder], ...wordsOf(read(`${place}.words`))];
  // a command line that is an error, a strict run, and numbers without moves or moves without numbers, are the program's alone
  const isRefused = folder !== "steps" && wordsOf(read(`${place}.status`))[0] === "2";
  if (isRefused || words.includes("--strict") || words.includes("--help") || words.includes("--number") !== words.includes("--moves")) {
    left += 1;
    return;
  }
  const given = ["script", "steps", "in"].map((kind) => `${place}.${kind}`).find((it) => fs.existsSync(it)), input = new Uint8Array(read(given ?? ""));
  const asked = folder === "whys" ? read(`${place}.words`).toString().trim().split("\n").map((line) => ["why", ...wordsOf(line)]) : [words];
  const got = asked.map((it) => tried(program, it, input)).map(({ text, found }) => (folder === "whys" ? `${text}status ${found ? 0 : 1}\n` : text));
  say(`${folder}/${name}`, got.join(""), read(`${place}.out`).toString());
}

const sorted = (numbers) => [...numbers].sort((a, b) => a - b);

/** The mappings of a state, one by one. */
const mappingsOf = ({ spaces }) => spaces.flatMap(({ space, runs }) => runs.flatMap(([first, count, frame, rights, from, parent]) =>
  Array.from({ length: count }, (_, k) => [space, first + k, frame + k, rights, from, from === null ? null : parent + k])));

const keyed = (mappings) => new Map(mappings.map((it) => [`${it[0]} ${it[1]}`, it]));

/** The state that the changes lead to from another. */
function changed(old, changes) {
  const found = keyed(mappingsOf(old));
  for (const { space, first, count, is } of changes) {
    for (let page = first; page < first + count; page += 1) found.delete(`${space} ${page}`);
    if (is) keyed(mappingsOf({ spaces: [{ space, runs: [[first, count, ...is.slice(2)]] }] })).forEach((it, key) => found.set(key, it));
  }
  return [...found.values()].sort((a, b) => a[0] - b[0] || a[1] - b[1]);
}

/** The first step within a line after which the answers that are shown of the line do not end with the step's own. */
function wrongStep(run) {
  return run.steps.find(({ number, line, text, answers }) => {
    if (run.stepsBy[line] === number || (answers.length === 1 && text.startsWith("start "))) return false;
    const wanted = answers.length > 1 ? answers.at(-1).split(" ")[0] : `${text} ${answers[0]}`.replace(" expired", "");
    const row = run.linesAround(line, number).find((it) => it.number === line);
    return !`${row.answers.at(-1)} `.startsWith(`${wanted} `);
  });
}

/** What the views are made from, at the end of a script. The changes since its middle lead to the same mappings. */
function factsOf(program, words, input) {
  const run = new Run(program, input, parsed(words).machine, () => {}), end = run.steps.length, middle = end >> 1;
  const at = (count) => run.timeline.at(count), threads = at(end);
  const [old, now] = run.states([middle, end].map((count) => ({ count, spaces: at(count).allSpaces() }))), mappings = mappingsOf(now);
  if (JSON.stringify(changed(old, changesBetween(old.spaces, now.spaces))) !== JSON.stringify(mappings)) return { mappings: "the changes lead to another state" };
  const wrong = wrongStep(run);
  if (wrong) return { mappings: `step ${wrong.number} has other answers` };
  return {
    spaces: [...threads.spaces].sort((a, b) => a[0] - b[0]), waiting: sorted(threads.waits.keys()), sending: sorted(threads.sending.keys()),
    served: sorted(run.served(run.lines.length, threads.deletions)), causes: run.steps.map(({ line, isServed }) => [line, isServed]), mappings,
  };
}

const program = await Program.of(fs.readFileSync(process.argv[2]));
for (const folder of Object.keys(KINDS)) {
  for (const name of fs.readdirSync(path.join(TESTS, folder))) if (name.endsWith(".out")) file(program, folder, name.slice(0, -4));
}
for await (const line of readline.createInterface({ input: process.stdin })) {
  const { words, input, text, found, facts } = JSON.parse(line);
  if (facts) {
    say(`views of ${words.join(" ")} on ${input.slice(0, 600)}`, JSON.stringify(factsOf(program, words, input)), JSON.stringify(facts));
    continue;
  }
  const got = tried(program, words, new TextEncoder().encode(input));
  say(`${words.join(" ")} on ${input.slice(0, 600)}`, `${got.found} ${got.text}`, `${found} ${text}`);
}
console.log(`${left} left out; ${passed} passed, ${failed} failed`);
process.exit(failed ? 1 : 0);
