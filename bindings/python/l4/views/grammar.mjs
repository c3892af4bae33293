// The language of scripts: the form of each command, which tokens it takes, and what these are. The editor's colours and offers, the list of
// commands, and the places of wrong tokens come from here. The answer S1 or S2 itself is the program's.

// the tokens of each command, by their kinds
const COMMANDS = {
  thread: "thread new|thread pager", setpager: "thread pager", delete: "thread", recv: "thread partner window", send: "thread partner message",
  ipc: "thread partner partner timeouts window message", delegate: "thread partner number number number rights", part: "thread partner number number number number rights",
  unmap: "thread control fpages", fault: "thread number number rights", region: "thread number number number rights", serve: "thread",
  show: "thread number number", parent: "thread number", name: "name thread", reply: "thread", timeout: "thread", cancel: "thread", steps: "", unordered: "", finally: "",
  never: "answer", always: "answer",
};

/** The forms of the commands, and what each does. */
export const FORMS = [
  ["thread N new PAGER", "creates thread N in a new space; PAGER is a thread or `nil`"],
  ["thread N M PAGER", "creates thread N in the space of thread M"],
  ["setpager N PAGER", "makes PAGER the pager of thread N"],
  ["delete N", "deletes thread N"],
  ["recv N FROM WINDOW", "receives from a thread or `any`; WINDOW `all` accepts pages anywhere, `none` nowhere, `32+4` in these pages"],
  ["send N TO WORD..", "sends words, the tag first, such as `tag:7 5 map:16+4>32:rwx`"],
  ["ipc N TO FROM TIMEOUTS WINDOW WORD..", "sends, then receives; TIMEOUTS `never`, `zero` or `zero,never`"],
  ["delegate N TO SOURCE TARGET COUNT RIGHTS", "maps a region of pages by its plan, in one message"],
  ["part N TO K SOURCE TARGET COUNT RIGHTS", "sends message K of the plan"],
  ["unmap N CONTROL FPAGE..", "revokes rights on pages mapped from N's, such as `16+4:-w-`; CONTROL `unmap:1` counts the fpages, and `flush:1` revokes rights on N's own pages too"],
  ["fault N ADDRESS IP RIGHTS", "tries an access"],
  ["region P FIRST SOURCE COUNT RIGHTS", "adds pages to P's table, from which it answers faults"],
  ["serve P", "makes P answer messages by itself"],
  ["name NAME N", "gives a thread a name, which then stands for the thread in later lines"],
  ["show N FIRST COUNT", "lists the present pages among these"],
  ["parent N PAGE", "prints the page from which a page was mapped"],
  ["reply N", "prints how the last call of thread N ended"],
  ["timeout N", "ends the wait of thread N, because its timeout has passed by a clock outside the kernel"],
  ["cancel N", "cancels the wait of thread N"],
  ["steps", "prints the number of kernel steps so far"],
  ["unordered", "begins the calls of a litmus test, which may come in any order"],
  ["finally", "begins the queries of a litmus test, which are its outcome"],
  ["never ANSWER", "is a rule of a litmus test: no order may end with this answer; `never * waits` and `never deadlock` are about all threads but those behind `may-wait`"],
  ["always ANSWER", "is a rule of a litmus test: every order must end with this answer"],
];
const MOST_WORDS = 64, MOST_THREADS = 1 << 18, MOST_LABELS = 1 << 16;
const WORDS = ["nil", "any", "new", "all", "none", "never", "zero", "tag", "map", "grant"];

const isNumber = (token) => /^(0x[0-9A-Fa-f]{1,8}|[0-9]{1,10})$/.test(token) && Number(token) < 2 ** 32;
const isThread = (token, names) => (isNumber(token) ? Number(token) < MOST_THREADS : names.includes(token));
const isRights = (token) => /^[r-][w-][x-]$/.test(token);

/** Whether a text is FIRST+COUNT or FIRST: a power of two of pages, from a multiple of it on. The end of the space is the program's to check. */
function arePages(text) {
  const [first, count = "1", ...more] = text.split("+");
  if (more.length || !isNumber(first) || !isNumber(count)) return false;
  return Number(count) > 0 && Number.isInteger(Math.log2(Number(count))) && Number(first) % Number(count) === 0;
}

/** The parts of a text before and behind the first of these characters. */
function cut(text, character) {
  const place = text.indexOf(character);
  return place < 0 ? [text, ""] : [text.slice(0, place), text.slice(place + 1)];
}

function isNewName(token) {
  return /^[A-Za-z][A-Za-z0-9-]{0,23}$/.test(token) && !WORDS.includes(token) && !isRights(token) && !Object.hasOwn(COMMANDS, token);
}

function isFpage(token) {
  const [pages, rights] = cut(token, ":");
  return arePages(pages) && isRights(rights);
}

function isTag(token) {
  const [name, label] = cut(token, ":");
  return name === "tag" && isNumber(label) && Number(label) < MOST_LABELS;
}

function isControl(token) {
  const [name, count] = cut(token, ":");
  return (name === "unmap" || name === "flush") && isNumber(count) && Number(count) > 0 && Number(count) <= MOST_WORDS;
}

function isItem(token) {
  const [kind, rest] = cut(token, ":"), [pages, placed] = cut(rest, ">"), [base, rights] = cut(placed, ":");
  return (kind === "map" || kind === "grant") && arePages(pages) && isNumber(base) && isRights(rights);
}

const KINDS = {
  thread: [isThread, "a thread number below 262,144 or a name"],
  "new|thread": [(token, names) => token === "new" || isThread(token, names), "`new`, a thread number or a name"],
  pager: [(token, names) => token === "nil" || isThread(token, names), "a thread number, a name or `nil`"],
  partner: [(token, names) => token === "nil" || token === "any" || isThread(token, names), "a thread number, a name, `any` or `nil`"],
  name: [isNewName, "a new name: a letter, then letters, digits or hyphens, and no word of the language"],
  number: [isNumber, "a number, decimal or after 0x"],
  window: [(token) => isNumber(token) || token === "all" || token === "none" || (token.includes("+") && arePages(token)), "a number, `all`, `none` or pages such as 32+4"],
  timeouts: [(token) => isNumber(token) || /^(never|zero)(,(never|zero))?$/.test(token), "a number, `never`, `zero` or two of these such as zero,never"],
  control: [(token) => isNumber(token) || isControl(token), "a number, `unmap:COUNT` or `flush:COUNT`, where COUNT is the number of fpages"],
  fpage: [(token) => isNumber(token) || isFpage(token), "a number or an fpage such as 16+4:rwx"],
  tag: [(token) => isNumber(token) || isTag(token), "a number or a tag such as tag:7"],
  word: [(token) => isNumber(token) || isItem(token), "a number or an item such as map:16+4>32:rwx"],
  rights: [isRights, "rights such as rwx or r--"],
};

/** What is wrong with a line, or "" where nothing is found. Threads have these names. */
export function wrongToken(line, names = []) {
  const [command, ...tokens] = line.split(" ").filter((token) => token !== "");
  const kinds = Object.hasOwn(COMMANDS, command ?? "") ? COMMANDS[command].split(" ").filter((kind) => kind !== "") : null;
  if (kinds === null) return `“${command}”`;
  for (const [place, kind] of kinds.entries()) {
    if (kind === "message") return wrongInMessage(tokens.slice(place));
    if (kind === "answer") return tokens.length ? "" : `after “${command}”: an answer is missing`;
    if (kind === "fpages") return wrongIn(tokens.slice(place), () => "fpage") || tooMany(tokens.length - place);
    const [isRight, name] = KINDS[kind], token = tokens[place];
    if (token === undefined) return `after “${[command, ...tokens].pop()}”: ${name} is missing`;
    if (!isRight(token, names)) return `“${token}” is not ${name}`;
  }
  return tokens.length > kinds.length ? `“${tokens[kinds.length]}” is one token too many` : "";
}

/** The kinds of a line's tokens behind its command; null if there is no such command. */
function kindsOf(command, count) {
  if (!Object.hasOwn(COMMANDS, command)) return null;
  return COMMANDS[command].split(" ").flatMap((kind) => {
    if (kind === "message") return ["tag", ...Array.from({ length: MOST_WORDS }, () => "word")];
    if (kind === "fpages") return Array.from({ length: MOST_WORDS }, () => "fpage");
    return kind === "answer" ? Array.from({ length: count }, () => "answer") : [kind];
  });
}

/** The parts of a line, each with its colour: a command, a word of the language, a symbol, a comment, an answer, or null. */
export function coloursIn(line) {
  if (line.startsWith("#")) return [[line, line.startsWith("#= ") ? "answer" : "comment"]];
  const parts = line.split(/( +)/).filter((part) => part !== ""), count = parts.length;
  let place = -1, kinds = null;
  return parts.map((part) => {
    if (part.trim() === "") return [part, null];
    place += 1;
    if (place === 0) {
      kinds = kindsOf(part, count);
      return [part, kinds === null ? null : "command"];
    }
    return [part, colourOf(part, kinds?.[place - 1])];
  });
}

function colourOf(token, kind) {
  if (kind === undefined || kind === "answer") return kind ?? null;
  if (WORDS.includes(token) || /^(never|zero),/.test(token)) return "word";
  if (isRights(token) || /[:+>]/.test(token)) return "symbol";
  return isNumber(token) ? "number" : "name";
}

// what can be written where a token of this kind is right; names of threads are added
const OFFERS = {
  "new|thread": ["new"], pager: ["nil"], partner: ["any", "nil"], window: ["all", "none"], timeouts: ["never", "zero", "zero,never", "never,zero"],
  tag: ["tag:0"], word: ["map:16>32:rwx", "map:16+4>32:rwx", "grant:16>32:rwx"], control: ["unmap:1", "flush:1"], fpage: ["16+4:rwx", "16:rwx"], rights: ["rwx", "rw-", "r-x", "r--"],
};
const OF_THREADS = ["thread", "new|thread", "pager", "partner"];

/** What the text before the caret can become: the tokens that begin as its last one, and the forms of its command. */
export function offersFor(before, threads) {
  if (before.startsWith("#")) return { begun: "", offers: [], forms: [] };
  const tokens = before.split(/ +/), begun = tokens.pop(), [command, ...others] = tokens.filter((token) => token !== "");
  const forms = FORMS.filter(([form]) => form.split(" ")[0] === command).map(([form, means]) => `${form}: ${means}`);
  const kind = command === undefined ? null : kindsOf(command, 0)?.[others.length];
  const all = command === undefined ? Object.keys(COMMANDS) : [...(OFFERS[kind] ?? []), ...(OF_THREADS.includes(kind) ? threads : [])];
  return { begun, offers: all.filter((it) => it.startsWith(begun) && it !== begun), forms };
}

/** The threads and names that a script has: sigma0, root, and those that its lines create and name. */
export function threadsIn(text) {
  const found = [...text.matchAll(/^ *(?:thread|name) +(\S+)/gm)].map(([, token]) => token);
  return [...new Set([...found, "1", "2"])];
}

/** The first token that is not of its kind, by its place. */
function wrongIn(tokens, kindAt) {
  const place = tokens.findIndex((token, at) => !KINDS[kindAt(at)][0](token));
  return place < 0 ? "" : `“${tokens[place]}” is not ${KINDS[kindAt(place)][1]}`;
}

function tooMany(count) {
  return count > MOST_WORDS ? `there are ${count} words, and at most ${MOST_WORDS} are allowed` : "";
}

function wrongInMessage(tokens) {
  const wrong = wrongIn(tokens, (place) => (place === 0 ? "tag" : "word"));
  if (wrong) return wrong;
  const items = tokens.slice(1).filter((token) => !isNumber(token)).length, first = tokens.findIndex((token, place) => place > 0 && !isNumber(token));
  const late = first < 0 ? undefined : tokens.slice(first).find(isNumber);
  return late === undefined ? tooMany(tokens.length + items) : `“${late}” stands after an item`;
}
