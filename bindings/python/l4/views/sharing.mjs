// Scripts that stay, travel and leave: in the browser's store, in a link, in files.
import { it, save } from "./dom.mjs";
import { framesFor, pageBytesFor } from "./frames.mjs";
import { orderShown } from "./orders_view.mjs";
import { fields, isEdited, openingOf, question, shown } from "./state.mjs";
import { grouped } from "./texts.mjs";

const STORE = "l4 script", MOST_LINK = 60_000;

// what the link in the address carries
let inAddress = null;

/** Bytes in base64url. */
function encoded(bytes) {
  const letters = Array.from(bytes, (byte) => String.fromCharCode(byte)).join("");
  return btoa(letters).replace(/\+/g, "-").replace(/\//g, "_").replace(/=+$/, "");
}

const bytesIn = (text) => Uint8Array.from(atob(text.replace(/-/g, "+").replace(/_/g, "/")), (letter) => letter.charCodeAt(0));

const textOf = (bytes) => new TextDecoder("utf-8", { fatal: true }).decode(bytes);

/** Bytes that went through a stream of the browser, which packs or unpacks them. */
async function through(stream, bytes) {
  return new Uint8Array(await new Response(new Blob([bytes]).stream().pipeThrough(stream)).arrayBuffer());
}

/** The page that is chosen, if a link without it would open on another one. */
function chosenPage() {
  const { space, page, view } = shown, opening = view && openingOf(view);
  return !view || (opening.space === space && opening.page === page) ? null : { space, page };
}

/** What a link carries now: the script and its machine; or the litmus test with the outcome whose order is in the editor; and the step and the
 * page that are shown of either. */
function toShare() {
  if (isEdited()) return { ...fields(), order: null, step: null, chosen: null };
  const order = orderShown(), place = { step: shown.at, chosen: chosenPage() };
  return order ? { ...order, order: order.outcome, ...place } : { ...fields(), order: null, ...place };
}

const isSame = (a, b) => ["script", "frames", "pageBytes", "order"].every((name) => a[name] === b[name]);

/** Keeps the fields for the next visit. A browser that keeps nothing is no fault. A link to another script leaves the address, where a reload
 * would take it in place of what was kept. */
export function keep() {
  try { localStorage.setItem(STORE, JSON.stringify(fields())); } catch { /* the store is full or closed */ }
  const now = toShare(), isLinked = inAddress && (isSame(inAddress, now) || (inAddress.order !== null && inAddress.script === now.script));
  if (location.hash && !isLinked) history.replaceState(null, "", location.href.split("#")[0]);
}

function kept() {
  try { return JSON.parse(localStorage.getItem(STORE)); } catch { return null; }
}

/** The FNV-1a checksum of a text, which tells a damaged link from a whole one. */
function checksum(text) {
  return new TextEncoder().encode(text).reduce((sum, byte) => Math.imul(sum ^ byte, 0x01000193) >>> 0, 0x811c9dc5).toString(16);
}

/** The part of a link that carries a script. The script is last, so that a link that is cut still has the length and the checksum. A long
 * script is packed by the browser's deflate. */
async function linkPart({ script, frames, pageBytes, order, step, chosen }) {
  const bytes = new TextEncoder().encode(script), packed = await through(new CompressionStream("deflate-raw"), bytes);
  const page = chosen === null ? "" : `&space=${chosen.space}${chosen.page === null ? "" : `&page=${chosen.page}`}`;
  const place = `${order === null ? "" : `&outcome=${order}&most=${it("most").value}`}${step === null ? "" : `&step=${step}`}${page}`;
  const text = packed.length < bytes.length ? `packed=${encoded(packed)}` : `script=${encoded(bytes)}`;
  return `#frames=${frames}&page-size=${pageBytes}&length=${script.length}&sum=${checksum(script)}${place}&${text}`;
}

const isStart = (it) => it !== null && typeof it?.script === "string" && Number.isInteger(it.frames) && [1024, 4096].includes(it.pageBytes);

/** The number that a link has under a name; null if it has none. */
function numberIn(parts, name) {
  const text = parts.get(name);
  return text !== null && /^[0-9]+$/.test(text) ? Number(text) : null;
}

/** The page that a link names, or the space without a page. */
function chosenIn(parts) {
  const [space, page] = ["space", "page"].map((name) => numberIn(parts, name));
  return space === null ? null : { space, page };
}

async function scriptIn(parts) {
  if (parts.has("packed")) return textOf(await through(new DecompressionStream("deflate-raw"), bytesIn(parts.get("packed"))));
  return textOf(bytesIn(parts.get("script") ?? ""));
}

/** What a link carries. Throws an error where the link is damaged or cut. A link that somebody wrote needs no length and checksum. */
async function linked() {
  const parts = new URLSearchParams(location.hash.slice(1));
  if (!["script", "packed", "sum", "length"].some((name) => parts.has(name))) return null;
  try {
    const script = await scriptIn(parts);
    const found = {
      script, frames: numberIn(parts, "frames") ?? framesFor(script), pageBytes: numberIn(parts, "page-size") ?? pageBytesFor(script) ?? 4096,
      order: numberIn(parts, "outcome"), step: numberIn(parts, "step"), chosen: chosenIn(parts), most: numberIn(parts, "most"),
    };
    const isWhole = `${script.length}` === (parts.get("length") ?? `${script.length}`) && checksum(script) === (parts.get("sum") ?? checksum(script));
    if (isWhole && isStart(found)) return found;
  } catch { /* reported below */ }
  throw new Error("The link is damaged or cut: the part after # is not a whole script. The page shows an example instead.");
}

/** What the page begins with: the script of a link, else what was kept, else what the source gives. */
export async function firstScript(start, isKeeping, say) {
  try {
    inAddress = await linked();
    if (inAddress?.most != null) it("most").value = inAddress.most;
    if (inAddress) return inAddress;
  } catch (fault) {
    say(fault.message);
    return start;
  }
  const before = isKeeping ? kept() : null;
  return isStart(before) ? before : start;
}

/** Puts the script into the address and the clipboard, with the step that is shown, and with the litmus test if it is one of its orders. */
export async function shareLink(say) {
  const what = toShare(), part = await linkPart(what), where = location.protocol === "file:" ? " It opens this file: a reader elsewhere needs the file too." : "";
  if (part.length > MOST_LINK) return say(`The script is too long for a link, which carries up to ${grouped(MOST_LINK)} characters. Save it as a file instead.`);
  inAddress = what;
  history.replaceState(null, "", part);
  const page = what.chosen === null ? "" : ` with ${what.chosen.page === null ? "" : `page ${what.chosen.page} of `}space ${what.chosen.space}`;
  const opens = what.step === null && page === "" ? "" : ` It opens at ${what.step === null ? "the end" : `step ${what.step}`}${page}.`;
  try {
    await navigator.clipboard.writeText(location.href);
    return say(`The link is in the address bar and on the clipboard.${opens}${where}`);
  } catch {
    return say(`The link is in the address bar: copy it from there.${opens}${where}`);
  }
}

export const saveScript = () => save("script.l4", "text/plain", fields().script);

export async function saveHistory(source, say) {
  try {
    save("history.steps", "text/plain", (await source.ask("text", { ...question(), kind: "history", words: [], isWhole: true })).text);
  } catch (fault) {
    say(fault.message);
  }
}

/** Saves a drawing as SVG, with the rules of its colours in it. */
export function savePicture(id, say) {
  const picture = it(id).querySelector(".now svg") ?? it(id).querySelector("svg");
  if (!picture) return say("There is no such picture yet.");
  const copy = picture.cloneNode(true), rules = document.createElementNS("http://www.w3.org/2000/svg", "style");
  rules.textContent = drawingRules();
  copy.prepend(rules);
  return save(`${id}.svg`, "image/svg+xml", new XMLSerializer().serializeToString(copy));
}

/** The rules of the page's style for drawings. */
function drawingRules() {
  const rules = [...document.styleSheets].flatMap((sheet) => [...sheet.cssRules]);
  return rules.filter((rule) => rule.selectorText?.startsWith("svg")).map((rule) => rule.cssText).join("\n");
}

/** Opens a file as the script. */
export async function openFile(file, mostBytes, say) {
  if (file.size > mostBytes) {
    say(`${file.name} has ${grouped(file.size)} bytes. The page takes up to ${grouped(mostBytes)}; \`l4 run\` has no limit.`);
    return null;
  }
  return file.text();
}
