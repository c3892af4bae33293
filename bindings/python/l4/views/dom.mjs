// Elements of the page and of its drawings.

export const it = (id) => document.getElementById(id);

function filled(element, attributes, inside) {
  for (const [name, value] of Object.entries(attributes)) if (value !== null && value !== false) element.setAttribute(name, value);
  element.append(...inside);
  return element;
}

/** An element with attributes and with texts and elements in it. */
export const made = (name, attributes, ...inside) => filled(document.createElement(name), attributes, inside);

/** The same of SVG. */
export const drawn = (name, attributes, ...inside) => filled(document.createElementNS("http://www.w3.org/2000/svg", name), attributes, inside);

/** A drawing with a name for readers of screens. */
export const drawing = (width, height, name, parts) => drawn("svg", { width, height, role: "group", "aria-label": name }, ...parts);

/** Gives an element of a drawing a name and an action. The key is what it is known by when it is drawn again. */
export function active(element, name, act, key = name) {
  for (const [attribute, value] of Object.entries({ role: "button", tabindex: "-1", "aria-label": name, "data-key": key })) element.setAttribute(attribute, value);
  element.append(drawn("title", {}, name));
  element.addEventListener("click", act);
  element.addEventListener("keydown", (event) => {
    if (event.key !== "Enter" && event.key !== " ") return;
    event.preventDefault();
    act(event);
  });
  return element;
}

/** The parts of a text, in which rights such as r-x are not broken at the end of a line. */
export const unbroken = (text) => text.split(/((?<![\w-])[r-][w-][x-](?![\w-]))/).map((part, place) => (place % 2 ? made("span", { class: "unbroken" }, part) : part));

/** A button that looks like a link. The key is what it is known by when it is made again. */
export function link(text, act, name = text, key = name) {
  const button = made("button", { type: "button", class: "link", "aria-label": name, "data-key": key }, ...unbroken(text));
  button.addEventListener("click", (event) => { event.stopPropagation(); act(event); });
  return button;
}

const partsOf = (area) => [...area.querySelectorAll("[data-key]")];

/** Makes one part of an area its only stop for the Tab key. */
function stopAt(parts, part) {
  parts.forEach((it) => it.setAttribute("tabindex", it === part ? "0" : "-1"));
}

/** Replaces what is in an element. The element becomes an area with one stop for the Tab key: the part that had the stop, the current one, or
 * the first. The keyboard's focus stays at the part with the same name. If there is none, it goes to the new stop, or to the area itself. */
export function fill(id, elements) {
  const area = it(id), before = area.querySelector("[data-key][tabindex='0']")?.dataset.key, isFocused = area.contains(document.activeElement);
  area.replaceChildren(...elements);
  const parts = partsOf(area), kept = isFocused ? parts.find(({ dataset }) => dataset.key === before) : undefined;
  const stop = kept ?? area.querySelector(".now [data-key], .now[data-key]") ?? parts[0];
  area.dataset.area = parts.length > 1 ? "many" : "";
  stopAt(parts, stop);
  area.removeAttribute("tabindex");
  if (!isFocused) return;
  if (!stop) area.tabIndex = -1;
  (stop ?? area).focus({ preventScroll: true });
}

/** Moves the keyboard's focus inside an area, by this many parts. Returns whether it was in one. */
export function moveFocus(by) {
  const area = document.activeElement?.closest("[data-area]"), parts = area ? partsOf(area) : [];
  const place = parts.indexOf(document.activeElement), next = parts[place + by];
  if (place < 0) return false;
  if (next) {
    stopAt(parts, next);
    next.focus();
  }
  return true;
}

/** Makes a part of an area its stop, and moves the keyboard's focus there. */
export function focusPart(part, isScrolled = true) {
  stopAt(partsOf(part.closest("[data-area]")), part);
  part.focus({ preventScroll: !isScrolled });
}

/** Moves the keyboard's focus to the slider, which steps through the run. The page stays where it is. */
export const focusStep = () => it("step").focus({ preventScroll: true });

/** Opens what an element is in, and brings the element into view with the keyboard's focus. The address stays: it may carry a script. */
export function goTo(id) {
  const target = it(id);
  for (let part = target.closest("details"); part; part = part.parentElement.closest("details")) part.open = true;
  if (target.tabIndex < 0) target.tabIndex = -1;
  target.scrollIntoView({ block: "start" });
  target.focus({ preventScroll: true });
}

// the lists that are to be scrolled, each with its row; null stands for the end of the list
const moved = new Map();

/** Will move the current row of a list into the middle of the list's frame, or its end into view. The page stays where it is. */
export function follow(list, row) {
  if (row !== undefined) moved.set(list, row);
}

/** Scrolls the lists. All places are read before the first one changes, so that the browser computes them once. */
export function scrollLists() {
  const places = [...moved].map(([list, row]) => {
    if (row === null) return [list, list.scrollHeight];
    return [list, list.scrollTop + row.getBoundingClientRect().top - list.getBoundingClientRect().top - list.clientHeight / 2];
  });
  moved.clear();
  places.forEach(([list, place]) => { list.scrollTop = place; });
}

export function save(name, kind, data) {
  const address = URL.createObjectURL(new Blob([data], { type: kind }));
  made("a", { href: address, download: name }).click();
  setTimeout(() => URL.revokeObjectURL(address), 10_000);
}
