// Elements of the page. Text from outside becomes text, never HTML.

/**
 * What an attribute is; one that begins with `on` is called at that event.
 * @typedef {string | number | boolean | null | undefined | ((event: any) => void)} Attribute
 * @typedef {Node | string | number} Inside an element, or a text
 */

/** The element with this id, which the page has, as what it is.
    @template {HTMLElement} Kind @param {string} id @param {new () => Kind} kind @returns {Kind} */
function found(id, kind) {
  const it = document.getElementById(id);
  if (!(it instanceof kind)) throw new Error(`the page has no such element: ${id}`);
  return it;
}

/** The element with this id.
    @param {string} id */
export const element = id => found(id, HTMLElement);

/** The field with this id.
    @param {string} id */
export const field = id => found(id, HTMLInputElement);

/** The choice with this id.
    @param {string} id */
export const choice = id => found(id, HTMLSelectElement);

/** The button with this id.
    @param {string} id */
export const button = id => found(id, HTMLButtonElement);

/** The part of an element that a selector finds, which the page has.
    @param {Element} place @param {string} selector @returns {HTMLElement} */
export function part(place, selector) {
  const it = place.querySelector(selector);
  if (!(it instanceof HTMLElement)) throw new Error(`the page has no such element: ${selector}`);
  return it;
}

/** Makes an element; `inside` are elements and texts.
    @param {string} name @param {Object<string, Attribute>} attributes @param {Inside[]} inside */
export function make(name, attributes = {}, ...inside) {
  const made = document.createElement(name);
  for (const [key, value] of Object.entries(attributes)) {
    if (typeof value === "function") made.addEventListener(key.slice(2), value);
    else if (value === true) made.setAttribute(key, "");
    else if (value !== false && value !== null) made.setAttribute(key, String(value));
  }
  made.append(...inside.map(it => typeof it === "number" ? String(it) : it));
  return made;
}

/** A table with a caption for screen readers, heads of columns, and rows of elements and texts.
    @param {string} caption @param {string[]} heads @param {Inside[][]} rows */
export function table(caption, heads, rows) {
  const head = make("tr", {}, ...heads.map(it => make("th", { scope: "col" }, it)));
  const body = rows.map(row => make("tr", {}, ...row.map(it => make("td", {}, it ?? ""))));
  return make("div", { class: "scroll" }, make("table", {},
    make("caption", { class: "unseen" }, caption), make("thead", {}, head),
    make("tbody", {}, ...body)));
}

/** A function that shows texts as a list's items, each as `makeItem` makes it; those that stay
    aren't made again.
    @param {Element} list @param {(text: string) => Node} makeItem */
export function itemsOf(list, makeItem) {
  /** @type {string[]} */
  let shown = [];
  /** @param {string[]} texts */
  return texts => {
    const changed = texts.findIndex((text, at) => text !== shown[at]);
    const begin = changed < 0 ? texts.length : changed;
    while (list.children.length > begin) list.lastElementChild?.remove();
    for (const text of texts.slice(begin)) list.append(makeItem(text));
    shown = texts;
  };
}

/** Makes these the element's children. A child that stays as it is isn't touched.
    @param {Element} place @param {Element[]} made */
export function keepChildren(place, made) {
  const { children } = place;
  while (children.length > made.length) place.lastElementChild?.remove();
  for (const [at, it] of made.entries()) {
    if (at >= children.length) place.append(it);
    else if (!children[at].isEqualNode(it)) children[at].replaceWith(it);
  }
}

/** Does something once a form is sent.
    @param {string} id @param {() => void} act */
export function onSubmit(id, act) {
  element(id).addEventListener("submit", event => {
    event.preventDefault();
    act();
  });
}

/** A button that looks like a link.
    @param {string} text @param {string} title @param {() => void} onclick */
export const link = (text, title, onclick) =>
  make("button", { type: "button", class: "link", title, onclick }, text);

/** Waits until calls have ceased for some time, and then does it once, unless it is cancelled.
    @param {number} milliseconds @param {() => void} act */
export function delayed(milliseconds, act) {
  let timer = 0;
  const call = () => {
    clearTimeout(timer);
    timer = window.setTimeout(act, milliseconds);
  };
  call.cancel = () => clearTimeout(timer);
  return call;
}
