// A character of the console's text is chosen, by the pointer or by keys, and asked why it is so.

import { element } from "./page.js";

const HINT = "A click on a character asks why it was printed; so do left, right and Enter.";

/** A place in the text: a piece of it, and how many characters of the piece stand before it.
    @typedef {{node: Node, offset: number}} Place */

export class ChosenByte {
  /** @param {import("./app.js").App} app */
  constructor(app) {
    this.app = app;
    this.text = element("text");
    /** @type {number | null} the number of the character that is chosen */
    this.chosen = null;
    this.text.addEventListener("click", event => this.click(event));
    this.text.addEventListener("keydown", event => this.key(event));
    this.forget();
  }

  pastChanged() {
    this.forget();
  }

  forget() {
    this.chosen = null;
    this.say(HINT);
  }

  /** @param {string} said */
  say(said) {
    element("text-said").textContent = said;
  }

  // The characters

  /** The pieces of the text, without what the old past had in their place. */
  pieces() {
    const walker = document.createTreeWalker(this.text, NodeFilter.SHOW_TEXT), found = [];
    while (walker.nextNode()) {
      if (!walker.currentNode.parentElement?.closest("del")) found.push(walker.currentNode);
    }
    return found;
  }

  /** How many characters the text has. */
  get length() {
    return this.pieces().reduce((sum, it) => sum + (it.nodeValue ?? "").length, 0);
  }

  /** The character that stands at a point of the page, or null.
      @param {number} x @param {number} y */
  numberAt(x, y) {
    const caret = caretAt(x, y);
    if (!caret) return null;
    let before = 0;
    for (const node of this.pieces()) {
      if (node === caret.node) {
        const near = [caret.offset, caret.offset - 1].find(it => isAt({ node, offset: it }, x, y));
        return near === undefined ? null : before + near;
      }
      before += (node.nodeValue ?? "").length;
    }
    return null;
  }

  /** The place of a character.
      @param {number} number @returns {Place | null} */
  placeOf(number) {
    let left = number;
    for (const node of this.pieces()) {
      const { length } = node.nodeValue ?? "";
      if (left < length) return { node, offset: left };
      left -= length;
    }
    return null;
  }

  /** A character is chosen: it is selected, and brought into sight.
      @param {number} number */
  choose(number) {
    const place = this.placeOf(number);
    if (!place) return;
    this.chosen = number;
    const { node, offset } = place;
    getSelection()?.setBaseAndExtent(node, offset, node, offset + 1);
    const box = rangeOf(place).getBoundingClientRect(), frame = this.text.getBoundingClientRect();
    if (box.top < frame.top) this.text.scrollTop -= frame.top - box.top;
    if (box.bottom > frame.bottom) this.text.scrollTop += box.bottom - frame.bottom;
    const shown = node.nodeValue?.[offset] ?? "";
    const character = shown === "\n" ? "the end of a line" : `'${shown}'`;
    this.say(`Byte ${this.app.text.numberOfByte(number)}, ${character}: Enter asks why.`);
  }

  /** Why the chosen character is so. */
  ask() {
    const { app, chosen } = this, number = chosen === null ? null : app.text.numberOfByte(chosen);
    if (app.text.isStale()) this.say("The text is of another past: wait for the one that is now.");
    else if (number !== null) app.reasons.ask({ kind: "byte", number });
  }

  // Pointer and keys

  /** @param {MouseEvent} event */
  click({ clientX, clientY }) {
    if (!getSelection()?.isCollapsed) return;
    const number = this.numberAt(clientX, clientY);
    if (number === null) return;
    this.choose(number);
    this.ask();
  }

  /** @param {KeyboardEvent} event */
  key(event) {
    if (event.altKey || event.ctrlKey || event.metaKey || event.shiftKey) return;
    const step = { ArrowLeft: -1, ArrowRight: 1 }[event.key];
    if (step === undefined && event.key !== "Enter") return;
    event.preventDefault();
    const { length, chosen } = this;
    if (step === undefined) this.ask();
    else if (length) {
      const next = chosen === null ? length - 1 : chosen + step;
      this.choose(Math.max(0, Math.min(length - 1, next)));
    }
  }
}

/** The place in a text at a point of the page, or null. Browsers have two names for this.
    @param {number} x @param {number} y @returns {Place | null} */
function caretAt(x, y) {
  const page = /** @type {any} */ (document);
  const caret = page.caretPositionFromPoint?.(x, y);
  if (caret) return { node: caret.offsetNode, offset: caret.offset };
  const range = page.caretRangeFromPoint?.(x, y);
  return range ? { node: range.startContainer, offset: range.startOffset } : null;
}

/** @param {Place} place */
function rangeOf({ node, offset }) {
  const range = document.createRange();
  range.setStart(node, offset);
  range.setEnd(node, offset + 1);
  return range;
}

/** Whether a character stands at a point of the page.
    @param {Place} place @param {number} x @param {number} y */
function isAt(place, x, y) {
  const { length } = place.node.nodeValue ?? "";
  if (place.offset < 0 || place.offset >= length) return false;
  return [...rangeOf(place).getClientRects()].some(it =>
    it.left <= x && x <= it.right && it.top <= y && y <= it.bottom);
}
