// The timeline: lanes over turns, a cursor, and marks of events that can be dragged.

import { LanesDrawing, lanesOf } from "./lanes.js";
import { Marks } from "./marks.js";
import { delayed, part } from "./page.js";
import { LAST_TURN } from "./replies.js";
import { Scene } from "./scene.js";

const [LEFT_WIDE, LEFT_NARROW, RIGHT] = [112, 74, 10];
const FEWEST_PIXELS = 3;
// A move by keys ends this long after the last key was let go, if Alt isn't let go before.
const PAUSE = 500;

/** The mark of an event, or of many, at which the pointer or the focus is, or null.
    @param {Event} event @returns {HTMLElement | null} */
const markAt = ({ target }) => target instanceof Element ? target.closest("button.mark") : null;

/** How many turns an arrow key steps.
    @param {boolean} isShifted */
const stepOf = isShifted => isShifted ? 64 : 1;

/**
 * What the timeline tells the page; `onDraw` that it will draw, and `onDrawn` that it did. `onKey`
 * says whether a key did something; `turnAt` is where a click goes.
 * @typedef {{
 *   onCursor: (turn: number) => void, onView: () => void, onDraw: () => void, onDrawn: () => void,
 *   onDrag: (event: ScriptEvent, turn: number) => void,
 *   onDrop: (event: ScriptEvent, turn: number | null) => Promise<void>,
 *   onOpen: (event: ScriptEvent) => void, onDelete: (event: ScriptEvent) => void,
 *   onList: (turn: number) => void, onKey: (key: string) => boolean,
 *   turnAt: (x: number, y: number) => number,
 * }} Listener
 * @typedef {import("./past.js").ScriptEvent} ScriptEvent
 * @typedef {import("./lanes.js").Lane} Lane
 */

/**
 * A pointer that is down: where, and the first turn in sight then; whether it moved; the mark of
 * many events on which it is; whether it selects turns.
 * @typedef {{x: number, first: number, moved: boolean, cluster: HTMLElement | null,
 *   isBox: boolean}} Pointer
 * @typedef {{apart: number, span: number, turn: number}} Pinch of two pointers
 */

/**
 * An event that is moved: by its mark, from a turn to the one where it is now; by keys, or by a
 * pointer that began at a pixel.
 * @typedef {{event: ScriptEvent, button: HTMLElement, from: number, turn: number, begin?: number,
 *   isByKeys?: boolean, isMoved?: boolean}} Dragged
 */
export class Timeline extends Scene {
  /** @param {HTMLElement} element @param {Listener} listener */
  constructor(element, listener) {
    super();
    this.element = element;
    this.listener = listener;
    this.slider = part(element, "[role=slider]");
    this.cursorLine = part(element, ".cursor");
    this.marks = new Marks(part(element, ".marks"), this);
    this.carried = part(element, ".carried");
    this.box = part(element, ".box");
    const canvas = /** @type {HTMLCanvasElement} */ (part(element, "canvas"));
    this.drawing = new LanesDrawing(canvas);
    /** @type {Lane[]} those that are drawn */
    this.lanes = [];
    this.width = 0;
    /** What is told of the cursor's turn, if it is still there. */
    this.told = { turn: 0, text: "" };
    /** @type {Map<number, Pointer>} */
    this.pointers = new Map();
    /** @type {Pinch | null} */
    this.pinch = null;
    this.frame = 0;
    /** @type {Dragged | null} */
    this.dragged = null;
    /** What is said of the event at the turn where it is carried. */
    this.outcome = "";
    /** @type {{number: number, turn: number} | null} where an event was put, until the machine has
        taken it */
    this.put = null;
    this.endMoveLater = delayed(PAUSE, () => this.endMoveByKeys());
    this.listen();
    new ResizeObserver(() => this.resize()).observe(element);
  }

  listen() {
    const { element } = this;
    element.addEventListener("wheel", event => this.onWheel(event), { passive: false });
    element.addEventListener("pointerdown", event => this.onPointerDown(event));
    element.addEventListener("pointermove", event => this.onPointerMove(event));
    for (const name of /** @type {const} */ (["pointerup", "pointercancel"])) {
      element.addEventListener(name, event => this.onPointerUp(event));
    }
    element.addEventListener("keydown", event => this.onKey(event));
    element.addEventListener("keyup", event => this.onKeyUp(event));
    element.addEventListener("focusin", () => this.draw());
    element.addEventListener("focusout", () => {
      this.endMoveByKeys();
      this.draw();
    });
  }

  resize() {
    const width = this.element.clientWidth;
    if (!width || width === this.width) return;
    this.width = width;
    this.view.left = width > 640 ? LEFT_WIDE : LEFT_NARROW;
    this.view.width = width - this.view.left - RIGHT;
    this.draw();
    this.listener.onView();
  }

  /** Shows these turns.
      @param {number} first @param {number} span */
  show(first, span) {
    const most = LAST_TURN;
    this.view.span = Math.min(most, Math.max(1, span));
    this.view.first = Math.min(Math.max(0, first), most - this.view.span);
    this.draw();
    this.listener.onView();
  }

  /** @param {number} factor */
  zoom(factor, x = this.view.x(this.cursor)) {
    const { view } = this;
    const inside = x >= view.left && x <= view.left + view.width;
    const at = inside ? x : view.left + view.width / 2;
    const turn = view.turn(at);
    const span = Math.min(LAST_TURN, Math.max(1, view.span * factor));
    this.show(turn - (at - view.left) / view.width * span, span);
  }

  /** Puts the cursor at a turn, and brings it into sight unless the view is to stay.
      @param {number} turn */
  setCursor(turn, { isTold = true, keepsView = false } = {}) {
    this.cursor = Math.min(LAST_TURN, Math.max(0, Math.round(turn)));
    if (!keepsView) this.bringIntoSight(this.cursor);
    this.placeCursor();
    if (isTold) this.listener.onCursor(this.cursor);
  }

  /** @param {number} turn */
  bringIntoSight(turn) {
    const { view } = this;
    if (turn < view.first || turn > view.end) this.show(turn - view.span / 2, view.span);
  }

  placeCursor() {
    const x = this.view.x(this.cursor);
    const isSeen = x >= this.view.left - 1 && x <= this.view.left + this.view.width + 1;
    this.cursorLine.hidden = !isSeen;
    this.cursorLine.style.transform = `translateX(${x}px)`;
    this.slider.setAttribute("aria-valuenow", String(this.cursor));
    const told = this.told.turn === this.cursor && this.told.text;
    this.slider.setAttribute(
      "aria-valuetext", `before turn ${this.cursor}${told ? `; ${told}` : ""}`);
  }

  /** Says what is drawn where the cursor is.
      @param {string} text */
  tellCursor(text) {
    this.told = { turn: this.cursor, text };
    this.placeCursor();
  }

  /** Draws at the next frame, however often it is called before. */
  draw() {
    if (this.frame || !this.width) return;
    this.listener.onDraw();
    this.frame = requestAnimationFrame(() => {
      this.frame = 0;
      this.drawNow();
      this.listener.onDrawn();
    });
  }

  drawNow() {
    const { lanes, height } = lanesOf(this.words, this.tried);
    this.lanes = lanes;
    const { view, width, picture, ghost, symbols, part, same, sweep, matters } = this;
    const events = this.eventsInSight(this.past.script), target = this.targetOfTaken();
    const tick = this.target?.tick ?? null;
    this.drawing.draw({ view, lanes, height, width, picture, ghost, symbols, events, part, same,
      sweep, matters, target, tick });
    this.cursorLine.style.height = `${height}px`;
    this.marks.show(events);
    this.placeCursor();
    this.placeCarried();
  }

  /** Where the event is to be dropped that is taken by the pointer or has the focus, or null. */
  targetOfTaken() {
    const taken = this.dragged?.event.number ?? this.marks.focused;
    return this.target?.event === taken ? this.target : null;
  }

  /** What an event that is moved carries with it: its turn, and what comes of it there. */
  placeCarried() {
    const { carried, dragged, view } = this;
    carried.hidden = !dragged;
    if (!dragged) return;
    carried.textContent = [`turn ${dragged.turn}`, this.outcome].filter(Boolean).join(": ");
    const most = this.width - carried.offsetWidth - 2;
    const left = Math.min(most, view.x(dragged.turn) - carried.offsetWidth / 2);
    carried.style.left = `${Math.max(2, left)}px`;
  }

  /** Says what comes of the event at the turn where it is carried now.
      @param {string} outcome */
  tellOutcome(outcome) {
    this.outcome = outcome;
    this.placeCarried();
  }

  // Pointer and wheel

  /** @param {MouseEvent} event */
  xOf(event) {
    return event.clientX - this.element.getBoundingClientRect().left;
  }

  /** @param {WheelEvent} event */
  onWheel(event) {
    event.preventDefault();
    if (event.shiftKey || Math.abs(event.deltaX) > Math.abs(event.deltaY)) {
      const by = (event.deltaX || event.deltaY) / this.view.width * this.view.span;
      this.show(this.view.first + by, this.view.span);
    } else {
      this.zoom(Math.exp(Math.max(-100, Math.min(100, event.deltaY)) / 200), this.xOf(event));
    }
  }

  /** @param {PointerEvent} event */
  onPointerDown(event) {
    if (event.button) return;
    const mark = markAt(event);
    const cluster = mark?.matches(".cluster") ? mark : null, button = cluster ? null : mark;
    const isBox = event.shiftKey && !mark;
    const at = { x: this.xOf(event), first: this.view.first, moved: false, cluster, isBox };
    this.endMoveByKeys();
    this.pointers.set(event.pointerId, at);
    this.element.setPointerCapture(event.pointerId);
    if (button) {
      button.focus();
      this.beginMove(button, { begin: at.x });
    } else this.slider.focus({ preventScroll: true });
    if (this.pointers.size === 2) this.beginPinch();
  }

  beginPinch() {
    const [one, other] = [...this.pointers.values()];
    this.endMove(false);
    this.pinch = {
      apart: Math.max(20, Math.abs(one.x - other.x)), span: this.view.span,
      turn: this.view.turn((one.x + other.x) / 2),
    };
  }

  /** @param {PointerEvent} event */
  onPointerMove(event) {
    const at = this.pointers.get(event.pointerId);
    if (!at) return;
    const x = this.xOf(event);
    if (Math.abs(x - at.x) > FEWEST_PIXELS) at.moved = true;
    if (this.pinch) {
      at.x = x;
      this.movePinch();
    } else if (this.dragged) {
      if (at.moved) this.dragTo(x);
    } else if (at.moved && at.isBox) {
      this.showBox(at.x, x);
    } else if (at.moved) {
      this.show(at.first - (x - at.x) / this.view.width * this.view.span, this.view.span);
    }
  }

  movePinch() {
    const { pinch } = this, [one, other] = [...this.pointers.values()];
    if (!pinch) return;
    const apart = Math.max(20, Math.abs(one.x - other.x));
    const span = Math.max(1, pinch.span * pinch.apart / apart);
    const middle = (one.x + other.x) / 2;
    this.show(pinch.turn - (middle - this.view.left) / this.view.width * span, span);
  }

  /** Turns are being selected, from one pixel to another.
      @param {number} from @param {number} to */
  showBox(from, to) {
    const { box, view } = this;
    /** @param {number} x */
    const inside = x => Math.min(view.left + view.width, Math.max(view.left, x));
    const [left, right] = [Math.min(from, to), Math.max(from, to)].map(inside);
    box.hidden = false;
    box.style.left = `${left}px`;
    box.style.width = `${right - left}px`;
    box.dataset.first = String(view.turn(left));
    box.dataset.end = String(view.turn(right));
  }

  /** Shows the turns that were selected, unless that was given up.
      @param {boolean} isChosen */
  endBox(isChosen) {
    const { box } = this, { first, end } = box.dataset;
    if (box.hidden) return;
    box.hidden = true;
    if (isChosen) this.show(Number(first), Number(end) - Number(first));
  }

  /** @param {number} x */
  dragTo(x) {
    const { dragged, view } = this;
    if (!dragged) return;
    const by = Math.round((x - (dragged.begin ?? x)) / view.width * view.span);
    this.moveTo(dragged.from + by);
  }

  /** @param {PointerEvent} event */
  onPointerUp(event) {
    const at = this.pointers.get(event.pointerId);
    this.pointers.delete(event.pointerId);
    if (!at) return;
    if (this.pinch) {
      if (!this.pointers.size) this.pinch = null;
      return;
    }
    if (at.isBox && at.moved) {
      this.endBox(event.type === "pointerup");
      return;
    }
    if (this.dragged) {
      const { dragged } = this;
      this.endMove(event.type === "pointerup");
      if (!at.moved) this.listener.onOpen(dragged.event);
    } else if (!at.moved && at.cluster) this.marks.zoomTo(at.cluster);
    else if (!at.moved && at.x >= this.view.left) {
      const y = event.clientY - this.element.getBoundingClientRect().top;
      this.setCursor(this.listener.turnAt(at.x, y));
    }
  }

  // A move of an event, by the pointer or by keys

  /** @param {HTMLElement} button @param {{begin?: number, isByKeys?: boolean}} more */
  beginMove(button, more) {
    const event = this.marks.eventOf(button);
    if (!event) return;
    const turn = this.marks.turnOf(event);
    this.dragged = { event, button, from: turn, turn, ...more };
    this.outcome = "";
    button.classList.add("dragged");
    this.draw();
  }

  /** @param {number} wanted */
  moveTo(wanted) {
    const { dragged } = this;
    const turn = Math.min(LAST_TURN, Math.max(0, wanted));
    if (!dragged || turn === dragged.turn) return;
    dragged.turn = turn;
    dragged.isMoved = true;
    this.outcome = "";
    this.marks.placeMark(dragged.button, dragged.event, turn);
    this.listener.onDrag(dragged.event, turn);
    this.draw();
  }

  /** Ends a move: the event stays where it is now, or goes back. */
  async endMove(stays = true) {
    const { dragged } = this;
    if (!dragged) return;
    this.dragged = null;
    dragged.button.classList.remove("dragged");
    this.draw();
    if (!dragged.isMoved) return;
    const { event, turn, from } = dragged;
    const put = { number: event.number, turn: stays ? turn : from };
    this.put = put;
    await this.listener.onDrop(event, put.turn === from ? null : put.turn);
    if (this.put === put) this.put = null;
    this.draw();
  }

  endMoveByKeys() {
    if (this.dragged?.isByKeys) this.endMove();
  }

  // Keys

  /** @param {KeyboardEvent} event */
  onKey(event) {
    if (event.key === "Escape") {
      this.box.hidden = true;
      return this.endMove(false);
    }
    if (event.altKey || event.ctrlKey || event.metaKey) return this.onMarkKey(event);
    const button = markAt(event);
    if (button && (event.key === "Enter" || event.key === " ")) {
      event.preventDefault();
      const opened = this.marks.eventOf(button);
      if (button.matches(".cluster")) this.marks.zoomTo(button);
      else if (opened) this.listener.onOpen(opened);
      return undefined;
    }
    if (button && this.isDeleted(button, event.key)) {
      event.preventDefault();
      return undefined;
    }
    const isDone = this.listener.onKey(event.key) || this.act(event.key, event.shiftKey);
    if (isDone) event.preventDefault();
    return undefined;
  }

  /** Delete takes out the event of a mark; the focus goes to the timeline.
      @param {HTMLElement} button @param {string} key */
  isDeleted(button, key) {
    if (!["Delete", "Backspace"].includes(key) || button.matches(".cluster")) return false;
    const event = this.marks.eventOf(button);
    if (!event) return false;
    this.endMove(false);
    this.slider.focus({ preventScroll: true });
    this.listener.onDelete(event);
    return true;
  }

  /** Alt with an arrow moves the event whose mark has the focus by a turn, with shift by 64.
      @param {KeyboardEvent} event */
  onMarkKey(event) {
    const button = markAt(event);
    const direction = event.key === "ArrowLeft" ? -1 : event.key === "ArrowRight" ? 1 : 0;
    if (!button || button.matches(".cluster") || !direction || !event.altKey) return;
    event.preventDefault();
    this.endMoveLater.cancel();
    if (!this.dragged) this.beginMove(button, { isByKeys: true });
    const { dragged } = this;
    if (!dragged?.isByKeys) return;
    this.moveTo(dragged.turn + direction * stepOf(event.shiftKey));
    this.bringIntoSight(dragged.turn);
  }

  /** A key that is held, or struck again soon, goes on with the same move.
      @param {KeyboardEvent} event */
  onKeyUp(event) {
    if (event.key === "Alt") this.endMoveByKeys();
    else this.endMoveLater();
  }

  /** What a key does to the cursor or the turns in sight. Returns whether it does anything.
      @param {string} key */
  act(key, isShifted = false) {
    const step = stepOf(isShifted);
    const screen = Math.max(1, Math.round(this.view.span));
    /** @type {Object<string, number>} */
    const places = {
      ArrowLeft: this.cursor - step, ArrowRight: this.cursor + step,
      PageUp: this.cursor - screen, PageDown: this.cursor + screen, Home: 0, End: this.whole,
    }, cursor = places[key];
    if (cursor !== undefined) this.setCursor(cursor);
    else if (key === "+" || key === "=") this.zoom(0.5);
    else if (key === "-") this.zoom(2);
    else if (key === "0") this.show(0, this.whole);
    else return false;
    return true;
  }
}
