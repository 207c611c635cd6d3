// The whole run in a strip below the lanes: its events, what was looked at, and what is in sight,
// which the pointer and keys move.

import { Brush } from "./brush.js";
import { LAST_TURN } from "./replies.js";

const HEIGHT = 26;
// Looks at this many stretches of turns are kept.
const MOST_STRETCHES = 500;

/**
 * Turns that were looked at, each of them or samples.
 * @typedef {{first: number, end: number, isWhole: boolean}} Stretch
 * @typedef {import("./picture.js").Picture} Picture
 */

/** Adds a stretch; those of the same kind that it meets become one.
    @param {Stretch[]} stretches
    @param {Stretch} stretch */
export function withStretch(stretches, { first, end, isWhole }) {
  /** @param {Stretch} it */
  const meets = it => it.isWhole === isWhole && it.first <= end && it.end >= first;
  const met = stretches.filter(meets);
  const joined = {
    first: Math.min(first, ...met.map(it => it.first)),
    end: Math.max(end, ...met.map(it => it.end)), isWhole,
  };
  return [...stretches.filter(it => !meets(it)), joined].slice(-MOST_STRETCHES);
}

export class Minimap {
  /** @param {HTMLElement} place @param {import("./timeline.js").Timeline} timeline */
  constructor(place, timeline) {
    this.place = place;
    this.timeline = timeline;
    this.canvas = /** @type {HTMLCanvasElement} */ (place.querySelector("canvas"));
    this.pen = /** @type {CanvasRenderingContext2D} */ (this.canvas.getContext("2d"));
    /** @type {Stretch[]} */
    this.stretches = [];
    place.addEventListener("pointerdown", event => {
      place.setPointerCapture(event.pointerId);
      this.goTo(event);
    });
    place.addEventListener("pointermove", event => event.buttons & 1 && this.goTo(event));
    place.addEventListener("keydown", event => this.onKey(event));
  }

  /** Another session is open, or another past. */
  forget() {
    this.stretches = [];
  }

  /** A picture was made: its turns were looked at.
      @param {Picture} picture */
  note({ first, end, step }) {
    this.stretches = withStretch(this.stretches, { first, end, isWhole: step === 1 });
  }

  /** Where a turn is in the strip.
      @param {number} turn */
  x(turn) {
    const { view, whole } = this.timeline;
    return view.left + Math.min(1, turn / Math.max(1, whole)) * view.width;
  }

  /** Brings what lies under the pointer into the middle of what is in sight.
      @param {PointerEvent} event */
  goTo(event) {
    const { timeline } = this, { view, whole } = timeline;
    const x = event.clientX - this.place.getBoundingClientRect().left;
    const turn = (x - view.left) / view.width * whole;
    timeline.show(Math.min(whole, Math.max(0, turn)) - view.span / 2, view.span);
  }

  /** @param {KeyboardEvent} event */
  onKey(event) {
    const { timeline } = this, { view } = timeline, step = view.span / 4;
    /** @type {Object<string, number>} */
    const places = {
      ArrowLeft: view.first - step, ArrowRight: view.first + step, ArrowDown: view.first - step,
      ArrowUp: view.first + step, PageUp: view.first - view.span, PageDown: view.first + view.span,
      Home: 0, End: timeline.whole - view.span,
    }, first = places[event.key];
    if (first === undefined || event.altKey || event.ctrlKey || event.metaKey) return;
    event.preventDefault();
    event.stopPropagation();
    timeline.show(first, view.span);
  }

  draw() {
    const { canvas, pen, place, timeline } = this, { view, width, whole, past } = timeline;
    const brush = new Brush(canvas, pen, { view, width, height: HEIGHT });
    this.drawStretches(brush);
    this.drawEvents(brush, past.script);
    this.drawSight(brush);
    const first = Math.max(0, Math.floor(view.first));
    const end = Math.min(LAST_TURN, Math.ceil(view.end));
    place.setAttribute("aria-valuemax", String(Math.max(whole, first)));
    place.setAttribute("aria-valuenow", String(first));
    place.setAttribute("aria-valuetext", `turns ${first} to ${end} of ${whole}`);
  }

  /** @param {Brush} brush */
  drawStretches({ pen, colours, view }) {
    pen.fillStyle = colours.grid;
    pen.fillRect(view.left, 12, view.width, 2);
    for (const { first, end, isWhole } of this.stretches) {
      pen.globalAlpha = isWhole ? 0.7 : 0.25;
      pen.fillStyle = colours.counter;
      pen.fillRect(this.x(first), 9, Math.max(1, this.x(end) - this.x(first)), 8);
    }
    pen.globalAlpha = 1;
  }

  /** @param {Brush} brush @param {{turn: number}[]} script */
  drawEvents({ pen, colours }, script) {
    pen.fillStyle = colours.key;
    let free = 0;
    for (const { turn } of script) {
      const x = this.x(turn);
      if (x < free) continue;
      pen.fillRect(x, 19, 1, 5);
      free = x + 1;
    }
  }

  /** @param {Brush} brush */
  drawSight(brush) {
    const { pen, colours, view } = brush, { cursor } = this.timeline;
    const left = this.x(Math.max(0, view.first)), right = Math.max(left + 3, this.x(view.end));
    pen.strokeStyle = colours.accent;
    pen.lineWidth = 2;
    pen.strokeRect(left, 3, right - left, 20);
    pen.fillStyle = colours.bad;
    pen.fillRect(this.x(cursor) - 0.5, 3, 1, 20);
    brush.text(6, 17, "whole run", "faint", view.left - 10);
  }
}
