// Tells what is drawn: under the pointer, of the mark that has the focus, and of the thing to which
// a key went. Of a write it is asked which instruction made it.

import { thingAt, thingFrom, thingsOf } from "./things.js";
import { octal, registersOf, turnsOf } from "./replies.js";
import { Priority } from "./run.js";
import { symbolAt } from "./session.js";
import { explained } from "./signs.js";

/**
 * What is told: how it begins, all of it, and whether who made it is asked.
 * @typedef {{begin: string, text: string, isAsked: boolean}} Told
 * @typedef {import("./app.js").App} App
 * @typedef {import("./timeline.js").Timeline} Timeline
 * @typedef {import("./picture.js").Picture} Picture
 * @typedef {import("./things.js").Thing} Thing
 * @typedef {{thing: Thing, isThere: boolean, isOld: boolean}} Touched
 */

/** The element at which an event is, if it is at one.
    @param {Event} event */
const elementAt = ({ target }) => target instanceof Element ? target : null;

export class Tips {
  /** @param {HTMLElement} place @param {Timeline} timeline @param {App} app */
  constructor(place, timeline, app) {
    this.place = place;
    this.timeline = timeline;
    this.app = app;
    /** @type {Told | null} what is told */
    this.told = null;
    /** @type {[number, number]} where it is told */
    this.where = [0, 0];
    /** @type {string | null} the lane whose things keys go to, or null: all but those of PC */
    this.lane = null;
    const { element } = timeline;
    /** Whether the pointer was used last, and no key: then the focus tells nothing. */
    this.isByPointer = false;
    element.addEventListener("pointerdown", () => { this.isByPointer = true; });
    addEventListener("keydown", () => { this.isByPointer = false; });
    /** @param {PointerEvent} event */
    const onPointer = event => this.onPointer(event);
    element.addEventListener("pointermove", onPointer);
    element.addEventListener("pointerleave", () => this.hide());
    /** @param {FocusEvent} event */
    const onFocus = event => this.onFocus(event);
    element.addEventListener("focusin", onFocus);
    element.addEventListener("focusout", () => this.hide());
  }

  /** The thing at a place of the timeline: of the past as it is, or of the old one.
      @param {number} x @param {number} y @returns {Touched | null} */
  at(x, y) {
    const { timeline } = this, { view, symbols } = timeline;
    const lane = this.laneAt(y);
    if (!lane || x < view.left || x > view.left + view.width) return null;
    /** @param {Picture | null} picture */
    const touched = picture => thingAt(lane, thingsOf(lane, picture, symbols), view, x);
    const now = touched(timeline.picture), old = now ? null : touched(timeline.ghost);
    return now ? { ...now, isOld: false } : old && { ...old, isOld: true };
  }

  /** The turn to which a click goes.
      @param {number} x @param {number} y */
  turnAt(x, y) {
    const found = this.at(x, y);
    return found?.isThere ? found.thing.goTo : this.timeline.view.turn(x);
  }

  /** @param {PointerEvent} event */
  onPointer(event) {
    const { timeline } = this, isOther = elementAt(event)?.closest("button");
    if (isOther || timeline.pointers.size || event.pointerType === "touch") return this.hide();
    const { left, top } = timeline.element.getBoundingClientRect();
    const [x, y] = [event.clientX - left, event.clientY - top], found = this.at(x, y);
    if (x < timeline.view.left) return this.explain(x, y);
    return found ? this.tell(found, x, y + 16) : this.hide();
  }

  /** Says what the lane is whose name the pointer is at.
      @param {number} x @param {number} y */
  explain(x, y) {
    const lane = this.laneAt(y);
    this.told = null;
    if (lane) this.show(explained(lane), x, y + 16);
  }

  /** @param {number} y */
  laneAt(y) {
    return this.timeline.lanes?.find(it => y >= it.top && y < it.top + it.height);
  }

  /** @param {FocusEvent} event */
  onFocus(event) {
    /** @type {HTMLElement | null | undefined} */
    const mark = elementAt(event)?.closest("button.mark");
    if (!mark || this.isByPointer) return;
    this.told = null;
    this.show(mark.getAttribute("aria-label") ?? "", mark.offsetLeft, mark.offsetTop + 30);
  }

  /** Tells of a thing, and of a write which instruction made it once that is known.
      @param {{thing: Thing, isOld: boolean}} found @param {number} x @param {number} y */
  async tell({ thing, isOld }, x, y) {
    const text = `${isOld ? `${this.app.pasts.inWords()}: ` : ""}turn ${thing.turn}: ${thing.text}`;
    if (this.told?.begin !== text) this.told = { begin: text, text, isAsked: false };
    const { told } = this;
    this.show(told.text, x, y);
    if (!thing.isWrite || isOld || told.isAsked) return;
    told.isAsked = true;
    const maker = await this.makerOf(thing.goTo);
    if (!maker || this.told !== told) return;
    told.text = `${text}, ${maker}`;
    if (!this.place.hidden) this.show(told.text, ...this.where);
  }

  /** The instruction of a turn, by its place, such as `at CLERK+12 (user 000012)`; an empty text if
      the turn has none.
      @param {number} turn */
  async makerOf(turn) {
    const { app, timeline } = this, token = app.token("tip");
    let found = "";
    await app.attempt(async () => {
      const lines = [`trail ${turn + 1} 1`, `regs ${turn}`];
      const [trail, registers] = await app.session.run.ask(lines, Priority.QUESTION, token);
      const [{ pc, act }] = turnsOf(trail), { mode } = registersOf(registers);
      if (act !== "instr") return;
      const symbol = symbolAt(timeline.symbols, mode, pc);
      const place = `${mode} ${octal(pc)}`;
      found = symbol ? `at ${symbol} (${place})` : `at ${place}`;
    });
    return found;
  }

  /** @param {string} text @param {number} x @param {number} y */
  show(text, x, y) {
    const { place, timeline } = this;
    this.where = [x, y];
    place.textContent = text;
    place.hidden = false;
    const most = timeline.width - place.offsetWidth - 2;
    place.style.left = `${Math.max(2, Math.min(x + 8, most))}px`;
    const lowest = timeline.element.clientHeight - place.offsetHeight - 2;
    place.style.top = `${Math.max(2, Math.min(y, lowest))}px`;
  }

  hide() {
    this.place.hidden = true;
  }

  // Keys

  /** What a key does to the lane that is chosen, or to the cursor. Returns whether it does so.
      @param {string} key */
  act(key) {
    /** @type {Object<string, () => void>} */
    const acts = {
      ArrowUp: () => this.chooseLane(-1), ArrowDown: () => this.chooseLane(1),
      n: () => this.goOn(1), p: () => this.goOn(-1),
    };
    const act = acts[key];
    act?.();
    return act !== undefined;
  }

  /** The lanes that have things, each with them. */
  lanesWithThings() {
    const { lanes = [], picture, symbols } = this.timeline;
    return lanes.map(lane => ({ lane, things: thingsOf(lane, picture, symbols) }))
      .filter(it => it.things.length);
  }

  /** Chooses the lane above or below, for the keys that go to things.
      @param {number} by */
  chooseLane(by) {
    const lanes = this.lanesWithThings().map(it => it.lane);
    if (!lanes.length) return;
    const at = lanes.findIndex(it => it.name === this.lane);
    const next = lanes[at < 0 ? 0 : Math.min(lanes.length - 1, Math.max(0, at + by))];
    this.lane = next.name;
    this.told = null;
    this.show(explained(next), 0, next.top);
    this.timeline.tellCursor(`lane ${explained(next)}`);
  }

  /** Goes to the next thing, or with -1 to the one before.
      @param {number} direction */
  async goOn(direction) {
    const { timeline } = this;
    const found = this.lanesWithThings()
      .filter(({ lane }) => this.lane ? lane.name === this.lane : lane.kind !== "counter")
      .flatMap(({ lane, things }) => {
        const thing = thingFrom(things, timeline.cursor, direction);
        return thing ? [{ lane, thing }] : [];
      })
      .sort((a, b) => direction * (a.thing.goTo - b.thing.goTo))[0];
    if (!found) return;
    const { lane, thing } = found;
    timeline.setCursor(thing.goTo);
    const told = this.tell({ thing, isOld: false },
      timeline.view.x(thing.turn), lane.top + lane.height);
    timeline.tellCursor(this.told?.text ?? "");
    await told;
    if (timeline.cursor === thing.goTo) timeline.tellCursor(this.told?.text ?? "");
  }
}
