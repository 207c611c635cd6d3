// The console's text up to the session's last turn, with what differs from the old past marked.

import { markTurn, stateOf } from "./cursor.js";
import { marked } from "./differences.js";
import { element } from "./page.js";
import { lengthOf, readableText, shownBytes, tailOf } from "./replies.js";
import { Priority } from "./run.js";

const MOST_TEXT = 40_000;

/** The text of a reply of `text`, of a long one its end.
    @param {string} reply */
function shownText(reply) {
  const { bytes, isCut } = tailOf(reply, MOST_TEXT);
  return { text: readableText(bytes), count: bytes.length, isCut, bytes };
}

/**
 * The text of the old past, and the turn before which it is.
 * @typedef {{end: number, text: string, count: number, isCut: boolean}} OldText
 */

export class ConsoleText {
  /** @param {import("./app.js").App} app */
  constructor(app) {
    this.app = app;
    /** @type {OldText | null} */
    this.old = null;
    /** @type {import("./cursor.js").Shown | null} of which turn and past the text is */
    this.shown = null;
    /** @type {number[]} the numbers of the bytes that are shown */
    this.numbers = [];
  }

  sessionBegins() {
    this.forgetOld();
  }

  /** Another past is the old one. */
  forgetOld() {
    this.old = null;
  }

  pastChanged() {
    this.ask();
  }

  tabOpened() {
    if (this.isStale()) this.ask();
  }

  /** Asks for the text if it is seen, and for that of the old past if that isn't known up to this
      turn. */
  ask() {
    const { app } = this, { run, old, oldIsLoaded, end } = app.session;
    const token = app.token("text");
    const priority = run.isNear(end) ? Priority.CURSOR : Priority.TEXT;
    /** @param {import("./run.js").Run} it */
    const textOf = it => it.askOne(`text ${end}`, priority, token);
    this.mark();
    if (!app.dock.isSeen("console")) return;
    app.attempt(async () => {
      const reply = await textOf(run);
      if (!old) this.old = { end, ...shownText(reply) };
      this.show(reply);
      if (!old || this.old?.end === end) return;
      await oldIsLoaded;
      this.old = { end, ...shownText(await textOf(old)) };
      this.show(reply);
    });
  }

  /** Says of which turn and past the text is. */
  mark() {
    const { run, end } = this.app.session;
    markTurn(element("text-turn"), this.shown, stateOf(run, end));
  }

  /** The number of the byte that is shown as a character.
      @param {number} at the number of the character */
  numberOfByte(at) {
    return this.numbers[at] ?? null;
  }

  /** Whether the text is of another turn or past than the one that is asked for. */
  isStale() {
    return element("text-turn").classList.contains("stale");
  }

  /** The text that is shown is that of an event in another turn than it is in now. */
  isOld() {
    if (this.shown) this.shown = { ...this.shown, pasts: -1 };
    this.mark();
  }

  /** @param {string} reply */
  show(reply) {
    const { app: { session }, old } = this;
    const { text, count, isCut, bytes } = shownText(reply), first = lengthOf(reply) - count;
    this.numbers = shownBytes(bytes).map(it => first + it);
    const isCompared = old?.end === session.end && !isCut && !old.isCut;
    const unmarked = session.old && !isCompared ? "; what differs isn't marked" : "";
    const more = isCut ? `, its last ${count} bytes${unmarked}` : "";
    this.shown = { ...stateOf(session.run, session.end), more };
    element("text").replaceChildren(...marked(text, isCompared ? old.text : text));
    this.mark();
  }
}
