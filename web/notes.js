// Notes: what the user, or the session in comments `# note 127131 the tick came`, says of turns.
// Each is of one past, and in another one it is marked so. They are pins on the timeline, and a
// list.

import { sumOf } from "./kept.js";
import { element, field, make, onSubmit } from "./page.js";
import { Pins } from "./pins.js";
import { LAST_TURN, visibleName } from "./replies.js";
import { readableLine } from "./session.js";

const NOTE = /^# note (\d{1,10}) (\S.*)$/;
// A line has at most 200 bytes, with what stands before the text.
const [MOST_BYTES, MOST_NOTES] = [180, 256];

/**
 * What is said of a turn, and the sum of the past of which it is said.
 * @typedef {{turn: number, text: string, of: string}} Note
 */

/** @param {import("./past.js").Past} past */
export const sumOfPast = past => sumOf([past.lines().join("\n")]);

/** Notes in the order of their turns.
    @param {Note[]} notes */
const inOrder = notes => [...notes].sort((a, b) => a.turn - b.turn).slice(0, MOST_NOTES);

/** The notes in a session, of the past that it makes.
    @param {{lines: string[]}} session @param {import("./past.js").Past} past */
export function notesOfSession({ lines }, past) {
  const of = sumOfPast(past);
  return inOrder(lines.flatMap(line => {
    const [, turn, text] = NOTE.exec(line) ?? [];
    if (!turn || Number(turn) > LAST_TURN) return [];
    return [{ turn: Number(turn), text: visibleName(readableLine(text)), of }];
  }));
}

/** The notes that are kept, if they are as this page keeps them.
    @param {any} kept @returns {Note[] | null} */
export function notesKept(kept) {
  if (!Array.isArray(kept)) return null;
  const areRight = kept.every(it => Number.isSafeInteger(it?.turn) && it.turn >= 0
    && it.turn <= LAST_TURN && typeof it.text === "string" && typeof it.of === "string");
  return areRight ? inOrder(kept.map(({ turn, text, of }) =>
    ({ turn, text: visibleName(text).slice(0, MOST_BYTES), of }))) : null;
}

export class Notes {
  /** @param {import("./app.js").App} app */
  constructor(app) {
    this.app = app;
    /** @type {Note[]} */
    this.notes = [];
    /** @type {Note[]} those of the session */
    this.begun = [];
    /** The sum of the past as it is now. */
    this.sum = "";
    this.pins = new Pins(app, "pins");
    onSubmit("note-form", () => this.add(field("note-text").value.trim()));
  }

  sessionBegins() {
    const { contents, begun: { past } } = this.app.session;
    this.begun = notesOfSession(contents, past);
    this.notes = this.begun;
  }

  /** Takes the notes that were kept, if any were.
      @param {any} kept */
  take(kept) {
    this.notes = notesKept(kept) ?? this.begun;
  }

  /** The notes as they are kept: those of the session alone aren't.
      @returns {Note[] | undefined} */
  kept() {
    const isSame = JSON.stringify(this.notes) === JSON.stringify(this.begun);
    return isSame ? undefined : this.notes;
  }

  /** The lines of a session that have the notes. One of another past says so. */
  lines() {
    return this.notes.map(it => {
      const more = this.isOf(it) ? "" : " (of another past)";
      return `# note ${it.turn} ${it.text}${it.text.endsWith(more) ? "" : more}`;
    });
  }

  pastChanged() {
    this.sum = sumOfPast(this.app.session.run.past);
    this.show();
  }

  cursorMoved() {
    this.showTurn();
  }

  /** Whether a note is of the past as it is now.
      @param {Note} note */
  isOf({ of }) {
    return of === this.sum;
  }

  /** Pins a note to the cursor's turn.
      @param {string} text */
  add(text) {
    const { app, notes } = this, { cursor: turn } = app.view.timeline;
    const length = new TextEncoder().encode(text).length;
    if (length > MOST_BYTES) app.say(`A note has at most ${MOST_BYTES} bytes, and this ${length}.`);
    else if (notes.length === MOST_NOTES) app.say(`There are ${MOST_NOTES} notes already.`);
    else if (text) {
      field("note-text").value = "";
      this.change([...notes, { turn, text: visibleName(text), of: this.sum }]);
      app.say(`Noted at turn ${turn}.`);
    }
  }

  /** Goes to where a note is written. */
  write() {
    this.app.dock.bring("note-text");
    field("note-text").focus();
  }

  /** Takes a note away. Its text is in the field, from which it can be pinned again.
      @param {Note} note */
  drop(note) {
    field("note-text").value = note.text;
    this.change(this.notes.filter(it => it !== note));
  }

  /** @param {Note[]} notes */
  change(notes) {
    this.notes = inOrder(notes);
    this.app.edits.show();
    this.show();
    this.app.view.timeline.draw();
  }

  /** What a note says, and if it is of another past.
      @param {Note} note */
  textOf(note) {
    return `${note.text}${this.isOf(note) ? "" : " (of another past)"}`;
  }

  /** @param {Note} note */
  linkTo(note) {
    const text = this.textOf(note);
    const found = this.app.linkTo(note.turn, text);
    // what happened in the story may have the same text
    found.setAttribute("aria-label", `Turn ${note.turn}: ${text}`);
    return found;
  }

  show() {
    element("note-list").replaceChildren(...this.notes.map(it => make("li",
      { class: this.isOf(it) ? "" : "off" }, make("small", {}, `turn ${it.turn}`), this.linkTo(it),
      make("button", { type: "button", class: "link", title: "Take the note away",
        "aria-label": `Take away: ${it.text}`, onclick: () => this.drop(it) }, "\u2715"))));
    this.app.story.showNotes(this.notes);
    this.showTurn();
    this.draw();
  }

  /** What is noted of the cursor's turn. */
  showTurn() {
    const { cursor } = this.app.view.timeline;
    element("noted").textContent = this.notes.filter(it => it.turn === cursor)
      .map(it => `\u2691 ${this.textOf(it)}`).join("; ");
  }

  /** Puts a pin at each note in sight. */
  draw() {
    this.pins.show(this.notes.map(it => ({
      turn: it.turn, text: "\u2691", said: `Note at turn ${it.turn}: ${this.textOf(it)}`,
      kind: this.isOf(it) ? "pin link" : "pin link old",
    })));
  }
}
