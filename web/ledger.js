// The one ledger of edits: those that the program took, the past that they made as the program told
// it, and what the user did with them.

import { PAST_LINES, Past, isEdit, linesThatTell, wordsOfLine } from "./past.js";
import { LAST_TURN } from "./replies.js";

/**
 * An edit that the program took, with its reply, and the first turn that it may change.
 * @typedef {{line: string, reply: string, turn: number}} Taken
 */

/**
 * An edit of the user, the number of the event that it made, and how many edits were taken before
 * it.
 * @typedef {{line: string, event: string | undefined, before: number}} Edit
 */

/**
 * What is switched off, and how much of what the user did comes before it.
 * @typedef {{change: Edit[], place: number}} Off
 */

// The last number that the program can give to an event.
const LAST_NUMBER = 4_294_967_295;

/** An edit in which the number of an event is another one, if it names this one.
    @param {string} line @param {string} number @param {string} given */
export const renumbered = (line, number, given) => line.replace(/^(alter|drop) (\d+)/,
  (all, verb, named) => named === number ? `${verb} ${given}` : all);

/** The number of the event that an edit makes or names, or 0.
    @param {Edit} edit */
const numberIn = ({ line, event }) =>
  Number(event ?? /^(?:alter|drop) (\d+)/.exec(line)?.[1] ?? 0);

export class Ledger {
  constructor() {
    /** @type {Taken[]} the edits that the program took, without those that it took back */
    this.taken = [];
    /** @type {Taken[]} those that it took back, of which the last is made again by `redo` */
    this.takenBack = [];
    /** How many edits made another past. */
    this.pasts = 0;
    /** The past as the program told it last, and the lines that tell it otherwise by now. */
    this.past = new Past();
    /** @type {Set<string>} */
    this.untold = new Set(PAST_LINES);
    /** The first turn into which an edit has put an event since then. */
    this.lowest = LAST_TURN;
    /** @type {Edit[][]} what the user did, each as its edits: one undo takes all of them back */
    this.changes = [];
    /** @type {Edit[][]} what was undone, the last of it first made again */
    this.undone = [];
    /** @type {Off[]} */
    this.off = [];
    /** @type {Edit | null} the edit that is tried, and not yet one of the user's */
    this.tried = null;
  }

  /** The edits that make the past, as lines of a session. */
  get lines() {
    return this.taken.map(it => it.line);
  }

  /** The program took an edit, took one back or made it again. Returns the first turn that this
      may change.
      @param {string} line @param {string} reply */
  note(line, reply) {
    const isUndo = wordsOfLine(line)[0] === "undo", { taken, takenBack } = this;
    const again = isEdit(line) ? null : (isUndo ? taken : takenBack).pop() ?? null;
    const edit = again ?? { line, reply, turn: this.firstTurnOf(line) };
    this.pasts += 1;
    for (const it of linesThatTell(edit.line)) this.untold.add(it);
    if (again) this.lowest = Math.min(this.lowest, again.turn);
    else this.takenBack = [];
    (isUndo ? takenBack : taken).push(edit);
    return edit.turn;
  }

  /** The first turn that an edit may change.
      @param {string} line */
  firstTurnOf(line) {
    const [word, first, second] = wordsOfLine(line);
    // an event that isn't told yet, or was moved since, may be in the lowest turn
    const before = Math.min(this.lowest, this.past.events.get(Number(first))?.turn ?? LAST_TURN);
    const turns = word === "at" ? [Number(first)] : word === "alter" ? [Number(second), before]
      : word === "drop" ? [before] : [0];
    if (word !== "drop") this.lowest = Math.min(this.lowest, turns[0]);
    return Math.min(...turns);
  }

  /** The program told what edits have changed.
      @param {string[]} lines @param {string[]} replies */
  tell(lines, replies) {
    const tape = this.lines.filter(it => it.trimStart().startsWith("tape")).at(-1) ?? null;
    this.past = this.past.told(lines, replies, tape);
    this.untold.clear();
    this.lowest = LAST_TURN;
  }

  /** Begins anew for a machine that has taken nothing. Returns the edits that it is to take. */
  restart() {
    const { lines } = this;
    this.taken = [];
    this.takenBack = [];
    this.untold = new Set(PAST_LINES);
    return lines;
  }

  /** The user made an edit. One that joins is undone with the one before it.
      @param {Edit} edit @param {boolean} joins */
  add(edit, joins) {
    this.undone = [];
    if (edit.event) this.give(edit.event);
    const last = this.changes.at(-1);
    if (joins && last) last.push(edit);
    else this.changes.push([edit]);
  }

  /** The user made edits at once.
      @param {Edit[]} edits */
  addAll(edits) {
    if (!edits.length) return;
    this.undone = [];
    this.changes.push(edits);
  }

  /** All that the user did: what is in the past, what was undone, and what is off. */
  get edits() {
    return [...this.changes, ...this.undone, ...this.off.map(it => it.change)].flat();
  }

  /** The program gives an event this number. What isn't in the past, and named it so, gets another
      one, which the program gives to none.
      @param {string} number */
  give(number) {
    const { edits } = this, names = new RegExp(`^(alter|drop) ${number}\\b`);
    if (!edits.some(it => it.event === number || names.test(it.line))) return;
    const last = edits.reduce((most, it) => Math.max(most, numberIn(it)), LAST_NUMBER);
    this.renumber(number, String(last + 1));
  }

  /** An event that is made again has a new number: edits to be undone or made again name that one.
      @param {string} number @param {string} given */
  renumber(number, given) {
    for (const edit of this.edits) {
      edit.line = renumbered(edit.line, number, given);
      if (edit.event === number) edit.event = given;
    }
  }
}
