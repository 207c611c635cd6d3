// What the program keeps of a run, as far as the page knows: up to which turn it ran, where it is
// now, and what it printed. Of a machine that is new it keeps nothing.

import { wordsOfLine } from "./past.js";
import { isFullList, turnsAsked } from "./questions.js";

// Checkpoints are so many turns apart at first. Twice as many if there would be too many of them.
const [FIRST_STRIDE, MOST_CHECKPOINTS] = [10_000, 256];

export class Reached {
  constructor() {
    /** Up to which turn it ran. */
    this.known = 0;
    /** The turn at which it is. */
    this.at = 0;
    /** How many bytes of the console's text it has. */
    this.printed = 0;
    /** How many turns its checkpoints are apart. */
    this.stride = FIRST_STRIDE;
  }

  /** What a question that was answered leaves known.
      @param {string} line @param {string} reply */
  learn(line, reply) {
    const [begin, end] = turnsAsked(line);
    // how far `fades` ran isn't said
    if (end === 0 || wordsOfLine(line)[0] === "fades") return;
    const [, printed] = /^text ([1-9]\d*):/.exec(reply) ?? [], [, , , from = 0] = wordsOfLine(line);
    if (printed) this.printed = Math.max(this.printed, Number(from) + Number(printed));
    // a search may have ended before its last turn
    this.at = /^(first|change) \d/.test(reply) || isFullList(reply) ? begin : end;
    this.known = Math.max(this.known, this.at);
    while (this.known >= MOST_CHECKPOINTS * this.stride) this.stride *= 2;
  }

  /** An edit may have changed the turns from one on.
      @param {number} turn */
  forgetFrom(turn) {
    this.known = Math.min(this.known, turn);
    this.printed = 0;
  }

  /** About how many turns the program runs from one to another, by its checkpoints.
      @param {number} at @param {number} turn */
  turnsToRun(at, turn) {
    const known = Math.min(this.known, turn);
    const checkpoint = known - known % this.stride;
    return turn - (at <= known ? Math.max(at, checkpoint) : checkpoint);
  }

  /** The first checkpoint at a turn or after it.
      @param {number} turn */
  checkpointFrom(turn) {
    return Math.ceil(turn / this.stride) * this.stride;
  }
}
