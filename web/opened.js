// The session that is open: what its machine is made of, the run of it, and the past with which the
// run is compared.

import { Run } from "./run.js";
import { lastTurnOf } from "./session.js";
import { storyOf } from "./story.js";
import { symbolsOfSession } from "./symbols.js";

const FEWEST_TURNS = 1_000;

/**
 * @typedef {import("./session.js").Session} Session
 * @typedef {import("./pasts.js").NamedPast} NamedPast
 * @typedef {import("./work.js").WorkBar} WorkBar
 */

/** A machine of a session that has taken nothing; the bar says how far it is.
    @param {Session} contents @param {WorkBar} bar */
export function newRun({ arguments: words, files }, bar) {
  /** @type {Run} */
  const run = new Run({ arguments: words, files }, it => bar.show(run, it));
  return run;
}

export class OpenSession {
  /**
   * @param {Session} contents
   * @param {Run} run has taken up the lines
   * @param {Set<number>} refused the numbers of the lines that it refused
   * @param {WorkBar} bar
   */
  constructor(contents, run, refused, bar) {
    this.contents = contents;
    this.run = run;
    this.bar = bar;
    /** @type {NamedPast} */
    this.begun = { name: "as it was opened", lines: run.ledger.lines, past: run.past };
    /** The past with which the one now is compared: as it was opened, or what is chosen. */
    this.base = this.begun;
    /** @type {Run | null} that past on a machine of its own, once it may be another one */
    this.old = null;
    this.oldIsLoaded = Promise.resolve();
    const taken = contents.lines.filter((_, at) => !refused.has(at + 1));
    /** The turn up to which the run is shown. */
    this.end = Math.max(run.past.script.at(-1)?.turn ?? 0, lastTurnOf(taken)) || FEWEST_TURNS;
    this.symbols = symbolsOfSession(contents);
    const { story, wrong } = storyOf(contents, this.end);
    this.story = story;
    /** Lines of a story that can't be read. */
    this.wrong = wrong;
  }

  /** Another machine of the session that has taken nothing. */
  newRun() {
    return newRun(this.contents, this.bar);
  }

  /** Whether the past may be another one than the old past. */
  get isEdited() {
    return this.base !== this.begun || this.run.ledger.changes.length > 0;
  }

  /** Begins to load the old past, if it isn't there. Returns what that takes, or null. */
  loadOld() {
    if (this.old) return null;
    this.old = this.newRun();
    this.oldIsLoaded = this.old.takeUp(this.base.lines);
    return this.oldIsLoaded;
  }

  /** Takes another past as the old one; it isn't loaded yet.
      @param {NamedPast} base */
  compareWith(base) {
    this.base = base;
    this.old?.end();
    this.old = null;
  }

  /** Ends the questions that its machines are at. */
  stop() {
    this.run.stop();
    this.old?.stop();
  }

  /** Another session takes its place. */
  close() {
    this.run.end();
    this.old?.end();
    this.old = null;
  }
}
