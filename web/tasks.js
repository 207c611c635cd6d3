// Work under way: what is given up when other work of its kind begins, and how the page says why
// some failed.

import { Ended, Stopped } from "./machine.js";
import { FileError } from "./options.js";
import { element } from "./page.js";
import { WrongReply } from "./replies.js";

/**
 * What gives up work that has it, once it is stopped.
 * @typedef {{isStopped: boolean}} Token
 */

export class Tasks {
  constructor() {
    /** How many are under way. */
    this.count = 0;
    /** @type {Map<string, Token>} by the kind of work, the token that was given last */
    this.tokens = new Map();
  }

  /** A token for work of a kind: what was under way of this kind is given up.
      @param {string} kind @returns {Token} */
  token(kind) {
    const before = this.tokens.get(kind), token = { isStopped: false };
    if (before) before.isStopped = true;
    this.tokens.set(kind, token);
    return token;
  }

  /** Gives up all that has a token. */
  giveUp() {
    for (const it of this.tokens.values()) it.isStopped = true;
  }

  /**
   * Does work, and shows why it failed, unless it was given up, or `complain` says it.
   * @param {() => Promise<void>} work @param {(error: any) => boolean} complain
   */
  async attempt(work, complain = () => false) {
    this.add(1);
    try {
      await work();
    } catch (error) {
      if (!(error instanceof Stopped) && !complain(error)) this.fail(error);
    } finally {
      this.add(-1);
    }
  }

  /** @param {unknown} error */
  fail(error) {
    const { message } = error instanceof Error ? error : new Error(String(error));
    if (error instanceof FileError) return this.say(message);
    if (!(error instanceof Ended)) console.error(error);
    // a program that doesn't start says why as it refuses a line
    const [refusal] = error instanceof Ended ? /refused \d+ \w+$/.exec(message) ?? [] : [];
    return this.say(`This failed: ${refusal ? new WrongReply(refusal).message : message}.`);
  }

  /** The page says whether work is under way.
      @param {number} by */
  add(by) {
    this.count += by;
    document.documentElement.dataset.work = this.count ? "some" : "none";
  }

  /** @param {string} text */
  say(text) {
    element("reply").textContent = text;
  }
}
