// The names of cells, and the values of their words before turns.

import {
  REST, bitOfCode, isCode, isCore, isOfDrive, isRegister, nameOfCell, wordOf,
} from "./cells.js";
import { rowOfReply } from "./facts.js";
import { questionOf } from "./questions.js";
import { octal, wordsOf } from "./replies.js";

/** The turn that a question names.
    @param {string} line */
const turnOfLine = line => Number(line.split(" ")[1]);

export class Values {
  /** @param {import("./facts.js").Facts} facts */
  constructor(facts) {
    this.facts = facts;
    /** @type {Map<string, string>} the replies to the questions of values */
    this.replies = new Map();
    /** @type {Set<string>} the questions of values whose replies aren't there yet */
    this.unknown = new Set();
  }

  /** @param {number} cell */
  name(cell) {
    return nameOfCell(cell, this.facts.past.version === 2);
  }

  /** The value of the word of a cell before a turn; an empty text if no question tells it.
      @param {number} cell @param {number} turn */
  value(cell, turn) {
    const isWord = isCore(cell) || isOfDrive(cell);
    if (!isWord && !isRegister(cell) && !isCode(cell)) return "";
    const line = isWord ? questionOf(this.facts.past, wordOf(cell), turn) : `regs ${turn}`;
    const reply = this.replies.get(line);
    if (reply === undefined) {
      this.unknown.add(line);
      return "";
    }
    if (isWord) return octal(wordsOf(reply)[0]);
    const { words, ps } = rowOfReply(reply);
    if (isRegister(cell)) return octal(words[cell >> 1 & 7]);
    return cell < REST ? String(ps >> bitOfCode(cell) & 1) : octal(ps);
  }

  /** @param {number} cell @param {number} turn */
  named(cell, turn) {
    return `${this.name(cell)} ${this.value(cell, turn)}`.trimEnd();
  }

  /** Asks for the values that aren't known. */
  async learnValues() {
    const lines = [...this.unknown].sort((a, b) => turnOfLine(a) - turnOfLine(b));
    const replies = await this.facts.ask(lines);
    lines.forEach((it, at) => this.replies.set(it, replies[at]));
    this.unknown.clear();
  }

  /** What comes of a telling, after all values that it tells were asked for together: it is told
      once to learn which they are.
      @template Told @param {() => Told} tell @returns {Promise<Told>} */
  async known(tell) {
    tell();
    await this.learnValues();
    return tell();
  }
}
