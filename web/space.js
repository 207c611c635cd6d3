// Words and physical addresses as a walk over turns meets them. Words are asked once, and again
// after they are written; addresses again once mapping is. The rules are those of
// src/nezdrab/analysis/turn_cycles.py.

import { IO_PAGE, coreWord } from "./cells.js";
import { KERNEL, SPACES, USER } from "./facts.js";
import { questionOf } from "./questions.js";
import { octal, wordsOf } from "./replies.js";
import { copiedBy, hasWritten } from "./transfers.js";

// The bytes of a block, which mapping moves as one.
const [BLOCK, BLOCKS_OF_A_PAGE, BLOCKS_OF_A_SPACE] = [0o100, 0o200, 0o2000];
const SR0 = 0o777572;
/** The mode of the registers of mapping, by the upper digits of their addresses. */
const MODE_OF_MAPPING = new Map([[0o7723, KERNEL], [0o7776, USER]]);

/**
 * @typedef {import("./facts.js").Transfer} Transfer
 * @typedef {import("./facts.js").Seen} Seen
 */

/** A turn does what these rules don't tell. */
export class NotFollowed extends Error {}

export class Space {
  /** @param {import("./facts.js").Facts} facts */
  constructor(facts) {
    this.facts = facts;
    this.top = facts.past.core;
    this.turn = 0;
    /** @type {Transfer | null} a read that ended in the turn */
    this.transfer = null;
    /** @type {Map<number, number>} words, by their physical addresses */
    this.known = new Map();
    /** @type {Map<number, number | null>} physical addresses of blocks, null of one that aborts */
    this.blocks = new Map();
    /** @type {number[]} what the turn wrote */
    this.stored = [];
    /** Whether the turn has written to mapping up to here. */
    this.isRemapped = false;
  }

  /** A turn begins, with a transfer if any. What the turn before it wrote is forgotten, not
      earlier: words are asked before the turn.
      @param {number} turn @param {Transfer | null} transfer */
  begin(turn, transfer) {
    for (const it of this.stored.splice(0)) this.known.delete(it);
    this.isRemapped = false;
    if (this.transfer || transfer) this.known.clear();
    this.turn = turn;
    this.transfer = transfer?.name === "read" ? transfer : null;
  }

  /** Asks together for the blocks of code that turns run, which follow one another.
      @param {Seen[]} seen */
  async prepare(seen) {
    const { turn } = seen[0].act;
    const keys = new Set(seen.map(({ before }) =>
      (before.ps >> 14) * BLOCKS_OF_A_SPACE + Math.floor(before.pc / BLOCK)));
    const asked = [...keys].filter(it => !this.blocks.has(it));
    const places = await this.facts.places(asked.map(it => (
      { turn, mode: Math.floor(it / BLOCKS_OF_A_SPACE),
        address: it % BLOCKS_OF_A_SPACE * BLOCK })));
    asked.forEach((it, at) => this.blocks.set(it, places[at]));
    const begins = [...keys].flatMap(it => this.blocks.get(it) ?? []);
    const firsts = begins.filter(it => it < this.top && !this.known.has(it));
    const replies = await this.facts.ask(
      firsts.map(it => `mem ${turn} ${it.toString(8)} ${BLOCK / 2}`));
    firsts.forEach((first, at) => this.learn(first, wordsOf(replies[at])));
  }

  /** @param {number} first @param {number[]} words */
  learn(first, words) {
    words.forEach((word, at) => this.known.set(first + 2 * at, word));
  }

  /** The turn has written to a physical address.
      @param {number} address */
  wrote(address) {
    if (address < IO_PAGE) this.stored.push(address & ~1);
    else if ((address & ~1) === SR0) {
      this.blocks.clear();
      this.isRemapped = true;
    } else if (MODE_OF_MAPPING.has(address >> 6)) {
      this.isRemapped = true;
      const mode = MODE_OF_MAPPING.get(address >> 6) ?? 0, page = address >> 1 & 7;
      const first = mode * BLOCKS_OF_A_SPACE + page * BLOCKS_OF_A_PAGE;
      for (let at = 0; at < BLOCKS_OF_A_PAGE; at++) this.blocks.delete(first + at);
    }
  }

  /** RESET: mapping is off. */
  reset() {
    this.blocks.clear();
  }

  /** The word at a physical address, as the act of the turn finds it.
      @param {number} address @returns {Promise<number>} */
  async word(address) {
    if (!this.known.has(address)) await this.learnAround(address);
    return this.known.get(address) ?? 0;
  }

  /** @param {number} address */
  async learnAround(address) {
    const { transfer, turn, facts } = this;
    const source = transfer && copiedBy(transfer, coreWord(address));
    if (source) {
      this.known.set(address, wordsOf(await facts.one(questionOf(facts.past, source, turn)))[0]);
      return;
    }
    if (address >= this.top) {
      throw new NotFollowed(`turn ${turn} takes its code or a pointer from a register at `
        + `${octal(address)}: that isn't followed`);
    }
    const first = address - address % BLOCK;
    const words = await facts.words(turn, first, BLOCK / 2);
    for (const [at, word] of words.entries()) {
      const place = first + 2 * at;
      if (!transfer || !hasWritten(transfer, coreWord(place))) this.known.set(place, word);
    }
  }

  /** The physical address for a read in a mode, or null if memory management aborts it. What the
      turn has written to mapping counts from its next reference on: it is asked after it.
      @param {number} mode @param {number} address @returns {Promise<number | null>} */
  async place(mode, address) {
    const key = mode * BLOCKS_OF_A_SPACE + Math.floor(address / BLOCK);
    if (!this.blocks.has(key)) {
      const turn = this.turn + (this.isRemapped ? 1 : 0);
      const [found] = await this.facts.places([{ turn, mode, address: address - address % BLOCK }]);
      this.blocks.set(key, found);
    }
    const begin = this.blocks.get(key) ?? null;
    return begin === null ? null : begin + address % BLOCK;
  }

  /** Whether anything on the bus answers to a physical address.
      @param {number} mode @param {number} address @param {number} place */
  async answers(mode, address, place) {
    if (place < IO_PAGE) return place < this.top;
    const named = SPACES[mode === USER ? USER : KERNEL];
    const even = (address & ~1).toString(8);
    const reply = await this.facts.one(`virtual ${this.turn} ${named} ${even} 1`);
    return !reply.includes(" timeout ");
  }
}
