// What rules of data ask of the machine about turns, in the numbers of the program's replies.

import { REGISTER_NAMES } from "./cells.js";
import { onDrive } from "./questions.js";
import {
  TURNS_OF_A_TRAIL, devicesOf, lastOf, mustBeTaken, physicalOf, registersOf, turnOf, turnsOf,
  wordsOf,
} from "./replies.js";
import { stayed, transfersOf } from "./transfers.js";

/** The modes by their two bits in PS; those between have no pages. */
export const SPACES = ["kernel", null, null, "user"];
export const KERNEL = 0;
export const USER = 3;

/**
 * The registers before a turn: R0 to R5, KSP and USP, PC and PS, and whether it is halted.
 * @typedef {{words: number[], pc: number, ps: number, isHalted: boolean}} Row
 * @typedef {ReturnType<typeof turnsOf>[number]} Act
 * @typedef {{act: Act, before: Row, after: Row, trap: number | null}} Seen a turn with the
 *   registers before and after it, and the vector of the trap that it has
 * @typedef {import("./transfers.js").Transfer} Transfer
 * @typedef {import("./transfers.js").Ended} Ended
 * @typedef {{turn: number, mode: number, address: number}} Place a virtual address before a turn
 * @typedef {import("./names.js").WatchedWord} Word
 */

/** The traps that the word of an instruction alone doesn't tell. */
const TRAPS = [0o4, 0o10, 0o250];

/** @param {string} reply @returns {Row} */
export function rowOfReply(reply) {
  const { words, pc, ps, state } = registersOf(mustBeTaken(reply));
  return { words: REGISTER_NAMES.map(it => words[it]), pc, ps, isHalted: state === "halted" };
}

export class Facts {
  /** @param {import("./cursor.js").Ask} ask @param {import("./past.js").Past} past */
  constructor(ask, past) {
    this.ask = ask;
    this.past = past;
  }

  /** @param {string} line */
  async one(line) {
    return (await this.ask([line]))[0];
  }

  /** @param {number} turn */
  async row(turn) {
    return rowOfReply(await this.one(`regs ${turn}`));
  }

  /** The turns from `first` to the one before `end`, at most as many as a trail has, and the
      functions of the disk that ended in them.
      @param {number} first @param {number} end
      @returns {Promise<{seen: Seen[], ended: Ended[]}>} */
  async seen(first, end) {
    const count = Math.min(end - first, TURNS_OF_A_TRAIL), last = first + count;
    const regs = Array.from({ length: count + 1 }, (_, at) => `regs ${first + at}`);
    const searches = TRAPS.map(it => trapLine(first, last, it));
    const [trail, transfers, ...replies] = await this.ask(
      [`trail ${last} ${count}`, `transfers ${first} ${last}`, ...searches, ...regs]);
    const traps = await this.traps(replies.slice(0, TRAPS.length), last);
    const rows = replies.slice(TRAPS.length).map(rowOfReply);
    const seen = turnsOf(trail).map((act, at) => (
      { act, before: rows[at], after: rows[at + 1], trap: traps.get(act.turn) ?? null }));
    return { seen, ended: transfersOf(transfers).ended };
  }

  /** The vectors of the turns that trap, of which the first of each is replied.
      @param {string[]} replies @param {number} end */
  async traps(replies, end) {
    /** @type {Map<number, number>} */
    const found = new Map();
    for (const [at, vector] of TRAPS.entries()) {
      let turn = turnOf(replies[at]);
      while (turn !== null) {
        found.set(turn, vector);
        turn = turn + 1 < end ? turnOf(await this.one(trapLine(turn + 1, end, vector))) : null;
      }
    }
    return found;
  }

  /** The physical addresses of virtual ones for a read, or null if memory management aborts it. In
      a mode without pages it does while mapping is on; otherwise that is one of kernel mode.
      @param {Place[]} asked @returns {Promise<(number | null)[]>} */
  async places(asked) {
    const replies = await this.ask(asked.map(({ turn, mode, address }) =>
      `translate ${turn} ${SPACES[mode] ?? "kernel"} ${address.toString(8)}`));
    const found = replies.map(physicalOf);
    for (const [at, { turn, mode }] of asked.entries()) {
      if (!SPACES[mode] && await this.isMapped(turn)) found[at] = null;
    }
    return found;
  }

  /** @param {number} turn */
  async isMapped(turn) {
    return (parseInt((await this.one(`pages ${turn}`)).split(" ")[2], 8) & 1) !== 0;
  }

  /** @param {number} turn @param {number} address @param {number} count */
  async words(turn, address, count) {
    return wordsOf(await this.one(`mem ${turn} ${address.toString(8)} ${count}`));
  }

  /** The first turns before `end` that change a word of a drive, at most so many.
      @param {Word} word @param {number} end @param {number} most */
  async changes(word, end, most) {
    const found = [], place = onDrive(this.past, word);
    for (let from = 0; from < end && found.length < most; from = found[found.length - 1] + 1) {
      const turn = turnOf(await this.one(`change ${from} ${end} ${place}`));
      if (turn === null) break;
      found.push(turn);
    }
    return found;
  }

  /** Who wrote a word of core last before a turn, or null.
      @param {number} turn @param {number} address */
  async last(turn, address) {
    return lastOf(await this.one(`last ${turn} ${address.toString(8)}`));
  }

  /** The same of several words, each before a turn of its own.
      @param {{turn: number, place: number}[]} asked */
  async lasts(asked) {
    const lines = asked.map(({ turn, place }) => `last ${turn} ${place.toString(8)}`);
    return (await this.ask(lines)).map(lastOf);
  }

  /** @param {number[]} turns */
  async rows(turns) {
    return (await this.ask(turns.map(it => `regs ${it}`))).map(rowOfReply);
  }

  /** @param {number} turn */
  async isDiskReady(turn) {
    return devicesOf(await this.one(`devices ${turn}`)).diskIsReady;
  }

  /** The functions of the disk that ended in these turns.
      @param {number} first @param {number} end */
  async ended(first, end) {
    const found = [];
    for (let from = first; from < end;) {
      const { ended, hasMore } = transfersOf(await this.one(`transfers ${from} ${end}`));
      found.push(...ended);
      from = hasMore ? ended[ended.length - 1].turn + 1 : end;
    }
    return found;
  }

  /** Those of such functions that moved words.
      @param {Ended[]} ended @returns {Promise<Transfer[]>} */
  async moving(ended) {
    const found = ended.filter(it => it.name === "read" || it.name === "write");
    const replies = await this.ask(found.map(it => `devices ${it.turn}`));
    return found.map((it, at) => ({ ...it, stays: stayed(replies[at]) }));
  }
}

/** @param {number} first @param {number} end @param {number} vector */
const trapLine = (first, end, vector) => `first ${first} ${end} trap ${vector.toString(8)}`;
