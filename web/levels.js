// The calls that a turn stands in: the words of a stack are asked which turn wrote them, and each
// such turn whether it was a JSR, an interrupt or a trap that pushed them. The rules are those of
// src/nezdrab/analysis/levels.py.

import { pointerOf } from "./operands.js";
import { INTERRUPTS } from "./hardware.js";
import { octal, turnOf, turnsOf, wordsOf } from "./replies.js";
import { rowOfReply } from "./facts.js";

// One group of words without a call ends a stack.
const [MOST_WORDS, WORDS_AT_ONCE, MOST_CHANGES] = [256, 64, 3];
/** In so many turns it is looked for whether routines were left. */
export const CHECKED_TURNS = 1_000_000;
const [MOST_TRIES, NEAR_BYTES, END] = [64, 32, 0o200000];
const NOT_CHECKED = "not checked", LOADED = "SP was loaded since";
const JSR = 0o004, WITH_NUMBER = new Map([[0o210, "EMT"], [0o211, "TRAP"]]);
const WITHOUT = new Map([[3, "BPT"], [4, "IOT"]]), OTHER_TRAPS = [0o4, 0o10, 0o250];
/** The names of the stack pointers, by their numbers. */
const POINTERS = new Map([[6, "KSP"], [7, "USP"]]);

/**
 * A turn that pushed where its caller goes on: as its last word on the stack of the mode `inside`,
 * at `slot`, which is this place of core. Modes are the two bits of PS. `following` is where a JSR
 * PC goes on, or null: a return to there may leave SP as it is. `doubt` says why it is believed
 * that a turn stands in it, if that isn't known.
 * @typedef {{turn: number, mode: number, pc: number, kind: string, routine: number,
 *   inside: number, slot: number, place: number, following: number | null}} Call
 * @typedef {{call: Call, doubt: string}} Level
 * @typedef {{act: ReturnType<typeof turnsOf>[number], word: number | null,
 *   after: import("./facts.js").Row}} Done
 */

/** @param {number} mode */
const nameOfPointer = mode => POINTERS.get(pointerOf(mode)) ?? "";

/** What is so once a routine is left, in the words of a search.
    @param {Call} call */
const leftBy = ({ inside, slot }) => `where ${nameOfPointer(inside)} > ${slot.toString(8)}`;

/** @param {number | null} word */
const isLoad = word => word !== null && ((word & 0o170077) === 0o010006 || word === 0o006606);

export class Stacks {
  /** @param {import("./facts.js").Facts} facts */
  constructor(facts) {
    this.facts = facts;
    this.top = facts.past.core;
    /** How many turns it may still look through. */
    this.left = CHECKED_TURNS;
    /** @type {Map<number, Call | null>} */
    this.known = new Map();
    this.isCut = false;
  }

  /** The calls before a turn, the innermost first. From a call out of another mode the stack of
      that mode goes on, as it was before the call.
      @param {number} turn @returns {Promise<Level[]>} */
  async levels(turn) {
    const found = [];
    for (let end = turn, isDone = false; !isDone;) {
      const { words, ps } = await this.facts.row(end), mode = ps >> 14;
      const levels = await this.ofOneStack(end, mode, words[pointerOf(mode)]);
      const outer = levels.findIndex(it => it.call.mode !== mode);
      found.push(...outer < 0 ? levels : levels.slice(0, outer + 1));
      isDone = outer < 0;
      if (!isDone) end = levels[outer].call.turn;
    }
    return found;
  }

  /** The calls before a turn whose words are on a stack, the innermost first, up to the first out
      of another mode: each is older than the one before it, and hasn't been left.
      @param {number} end @param {number} mode @param {number} start @returns {Promise<Level[]>} */
  async ofOneStack(end, mode, start) {
    const stop = Math.min(start + 2 * MOST_WORDS, END), found = [];
    let newest = end;
    for (let group = start; group < stop; group += 2 * WORDS_AT_ONCE) {
      const next = Math.min(group + 2 * WORDS_AT_ONCE, stop);
      const calls = await this.pushedAt(end, mode, group, next);
      for (const call of calls) {
        const doubt = call.turn < newest ? await this.doubt(call, newest) : null;
        if (doubt === null) continue;
        found.push({ call, doubt });
        newest = call.turn;
        if (call.mode !== mode) return found;
      }
      if (!calls.length) return found;
    }
    this.isCut = true;
    return found;
  }

  /** The calls that wrote these words of a stack last, or before what changed them since.
      @param {number} end @param {number} mode @param {number} first @param {number} stop */
  async pushedAt(end, mode, first, stop) {
    const slots = Array.from({ length: (stop - first) / 2 }, (_, at) => first + 2 * at);
    const places = await this.facts.places(slots.map(address => ({ turn: end, mode, address })));
    /** @type {{slot: number, place: number, turn: number}[]} */
    let open = slots.flatMap((slot, at) => {
      const place = places[at];
      return place === null || place % 2 || place >= this.top ? [] : [{ slot, place, turn: end }];
    });
    /** @type {Call[]} */
    const found = [];
    for (let changes = 0; open.length && changes <= MOST_CHANGES; changes++) {
      open = await this.callsOf(open, mode, found);
    }
    return found.sort((a, b) => a.slot - b.slot);
  }

  /** Adds the calls that wrote words last; returns the words that were changed on the stack.
      @param {{slot: number, place: number, turn: number}[]} open @param {number} mode
      @param {Call[]} found */
  async callsOf(open, mode, found) {
    const lasts = await this.facts.lasts(open);
    const turns = [...new Set(lasts.flatMap(it => it?.turn ?? []))].sort((a, b) => a - b);
    const rows = await this.facts.rows(turns);
    for (const turn of turns) await this.call(turn);
    const changed = [];
    for (const [at, { slot, place }] of open.entries()) {
      const last = lasts[at];
      if (!last) continue;
      const call = this.known.get(last.turn);
      const before = rows[turns.indexOf(last.turn)].words[pointerOf(mode)];
      if (call && call.inside === mode && call.slot === slot) found.push(call);
      else if (before <= slot) changed.push({ slot, place, turn: last.turn });
    }
    return changed;
  }

  // Calls

  /** The call that a turn is, if it is one. No instruction but one that traps writes two words by
      itself; of others JSR alone pushes where to go on.
      @param {number} turn @returns {Promise<Call | null>} */
  async call(turn) {
    const known = this.known.get(turn);
    if (known !== undefined) return known;
    const { act, word, after } = await this.done(turn), { ps } = await this.facts.row(turn);
    const inside = after.ps >> 14, slot = after.words[pointerOf(inside)];
    const { words, place } = await this.pushed(turn, inside, slot), { length } = words;
    const isJsr = length === 1 && act.act === "instr" && word !== null && word >> 9 === JSR;
    const kind = length === 2 ? await this.kindOfTrap(act, word) : isJsr ? "JSR" : "";
    const following = isJsr && (word >> 6 & 7) === 7 ? words[0] : null;
    const call = kind ? { turn, mode: ps >> 14, pc: act.pc, kind, routine: after.pc, inside, slot,
      place, following } : null;
    this.known.set(turn, call);
    return call;
  }

  /** A turn, the word that it found at PC if that is in core, and the registers after it. A
      transfer that ends in the turn comes before it.
      @param {number} turn @returns {Promise<Done>} */
  async done(turn) {
    const { pc, ps } = await this.facts.row(turn);
    const [place] = await this.facts.places([{ turn, mode: ps >> 14, address: pc }]);
    const lines = [`trail ${turn + 1} 1`, `regs ${turn + 1}`];
    const isThere = place !== null && place % 2 === 0 && place < this.top;
    const words = isThere ? [turn, turn + 1].map(it => `mem ${it} ${place.toString(8)} 1`) : [];
    const [trail, regs, ...replies] = await this.facts.ask([...lines, ...words]);
    const [act] = turnsOf(trail), after = rowOfReply(regs);
    if (!isThere) return { act, word: null, after };
    const [first, second] = replies.map(it => wordsOf(it)[0]);
    const last = first === second ? null : await this.facts.last(turn + 1, place);
    return { act, word: last?.writer === "disk" ? second : first, after };
  }

  /** The words, one or two, that a turn has pushed from the stack pointer on, and the place of the
      first.
      @param {number} turn @param {number} mode @param {number} slot */
  async pushed(turn, mode, slot) {
    const asked = [0, 2].map(it => ({ turn: turn + 1, mode, address: slot + it & END - 1 }));
    const places = await this.facts.places(asked), words = [];
    for (const place of places) {
      if (place === null || place % 2 || place >= this.top) break;
      const last = await this.facts.last(turn + 1, place);
      if (last?.turn !== turn || last.writer !== "cpu") break;
      words.push(last.word);
    }
    return { words, place: places[0] ?? 0 };
  }

  /** What took a turn through a vector.
      @param {Done["act"]} act @param {number | null} word */
  async kindOfTrap({ turn, act, vector }, word) {
    if (act === "irq") {
      return `interrupt ${octal(vector ?? 0, 3)} ${INTERRUPTS.get(vector ?? 0) ?? ""}`.trimEnd();
    }
    if (act !== "instr") return `${act} trap`;
    const named = word === null ? undefined : WITH_NUMBER.get(word >> 8);
    if (named && word !== null) return `${named} ${(word & 0o377).toString(8)}`;
    const without = word === null ? undefined : WITHOUT.get(word);
    if (without) return without;
    for (const it of OTHER_TRAPS) {
      if (await this.found("first", turn, turn + 1, `trap ${it.toString(8)}`) !== null) {
        return `trap ${octal(it, 3)}`;
      }
    }
    return "trap 000";
  }

  // Returns

  /** The first turn from one on, and before `end`, before which a routine has been left: SP is
      above what the call pushed, or another call has taken its place, as JSR PC,@(SP)+ does.
      @param {Call} call @param {number} from @param {number} end */
  async leftIn(call, from, end) {
    const left = await this.found("first", from, end, leftBy(call));
    return await this.resumedIn(call, from, left ?? end) ?? left;
  }

  /** The first of these turns that goes on where a call is to return, with SP as it was in the
      routine, once another call has pushed there.
      @param {Call} call @param {number} from @param {number} end */
  async resumedIn({ turn, following, inside, slot, place }, from, end) {
    if (following === null) return null;
    const sought = `where PC = ${following.toString(8)} and ${nameOfPointer(inside)} = `
      + slot.toString(8);
    for (let begin = from, tries = 0; tries < MOST_TRIES; tries++) {
      const found = await this.found("first", begin, end, sought);
      if (found === null) return null;
      const last = await this.facts.last(found, place);
      if (last && last.turn !== turn) return found;
      begin = found + 1;
    }
    return null;
  }

  // Doubts

  /** @param {"first" | "latest"} kind @param {number} from @param {number} to
      @param {string} sought */
  async found(kind, from, to, sought) {
    return from < to ? turnOf(await this.facts.one(`${kind} ${from} ${to} ${sought}`)) : null;
  }

  /** Why it is believed that a routine hasn't been left by a turn, or an empty text if that is
      known. Null if it has been left.
      @param {Call} call @param {number} newest @returns {Promise<string | null>} */
  async doubt(call, newest) {
    const from = call.turn + 1, to = Math.min(newest + 1, from + this.left);
    const turn = await this.found("first", from, to, leftBy(call));
    this.left -= (turn ?? to) - from;
    if (turn !== null) return await this.loadsPointer(turn - 1) ? LOADED : null;
    return to <= newest ? NOT_CHECKED : this.doubtBelow(call, newest);
  }

  /** Whether SP came from the call's words down to where it is before a turn other than step by
      step, as when the stack is another one. Steps of a few words aren't looked at.
      @param {Call} call @param {number} newest */
  async doubtBelow(call, newest) {
    const number = pointerOf(call.inside), name = nameOfPointer(call.inside);
    let turn = newest, sp = (await this.facts.row(newest)).words[number];
    for (let tries = 0; tries < MOST_TRIES; tries++) {
      if (call.slot - sp <= NEAR_BYTES) return "";
      const from = Math.max(call.turn + 1, turn - this.left);
      const found = await this.found("latest", from, turn, `where ${name} > ${sp.toString(8)}`);
      this.left -= turn - (found ?? from);
      if (found === null) break;
      if (await this.loadsPointer(found)) return LOADED;
      turn = found;
      sp = (await this.facts.row(found)).words[number];
    }
    return NOT_CHECKED;
  }

  /** Whether a turn is MOV to SP or MTPI to SP, as when stacks are switched.
      @param {number} turn */
  async loadsPointer(turn) {
    const { word } = await this.done(turn);
    return isLoad(word) && await this.call(turn) === null;
  }
}
