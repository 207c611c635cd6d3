// What became of an event over the turns, as explore's `follow` tells it: the operations that its
// data went into, words of the disk, printed bytes, and what overwrote them. The rules are those of
// src/nezdrab/analysis/follow.py.

import {
  ALL_CODES, OUTPUTS, TPB, coreWord, isCore, isOfDrive, nameOfCell, wordOf,
} from "./cells.js";
import { SPACES } from "./facts.js";
import { Labels } from "./labels.js";
import { nameOfWord } from "./names.js";
import { eventsWithData } from "./origins.js";
import { eventInWords } from "./past.js";
import { questionOf } from "./questions.js";
import { counted, lengthOf, octal, turnOf, wordsOf } from "./replies.js";
import { copiedBy } from "./transfers.js";

const [MOST_LINES, FEW_WORDS, MOST_TURNS_SHOWN, MOST_NAMES] = [60, 4, 8, 16];
const MARK = 1n;
const [N, Z, V, C] = ALL_CODES;
/** The codes that a branch looks at, by the upper bits of its word. */
const LOOKED_AT = new Map([[1, [Z]], [2, [N, V]], [3, [Z, N, V]], [0o100, [N]], [0o101, [C, Z]],
  [0o102, [V]], [0o103, [C]]]);

/**
 * A line about a turn, which may end with what the turn did, and the lane of its step.
 * @typedef {{turn: number, text: string, namesAct: boolean, lane: string}} Told
 * @typedef {import("./turn-flow.js").Flow} Flow
 * @typedef {import("./labels.js").Carried} Carried
 * @typedef {import("./labels.js").Moved} Moved
 * @typedef {import("./facts.js").Transfer} Transfer
 * @typedef {import("./past.js").ScriptEvent} ScriptEvent
 */

/** @param {{how: import("./operands.js").How}} move */
const isResult = ({ how }) => how === "value" || how === "copy";

/** These names, or the first of them and how many more there are, or `none`.
    @param {Iterable<string>} names */
function someOf(names) {
  const all = [...new Set(names)], left = all.length - MOST_NAMES;
  const more = left > 0 ? ` and ${left} more` : "";
  return `${all.slice(0, MOST_NAMES).join(" ") || "none"}${more}`;
}

export class Followed {
  /** @param {import("./facts.js").Facts} facts @param {ScriptEvent} event
      @param {boolean} followsPlaces whether a value is made of its address too */
  constructor(facts, event, followsPlaces) {
    this.facts = facts;
    this.event = event;
    this.labels = new Labels(followsPlaces);
    /** @type {Told[]} */
    this.told = [];
    /** @type {number[]} the turns of branches that looked at codes made of it */
    this.branches = [];
    /** @type {{turn: number, register: number, lane: string}[]} bytes given to the printer or the
        punch */
    this.sent = [];
    /** @type {number[]} the turns that wrote to the printer */
    this.writesOfPrinter = [];
    /** @type {Set<number>} the cells of core that have a result made of it */
    this.reached = new Set();
    /** The turn before which it was followed. */
    this.end = event.turn;
    this.isRead = false;
    this.brought = eventsWithData(facts.past);
  }

  /** @param {number} turn @param {string} text @param {string} lane */
  tell(turn, text, lane, namesAct = true) {
    this.told.push({ turn, text, namesAct, lane });
  }

  /** @param {Flow} flow */
  async turn(flow) {
    const { turn, transfer, moves, place, word } = flow, { labels } = this;
    this.end = turn + 1;
    for (const it of this.brought) if (it.turn === turn) this.bring(it);
    if (transfer) await this.transfer(transfer, labels.transfer(transfer));
    if (moves.some(it => it.cell === TPB)) this.writesOfPrinter.push(turn);
    const lookedAt = place === null ? [] : LOOKED_AT.get(word >> 9) ?? [];
    if (labels.of(lookedAt)) this.branches.push(turn);
    const carried = labels.turn(moves), space = SPACES[flow.mode];
    if (!carried.length) return;
    this.isRead = true;
    this.act(turn, carried, space ? `${space} PC` : "");
  }

  /** An event brings data: this one, or one that may overwrite it.
      @param {{number: number, turn: number, cells: number[]}} brought */
  bring({ number, turn, cells }) {
    const { event, labels, facts } = this, other = facts.past.events.get(number);
    if (other && labels.of(cells) && !this.isRead) {
      const text = `nothing has read it, and event ${number} overwrites it: ${eventInWords(other)}`;
      this.tell(turn, text, "events", false);
    }
    for (const cell of cells) labels.put(cell, number === event.number ? MARK : 0n);
  }

  /** What the act of a turn does with the event.
      @param {number} turn @param {Carried[]} carried @param {string} lane */
  act(turn, carried, lane) {
    for (const { move: { cell, how }, before, now } of carried) {
      const isValue = how === "value";
      if (OUTPUTS.has(cell) && now) this.sent.push({ turn, register: cell, lane });
      else if (isCore(cell) && before && !now) this.overwritten(turn, cell, isValue, lane);
      if (isValue && now && isCore(cell)) this.reached.add(cell);
    }
    if (carried.some(it => it.now && it.move.how === "value")) this.tell(turn, "", lane);
    else if (carried.some(it => it.chosen && isResult(it.move))) {
      this.tell(turn, "an address is made of it: ", lane);
    }
  }

  /** Tells of it, unless what is overwritten is a copy and what overwrites it is another.
      @param {number} turn @param {number} cell @param {boolean} isValue @param {string} lane */
  overwritten(turn, cell, isValue, lane) {
    const last = this.told.at(-1);
    if (isValue || this.reached.has(cell)) {
      const text = `${nameOfWord(coreWord(cell & ~1))} is overwritten, with nothing of it: `;
      if (last?.text !== text || last.turn !== turn) this.tell(turn, text, lane);
    }
    this.reached.delete(cell);
  }

  // Transfers

  /** @param {Transfer} transfer @param {Moved[]} cells */
  async transfer(transfer, cells) {
    const isRead = transfer.name === "read", { turn } = transfer;
    /** @type {Map<number, Moved[]>} */
    const words = new Map();
    for (const it of cells) {
      words.set(it.cell & ~1, [...words.get(it.cell & ~1) ?? [], it]);
      this.reached.delete(it.cell);
    }
    const all = [...words].map(([cell, moved]) => (
      { cell, had: moved.some(it => it.before), has: moved.some(it => it.now) }));
    const come = isRead ? [] : all.filter(it => it.has && !it.had);
    for (const { name, cell } of this.grouped(come.map(it => it.cell))) {
      const value = await this.valueOf(transfer, cell);
      this.tell(turn, `the disk writes it to ${name}${value}`, "disk", false);
    }
    const gone = all.filter(it => it.had && !it.has);
    for (const { name, cell } of this.grouped(gone.map(it => it.cell))) {
      const by = isRead ? " by a read of the disk"
        : `${await this.valueOf(transfer, cell)}${sourceOf(transfer, cell)}`;
      this.tell(turn, `${name} is overwritten${by}, with nothing of it`, "disk", false);
    }
  }

  /** The name of each of a few words, with its cell; or one name for many.
      @param {number[]} cells @returns {{name: string, cell: number | null}[]} */
  grouped(cells) {
    if (cells.length <= FEW_WORDS) return cells.map(cell => ({ name: this.name(cell), cell }));
    const [first, last] = [cells[0], cells[cells.length - 1]].map(it => this.name(it));
    return [{ name: `each of ${cells.length} words from ${first} to ${last}`, cell: null }];
  }

  /** The word of a drive after a transfer.
      @param {Transfer} transfer @param {number | null} cell */
  async valueOf({ turn }, cell) {
    if (cell === null) return "";
    const { facts } = this;
    const reply = await facts.one(questionOf(facts.past, wordOf(cell), turn + 1));
    return `: ${octal(wordsOf(reply)[0])}`;
  }

  /** @param {number} cell */
  name(cell) {
    return nameOfCell(cell, this.facts.past.version === 2);
  }

  // What is shown

  /** What became of the bytes that were given to the printer and to the punch. */
  async printed() {
    for (const { turn, register, lane } of this.sent) {
      const became = register === TPB ? await this.became(turn) : "given to the punch";
      this.tell(turn, `${became}: `, lane);
    }
  }

  /** Whether the byte that a turn gave to the printer was printed: it wasn't if another one took
      its place.
      @param {number} turn */
  async became(turn) {
    const { facts, end } = this;
    const [number, all] = (await facts.ask([`text ${turn + 1}`, `text ${end}`])).map(lengthOf);
    const isOut = all > number;
    const printed = isOut ? turnOf(await facts.one(`when ${number}`)) ?? end : end;
    if (this.writesOfPrinter.some(it => turn < it && it < printed)) {
      return "given to the printer, but not printed";
    }
    return isOut ? "printed" : `given to the printer, not printed before turn ${end}`;
  }

  /** The lines that tell it, the steps of its path, and what is said at the end. `turnsInWords`
      says what turns did.
      @param {(turns: number[]) => Promise<string[]>} turnsInWords */
  async written(turnsInWords) {
    await this.printed();
    const all = this.told.sort((a, b) => a.turn - b.turn), shown = all.slice(0, MOST_LINES);
    const turns = [...new Set(shown.filter(it => it.namesAct).map(it => it.turn))];
    const texts = await turnsInWords(turns);
    const acts = new Map(turns.map((it, at) => [it, texts[at]]));
    const lines = shown.map(({ turn, text, namesAct, lane }) => (
      { turn, lane, text: `turn ${turn}: ${text}${namesAct ? acts.get(turn) : ""}` }));
    const left = all.length - shown.length;
    const more = left > 0 ? [`.. ${counted(left, "line")} more`] : [];
    return { lines, ends: [...more, ...this.ends()] };
  }

  /** Where something of the event is, and which branches looked at it. */
  ends() {
    const { branches, end } = this;
    const ends = [`before turn ${end} something of it is in: ${this.places()}`];
    if (branches.length) {
      const turns = branches.slice(0, MOST_TURNS_SHOWN).join(" ");
      const more = branches.length > MOST_TURNS_SHOWN ? " .." : "";
      const were = branches.length === 1 ? "1 branch" : `${branches.length} branches`;
      ends.push(`${were} looked at codes made of it: turn${branches.length > 1 ? "s" : ""} `
        + `${turns}${more}`);
    }
    return ends;
  }

  /** The registers, core and the drives, as far as something of the event is there. */
  places() {
    const held = [...this.labels.bits.keys()].sort((a, b) => a - b);
    /** @param {(cell: number) => boolean} has */
    const named = has => held.filter(has).map(it => this.name(it));
    const others = named(it => !isCore(it) && !isOfDrive(it));
    const core = named(isCore).map(it => it.slice("core ".length));
    const drives = named(isOfDrive).map(it => it.slice("disk ".length));
    return `${others.length ? `${someOf(others)}; ` : ""}core ${someOf(core)}; `
      + `disk ${someOf(drives)}`;
  }
}

/** Where the word comes from that a write of the disk brings.
    @param {Transfer} transfer @param {number | null} cell */
function sourceOf(transfer, cell) {
  if (cell === null) return "";
  const source = copiedBy(transfer, wordOf(cell));
  return source ? ` from ${nameOfWord(source)}` : " that fills the sector";
}
