// What a word, a register or a printed byte is made of before a turn: as explore's `why` tells it,
// back to keys, switches, the tape, patches and images. Made of is of data: what a branch decided
// isn't followed, nor at which address a value was.

import { Account } from "./account.js";
import {
  ALL_CODES, REGISTER_NAMES, REST, TPB, cellOf, nameOfCell, registerCells, wordCells,
} from "./cells.js";
import { Facts } from "./facts.js";
import { nameOfWord } from "./names.js";
import { OriginSteps } from "./origin-steps.js";
import { Kind, Origins, eventsOfGraph, eventsWithData, isWhole, isWrite } from "./origins.js";
import { pointerOf } from "./operands.js";
import { questionOf } from "./questions.js";
import { AskError, bytesOf, counted, octal, turnOf, wordsOf } from "./replies.js";
import { NotFollowed } from "./space.js";

const MOST_ENDS = 6;
// Of the changes that left nothing in a word so many are shown; none if it has changed so often.
const [MOST_CHANGES, COUNTED_CHANGES] = [16, 64];
/** How many steps are followed at first. */
export const MOST_STEPS = 500;

/**
 * What is asked about: a word of core or of a drive, a register by its name, or a byte of the
 * console's text by its number.
 * @typedef {import("./names.js").WatchedWord} Word
 * @typedef {Word | {kind: "register", name: string} | {kind: "byte", number: number}} MadeThing
 * @typedef {{name: string, cell: number, origin: import("./origins.js").Origin}} Root
 * @typedef {import("./account.js").Shown} Shown
 */

/**
 * What a value is made of: `first` says what it is, `lines` the steps, and `ends` what it is made
 * of in all. `left` says what wasn't followed, or is empty; `isLimited` if that is so by the limit
 * alone. `turn` is the one before which the value is.
 * @typedef {{turn: number, first: {text: string, turn: number, lane: string}, lines: Shown[],
 *   isCut: boolean, ends: string[], left: string, isLimited: boolean}} Made
 */

/** The register or the byte with a name such as `R0`, `SP`, `PS`, `N` or `byte 12`, or null.
    @param {string} name @returns {MadeThing | null} */
export function madeNamed(name) {
  const [, register, number] =
    /^(?:(r[0-5]|[ku]?sp|ps|[nzvc])|byte +(\d{1,10}))$/i.exec(name) ?? [];
  if (register) return { kind: "register", name: register.toUpperCase() };
  return number ? { kind: "byte", number: Number(number) } : null;
}

/** @param {MadeThing} thing */
export function nameOfMade(thing) {
  if (thing.kind === "byte") return `byte ${thing.number}`;
  return thing.kind === "register" ? thing.name : nameOfWord(thing);
}

/** A byte as a character in quotes, or in octal.
    @param {number} byte */
const inQuotes = byte => byte >= 0o40 && byte < 0o177 ? `'${String.fromCharCode(byte)}'`
  : `\\${octal(byte, 3)}`;

/** Numbers in their order, such as `1, 3-5, 9`.
    @param {number[]} numbers */
export function rangesOf(numbers) {
  /** @type {[number, number][]} */
  const parts = [];
  for (const it of numbers) {
    const last = parts.at(-1);
    if (last && last[1] + 1 === it) last[1] = it;
    else parts.push([it, it]);
  }
  return parts.map(([from, to]) => from === to ? `${from}` : `${from}-${to}`).join(", ");
}

export class MadeOf {
  /**
   * `turn` is the one before which it is asked, `end` the last turn up to which bytes are.
   * @param {{thing: MadeThing, turn: number, end: number, past: import("./past.js").Past,
   *   options: string[], turnsInWords: TurnsInWords}} about
   * @typedef {(ask: import("./cursor.js").Ask, turns: number[]) => Promise<string[]>} TurnsInWords
   */
  constructor({ thing, turn, end, past, options, turnsInWords }) {
    this.thing = thing;
    this.turn = turn;
    this.end = end;
    this.past = past;
    this.options = options;
    this.turnsInWords = turnsInWords;
    /** @type {Origins | null} what was found so far, for when more steps are followed */
    this.origins = null;
  }

  /** What it is made of. `ask` gives the replies to lines; `most` steps are followed.
      @param {import("./cursor.js").Ask} ask @param {number} most @returns {Promise<Made>} */
  async answer(ask, most) {
    const facts = new Facts(ask, this.past);
    const { first, turn, roots: named } = await this.begin(facts);
    const origins = this.origins ??= new Origins(facts, turn);
    origins.facts = facts;
    /** @type {Root[]} */
    const roots = [];
    try {
      for (const { name, cell, before } of named) {
        roots.push({ name, cell, origin: await origins.before(cell, before) });
      }
    } catch (error) {
      if (!(error instanceof NotFollowed)) throw error;
      return { turn, first, lines: [], isCut: false, ends: [], left: error.message,
        isLimited: false };
    }
    const graph = await origins.graph(roots.map(it => it.origin), most);
    const steps = new OriginSteps(origins, graph);
    const turnsInWords = (/** @type {number[]} */ turns) => this.turnsInWords(ask, turns);
    const account = new Account({ facts, steps, turnsInWords, options: this.options });
    const lines = await account.written(roots);
    const ends = await account.known(() => this.ends(account, turn));
    if (this.thing.kind === "disk" && isWhole(graph)) {
      ends.push(...await this.changes(account, this.thing));
    }
    const isLimited = graph.left.size > 0 && !graph.stopped;
    return { turn, first, lines, isCut: account.isCut, ends, left: leftOf(graph, most), isLimited };
  }

  /** What the value is, the turn before which it is, and the cells that it has.
      @param {Facts} facts */
  async begin(facts) {
    const { thing } = this;
    if (thing.kind === "byte") return this.beginByte(facts, thing.number);
    if (thing.kind === "register") return this.beginRegister(facts, thing.name);
    return this.beginWord(facts, thing);
  }

  /** @param {Facts} facts @param {Word} word */
  async beginWord(facts, word) {
    const { turn, past } = this, cell = cellOf(word);
    if (word.drive && past.version === 1) {
      throw new AskError(`${nameOfWord(word)}: there is one drive`);
    }
    const [value] = wordsOf(await facts.one(questionOf(past, word, turn)));
    const name = nameOfCell(cell, past.version === 2);
    return {
      turn, roots: wordCells(cell).map(it => ({ name, cell: it, before: turn })),
      first: { text: `${name} before turn ${turn}: ${octal(value)}`, turn,
        lane: nameOfWord(word) },
    };
  }

  /** @param {Facts} facts @param {string} register */
  async beginRegister(facts, register) {
    const { turn } = this, { words, ps } = await facts.row(turn);
    const name = register === "SP" ? REGISTER_NAMES[pointerOf(ps >> 14)] : register;
    const number = REGISTER_NAMES.indexOf(name), code = "NZVC".indexOf(name);
    const cells = number >= 0 ? registerCells(number) : code >= 0 ? [ALL_CODES[code]]
      : [REST, ...ALL_CODES];
    const called = number >= 0 ? name : nameOfCell(cells[0], false);
    const value = number >= 0 ? octal(words[number]) : code >= 0 ? ps >> 3 - code & 1 : octal(ps);
    const mode = ["kernel", "", "", "user"][ps >> 14];
    return {
      turn, roots: cells.map(cell => ({ name: called, cell, before: turn })),
      first: { text: `${called} before turn ${turn}: ${value}`, turn, lane: `${mode} PC` },
    };
  }

  /** A byte is printed as the printer ends: it is what TPB had before that turn.
      @param {Facts} facts @param {number} number */
  async beginByte(facts, number) {
    const { end } = this, [byte] = bytesOf(await facts.one(`text ${end} from ${number}`));
    if (byte === undefined) throw new AskError(`byte ${number} isn't printed before turn ${end}`);
    const printed = turnOf(await facts.one(`when ${number}`)) ?? 0, name = inQuotes(byte);
    return {
      turn: printed + 1, roots: [{ name: `text ${name}`, cell: TPB, before: printed }],
      first: { text: `byte ${number} of the text, ${name}, was printed in turn ${printed}`,
        turn: printed, lane: "console" },
    };
  }

  /** What a value is made of in all, as far as it was followed.
      @param {Account} account @param {number} turn */
  ends(account, turn) {
    const { steps } = account, events = eventsOfGraph(steps.graph);
    const others = eventsWithData(this.past)
      .filter(it => it.turn < turn && !events.includes(it.number)).map(it => it.number);
    const limit = isWhole(steps.graph) ? "" : ", as far as it was followed";
    const made = events.length ? `event${events.length > 1 ? "s" : ""} ${rangesOf(events)}`
      : "no event";
    const not = others.length ? `, not of ${rangesOf(others.sort((a, b) => a - b))}` : "";
    const ends = steps.ordered.filter(it => !isWrite(it) && it.kind !== Kind.EVENT);
    const shown = ends.slice(0, MOST_ENDS).map(it => account.end(it));
    const more = ends.length > MOST_ENDS ? `; and ${ends.length - MOST_ENDS} more` : "";
    const also = shown.length ? [`and of ${shown.join("; ")}${more}`] : [];
    return [`made of ${made}${not}${limit}`, ...also];
  }

  /** The changes of a word of a drive that left nothing in it, in words.
      @param {Account} account @param {Word} word @returns {Promise<string[]>} */
  async changes({ facts, steps }, word) {
    const found = await facts.changes(word, this.turn, COUNTED_CHANGES), cell = cellOf(word);
    const made = steps.ordered.filter(it => it.kind === Kind.MOVED && it.at === cell);
    const gone = found.filter(turn => !made.some(it => it.turn === turn));
    if (found.length === COUNTED_CHANGES || !gone.length) return [];
    const shown = gone.slice(0, MOST_CHANGES);
    const replies = await facts.ask(
      shown.flatMap(it => [it, it + 1].map(turn => questionOf(this.past, word, turn))));
    const told = shown.map((it, at) => changeInWords(it, replies.slice(2 * at, 2 * at + 2)));
    const more = gone.length > shown.length ? " .." : "";
    return [`changes of ${nameOfCell(cell, this.past.version === 2)} that left nothing in it: `
      + `turn${gone.length > 1 ? "s" : ""} ${told.join(", ")}${more}`];
  }
}

/** A change in words, by the two replies that have the word before it and after it.
    @param {number} turn @param {string[]} replies */
function changeInWords(turn, replies) {
  const [before, after] = replies.map(it => octal(wordsOf(it)[0]));
  return `${turn} (${before} to ${after})`;
}

/** What of a graph wasn't followed, and why, or an empty text.
    @param {import("./origins.js").Graph} graph @param {number} most */
function leftOf({ left, stopped }, most) {
  if (!left.size) return "";
  const last = Math.max(...[...left].map(it => it.turn));
  const are = left.size === 1 ? "wasn't" : "weren't";
  return `${counted(left.size, "write")} in turn ${last} or before it ${are} followed: `
    + (stopped || `the limit is ${counted(most, "step")}`);
}
