// The steps of a value as lines, like an account book: what it is made of stands below it, and the
// part with the most behind it goes on at the same indent. The lines are those of
// src/nezdrab/analysis/account.py.

import { isCore, isOfDrive, wordOfDrive } from "./cells.js";
import { SPACES } from "./facts.js";
import { optionOfDrive } from "./options.js";
import { Kind, MOST_LOOKS, MOST_TURNS_BACK, isWrite } from "./origins.js";
import { eventInWords } from "./past.js";
import { onDrive } from "./questions.js";
import { octal } from "./replies.js";
import { Values } from "./values.js";

const [MOST_LINES, MOST_LEVELS, MOST_NAMES] = [100, 30, 6];
// Steps of one input each: from so many on they are one line; so many of them are looked at.
const [LONG_RUN, LOOKED_AT, FEW_TURNS] = [3, 40, 3];
/** @type {Object<number, (cell: number) => string>} */
const OTHER_ENDS = {
  [Kind.TAPE]: () => "a byte of the tape",
  [Kind.DEVICE]: cell => `what the register ${octal(cell)} showed`,
  [Kind.POINT]: () => "where the program stood",
};

/**
 * A line, which ends with what its step is. Before it stands a run, which its step went into, if
 * any. `above` is the number of the line whose step is made of this one, -1 of the value itself;
 * `written` the cell that the step wrote.
 * @typedef {{depth: number, head: string, step: Step, written: number, runHead: string,
 *   run: Step[], note: string, above: number}} Line
 */

/**
 * A line as it is shown: what stands before its step, and the step, with the turn that a click goes
 * to, if it has one, and its lane there.
 * @typedef {{depth: number, head: string, text: string, turn: number | null, lane: string,
 *   above: number}} Shown
 * @typedef {import("./origin-steps.js").Step} Step
 * @typedef {import("./origin-steps.js").Source} Source
 * @typedef {{name: string, cell: number, origin: import("./origins.js").Origin}} Root
 * @typedef {(turns: number[]) => Promise<string[]>} TurnsInWords
 */

export class Account extends Values {
  /**
   * `turnsInWords` says what turns did; `options` are the words of the session's options.
   * @param {{facts: import("./facts.js").Facts, steps: import("./origin-steps.js").OriginSteps,
   *   turnsInWords: TurnsInWords, options: string[]}} about
   */
  constructor({ facts, steps, turnsInWords, options }) {
    super(facts);
    this.steps = steps;
    this.turnsInWords = turnsInWords;
    this.options = options;
    /** @type {Line[]} */
    this.lines = [];
    /** @type {Set<Step>} */
    this.shown = new Set();
    /** @type {Map<number, string>} */
    this.texts = new Map();
    this.isCut = false;
  }

  /** @param {Step[]} copies */
  copied(copies) {
    const moved = copies.filter(it => it.kind === Kind.MOVED), parts = [];
    const disk = moved.map(it => it.turn).sort((a, b) => a - b);
    const others = copies.length - disk.length;
    if (others) parts.push(others > 1 ? `${others} times` : "once");
    if (disk.length > FEW_TURNS) {
      parts.push(`${disk.length} times by the disk, turns ${disk[0]} to ${disk.at(-1)}`);
    } else if (disk.length) {
      parts.push(`by the disk in turn${disk.length > 1 ? "s" : ""} ${disk.join(" and ")}`);
    }
    return parts.length ? `, copied ${parts.join(" and ")},` : "";
  }

  /** What an end of the way back is.
      @param {Step} step */
  end({ kind, turn, at }) {
    if (kind === Kind.EVENT) {
      const event = this.facts.past.events.get(at);
      return `event ${at}: ${event ? eventInWords(event) : ""}, turn ${turn}`;
    }
    if (kind === Kind.START) return this.atPowerUp(at);
    const other = OTHER_ENDS[kind];
    if (other) return other(at);
    const looked = isOfDrive(at) ? `${MOST_LOOKS} looks at what the disk did`
      : `${MOST_TURNS_BACK} turns`;
    return `${this.name(at)} before turn ${turn}: ${looked} before it have no write`;
  }

  /** @param {number} cell */
  atPowerUp(cell) {
    const value = this.value(cell, 0) || octal(0);
    return `${this.name(cell)}, ${value} since power-up${this.fromWhere(cell)}`;
  }

  /** What has given a word its value at power-up, if a patch or an image has.
      @param {number} cell */
  fromWhere(cell) {
    if (!isOfDrive(cell) && !isCore(cell)) return "";
    const { past } = this.facts, word = wordOfDrive(cell);
    const name = isCore(cell) ? `core ${(cell & ~1).toString(8)}` : `disk ${onDrive(past, word)}`;
    if (past.patches.has(name)) return " (a patch)";
    const option = `--${isCore(cell) ? "core" : optionOfDrive(word.drive)}`;
    return this.options.includes(option) ? ` (the image of ${option}, or 0 after its end)` : "";
  }

  /** What a step is. The texts of its turn must be known.
      @param {Step} step */
  what(step) {
    if (!isWrite(step)) return this.end(step);
    if (step.kind === Kind.MADE) return `turn ${step.turn}: ${this.texts.get(step.turn)}`;
    const isFilled = !this.steps.inputsOf(step).size && !this.steps.left.has(step);
    const kind = isOfDrive(step.at) ? "write" : "read";
    const how = isFilled ? "the zeros that fill the sector of" : `a ${kind} of the disk to`;
    return `turn ${step.turn}: ${how} ${this.name(step.at)}`;
  }

  /** Asks for the texts of the turns of the lines. */
  async learnTexts() {
    const made = this.lines.flatMap(it => [it.step, ...it.run.slice(0, LOOKED_AT)])
      .filter(it => it.kind === Kind.MADE && !this.texts.has(it.turn));
    const turns = [...new Set(made.map(it => it.turn))].sort((a, b) => a - b);
    const texts = await this.turnsInWords(turns);
    turns.forEach((turn, at) => this.texts.set(turn, texts[at]));
  }

  // The tree

  /** The lines of roots, each with its name.
      @param {Root[]} roots @returns {Promise<Shown[]>} */
  async written(roots) {
    this.addRoots(roots);
    await this.learnTexts();
    return this.known(() => {
      this.addRoots(roots);
      return this.lines.map(it => this.shownLine(it));
    });
  }

  /** Bytes of one word that come from one step are one.
      @param {Root[]} roots */
  addRoots(roots) {
    this.lines = [];
    this.shown = new Set();
    /** @type {Set<Step>} */
    const found = new Set();
    for (const { name, cell, origin } of roots) {
      const step = this.steps.stepOf(origin);
      if (found.has(step)) continue;
      found.add(step);
      const source = this.steps.source(step, cell);
      this.add(source, 1, `${name}${this.copied(source.copies)} <- `, -1);
    }
  }

  /** A step and what it is made of.
      @param {Source} source @param {number} depth @param {string} head @param {number} above */
  add(source, depth, head, above) {
    for (let it = source, name = head, from = above; !this.isFull(depth);) {
      const { step } = it, number = this.lines.length;
      /** @type {Line} */
      const line = {
        depth, head: name, step, written: it.written, runHead: "", run: [], note: "", above: from,
      };
      this.lines.push(line);
      const sources = this.sourcesOf(line), last = sources.at(-1);
      if (!last || this.addRun(line, number)) return;
      const isSingle = sources.length === 1 || !isWrite(last.step);
      for (const part of isSingle ? sources : sources.slice(0, -1)) {
        this.add(part, depth + 1, this.head(step, part), number);
      }
      if (isSingle) return;
      name = this.head(step, last);
      it = last;
      from = number;
    }
  }

  /** What the step of a line is made of, unless that stands above or wasn't followed.
      @param {Line} line */
  sourcesOf(line) {
    const { step } = line, sources = isWrite(step) ? this.steps.sources(step) : [];
    if (this.shown.has(step) && sources.length) {
      line.note = ", as above";
      return [];
    }
    this.shown.add(step);
    if (this.steps.left.has(step)) {
      line.note = sources.length ? ", followed in part" : ", not followed";
    }
    return sources;
  }

  /** @param {number} depth */
  isFull(depth) {
    const isFull = this.lines.length >= MOST_LINES || depth > MOST_LEVELS;
    this.isCut ||= isFull;
    return isFull;
  }

  /** @param {Step} step @param {Source} source */
  head(step, source) {
    return `${this.named(source.cell, step.turn)}${this.copied(source.copies)} <- `;
  }

  /** One value that goes through many operations before this one: one line for all.
      @param {Line} line @param {number} number */
  addRun(line, number) {
    const run = this.steps.runOfOne(line.step).slice(1);
    if (run.length < LONG_RUN) return false;
    for (const it of run) this.shown.add(it);
    const last = run[run.length - 1], [source] = this.steps.sources(last);
    const [first] = this.steps.sources(line.step), begin = this.lines.length;
    this.add(source, line.depth + 1, this.head(last, source), number);
    if (begin < this.lines.length) {
      this.lines[begin].runHead = this.head(line.step, first);
      this.lines[begin].run = run;
    }
    return true;
  }

  /** @param {Line} line */
  runInWords({ run, runHead }) {
    if (!run.length) return "";
    const looked = run.slice(0, LOOKED_AT).map(it => operationIn(this.texts.get(it.turn) ?? ""));
    const names = [...new Set(looked)];
    const last = run.length > LOOKED_AT ? `the last ${LOOKED_AT}: ` : "";
    const others = names.length > MOST_NAMES ? " and others" : "";
    const turns = `turns ${run[run.length - 1].turn} to ${run[0].turn}`;
    return `${runHead}${run.length} operations on it`
      + ` (${last}${names.slice(0, MOST_NAMES).join(" ")}${others}) in ${turns}, from `;
  }

  /** @param {Line} line @returns {Shown} */
  shownLine(line) {
    const { depth, step, written, note, above } = line;
    const value = isWrite(step) ? this.value(written, step.turn + 1) : "";
    const text = `${this.what(step)}${value ? `: ${value}` : ""}${note}`;
    const head = `${this.runInWords(line)}${line.head}`;
    return { depth, head, text, above, ...this.placeOf(step) };
  }

  /** The turn of a step, and the lane in which it is drawn; an end may have none.
      @param {Step} step @returns {{turn: number | null, lane: string}} */
  placeOf({ kind, turn }) {
    if (kind === Kind.EVENT) return { turn, lane: "events" };
    if (kind === Kind.MOVED) return { turn, lane: "disk" };
    if (kind !== Kind.MADE) return { turn: null, lane: "" };
    const space = SPACES[this.steps.origins.flowOf(turn).mode];
    return { turn, lane: space ? `${space} PC` : "" };
  }
}

/** The name of the instruction, in the text of a turn.
    @param {string} text */
const operationIn = text =>
  text.split(/ +/).slice(2).find(it => !it.startsWith("(")) ?? text;
