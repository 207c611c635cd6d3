// A graph of origins as steps: bytes of one word that one operation makes are one step, and a value
// that is only copied goes through. The rules are those of src/nezdrab/analysis/steps.py.

import { firstOf, isCore } from "./cells.js";
import { Kind, isWrite } from "./origins.js";

const INSTRUCTION_BYTES = 6;

/**
 * An operation of a turn, by its instant; a word that the disk wrote, by its first cell; or an end
 * of the way back, by its cell or the number of its event. There is one of each.
 * @typedef {{kind: number, turn: number, at: number, isCodes: boolean}} Step
 */

/**
 * What a step is made of: the step that it comes from, through these copies, the last one first;
 * the cell that has it then, and the one that the step wrote it to.
 * @typedef {{step: Step, copies: Step[], cell: number, written: number}} Source
 * @typedef {import("./origins.js").Origin} Origin
 */

export class OriginSteps {
  /** @param {import("./origins.js").Origins} origins
      @param {import("./origins.js").Graph} graph */
  constructor(origins, graph) {
    this.origins = origins;
    this.graph = graph;
    /** @type {Map<string, Step>} */
    this.known = new Map();
    /** @type {Map<Step, Map<Step, number>>} */
    this.inputs = new Map();
    for (const origin of graph.inputs.keys()) this.add(origin);
    this.left = new Set([...graph.left].map(it => this.stepOf(it)));
    this.ordered = [...this.inputs.keys()]
      .sort((a, b) => a.turn - b.turn || a.kind - b.kind || a.at - b.at);
    /** @type {Map<Step, {end: Step, copies: Step[]}>} */
    this.through = new Map();
    /** @type {Map<Step, number>} how many writes are behind each step */
    this.sizes = new Map();
    for (const step of this.ordered) this.sizes.set(step, this.sizeOf(step));
  }

  /** @param {Step} step */
  sizeOf(step) {
    const inputs = new Set([...this.inputsOf(step).keys()].map(it => this.target(it).end));
    return [...inputs].reduce((sum, it) => sum + (this.sizes.get(it) ?? 0), Number(isWrite(step)));
  }

  /** @param {number} kind @param {number} turn @param {number} at @returns {Step} */
  step(kind, turn, at, isCodes = false) {
    const key = `${kind} ${turn} ${at} ${isCodes}`;
    const found = this.known.get(key) ?? { kind, turn, at, isCodes };
    this.known.set(key, found);
    return found;
  }

  /** @param {Origin} origin */
  stepOf({ kind, turn, at }) {
    if (kind === Kind.MADE) {
      const { instant, how } = this.origins.flowOf(turn).moves[at];
      return this.step(kind, turn, instant, how === "code");
    }
    if (kind === Kind.DEVICE) return this.step(kind, 0, at);
    if (kind === Kind.POINT) return this.step(kind, 0, 0);
    return this.step(kind, turn, kind === Kind.EVENT ? at : firstOf(at));
  }

  /** @param {Step} step @returns {Map<Step, number>} */
  inputsOf(step) {
    return this.inputs.get(step) ?? new Map();
  }

  /** @param {Origin} origin */
  add(origin) {
    const step = this.stepOf(origin), inputs = this.inputsOf(step);
    this.inputs.set(step, inputs);
    for (const { cell, origin: source } of this.graph.inputs.get(origin) ?? []) {
      const from = this.stepOf(source);
      if (!this.isOfCode(step, cell) && !inputs.has(from)) inputs.set(from, firstOf(cell));
    }
  }

  /** Whether a cell is in a word of the instruction itself: an immediate operand, an address.
      @param {Step} step @param {number} cell */
  isOfCode(step, cell) {
    if (step.kind !== Kind.MADE || !isCore(cell)) return false;
    const { place } = this.origins.flowOf(step.turn);
    return place !== null && place <= cell && cell < place + INSTRUCTION_BYTES;
  }

  /** @param {Step} step */
  isCopy(step) {
    if (this.inputsOf(step).size !== 1 || this.left.has(step)) return false;
    if (step.kind !== Kind.MADE) return step.kind === Kind.MOVED;
    const mine = this.origins.flowOf(step.turn).moves.filter(it =>
      it.instant === step.at && (it.how === "code") === step.isCodes);
    return mine.length > 0 && mine.every(it => it.how === "copy" || it.how === "saved");
  }

  /** The step that a value comes from, and the copies on the way, the last one first.
      @param {Step} step @returns {{end: Step, copies: Step[]}} */
  target(step) {
    /** @type {Step[]} */
    const chain = [];
    let at = step;
    while (!this.through.has(at) && this.isCopy(at)) {
      chain.push(at);
      [at] = this.inputsOf(at).keys();
    }
    let found = this.through.get(at) ?? { end: at, copies: [] };
    for (const it of chain.reverse()) {
      found = { end: found.end, copies: [it, ...found.copies] };
      this.through.set(it, found);
    }
    return found;
  }

  /** What a step is made of; the one with the most behind it last.
      @param {Step} step @returns {Source[]} */
  sources(step) {
    /** @type {Map<Step, Source>} */
    const found = new Map();
    for (const [it, cell] of this.inputsOf(step)) {
      const source = this.source(it, cell);
      if (!found.has(source.step)) found.set(source.step, source);
    }
    /** @param {Source} it */
    const size = it => this.sizes.get(it.step) ?? 0;
    return [...found.values()].sort((a, b) =>
      Number(isWrite(a.step)) - Number(isWrite(b.step)) || size(a) - size(b));
  }

  /** Where the value comes from that a step gives to a cell.
      @param {Step} step @param {number} cell @returns {Source} */
  source(step, cell) {
    const { end, copies } = this.target(step), last = copies[copies.length - 1];
    const written = last ? this.inputsOf(last).get(end) ?? cell : cell;
    return { step: end, copies, cell, written };
  }

  /** The steps from this one back that are each made of one other step alone.
      @param {Step} step @returns {Step[]} */
  runOfOne(step) {
    const found = [];
    for (let at = step; at.kind === Kind.MADE && !this.left.has(at);) {
      const sources = this.sources(at);
      if (sources.length !== 1 || !isWrite(sources[0].step)) break;
      found.push(at);
      at = sources[0].step;
    }
    return found;
  }
}
