// The data of turns: what each turn writes, and what that is made of, by the table in made-of.js
// and the order of docs/MACHINE.md, What happens in order. The rules are those of
// src/nezdrab/analysis/turn_flow.py; tests compare what comes of both.

import {
  ALL_CODES, CODE_C, CODE_N, KSP, MASK, OF_THE_DISK, PS, REGISTER_NAMES, REST, registerCells,
  wordCells,
} from "./cells.js";
import { KERNEL, USER } from "./facts.js";
import { EXTENDED, KEPT, LETTERS, MOVED, XOR, rowOf } from "./made-of.js";
import {
  BelowTheLimit, CutShort, NO_VALUES, Operands, PC, POINTS, SP, STACK_LIMIT, WHOLE_PS, pointerOf,
} from "./operands.js";
import { NotFollowed } from "./space.js";

const [RESERVED, BOTTOM, R5] = [0o10, 0o4, 5];
/** @type {Object<string, number>} */
const VECTORS = { trace: 0o14, stack: 0o4 };
const TRAPPING_WORDS = new Map([[0o3, 0o14], [0o4, 0o20]]);
const [MUL, ASH, EXCLUSIVE_OR, SUBTRACT_AND_BRANCH] = [0, 2, 4, 7];

/**
 * What a turn moves, after the transfer that ended in its beginning. `place` and `word` are those
 * of the instruction, if it ran one; `vector` is that of its trap or interrupt, or null.
 * @typedef {{turn: number, act: Act, mode: number, transfer: Transfer | null, moves: Move[],
 *   place: number | null, word: number, vector: number | null}} Flow
 * @typedef {import("./facts.js").Act} Act
 * @typedef {import("./made-of.js").Row} Row
 * @typedef {import("./operands.js").Move} Move
 * @typedef {import("./operands.js").Operand} Operand
 * @typedef {import("./operands.js").Values} Values
 * @typedef {import("./facts.js").Transfer} Transfer
 */

/** The cells of a part, from those that each letter stands for, in the order of LETTERS.
    @param {string} part @param {number[][]} inputs */
const madeOf = (part, inputs) => [...part].flatMap(it => inputs[LETTERS.indexOf(it)]);

export class Flows extends Operands {
  /** @param {import("./facts.js").Facts} facts */
  constructor(facts) {
    super(facts);
    /** @type {number | null} the place of the instruction */
    this.place = null;
    this.word = 0;
    /** @type {number | null} the vector of the sequence that the turn had */
    this.taken = null;
  }

  /** The flows of the turns from `first` to the one before `end`, at most 64. One that isn't
      followed is an error.
      @param {number} first @param {number} end */
  async of(first, end) {
    /** @type {Flow[]} */
    const found = [];
    await this.walk(first, end, it => found.push(it));
    return found;
  }

  /** Takes the same flows one after the other, up to one that isn't followed.
      @param {number} first @param {number} end @param {(flow: Flow) => unknown} take */
  async walk(first, end, take) {
    const { seen, ended } = await this.facts.seen(first, end);
    const moving = await this.facts.moving(ended);
    this.ends = new Set(ended.map(it => it.turn));
    const transfers = new Map(moving.map(it => [it.turn, it]));
    await this.space.prepare(seen);
    for (const it of seen) {
      const transfer = transfers.get(it.act.turn) ?? null;
      this.space.begin(it.act.turn, transfer);
      await take(await this.flow(it, transfer));
    }
  }

  /** @param {import("./facts.js").Seen} seen @param {Transfer | null} transfer
      @returns {Promise<Flow>} */
  async flow(seen, transfer) {
    const { act } = seen;
    this.beginTurn(seen);
    this.place = this.taken = null;
    this.word = 0;
    const { mode } = this;
    if (act.act === "instr") await this.orNotFollowed(this.instruction());
    else if (act.act !== "idle") {
      await this.orNotFollowed(this.sequence(act.vector ?? VECTORS[act.act]));
    }
    this.check();
    const { moves, place, word, taken: vector } = this;
    return { turn: act.turn, act, mode, transfer, moves, place, word, vector };
  }

  /** A sequence that is cut short isn't explained.
      @param {Promise<void>} work */
  async orNotFollowed(work) {
    try {
      await work;
    } catch (error) {
      if (!(error instanceof CutShort)) throw error;
      throw new NotFollowed(`turn ${this.turn}: the rules don't explain it`);
    }
  }

  /** That the registers are what these rules make of them, as far as no value was written. */
  check() {
    const { words } = this.after;
    const wrong = this.registers.findIndex((word, number) =>
      word !== words[number] && !(this.unknown >> number & 1));
    if (wrong >= 0) {
      throw new NotFollowed(`turn ${this.turn}: the rules don't explain ${REGISTER_NAMES[wrong]}`);
    }
  }

  async instruction() {
    try {
      this.place = await this.reach(this.mode, this.pc);
      const word = this.word = await this.space.word(this.place);
      this.pc = this.pc + 2 & MASK;
      if (this.vector === RESERVED) throw new CutShort();
      await this.carryOut(word);
    } catch (error) {
      if (!(error instanceof CutShort)) throw error;
      const { vector } = this;
      this.taken = vector;
      this.vector = null;
      if (error instanceof BelowTheLimit) await this.red();
      else if (vector !== null) await this.sequence(vector);
      else throw new NotFollowed(`turn ${this.turn}: the rules don't explain it`);
    }
  }

  // Sequences

  /** @param {number} vector */
  async sequence(vector) {
    this.taken = vector;
    this.vector = null;
    this.forgetAddresses();
    const first = await this.vectorWord(vector);
    const place = first === null ? null : await this.vectorWord(vector + 2);
    if (place === null) {
      await this.red();
      return;
    }
    const mode = await this.space.word(place) >> 14;
    if (await this.goesRed(mode)) {
      await this.failingPushes(mode);
      await this.red();
      return;
    }
    await this.save(mode, place);
  }

  /** Pushes the old PS and PC, and loads the new PS, which was read before that: if a push is onto
      it, at the instant of the push.
      @param {number} mode @param {number} place */
  async save(mode, place) {
    let isOver = false;
    for (const values of [WHOLE_PS, POINTS]) {
      await this.push(values, mode, "saved");
      if (await this.space.place(mode, this.registers[pointerOf(mode)]) !== place) continue;
      this.loadPs(place);
      isOver = true;
    }
    if (isOver) return;
    this.instant += 1;
    this.loadPs(place);
  }

  /** The place of a word of a vector, or null if it can't be read.
      @param {number} address */
  async vectorWord(address) {
    const place = await this.space.place(KERNEL, address);
    if (place === null) return null;
    return await this.space.answers(KERNEL, address, place) ? place : null;
  }

  /** Whether the sequence to this mode became the red one, which may halt: by the pointers after
      it; if KSP is 0 both before and after it, by the stamp of what that one has saved.
      @param {number} mode */
  async goesRed(mode) {
    if (this.after.isHalted) return true;
    const pointers = [...this.registers], { words } = this.after;
    pointers[pointerOf(mode)] = pointers[pointerOf(mode)] - 4 & MASK;
    if (pointers.slice(KSP).some((word, at) => word !== words[KSP + at])) return true;
    return words[KSP] === 0 && await this.isStamped(await this.space.place(KERNEL, 2));
  }

  /** What the sequence pushed before it became the red one: the old PS, or nothing. KSP is lost
      then. If PS was pushed onto itself, it is as it was.
      @param {number} mode */
  async failingPushes(mode) {
    const pointer = pointerOf(mode), first = this.registers[pointer] - 2 & MASK;
    const second = first - 2 & MASK;
    const hasSecond = mode !== KERNEL && this.after.words[pointer] === second;
    for (const address of [first, second]) {
      const isBelow = mode === KERNEL && address < STACK_LIMIT;
      if (mode !== KERNEL) this.stepNumber(pointer, -2);
      const place = address & 1 || isBelow ? null : await this.space.place(mode, address);
      if (place === null || !await this.space.answers(mode, address, place)) return;
      if (address !== first || !(hasSecond || await this.isStamped(place))) return;
      if (place !== PS) await this.store(place, false, WHOLE_PS, "saved");
    }
  }

  /** Whether the processor wrote this word of core in the turn.
      @param {number | null} place */
  async isStamped(place) {
    if (place === null || place & 1 || place >= this.space.top) return false;
    const last = await this.facts.last(this.turn + 1, place);
    return last !== null && last.turn === this.turn && last.writer === "cpu";
  }

  /** @param {number} place */
  loadPs(place) {
    const [low, high] = wordCells(place);
    for (const cell of ALL_CODES) this.move(cell, [low], "copy");
    this.move(REST, [low, high, REST], "copy");
  }

  /** The red sequence, also one that can't go on. */
  async red() {
    this.instant += 1;
    this.forgetAddresses();
    this.registers = [...this.registers.slice(0, KSP), ...this.after.words.slice(KSP)];
    for (const cell of registerCells(KSP)) this.move(cell, []);
    if (await this.vectorWord(BOTTOM) === null) return;
    const place = await this.vectorWord(BOTTOM + 2);
    if (place !== null && await this.savesBelow() && this.after.words[KSP] === 0) {
      this.instant += 1;
      this.loadPs(place);
    }
  }

  /** What the red sequence saves; tells whether both words of it were written. */
  async savesBelow() {
    for (const [address, values] of /** @type {const} */ ([[2, WHOLE_PS], [0, POINTS]])) {
      const place = await this.space.place(KERNEL, address);
      if (place === null || !await this.space.answers(KERNEL, address, place)) return false;
      if (place < this.space.top && !await this.isStamped(place)) return false;
      await this.store(place, false, values, "saved");
    }
    return true;
  }

  // Instructions

  /** @param {number} word */
  async carryOut(word) {
    const row = rowOf(word);
    if (row) {
      if (word >> 12 & 7) await this.twoOperands(row, word >> 6 & 0o77, word & 0o77);
      else await this.oneOperand(row, word & 0o77);
    } else if (word >> 12 === 7) {
      await this.extended(word >> 9 & 7, word >> 6 & 7, word & 0o77);
    } else await this.control(word);
  }

  /** @param {Row} row @param {number} source @param {number} destination */
  async twoOperands(row, source, destination) {
    const { isByte } = row, isLate = source < 8 && destination >= 8;
    const at = await this.find(source, isByte);
    let to = isLate ? await this.find(destination, isByte) : null;
    const values = await this.read(at, isByte);
    to ??= await this.find(destination, isByte);
    const old = row.isCopy ? NO_VALUES : await this.read(to, isByte);
    await this.finish(row, [...values, ...old], to);
  }

  /** @param {Row} row @param {number} destination */
  async oneOperand(row, destination) {
    const to = await this.find(destination, row.isByte);
    const isRead = (row.codes[1] + row.high).includes("d");
    const old = isRead ? await this.read(to, row.isByte) : NO_VALUES;
    await this.finish(row, [[], [], ...old], to);
  }

  /** The value is written, and the codes are stored: both of what was before.
      @param {Row} row @param {number[][]} values @param {Operand} to */
  async finish(row, values, to) {
    const inputs = [...values, [], [CODE_C], [CODE_N]], { isByte } = row;
    if (row.low === KEPT) {
      this.instant += 1;
      this.codes(row, inputs);
      return;
    }
    const low = madeOf(row.low, inputs);
    const isExtended = isByte && row.isCopy && to.register !== null;
    const high = isExtended ? low : isByte ? [] : madeOf(row.high, inputs);
    const how = row.isCopy ? "copy" : "value";
    if (await this.write(to, isByte && !isExtended, [low, high], how)) this.codes(row, inputs);
  }

  /** @param {Row} row @param {number[][]} inputs */
  codes(row, inputs) {
    for (const [at, part] of row.codes.entries()) {
      const addresses = part ? this.addresses : [];
      if (part !== KEPT) this.move(ALL_CODES[at], madeOf(part, inputs), "code", addresses);
    }
  }

  /** @param {number} kind @param {number} register @param {number} operand */
  async extended(kind, register, operand) {
    if (kind === EXCLUSIVE_OR) await this.twoOperands(XOR, register, operand);
    else if (kind === SUBTRACT_AND_BRANCH) {
      if (register !== PC) this.step(register, -1);
    } else if (EXTENDED[kind]) await this.changeRegisters(kind, register, operand);
  }

  /** @param {number} kind @param {number} register @param {number} operand */
  async changeRegisters(kind, register, operand) {
    const row = EXTENDED[kind], pair = kind === ASH ? [register] : [register, register | 1];
    const written = [...new Set(pair)], read = kind === MUL ? [register] : written;
    const values = await this.read(await this.find(operand, false), false);
    const old = read.flatMap(it => it === PC ? POINTS[0] : registerCells(this.number(it)));
    const inputs = [...values, [], [], old, [], []], made = madeOf(row.low, inputs);
    this.instant += 1;
    for (const it of written) {
      if (it !== PC) this.setRegister(this.number(it), [made, made], "value");
    }
    this.codes(row, inputs);
  }

  /** @param {number} word */
  async control(word) {
    const destination = word & 0o77, upper = word & 0o177700;
    if ((word & 0o177000) === 0o004000) await this.jsr(word >> 6 & 7, destination);
    else if (upper === 0o000100) await this.findJump(destination);
    else if ((word & 0o177770) === 0o000200) await this.rts(word & 7);
    else if (word >= 0o240 && word < 0o300) this.changeCodes(word);
    else if (upper === 0o006400) await this.mark(word & 0o77);
    else if (upper === 0o006500) await this.mfpi(destination);
    else if (upper === 0o006600) await this.mtpi(destination);
    else if (word === 0o2 || word === 0o6) await this.rti();
    else if (word === 0o5 && this.mode !== USER) this.reset();
    else if (TRAPPING_WORDS.has(word) || word >= 0o104000 && word < 0o105000) {
      this.vector = TRAPPING_WORDS.get(word) ?? (word < 0o104400 ? 0o30 : 0o34);
      throw new CutShort();
    }
  }

  /** @param {number} word */
  changeCodes(word) {
    this.instant += 1;
    ALL_CODES.filter((_, at) => word >> 3 - at & 1).forEach(it => this.move(it, [], "code"));
  }

  /** @param {number} destination */
  async findJump(destination) {
    if (destination < 8) throw new CutShort();
    await this.find(destination, false);
    this.forgetAddresses();
  }

  /** @param {number} register @param {number} destination */
  async jsr(register, destination) {
    await this.findJump(destination);
    if (register === PC) {
      await this.push(POINTS, this.mode, "saved");
      return;
    }
    const [low, high] = registerCells(this.number(register));
    const keepsMode = await this.push([[low], [high]], this.mode);
    if (!keepsMode) this.mode = this.after.ps >> 14; // which the push has changed
    this.instant += 1;
    this.setRegister(this.number(register), POINTS, "saved");
  }

  /** @param {number} register */
  async rts(register) {
    await this.write({ register, address: 0 }, false, await this.pop(), "copy");
  }

  /** @param {number} count */
  async mark(count) {
    const number = pointerOf(this.mode);
    this.instant += 1;
    this.setRegister(number, POINTS, "value");
    this.registers[number] = this.pc + 2 * count & MASK;
    await this.rts(R5);
  }

  async rti() {
    await this.pop();
    const [low, high] = await this.pop();
    this.instant += 1;
    for (const cell of ALL_CODES) this.move(cell, low, "copy");
    this.move(REST, [...low, ...high, ...this.mode === USER ? [REST] : []], "copy");
  }

  reset() {
    this.space.reset();
    this.instant += 1;
    for (const cell of OF_THE_DISK.flatMap(wordCells)) this.move(cell, []);
  }

  /** @param {number} operand */
  async mfpi(operand) {
    const [low, high] = registerCells(pointerOf(this.previous));
    /** @type {Values} */
    const values = operand === SP ? [[low], [high]]
      : await this.read(await this.find(operand, false), false, this.previous);
    if (await this.push(values, this.mode, "copy", true)) this.codesOfMoved(values);
  }

  /** @param {number} operand */
  async mtpi(operand) {
    const values = await this.pop();
    if (operand === SP) {
      this.instant += 1;
      this.setRegister(pointerOf(this.previous), values, "copy");
      this.codesOfMoved(values);
      return;
    }
    const to = await this.find(operand, false);
    if (await this.write(to, false, values, "copy", this.previous)) this.codesOfMoved(values);
  }

  /** @param {Values} values */
  codesOfMoved(values) {
    this.codes(MOVED, [...values, [], [], [], [], []]);
  }
}
