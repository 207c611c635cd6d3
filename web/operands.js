// Where the data of a turn goes: the operands of instructions, pushes and pops, in the order of
// docs/MACHINE.md, Operands, and what each write is made of. The rules are those of
// src/nezdrab/analysis/operands.py.

import {
  ALL_CODES, IO_PAGE, KEPT_ON_THE_BUS, KSP, MASK, OF_THE_DISK, OUTPUTS, POINT, PS, REST, USP,
  registerCells, wordCells,
} from "./cells.js";
import { KERNEL } from "./facts.js";
import { Space } from "./space.js";

export const SP = 6;
export const PC = 7;
export const STACK_LIMIT = 0o340;

/**
 * How a cell gets its value: by an operation, as a copy, saved by a call or a trap, as a register
 * that grows or shrinks for an operand, or as a condition code.
 * @typedef {"value" | "copy" | "saved" | "step" | "code"} How
 */

/**
 * A cell gets a value: made of these cells, and at an address made of those. The moves of one
 * instant are made at once, of what was before them. An operand is in a register, or at a virtual
 * address. Values are the cells of the low and of the high byte.
 * @typedef {{cell: number, values: number[], addresses: number[], how: How,
 *   instant: number}} Move
 * @typedef {{register: number | null, address: number}} Operand
 * @typedef {[number[], number[]]} Values
 * @typedef {import("./facts.js").Transfer} Transfer
 */

/** @type {Values} */
export const NO_VALUES = [[], []];
/** @type {Values} the low and the high byte of PS */
export const WHOLE_PS = [[REST, ...ALL_CODES], [REST]];
/** @type {Values} */
export const POINTS = [[POINT], [POINT]];

/** A reference that can't be made: the instruction goes no further. */
export class CutShort extends Error {}

/** The kernel's stack would go below its limit: the red sequence follows. */
export class BelowTheLimit extends CutShort {}

/** @param {number} mode */
export const pointerOf = mode => mode === KERNEL ? KSP : USP;

/**
 * How an operand with these six bits is found, or null for a register. First the register shrinks;
 * then the index word is read, if there is one; the address is both together; then the register
 * grows; and last, if the operand is deferred, its address is the word that is read there.
 * @param {number} specifier @param {boolean} isByte
 */
function addressingOf(specifier, isByte) {
  const mode = specifier >> 3, register = specifier & 7;
  if (mode === 0) return null;
  const step = isByte && register < SP && (mode === 2 || mode === 4) ? 1 : 2;
  return {
    register, shrinks: mode === 4 || mode === 5 ? step : 0, hasIndex: mode >= 6,
    grows: mode === 2 || mode === 3 ? step : 0, isDeferred: mode % 2 === 1 && mode > 1,
  };
}

export class Operands {
  /** @param {import("./facts.js").Facts} facts */
  constructor(facts) {
    this.facts = facts;
    this.space = new Space(facts);
    /** @type {Set<number>} the turns in which a function of the disk ended */
    this.ends = new Set();
    /** @type {number[]} */
    this.registers = [];
    /** @type {import("./facts.js").Row} */
    this.after = { words: [], pc: 0, ps: 0, isHalted: false };
    /** @type {number | null} of the trap that the turn has, until it comes */
    this.vector = null;
    this.pc = 0;
    this.mode = 0;
    this.previous = 0;
    this.instant = 0;
    /** The registers to which a value was written, as bits. */
    this.unknown = 0;
    this.turn = 0;
    /** @type {number[]} the cells that the addresses of the operands found so far are made of */
    this.addresses = [];
    /** @type {Move[]} */
    this.moves = [];
  }

  /** @param {import("./facts.js").Seen} seen */
  beginTurn({ act, before, after, trap }) {
    this.registers = [...before.words];
    this.after = after;
    this.pc = before.pc;
    this.vector = trap;
    this.mode = before.ps >> 14;
    this.previous = before.ps >> 12 & 3;
    this.moves = [];
    this.addresses = [];
    this.turn = act.turn;
    this.instant = 0;
    this.unknown = 0;
  }

  // Moves

  /** @param {number} cell @param {number[]} values @param {How} how */
  move(cell, values, how = "value", addresses = how === "step" ? [] : this.addresses) {
    this.moves.push({ cell, values, addresses, how, instant: this.instant });
  }

  /** What comes now is at no address that was found so far. */
  forgetAddresses() {
    this.addresses = [];
  }

  /** What an address in this register is made of.
      @param {number} register */
  cellsOf(register) {
    return register === PC ? [] : registerCells(this.number(register));
  }

  /** @param {number} register */
  number(register) {
    return register === SP ? pointerOf(this.mode) : register;
  }

  /** @param {number} register */
  value(register) {
    return register === PC ? this.pc : this.registers[this.number(register)];
  }

  /** A register grows or shrinks.
      @param {number} register @param {number} by */
  step(register, by) {
    if (register === PC) this.pc = this.pc + by & MASK;
    else this.stepNumber(this.number(register), by);
  }

  /** @param {number} number @param {number} by */
  stepNumber(number, by) {
    this.registers[number] = this.registers[number] + by & MASK;
    const [low, high] = registerCells(number);
    this.instant += 1;
    this.move(low, [low], "step");
    this.move(high, [low, high], "step");
  }

  /** @param {number} register @param {number} by */
  shrink(register, by) {
    if (register === PC) this.step(PC, -by);
    else this.shrinkNumber(this.number(register), by);
  }

  /** @param {number} number @param {number} by */
  shrinkNumber(number, by) {
    if (number === KSP && (this.registers[KSP] - by & MASK) < STACK_LIMIT) {
      throw new BelowTheLimit();
    }
    this.stepNumber(number, -by);
  }

  /** @param {number} number @param {Values} values @param {How} how */
  setRegister(number, values, how) {
    this.unknown |= 1 << number;
    registerCells(number).forEach((cell, at) => this.move(cell, values[at], how));
  }

  // References

  /** The physical address of a reference. In a turn that traps a write is the last one: if all
      reads before it could be made it is the one that can't.
      @param {number} mode @param {number} address */
  async reach(mode, address, isByte = false, isWrite = false) {
    const isOdd = address & 1 && !isByte;
    const place = isOdd ? null : await this.space.place(mode, address);
    if (place === null) throw new CutShort();
    if (this.vector !== null) {
      if (isWrite || !await this.space.answers(mode, address, place)) throw new CutShort();
    }
    return place;
  }

  /** @param {number} spec @param {boolean} isByte @returns {Promise<Operand>} */
  async find(spec, isByte) {
    const way = addressingOf(spec, isByte);
    if (!way) return { register: spec, address: 0 };
    if (way.shrinks) this.shrink(way.register, way.shrinks);
    let index = 0;
    const cells = this.cellsOf(way.register);
    if (way.hasIndex) {
      const place = await this.reach(this.mode, this.pc);
      this.pc = this.pc + 2 & MASK;
      index = await this.space.word(place);
      cells.push(...wordCells(place));
    }
    let address = this.value(way.register) + index & MASK;
    if (way.grows) this.step(way.register, way.grows);
    if (way.isDeferred) {
      const place = await this.reach(this.mode, address);
      address = await this.space.word(place);
      cells.push(...wordCells(place));
    }
    this.addresses = [...this.addresses, ...cells];
    return { register: null, address };
  }

  /** The cells of the low and of the high byte. TPB and PPB read 0.
      @param {Operand} operand @param {boolean} isByte @returns {Promise<Values>} */
  async read({ register, address }, isByte, mode = this.mode) {
    if (register === null) return this.cellsAt(await this.reach(mode, address, isByte), isByte);
    if (register === PC) return POINTS;
    const [low, high] = registerCells(this.number(register));
    return [[low], isByte ? [] : [high]];
  }

  /** @param {number} place @param {boolean} isByte @returns {Values} */
  cellsAt(place, isByte) {
    const [low, high] = wordCells(place);
    const halves = low === PS ? WHOLE_PS : OUTPUTS.has(low) ? NO_VALUES : [[low], [high]];
    return isByte ? [halves[place & 1], []] : [halves[0], halves[1]];
  }

  /** Writes an operand; tells whether the instruction may store codes after that.
      @param {Operand} operand @param {boolean} isByte @param {Values} values @param {How} how */
  async write({ register, address }, isByte, values, how = "value", mode = this.mode) {
    this.instant += 1;
    if (register === null) {
      return this.store(await this.reach(mode, address, isByte, true), isByte, values, how);
    }
    if (register === PC) return true;
    const number = this.number(register), [low, high] = registerCells(number);
    this.unknown |= 1 << number;
    this.move(low, values[0], how);
    if (!isByte) this.move(high, values[1], how);
    return true;
  }

  /** @param {number} place @param {boolean} isByte @param {Values} values @param {How} how */
  async store(place, isByte, values, how) {
    this.space.wrote(place);
    if ((place & ~1) === PS) {
      this.storePs(place, isByte, values, how);
      return false;
    }
    if (place >= IO_PAGE && !await this.isKept(place)) return true;
    this.move(place, values[0], how);
    if (!isByte && !OUTPUTS.has(place)) this.move(place + 1, values[1], how);
    return true;
  }

  /** Whether a register on the bus keeps what is written to this byte of it.
      @param {number} place */
  async isKept(place) {
    const register = place & ~1;
    if (OUTPUTS.has(register)) return place === register;
    if (!KEPT_ON_THE_BUS.has(register)) return false;
    return !(OF_THE_DISK.includes(register) && await this.isDiskBusy());
  }

  /** Whether a function of the disk is under way in the act of the turn. */
  async isDiskBusy() {
    return !this.ends.has(this.turn) && !await this.facts.isDiskReady(this.turn);
  }

  /** T stays as it is.
      @param {number} place @param {boolean} isByte @param {Values} values @param {How} how */
  storePs(place, isByte, values, how) {
    if (place === PS) for (const cell of ALL_CODES) this.move(cell, values[0], how);
    this.move(REST, [...values[0], ...isByte ? [] : values[1], REST], how);
  }

  /** Pushes a word. If it is from before the push, it isn't made of the pointer that has shrunk.
      @param {Values} values @param {number} mode @param {How} how */
  async push(values, mode, how = "copy", isFromBefore = false) {
    const number = pointerOf(mode), { addresses } = this;
    this.shrinkNumber(number, 2);
    const place = await this.reach(mode, this.registers[number], false, true);
    if (!isFromBefore) this.instant += 1;
    this.addresses = [...registerCells(number), ...addresses];
    const storesCodes = await this.store(place, false, values, how);
    this.addresses = addresses;
    return storesCodes;
  }

  /** The cells of the popped word. */
  async pop() {
    const number = pointerOf(this.mode), address = this.registers[number];
    this.stepNumber(number, 2);
    this.addresses = registerCells(number);
    return this.cellsAt(await this.reach(this.mode, address), false);
  }
}
