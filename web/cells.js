// The cells that hold data, each a number: a byte of core or of a register on the bus by its
// physical address, a byte of a register of the processor, a condition code, the rest of PS, and a
// byte of a drive. The numbers are those of src/nezdrab/analysis/cells.py.

import { CYLINDERS, SECTORS, SECTOR_WORDS, SURFACES } from "./hardware.js";
import { nameOfWord } from "./names.js";
import { octal } from "./replies.js";

export const MASK = 0o177777;
export const IO_PAGE = 0o760000;
const [REGISTERS, CODES, DRIVES] = [1 << 20, (1 << 20) + 16, 1 << 21];
const DRIVE_BYTES = 2 * CYLINDERS * SURFACES * SECTORS * SECTOR_WORDS;

// The codes in the order of their bits in PS; the rest of PS: both modes, priority and T; and PC,
// which nothing is made of: where the program stands isn't followed.
export const CODE_C = CODES;
export const CODE_N = CODES + 3;
export const REST = CODES + 4;
export const POINT = CODES + 5;
/** N, Z, V and C. */
export const ALL_CODES = [CODES + 3, CODES + 2, CODES + 1, CODES];
const NAMES_OF_CODES = ["code C", "code V", "code Z", "code N", "PS", "PC"];

export const REGISTER_NAMES = ["R0", "R1", "R2", "R3", "R4", "R5", "KSP", "USP"];
export const KSP = 6;
export const USP = 7;

// Registers on the bus by their addresses: those that keep what is written to them, and those that
// an event or the tape fills.
export const PS = 0o777776;
export const TKB = 0o777562;
export const SWITCHES = 0o777570;
export const PRB = 0o777552;
export const TPB = 0o777566;
const PPB = 0o777556;
export const OF_THE_DISK = [0o777406, 0o777410, 0o777412];
export const OUTPUTS = new Set([TPB, PPB]);
export const INPUTS = new Set([TKB, SWITCHES, PRB]);
const MAPPING = [0o772300, 0o777600, 0o772340, 0o777640]
  .flatMap(first => Array.from({ length: 8 }, (_, at) => first + 2 * at));
export const KEPT_ON_THE_BUS = new Set([...OUTPUTS, ...OF_THE_DISK, ...MAPPING]);
const NAMES_ON_THE_BUS = new Map([
  [TPB, "TPB"], [PPB, "PPB"], [TKB, "TKB"], [SWITCHES, "switches"], [PRB, "PRB"],
  [0o777560, "TKS"], [0o777564, "TPS"], [0o777550, "PRS"], [0o777554, "PPS"], [0o777546, "LKS"],
  [0o777400, "RKDS"], [0o777402, "RKER"], [0o777404, "RKCS"], [0o777406, "RKWC"],
  [0o777410, "RKBA"], [0o777412, "RKDA"], [0o777572, "SR0"], [0o777576, "SR2"], [PS, "PS"],
]);

/** The cell that a line of `moves` names, such as `core 001000.1`, `R0.0`, `code N` or `TKB`.
    @param {string} text */
export function cellNamed(text) {
  const [word, half = "0"] = text.split("."), [first, one = "", two = ""] = word.split(" ");
  const register = REGISTER_NAMES.indexOf(first);
  if (register >= 0) return registerCells(register)[Number(half)];
  if (first === "core") return parseInt(one, 8) + Number(half);
  if (first === "disk") return driveCell(Number(one), parseInt(two, 8), Number(half));
  if (first === "code") return NAMES_OF_CODES.indexOf(word) + CODES;
  return [...NAMES_ON_THE_BUS].find(([, name]) => name === first)?.[0] ?? POINT;
}

/** The low and the high byte of a register.
    @param {number} register */
export function registerCells(register) {
  const low = REGISTERS + 2 * register;
  return [low, low + 1];
}

/** @param {number} address */
export const wordCells = address => [address & ~1, address | 1];

/** The low byte of a word of a drive, or with 1 the high one.
    @param {number} drive @param {number} word */
export const driveCell = (drive, word, half = 0) => DRIVES + drive * DRIVE_BYTES + 2 * word + half;

/** The drive and the word that a cell is in.
    @param {number} cell */
export function wordOfDrive(cell) {
  const number = cell - DRIVES;
  return { drive: Math.floor(number / DRIVE_BYTES), at: number % DRIVE_BYTES >> 1 };
}

/** @param {number} at @returns {import("./names.js").WatchedWord} */
export const coreWord = at => ({ kind: "core", drive: 0, at });

/** The word of core or of a drive that a cell is in.
    @param {number} cell @returns {import("./names.js").WatchedWord} */
export const wordOf = cell =>
  isOfDrive(cell) ? { kind: "disk", ...wordOfDrive(cell) } : coreWord(cell & ~1);

/** The first cell of a word.
    @param {import("./names.js").WatchedWord} word */
export const cellOf = ({ kind, drive, at }) => kind === "core" ? at : driveCell(drive, at);

/** @param {number} cell */
export const isCore = cell => cell < IO_PAGE;
/** @param {number} cell */
export const isOfDrive = cell => cell >= DRIVES;
/** @param {number} cell */
export const isRegister = cell => cell >= REGISTERS && cell < CODES;
/** @param {number} cell */
export const isCode = cell => cell >= CODES && cell < DRIVES;
/** @param {number} cell */
export const isOnBus = cell => cell >= IO_PAGE && cell < REGISTERS;

/** The number of a code's bit in PS; of the rest of PS 4.
    @param {number} cell */
export const bitOfCode = cell => cell - CODES;

/** The first cell of the word that a cell is in; a code is one by itself.
    @param {number} cell */
export const firstOf = cell => isCode(cell) ? cell : cell & ~1;

/** The name of the word that a cell is in; in version 2 with the drive.
    @param {number} cell @param {boolean} hasDrives */
export function nameOfCell(cell, hasDrives) {
  if (isOfDrive(cell)) {
    const { drive, at } = wordOfDrive(cell);
    return `disk ${hasDrives ? `${drive} ` : ""}${octal(at, 7)}`;
  }
  if (isCode(cell)) return NAMES_OF_CODES[cell - CODES];
  if (isRegister(cell)) return REGISTER_NAMES[cell - REGISTERS >> 1];
  if (isOnBus(cell)) return NAMES_ON_THE_BUS.get(cell & ~1) ?? octal(cell & ~1);
  return nameOfWord(coreWord(cell & ~1));
}
