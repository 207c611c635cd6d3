// Programs of Unix V6, V7 and 2BSD: a.out. Eight words stand first: the magic number, the bytes of
// text, of data and of bss, those of the symbol table, the entry, a word that isn't used, and
// whether there is no relocation. Then come text, data, their relocation, and the symbols: a name
// of eight bytes, a type and a value each. 2.11BSD has symbols of eight bytes, with names in a
// table after them. A long of the PDP-11 has its high word first.

import { wordAt } from "./kinds.js";
import { FileError } from "./options.js";
import { counted, octal, visibleName } from "./replies.js";
import { latin1 } from "./session.js";
import { NAME_OF_FILE } from "./symbol-files.js";

const [HEAD_BYTES, ENTRY_BYTES, ENTRY_BYTES_OF_211, NAME_BYTES] = [16, 12, 8, 8];
// 0407 is a branch too, which the boot block of a disk may begin with.
const PLAIN = 0o407, IMAGES = "if it is an image: its name ends in .disk or .core";
// The text of an 0410 fills pages, since it can't be written.
const PAGE_BYTES = 0o20000;
const REFUSED = new Map([
  [0o405, "an overlay, or a program of the first Unix"],
  [0o411, "it has separate spaces for instructions and data, and a PDP-11/40 has one;"
    + " link it without -i"],
  [0o430, "its text has overlays, which only 2BSD can run"],
  [0o431, "its text has overlays and a space of its own, and a PDP-11/40 has one space"],
]);
const [TYPE, ABSOLUTE, TEXT] = [0o37, 1, 2];
// Absolute, text, data and bss: what has an address, or is a constant.
const TAKEN = [ABSOLUTE, TEXT, 3, 4];
// Of names that are none so many are shown.
const MOST_ODD = 5;

/**
 * An a.out, with the places of its parts as its own addresses have them.
 * @typedef {{magic: number, text: Uint8Array, data: Uint8Array, bss: number, entry: number,
 *   symbols: Symbol[], odd: string[]}} Program
 * @typedef {import("./symbol-files.js").Symbol} Symbol
 * @typedef {{name: string, kind: number, value: number}} Entry a character for each byte
 */

/** Where the data of a program begins.
    @param {Program} program */
const dataAddress = ({ magic, text }) =>
  magic === PLAIN ? text.length : Math.ceil(text.length / PAGE_BYTES) * PAGE_BYTES;

/** The bytes of a program by their addresses, with bss as zeros.
    @param {Program} program */
export function bytesOfProgram(program) {
  const { text, data, bss } = program, begin = dataAddress(program);
  /** @type {Map<number, number>} */
  const found = new Map([...text].map((it, at) => [at, it]));
  [...data, ...new Uint8Array(bss)].forEach((it, at) => found.set(begin + at, it));
  return found;
}

/** @param {Program} program */
export function partsInWords(program) {
  const { magic, text, data, bss } = program;
  return `a.out ${octal(magic, 4)}, ${counted(text.length, "byte")} of text at 0, `
    + `${data.length} of data at ${octal(dataAddress(program), 0)}, ${bss} of bss`;
}

/** That symbols are left out, or an empty text.
    @param {Program} program */
export function oddInWords({ odd }) {
  if (!odd.length) return "";
  const names = odd.slice(0, MOST_ODD).map(it => `'${it}'`).join(", ");
  const more = odd.length > MOST_ODD ? ` and ${odd.length - MOST_ODD} more` : "";
  return `without ${counted(odd.length, "symbol")}, whose name is none: ${names}${more}`;
}

/** The program in a file; or an error says what is wrong.
    @param {Uint8Array} bytes @returns {Program} */
export function programOf(bytes) {
  if (bytes.length < HEAD_BYTES) {
    throw new FileError(`the file ends in the head, which has ${HEAD_BYTES} bytes`);
  }
  const [magic, text, data, bss, table, entry, , isBare] =
    Array.from({ length: HEAD_BYTES / 2 }, (_, at) => wordAt(bytes, 2 * at));
  const refused = REFUSED.get(magic);
  if (refused) throw new FileError(`the magic number is ${octal(magic, 4)}: ${refused}`);
  if ([text, data, bss].some(it => it % 2)) {
    throw new FileError(`its head has an odd number of bytes for a part; ${IMAGES}`);
  }
  const symbolsAt = HEAD_BYTES + (text + data) * (isBare ? 1 : 2), end = symbolsAt + table;
  if (bytes.length < end) {
    const sizes = `the file has ${counted(bytes.length, "byte")}, and by its head at least ${end}`;
    throw new FileError(`${sizes}; ${IMAGES}`);
  }
  const dataAt = HEAD_BYTES + text;
  const found = symbolsOf(bytes.subarray(symbolsAt, end), bytes.subarray(end));
  return { magic, text: bytes.subarray(HEAD_BYTES, dataAt),
    data: bytes.subarray(dataAt, dataAt + data), bss, entry, ...found };
}

/** The symbols that have an address, or a constant, and the names that are none. The name of a
    file, which a linker puts at the begin of its text, is no label.
    @param {Uint8Array} table @param {Uint8Array} rest what follows it */
function symbolsOf(table, rest) {
  // a file may be filled up with zeros
  const isOld = rest.every(it => it === 0);
  /** @type {{symbols: Symbol[], odd: string[]}} */
  const { symbols, odd } = { symbols: [], odd: [] };
  for (const { name, kind: whole, value } of isOld ? entriesOf(table) : entriesOf211(table, rest)) {
    const kind = whole & TYPE, isConstant = kind === ABSOLUTE;
    if (!TAKEN.includes(kind)) continue;
    if (!/^[!-~]+$/.test(name)) odd.push(visibleName(name));
    else if (whole !== TEXT || !NAME_OF_FILE.test(name)) {
      symbols.push({ name, value, isConstant, isRelocatable: !isConstant });
    }
  }
  return { symbols, odd };
}

/** The places at which the entries of a table begin.
    @param {Uint8Array} table @param {number} size of an entry @param {string} each */
function placesIn(table, size, each) {
  if (table.length % size) {
    throw new FileError(
      `the symbol table has ${counted(table.length, "byte")}, not ${size} ${each}`);
  }
  return Array.from({ length: table.length / size }, (_, at) => at * size);
}

/** The entries of V6, V7 and the earlier 2BSD.
    @param {Uint8Array} table @returns {Entry[]} */
function entriesOf(table) {
  return placesIn(table, ENTRY_BYTES, "a symbol").map(at => {
    const name = latin1(table.subarray(at, at + NAME_BYTES)).replace(/\0+$/, "");
    return { name, kind: wordAt(table, at + NAME_BYTES),
      value: wordAt(table, at + NAME_BYTES + 2) };
  });
}

/** The entries of 2.11BSD. What follows the table are its names, after their length.
    @param {Uint8Array} table @param {Uint8Array} rest @returns {Entry[]} */
function entriesOf211(table, rest) {
  const long = new Uint8Array(4);
  long.set(rest.subarray(0, 4));
  const length = longAt(long, 0);
  if (rest.length < Math.max(4, length)) {
    throw new FileError(
      `the file ends in the names of its symbols, which have ${counted(length, "byte")}`);
  }
  const names = latin1(rest.subarray(0, length));
  return placesIn(table, ENTRY_BYTES_OF_211, "each").map(at => (
    { name: nameAt(names, longAt(table, at)), kind: table[at + 4], value: wordAt(table, at + 6) }));
}

/** A long, with its high word first.
    @param {Uint8Array} bytes @param {number} at */
const longAt = (bytes, at) => wordAt(bytes, at) * 0o200000 + wordAt(bytes, at + 2);

/** The name that begins at this byte, or nothing if none does.
    @param {string} names @param {number} at */
function nameAt(names, at) {
  const end = at >= 4 && at < names.length ? names.indexOf("\0", at) : -1;
  return end < 0 ? "" : names.slice(at, end);
}
