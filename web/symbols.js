// The symbols in a file: an a.out's own, or those of a list, a listing or a map; and those that a
// session has of each mode.

import { oddInWords, programOf } from "./aout.js";
import { beginsAsAout, foreignOf } from "./kinds.js";
import { FileError, namesFile } from "./options.js";
import { symbolFile } from "./symbol-files.js";

/**
 * @typedef {import("./session.js").Session} Session
 * @typedef {import("./session.js").Symbols} Symbols
 * @typedef {import("./symbol-files.js").SymbolFile} SymbolFile
 */

const NONE = "it has no symbol: no line is NAME OCTAL, OCTAL NAME, NAME=OCTAL or one of nm, and it "
  + "is no listing and no map";

/** The names in a file, which has one at least.
    @param {Uint8Array} bytes @returns {SymbolFile} */
export function namesOf(bytes) {
  const foreign = foreignOf(bytes);
  if (foreign) throw new FileError(`it is ${foreign}`);
  const isProgram = beginsAsAout(bytes), found = isProgram ? ofProgram(bytes) : ofText(bytes);
  if (!found.symbols.length) {
    throw new FileError(isProgram ? "it is an a.out without symbols" : NONE);
  }
  return found;
}

/** @param {Uint8Array} bytes @returns {SymbolFile} */
function ofProgram(bytes) {
  const program = programOf(bytes);
  return { kind: "an a.out", symbols: program.symbols, skipped: 0, remark: oddInWords(program) };
}

/** @param {Uint8Array} bytes */
const ofText = bytes => symbolFile(new TextDecoder().decode(bytes));

/** The modes whose addresses a file of symbols names: its name has one, or it is for both.
    @param {string} name @returns {("kernel" | "user")[]} */
export function modesOfSymbols(name) {
  if (/user/i.test(name)) return ["user"];
  return /kernel/i.test(name) ? ["kernel"] : ["kernel", "user"];
}

/** The symbols among the files of a session, those of each mode: of several files the last one's.
    A file that the options name is an image or a tape.
    @param {Session} session */
export function symbolsOfSession(session) {
  /** @type {Symbols} */
  const found = { kernel: [], user: [] };
  const { arguments: words } = session;
  const images = new Set(words.filter((_, at) => namesFile(words[at - 1]?.slice(2) ?? "")));
  for (const [name, bytes] of Object.entries(session.files)) {
    const symbols = images.has(name) ? null : inOrder(bytes);
    for (const mode of symbols ? modesOfSymbols(name) : []) found[mode] = symbols ?? [];
  }
  return found;
}

/** The symbols of a file by their addresses, or null if it has none. Of two names of an address the
    last one is shown, as in src/nezdrab/core/symbols.py.
    @param {Uint8Array} bytes */
function inOrder(bytes) {
  try {
    return namesOf(bytes).symbols.sort((one, other) => one.value - other.value);
  } catch (error) {
    if (error instanceof FileError) return null;
    throw error;
  }
}
