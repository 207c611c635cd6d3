// A session as the page holds it: options, files, lines and symbols; how it is read and stored.

import { turnsAsked } from "./questions.js";
import { visibleName } from "./replies.js";

/**
 * Lines have a character for each byte. Files are images, a tape, and symbols.
 * @typedef {{name: string, arguments: string[], files: Object<string, Uint8Array>,
 *   lines: string[]}} Session
 */

/**
 * A name of an address, or of a constant, and the names of each mode by their values.
 * @typedef {{name: string, value: number, isConstant?: boolean}} Symbol
 * @typedef {{kernel: Symbol[], user: Symbol[]}} Symbols
 */

/** The lines of a text, without their ends. The last one may lack its end.
    @param {string} text */
export function linesOf(text) {
  const lines = text.split("\n").map(it => it.replace(/\r$/, ""));
  return lines.at(-1) === "" ? lines.slice(0, -1) : lines;
}

/** The bytes as a text with a character for each.
    @param {Uint8Array} bytes */
export function latin1(bytes) {
  let text = "";
  // not all at once: the arguments of a call are limited. Spread, they take ten times as long.
  for (let at = 0; at < bytes.length; at += 4096) {
    const part = /** @type {any} */ (bytes.subarray(at, at + 4096));
    text += String.fromCharCode.apply(null, part);
  }
  return text;
}

/** A line for reading: its bytes are UTF-8 if they can be.
    @param {string} line */
export function readableLine(line) {
  const bytes = Uint8Array.from([...line], it => it.charCodeAt(0));
  try {
    return new TextDecoder("utf-8", { fatal: true }).decode(bytes);
  } catch {
    return line;
  }
}

/** The last turn that a question of the lines is about.
    @param {string[]} lines @returns {number} */
export const lastTurnOf = lines =>
  lines.reduce((last, line) => Math.max(last, turnsAsked(line)[1]), 0);

/** The symbol at or before an address, such as `DISK+4`, or an empty text.
    @param {Symbol[] | undefined} symbols @param {number} address */
export function symbolNear(symbols, address) {
  /** @type {Symbol | null} */
  let best = null;
  for (const it of symbols ?? []) if (!it.isConstant && it.value <= address) best = it;
  if (!best || address - best.value >= 0o10000) return "";
  const offset = address - best.value;
  return offset ? `${best.name}+${offset.toString(8)}` : best.name;
}

/** The symbols of a mode: the modes 01 and 10 have none.
    @param {Partial<Symbols>} symbols @param {string} mode */
export function symbolsOfMode(symbols, mode) {
  return (mode === "kernel" ? symbols.kernel : mode === "user" ? symbols.user : null) ?? [];
}

/** The symbol of a mode near an address, with what can't be seen written out.
    @param {Partial<Symbols>} symbols @param {string} mode @param {number} address */
export const symbolAt = (symbols, mode, address) =>
  visibleName(symbolNear(symbolsOfMode(symbols, mode), address));

/** What a file that was opened is, by its name: an image, a program for core, symbols, options; or
    a session, if the name doesn't say it.
    @param {string} name */
export function kindOfFile(name) {
  const end = name.toLowerCase().split(".").at(-1) ?? "";
  if (["disk", "rk05", "rk", "dsk", "img"].includes(end)) return "disk";
  if (["core", "bin"].includes(end)) return "core";
  if (["tape", "ptap", "pt"].includes(end)) return "tape";
  if (["lda", "abs", "aout", "out"].includes(end)) return "program";
  if (["sym", "symbols", "nm", "lst", "lis", "map"].includes(end)) return "symbols";
  return end === "args" ? "arguments" : "session";
}

/** The session without the file of an option. A file that another option names too stays.
    @param {Session} session @param {string} option @returns {Session} */
export function withoutFile(session, option) {
  const words = [...session.arguments], at = words.indexOf(`--${option}`);
  if (at < 0) return session;
  const [, name] = words.splice(at, 2), { [name]: _, ...files } = session.files;
  return { ...session, files: words.includes(name) ? session.files : files, arguments: words };
}

/** The name by which a session has a file: its own, or if another file has that one, the option
    before it.
    @param {Session} session @param {string} option @param {string} name @param {Uint8Array} bytes
    @returns {string} */
function heldName(session, option, name, bytes) {
  if (!Object.hasOwn(session.files, name)) return name;
  const other = session.files[name];
  const isSame = other.length === bytes.length && other.every((byte, at) => byte === bytes[at]);
  return isSame ? name : heldName(session, option, `${option}-${name}`, bytes);
}

/** The options with a file in the place of the one that the option had.
    @param {Session} session @param {string} option @param {string} name @param {Uint8Array} bytes
    @returns {Session} */
export function withFile(session, option, name, bytes) {
  const left = withoutFile(session, option), held = heldName(left, option, name, bytes);
  return { ...left, files: { ...left.files, [held]: bytes },
    arguments: [...left.arguments, `--${option}`, held] };
}
