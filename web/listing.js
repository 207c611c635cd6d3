// A listing of MACRO-11 as its lines, each with its address if it has words. The rules are those of
// src/nezdrab/export/covered.py.

import { MNEMONICS } from "./made-of.js";
import { columnsOf } from "./symbol-files.js";

const LABEL = /^(?:[0-9]{1,5}[$]|[A-Za-z_.$~?][A-Za-z0-9_.$~?]*)::?/;
const NAME = /^[A-Za-z0-9.$_]+/;
const VIRTUAL = 0o200000;
const WORDS_AT_ONCE = 256;

/**
 * A line, its address if it has words, and whether these are an instruction, by the name in its
 * source.
 * @typedef {{text: string, address: number | null, isInstruction: boolean}} ListedLine
 */

/** A line, whose address counts from the base.
    @param {string} text @param {number} base @returns {ListedLine} */
function lineOf(text, base) {
  const found = columnsOf(text), [word = ""] = found?.words.trim().split(/\s+/) ?? [];
  if (!found || word.replace(/['GC]+$/, "").length < 6) {
    return { text, address: null, isInstruction: false };
  }
  let source = found.source ?? "";
  for (let it = LABEL.exec(source); it; it = LABEL.exec(source)) {
    source = source.slice(it[0].length).trimStart();
  }
  const [name = ""] = NAME.exec(source) ?? [];
  const address = (parseInt(found.address, 8) + base) % VIRTUAL;
  return { text, address, isInstruction: MNEMONICS.has(name.toUpperCase()) };
}

/** The lines of a listing; null of a text in which no line is an instruction.
    @param {string} text @returns {ListedLine[] | null} */
export function listedLines(text, base = 0) {
  const lines = text.split("\n").map(it => lineOf(it.replace(/\r$/, ""), base));
  if (!lines.at(-1)?.text) lines.pop();
  return lines.some(it => it.isInstruction) ? lines : null;
}

/** Stretches of words, by their first addresses and lengths, that have all even addresses of lines:
    each is for one question.
    @param {ListedLine[]} lines */
export function stretchesOf(lines) {
  const places = lines.flatMap(it => it.address === null || it.address % 2 ? [] : it.address);
  /** @type {{first: number, count: number}[]} */
  const found = [];
  for (const it of [...new Set(places)].sort((a, b) => a - b)) {
    const last = found.at(-1), count = last ? (it - last.first) / 2 + 1 : 0;
    if (last && count <= WORDS_AT_ONCE) last.count = count;
    else found.push({ first: it, count: 1 });
  }
  return found;
}

/** How often the instruction of a line ran; null if it has none. What is no instruction by its
    source may have run too.
    @param {ListedLine} line @param {Map<number, number>} counts by their addresses */
export function countOf({ address, isInstruction }, counts) {
  const count = address === null ? 0 : counts.get(address) ?? 0;
  return count || isInstruction ? count : null;
}
