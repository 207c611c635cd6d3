// What a file puts into core, as explore's `load` does it: a tape of the absolute loader, or an
// a.out. Each word that isn't so already becomes a patch.

import { tapeOf } from "./absolute-tape.js";
import { bytesOfProgram, oddInWords, partsInWords, programOf } from "./aout.js";
import { beginsAsAout, beginsAsTape, foreignOf, isText } from "./kinds.js";
import { FileError } from "./options.js";
import { WORDS_AT_ONCE, counted, mustBeTaken, octal, visibleName, wordsOf } from "./replies.js";

const MOST_BYTES = 4_194_304;

/**
 * What a file puts into core, byte by byte; where it begins, or null if it doesn't say so; its
 * symbols; and what else there is to say.
 * @typedef {{name: string, title: string, bytes: Map<number, number>, start: number | null,
 *   symbols: import("./symbol-files.js").Symbol[], remark: string}} Loaded
 */

/** What a file puts into core, by its first bytes. A FileError names the file, and says what is
    wrong.
    @param {string} name @param {Uint8Array} bytes @returns {Loaded} */
export function loadedOf(name, bytes) {
  try {
    return { name, ...contentsOf(bytes) };
  } catch (error) {
    if (!(error instanceof FileError)) throw error;
    throw new FileError(`${visibleName(name)}: ${error.message}. Nothing was loaded.`);
  }
}

/** @param {Uint8Array} bytes */
function contentsOf(bytes) {
  const foreign = foreignOf(bytes);
  if (foreign) throw new FileError(`it is ${foreign}`);
  if (bytes.length > MOST_BYTES) throw new FileError(`it has more than ${MOST_BYTES} bytes`);
  if (beginsAsTape(bytes)) return ofTape(bytes);
  if (beginsAsAout(bytes)) return ofProgram(bytes);
  throw new FileError(isText(bytes) ? "it is text, and no tape of the absolute loader and no a.out"
    : "it is neither a tape of the absolute loader nor an a.out");
}

/** @param {Uint8Array} data */
function ofTape(data) {
  const { blocks, bytes, transfer, end } = tapeOf(data), isOdd = transfer % 2 === 1;
  const rest = data.subarray(end), first = rest.findIndex(isNoLeader);
  const left = first < 0 ? 0 : rest.length - first - [...rest].reverse().findIndex(isNoLeader);
  const remark = [
    isOdd ? `its transfer address, ${transfer.toString(8)}, is odd, so the start stays` : "",
    left ? `without ${counted(left, "byte")} after its transfer address` : "",
  ].filter(Boolean).join("; ");
  return { title: `absolute-loader tape, ${counted(blocks, "block")}`, bytes,
    start: isOdd ? null : transfer, symbols: [], remark };
}

/** @param {number} byte */
const isNoLeader = byte => byte !== 0 && byte !== 0o377;

/** @param {Uint8Array} data */
function ofProgram(data) {
  const program = programOf(data), { entry, symbols } = program, isOdd = entry % 2 === 1;
  const stays = isOdd ? `its entry, ${entry.toString(8)}, is odd, so the start stays` : "";
  const remark = [stays, oddInWords(program)].filter(Boolean).join("; ");
  return { title: partsInWords(program), bytes: bytesOfProgram(program),
    start: isOdd ? null : entry, symbols, remark };
}

/** The addresses in order.
    @param {Map<number, number>} bytes */
const addressesIn = bytes => [...bytes.keys()].sort((one, other) => one - other);

/** A FileError if core ends before what is loaded does.
    @param {Loaded} loaded @param {number} core how many bytes core has */
export function checkPlace({ name, bytes }, core) {
  const last = addressesIn(bytes).at(-1) ?? 0;
  if (last < core) return;
  throw new FileError(`${visibleName(name)}: it goes on to ${last.toString(8)}, and core ends at `
    + `${(core - 1).toString(8)}. Nothing was loaded.`);
}

/** The words from the first address to the last one, by image and patches.
    @param {import("./cursor.js").Ask} ask @param {number} first @param {number} last */
async function wordsAtPowerUp(ask, first, last) {
  const lines = [];
  for (let at = first; at <= last; at += 2 * WORDS_AT_ONCE) {
    const count = Math.min(WORDS_AT_ONCE, (last - at) / 2 + 1);
    lines.push(`mem 0 ${at.toString(8)} ${count}`);
  }
  return (await ask(lines)).flatMap(it => wordsOf(mustBeTaken(it)));
}

/** The lines that make core so, of the words that aren't so already. The other half of a word of
    which the file has one byte stays.
    @param {import("./cursor.js").Ask} ask @param {Map<number, number>} bytes */
export async function patchesOf(ask, bytes) {
  const places = [...new Set(addressesIn(bytes).map(it => it & ~1))];
  if (!places.length) return [];
  const [first] = places, before = await wordsAtPowerUp(ask, first, places.at(-1) ?? first);
  return places.flatMap(at => {
    const old = before[(at - first) / 2];
    const word = (bytes.get(at) ?? old & 0o377) | (bytes.get(at + 1) ?? old >> 8) << 8;
    return word === old ? [] : `core ${at.toString(8)} ${octal(word)}`;
  });
}

/** What was loaded, in a sentence.
    @param {Loaded} loaded @param {number} patches @param {number} start @param {boolean} isOther */
export function loadedInWords({ name, title, bytes, symbols, remark }, patches, start, isOther) {
  const addresses = addressesIn(bytes).map(it => it.toString(8));
  const where = addresses.length ? `${addresses[0]} to ${addresses.at(-1)}` : "nothing";
  const made = `${patches} patch${patches === 1 ? "" : "es"}`;
  const begun = `start ${start.toString(8)}${isOther ? " (Undo leaves it so)" : ""}`;
  const names = symbols.length ? `, ${counted(symbols.length, "symbol")}` : "";
  const more = remark ? ` ${remark[0].toUpperCase()}${remark.slice(1)}.` : "";
  return `${visibleName(name)}: ${title}: ${where} in core, ${made}, ${begun}${names}.${more}`;
}
