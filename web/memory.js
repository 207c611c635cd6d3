// A stretch of memory: of core, of the addresses of a mode, or of a drive; how it is asked of the
// machine, and how it is shown. The program maps addresses, not the page.

import { CYLINDERS, SECTORS, SECTOR_WORDS, SURFACES } from "./hardware.js";
import { onDrive, questionOf } from "./questions.js";
import { AskError, WORDS_AT_ONCE, octal, shownByte, unreadOf, wordsOf } from "./replies.js";

const WORDS_OF_A_DRIVE = CYLINDERS * SURFACES * SECTORS * SECTOR_WORDS;
const END_OF_ADDRESSES = 0o200000;
// The drives of version 2.
export const DRIVES = 8;
/** How many words stand in a row.
    @type {Object<string, number>} */
export const IN_A_ROW = { octal: 4, bytes: 4, text: 16 };

/**
 * Words from `at` on: an address in bytes, or the number of a word of the drive.
 * `space` is core, kernel, user or disk.
 * @typedef {{space: string, drive: number, at: number, count: number}} Stretch
 */

/**
 * The words of a stretch up to the first that can't be read, and why it can't.
 * @typedef {{stretch: Stretch, words: number[], why: string}} Held
 * @typedef {import("./past.js").Past} Past
 * @typedef {import("./session.js").Symbols} Symbols
 * @typedef {{space: string, drive: number}} Where
 */

/** How much the place of the next word is larger.
    @param {string} space */
export const stepOf = space => space === "disk" ? 1 : 2;

/** @param {string} space @param {number} at */
export const placeInWords = (space, at) => octal(at, space === "disk" ? 7 : 6);

/** The symbol with a name such as `BUSY` or `BUSY+4`, as an address, or null.
    @param {import("./session.js").Symbol[]} symbols @param {string} name */
function symbolNamed(symbols, name) {
  const [, base, offset = "0"] = /^(.+?)(?:\+([0-7]{1,6}))?$/.exec(name) ?? [];
  const found = symbols.find(it => it.name === base);
  return found ? found.value + parseInt(offset, 8) : null;
}

/** A word of a drive, such as `400`, `1 400`, `sector 12` or `1 sector 12`.
    @param {string} text */
function wordOfDrive(text) {
  const [, drive = "0", sector, word] =
    /^(?:([0-7]) +)?(?:sector +(\d{1,5})|([0-7]{1,7}))$/.exec(text) ?? [];
  if (sector === undefined && word === undefined) {
    throw new AskError("a place on a drive is a word in octal, or a sector such as sector 12");
  }
  const at = sector === undefined ? parseInt(word, 8) : Number(sector) * SECTOR_WORDS;
  return { drive: Number(drive), at };
}

/** The place that a text names. `symbols` are those of each mode. A symbol in core is an address
    of the kernel, which `isVirtual` says.
    @param {string} space @param {string} text @param {Symbols} symbols */
export function placeNamed(space, text, symbols) {
  if (space === "disk") return { ...wordOfDrive(text), isVirtual: false };
  const isNumber = /^[0-7]{1,6}$/.test(text);
  const ofMode = space === "user" ? symbols.user : symbols.kernel;
  const at = isNumber ? parseInt(text, 8) : symbolNamed(ofMode, text);
  if (at === null) throw new AskError("an address is octal, and no symbol has this name");
  return { drive: 0, at: at & ~1, isVirtual: !isNumber && space === "core" };
}

/** The first place after a space's last word.
    @param {Where} where @param {Past} past */
export function endOf({ space, drive }, past) {
  if (space === "core") return past.core;
  if (space !== "disk") return END_OF_ADDRESSES;
  return drive < (past.version === 2 ? DRIVES : 1) ? WORDS_OF_A_DRIVE : 0;
}

/** The stretch as far as it is there.
    @param {Stretch} stretch @param {Past} past @returns {Stretch} */
export function clipped(stretch, past) {
  const step = stepOf(stretch.space), end = endOf(stretch, past);
  const at = Math.max(0, Math.min(stretch.at, end - step));
  return { ...stretch, at, count: Math.max(0, Math.min(stretch.count, (end - at) / step)) };
}

/** @param {Where} where @param {Past} past @param {number} turn @param {number} at
    @param {number} count */
function lineOf({ space, drive }, past, turn, at, count) {
  if (space === "core" || space === "disk") {
    return questionOf(past, { kind: space, drive, at }, turn, count);
  }
  return `virtual ${turn} ${space} ${at.toString(8)} ${count}`;
}

/** The words of a stretch before a turn. `ask` gives the replies to lines.
    @param {import("./cursor.js").Ask} ask @param {Past} past @param {number} turn
    @param {Stretch} wanted @returns {Promise<Held>} */
export async function heldBefore(ask, past, turn, wanted) {
  const stretch = clipped(wanted, past), { space, at, count } = stretch, step = stepOf(space);
  /** @type {number[]} */
  const words = [];
  while (words.length < count) {
    const from = at + step * words.length, most = Math.min(WORDS_AT_ONCE, count - words.length);
    const [reply] = await ask([lineOf(stretch, past, turn, from, most)]);
    const unread = reply.startsWith("virtual") ? unreadOf(reply) : null;
    if (unread === from) return { stretch, words, why: reply.slice("virtual ".length) };
    if (unread === null) words.push(...wordsOf(reply));
    else {
      const [part] = await ask([lineOf(stretch, past, turn, from, (unread - from) / step)]);
      words.push(...wordsOf(part));
    }
  }
  return { stretch, words, why: "" };
}

/** The text of words, the low byte of each first.
    @param {number[]} words */
export const textOfWords = words =>
  words.map(it => shownByte(it & 0o377) + shownByte(it >> 8)).join("");

/** The bytes of words in octal, the low one of each first.
    @param {number[]} words */
export const bytesOfWords = words =>
  words.map(it => `${octal(it & 0o377, 3)} ${octal(it >> 8, 3)}`).join(" ");

/** The words in rows, each with its place.
    @param {Held} held @param {number} each how many a row has */
export function rowsOf({ stretch, words }, each) {
  const rows = [];
  for (let at = 0; at < words.length; at += each) {
    rows.push({ at: stretch.at + at * stepOf(stretch.space), words: words.slice(at, at + each) });
  }
  return rows;
}

/** The line that finds a word, from a place on to the end of core, or of the drive; null if no word
    is left.
    @param {Where} where @param {Past} past @param {number} turn @param {number} from
    @param {number} word @param {number | null} mask the bits that are compared */
export function lineOfFind({ space, drive }, past, turn, from, word, mask) {
  const isDisk = space === "disk", end = endOf({ space, drive }, past) - stepOf(space);
  if (from > end) return null;
  const first = isDisk ? onDrive(past, { drive, at: from }) : from.toString(8);
  const masked = mask === null ? "" : ` mask ${octal(mask)}`;
  const where = `${turn} ${first} ${end.toString(8)}`;
  return `${isDisk ? "finddsk" : "find"} ${where} ${octal(word)}${masked}`;
}

/** The places of a reply of `find` or `finddsk`, and whether there are more.
    @param {string} reply */
export function placesOf(reply) {
  const [head, ...lines] = reply.split("\n");
  if (!/^find(dsk)? \d+/.test(head)) throw new AskError(`it can't be read: ${head.slice(0, 40)}`);
  return { places: lines.map(it => parseInt(it, 8)),
    hasMore: head.endsWith("or more") };
}
