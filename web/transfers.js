// The functions of the disk that ended in turns, and the words that they moved.

import { SECTOR_WORDS } from "./hardware.js";
import { devicesOf } from "./replies.js";

// The bit of RKCS with which the bus address doesn't grow: all words go to one, or come from it.
const STAYS = 0o4000;

/**
 * A function of the disk that ended in a turn. `begin` is the turn that began it, or null;
 * `stays` says that it kept to one word of core.
 * @typedef {{turn: number, begin: number | null, name: string, drive: number, index: number,
 *   core: number, count: number, error: number}} Ended
 * @typedef {Ended & {stays: boolean}} Transfer
 * @typedef {import("./names.js").WatchedWord} Word
 */

/** The lines of the reply of `transfers`, and whether there are more.
    @param {string} reply @returns {{ended: Ended[], hasMore: boolean}} */
export function transfersOf(reply) {
  const [head, ...lines] = reply.split("\n");
  if (!/^transfers \d+/.test(head)) throw new Error("a reply of `transfers` can't be read");
  return { ended: lines.map(endedOf), hasMore: head.endsWith("or more") };
}

/** @param {string} line @returns {Ended} */
function endedOf(line) {
  const [turn, begin, name, drive, index, core, count, error] = line.split(" ");
  return {
    turn: Number(turn), begin: begin === "before" ? null : Number(begin), name,
    drive: parseInt(drive, 8), index: parseInt(index, 8), core: parseInt(core, 8),
    count: Number(count), error: parseInt(error, 8),
  };
}

/** Whether a function that ended in a turn kept to one word, by the devices before the turn.
    @param {string} reply */
export const stayed = reply => (devicesOf(reply).words.RKCS & STAYS) !== 0;

/** The word that a transfer copied to a word, or null.
    @param {Omit<Transfer, "stays"> & {stays?: boolean}} transfer @param {Word} word
    @returns {Word | null} */
export function copiedBy({ drive, index, core, count, stays }, word) {
  const isRead = word.kind === "core", last = count - 1;
  const offset = isRead ? (word.at - core) / 2 : word.at - index;
  const isMoved = Number.isInteger(offset) && offset >= 0 && offset <= (isRead && stays ? 0 : last);
  if (!isMoved || count === 0) return null;
  if (isRead) return { kind: "disk", drive, at: index + (stays ? last : offset) };
  return { kind: "core", drive: 0, at: core + (stays ? 0 : 2 * offset) };
}

/** Whether a transfer has written a word of core, or of a drive: a write fills its last sector.
    @param {Transfer} transfer @param {Word} word */
export function hasWritten(transfer, word) {
  const isRead = transfer.name === "read";
  if (word.kind === "core") return isRead && copiedBy(transfer, word) !== null;
  const words = Math.ceil(transfer.count / SECTOR_WORDS) * SECTOR_WORDS;
  const offset = word.at - transfer.index;
  return !isRead && transfer.drive === word.drive && offset >= 0 && offset < words;
}
