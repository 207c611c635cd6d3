// Labels of data, carried forwards over the turns: which cells are made of what has a label. The
// rules are those of src/nezdrab/analysis/labels.py.

import { OF_THE_DISK, cellOf, coreWord, wordCells } from "./cells.js";
import { SECTOR_WORDS } from "./hardware.js";
import { copiedBy } from "./transfers.js";

const RESULTS = new Set(["value", "copy"]);
const ADDRESS_OF_A_TRANSFER = OF_THE_DISK.flatMap(wordCells);

/**
 * A move of a turn that has to do with labels: those of the cell before it, those of what it is
 * made of, and those of its addresses. A cell that a transfer writes, with the labels before and
 * after it. Labels are the bits of a number.
 * @typedef {{move: import("./operands.js").Move, before: bigint, now: bigint,
 *   chosen: bigint}} Carried
 * @typedef {{cell: number, before: bigint, now: bigint}} Moved
 * @typedef {import("./facts.js").Transfer} Transfer
 */

/** The words that a transfer writes. A write fills its last sector.
    @param {Transfer} transfer */
function writtenBy({ name, stays, count, drive, index, core }) {
  const isRead = name === "read";
  const words = !isRead ? Math.ceil(count / SECTOR_WORDS) * SECTOR_WORDS
    : stays ? Math.min(1, count) : count;
  /** @param {number} at @returns {import("./names.js").WatchedWord} */
  const word = at => isRead ? coreWord(core + 2 * at) : { kind: "disk", drive, at: index + at };
  return Array.from({ length: words }, (_, at) => word(at));
}

export class Labels {
  /** With `places` a value is made of the cells of its addresses too.
      @param {boolean} places */
  constructor(places = false) {
    this.places = places;
    /** @type {Map<number, bigint>} the labels of each cell that has some */
    this.bits = new Map();
  }

  /** @param {number} cell @param {bigint} labels */
  put(cell, labels) {
    if (labels) this.bits.set(cell, labels);
    else this.bits.delete(cell);
  }

  /** @param {number[]} cells */
  of(cells) {
    return cells.reduce((found, it) => found | (this.bits.get(it) ?? 0n), 0n);
  }

  /** Carries the labels through the act of a turn, whose results get a new one, if any.
      @param {import("./operands.js").Move[]} moves @returns {Carried[]} */
  turn(moves, fresh = 0n) {
    /** @type {Carried[]} */
    const found = [];
    let instant = -1, begun = 0;
    for (const move of moves) {
      if (move.instant !== instant) {
        this.apply(found, begun);
        [instant, begun] = [move.instant, found.length];
      }
      const before = this.of([move.cell]), chosen = this.of(move.addresses);
      const now = this.of(move.values) | (RESULTS.has(move.how) ? fresh : 0n)
        | (this.places ? chosen : 0n);
      if (before || now || chosen) found.push({ move, before, now, chosen });
    }
    this.apply(found, begun);
    return found;
  }

  /** @param {Carried[]} found @param {number} begun */
  apply(found, begun) {
    for (const { move, now } of found.slice(begun)) this.put(move.cell, now);
  }

  /** Carries the labels through a transfer of the disk.
      @param {Transfer} transfer @returns {Moved[]} */
  transfer(transfer) {
    const more = this.places ? this.of(ADDRESS_OF_A_TRANSFER) : 0n;
    const moved = writtenBy(transfer).flatMap(word => {
      const cell = cellOf(word), source = copiedBy(transfer, word);
      return [0, 1].map(half => ({
        cell: cell + half, before: this.of([cell + half]),
        now: more | this.of(source ? [cellOf(source) + half] : []),
      }));
    }).filter(it => it.before || it.now);
    for (const { cell, now } of moved) this.put(cell, now);
    return moved;
  }
}
