// How two pasts differ: the first turn in which they part, text, core and disk.

import { coreWord } from "./cells.js";
import { SECTOR_WORDS } from "./hardware.js";
import { differenceOf } from "./past.js";
import { firstOf, questionOf } from "./questions.js";
import { Priority } from "./run.js";
import { WORDS_AT_ONCE, mustBeTaken, wordsOf } from "./replies.js";

// So many turns are compared one by one: after the first edit, after each further one, in all.
const [SINGLE_TURNS, TURNS_AFTER_AN_EDIT, MOST_SINGLE_TURNS] = [65_536, 4_096, 150_000];
const MOST_SAMPLES = 2_048;
const TURNS_OF_A_PART = 1_024;
const MOST_SHOWN = 64;
const PARTS_AT_ONCE = 64;

/**
 * Turns that are compared: `first` and so many `count`, each `step` turns.
 * @typedef {{first: number, count: number, step: number}} Stretch
 */

/**
 * @typedef {import("./run.js").Run} Run
 * @typedef {import("./past.js").Past} Past
 * @typedef {import("./tasks.js").Token} Token
 */

/**
 * Words that differ, the first of them, and how many there are.
 * @typedef {{shown: {at: number, now: number, old: number}[], count: number}} Found
 */

/**
 * How far two pasts were compared. `turn` is the first compared turn before which the registers
 * differ, or null; `edited` the first that the edits can change, or null. Each turn up to `single`
 * was compared, and so many `later` ones.
 * @typedef {{edited: number | null, turn: number | null, single: number, later: number}} Part
 */
export class Comparison {
  /** @param {Run} run @param {Run} old @param {Token} token */
  constructor(run, old, token) {
    this.run = run;
    this.old = old;
    this.token = token;
  }

  /** The replies of both; the lines may depend on the past.
      @param {(past: Past) => string[]} linesOf */
  async both(linesOf) {
    const asked = [this.run, this.old].map(it =>
      it.ask(linesOf(it.past), Priority.COMPARISON, this.token));
    return Promise.all(asked);
  }

  /** The turns that the edits differ in, upwards; 0 if patches or delays do. */
  editedTurns() {
    const now = this.run.past, old = this.old.past;
    const { turns } = differenceOf(old.script, now.script);
    const all = now.patchesFrom(old)?.length === 0 ? turns : [0, ...turns.filter(it => it > 0)];
    return all.sort((a, b) => a - b);
  }

  /** The first compared turn before which the registers differ.
      @param {number} end
      @returns {Promise<Part>} */
  async part(end) {
    const edited = this.editedTurns();
    let before = edited[0] ?? null;
    /** @type {Part} */
    const found = { edited: before, turn: null, single: before ?? end, later: 0 };
    for (const { first, count, step } of stretchesOf(edited, end)) {
      const turn = await this.firstOf({ first, count, step });
      const compared = turn === null ? count : (turn - first) / step + 1;
      if (step === 1 && !found.later) found.single = first + compared - 1;
      else found.later += compared;
      if (turn !== null) {
        const low = turn === first ? before ?? first : turn - step;
        return { ...found, turn: await this.halved(low, turn) };
      }
      before = first + (count - 1) * step;
    }
    return found;
  }

  /** The first turn of a stretch before which the registers differ, or null.
      @param {Stretch} stretch */
  async firstOf({ first, count, step }) {
    for (let at = 0; at < count; at += TURNS_OF_A_PART) {
      const length = Math.min(TURNS_OF_A_PART, count - at);
      const lines = Array.from({ length }, (_, it) => `regs ${first + (at + it) * step}`);
      const [now, old] = await this.both(() => lines);
      const found = now.findIndex((it, place) => differ(it, old[place]));
      if (found >= 0) return first + (at + found) * step;
    }
    return null;
  }

  /** A turn before which the registers differ, and before the turn before it they don't.
      @param {number} low @param {number} high */
  async halved(low, high) {
    return firstOf(low, high, async turn => {
      const [[now], [old]] = await this.both(() => [`regs ${turn}`]);
      return differ(now, old);
    });
  }

  /** Words that differ before a turn, the first of them, and how many there are.
      @param {(past: Past, begin: number, count: number) => string} question
      @param {number} count */
  async words(question, count) {
    /** @type {Found} */
    const found = { shown: [], count: 0 };
    for (let first = 0; first < count; first += PARTS_AT_ONCE * WORDS_AT_ONCE) {
      /** @type {number[]} */
      const begins = [];
      for (let at = 0; at < PARTS_AT_ONCE && first + at * WORDS_AT_ONCE < count; at++) {
        begins.push(first + at * WORDS_AT_ONCE);
      }
      const [now, old] = await this.both(past =>
        begins.map(it => question(past, it, Math.min(WORDS_AT_ONCE, count - it))));
      now.forEach((reply, at) => this.add(found, begins[at], reply, old[at]));
    }
    return found;
  }

  /** @param {Found} found @param {number} first @param {string} reply @param {string} oldReply */
  add(found, first, reply, oldReply) {
    if (!differ(reply, oldReply)) return;
    const olds = wordsOf(oldReply);
    wordsOf(reply).forEach((word, at) => {
      if (word === olds[at]) return;
      found.count += 1;
      if (found.shown.length < MOST_SHOWN) {
        found.shown.push({ at: first + at, now: word, old: olds[at] });
      }
    });
  }

  /** @param {number} turn */
  core(turn) {
    return this.words((past, begin, count) =>
      questionOf(past, coreWord(2 * begin), turn, count), this.run.past.core / 2);
  }

  get versionsDiffer() {
    return this.run.past.version !== this.old.past.version;
  }

  /** The drives that both pasts have. */
  get drives() {
    const isOne = this.versionsDiffer || this.run.past.version === 1;
    return isOne ? [0] : [0, 1, 2, 3, 4, 5, 6, 7];
  }

  /** @param {number} turn @param {number} drive @param {number} sectors */
  disk(turn, drive, sectors) {
    return this.words((past, at, count) =>
      questionOf(past, { kind: "disk", drive, at }, turn, count), sectors * SECTOR_WORDS);
  }
}

/** Whether two replies differ. Neither may be a refusal.
    @param {string} reply @param {string} old */
function differ(reply, old) {
  return mustBeTaken(reply) !== mustBeTaken(old);
}

/** What is compared of the turns up to `end`: the turns after each edit one by one, as far as they
    are few, and samples between.
    @param {number[]} edited @param {number} end
    @returns {Stretch[]} */
function stretchesOf(edited, end) {
  /** @type {Stretch[]} */
  const singles = [];
  let left = MOST_SINGLE_TURNS;
  for (const [at, turn] of edited.entries()) {
    const last = singles.at(-1);
    const first = Math.max(turn, last ? last.first + last.count : 0);
    const wanted = at ? TURNS_AFTER_AN_EDIT : SINGLE_TURNS;
    const count = Math.min(end + 1 - first, left, turn + wanted - first);
    if (count <= 0) continue;
    if (last && first === last.first + last.count) last.count += count;
    else singles.push({ first, count, step: 1 });
    left -= count;
  }
  return withSamples(singles, end, left);
}

/** The stretches with what lies between them and up to `end`: turn by turn as far as enough are
    left, from the first on, and otherwise samples.
    @param {Stretch[]} singles @param {number} end @param {number} left */
function withSamples(singles, end, left) {
  const gaps = singles.map(({ first, count }, at) => {
    const begin = first + count, length = (singles[at + 1]?.first ?? end + 1) - begin;
    const isSingle = length <= left;
    if (isSingle) left -= length;
    return { begin, length, isSingle };
  });
  const all = gaps.reduce((sum, it) => sum + (it.isSingle ? 0 : it.length), 0);
  return singles.flatMap((single, at) => {
    const { begin, length, isSingle } = gaps[at];
    const step = isSingle ? 1 : Math.ceil(all / MOST_SAMPLES);
    const count = Math.ceil(length / step);
    const first = begin + length - 1 - (count - 1) * step;
    return count ? [single, { first, count, step }] : [single];
  });
}
