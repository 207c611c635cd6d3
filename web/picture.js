// What the timeline draws, asked of the machine for the pixels that are there.

import { nameOfWord } from "./names.js";
import { onDrive, questionOf } from "./questions.js";
import { Priority } from "./run.js";
import {
  DEVICE_VECTORS, TURNS_OF_A_TRAIL, bytesOf, devicesOf, functionInWords, interruptsOf, isRefused,
  lengthOf, refusalInWords, registersOf, turnOf, wordsOf, writesOf,
} from "./replies.js";

// If there are no more turns than this, each is looked at.
export const MOST_SINGLE_TURNS = 4_096;
// So many looks are taken apart at once, in a few milliseconds.
const LOOKS_AT_ONCE = 128;
const TIME_OF_A_PART = 250;
const MOST_WRITES = 400, MOST_BYTES = 1_500, MOST_CHANGES = 400, MOST_OF_A_VECTOR = 400;
const MOST_SEARCHED_TURNS = 20_000_000;

/**
 * What is drawn of a run: the turns and words that are wanted, in how many columns; `listed` are
 * vectors whose interrupts are taken from trails.
 * @typedef {{first: number, end: number, columns: number, words: WatchedWord[],
 *   listed?: number[]}} Wanted
 * @typedef {import("./names.js").WatchedWord} WatchedWord
 * @typedef {import("./past.js").Past} Past
 * @typedef {import("./run.js").Run} Run
 * @typedef {import("./tasks.js").Token} Token
 */

/**
 * A look at the machine before a turn: PC, mode, what the disk does if it is busy, and the words.
 * @typedef {{turn: number, pc: number, mode: string, priority: number, state: string,
 *   busy: Devices | null, words: number[]}} Look
 * @typedef {ReturnType<typeof devicesOf>} Devices
 * @typedef {{turn: number, vector: number}} Interrupt
 * @typedef {{begin: number | null, end: number | null, name: string, title: string}} Bar
 * @typedef {{bars: Bar[], busy: Look[], isWhole: boolean}} Disk functions, or looks that are busy
 * @typedef {{bytes: {turn: number, byte: number}[], printed: number, each: number}} Printed
 * @typedef {{turn: number, word: number, writer: string}} Value
 * @typedef {{name: string, values?: Value[], isWhole?: boolean, why?: string}} DrawnWord
 *   or why the machine has no such word
 */

/**
 * What was asked for the turns from `first` to `end`, up to `reached` so far.
 * @typedef {{first: number, end: number, reached: number, step: number, isMade: boolean,
 *   looks: Look[], interrupts: Interrupt[], sampledVectors: number[], disk: Disk, text: Printed,
 *   words: DrawnWord[]}} Picture
 */

/**
 * The turns between which the disk begins to be busy, or ends.
 * @typedef {{low: number, high: number, isBusy: boolean}} Edge
 */

/** Why the machine has no such word, as a part of a sentence; an empty text if it has it.
    @param {Run} run @param {WatchedWord} word @param {Token | null} token */
export async function whyNoWord(run, word, token = null) {
  if (word.drive && run.past.version === 1) {
    return "there is one drive; the line `version 2` gives eight";
  }
  const reply = await run.askOne(questionOf(run.past, word, 0), Priority.PICTURE, token);
  return isRefused(reply) ? refusalInWords(reply) : "";
}

/** Collects a picture in parts, and tells of each part so that it is drawn at once. */
export class PictureMaker {
  /**
   * @param {Run} run @param {Wanted} wanted @param {Token} token
   * @param {(picture: Picture) => void} onPart
   */
  constructor(run, wanted, token, onPart) {
    this.run = run;
    this.wanted = wanted;
    this.token = token;
    this.onPart = onPart;
    /** When a part was told last. */
    this.told = 0;
    this.past = run.past;
    /** @type {WatchedWord[]} those of the wanted words that the machine has */
    this.words = [];
    /** @type {DrawnWord[]} the others */
    this.missing = [];
    const turns = wanted.end - wanted.first;
    this.step = turns <= MOST_SINGLE_TURNS ? 1 : Math.ceil(turns / wanted.columns);
    /** Whether too many turns are in sight to search them for interrupts: each look has a trail. */
    this.isListed = turns * DEVICE_VECTORS.length > MOST_SEARCHED_TURNS;
    /** @type {Picture} */
    this.picture = {
      first: wanted.first, end: wanted.end, reached: wanted.first, step: this.step, isMade: false,
      looks: [], interrupts: [],
      sampledVectors: this.isListed ? DEVICE_VECTORS : [],
      disk: { bars: [], busy: [], isWhole: false },
      text: { bytes: [], printed: 0, each: 1 }, words: [],
    };
  }

  /** @param {string[]} lines */
  ask(lines) {
    return this.run.ask(lines, Priority.PICTURE, this.token);
  }

  async make() {
    const whyNot = await Promise.all(
      this.wanted.words.map(it => whyNoWord(this.run, it, this.token)));
    this.words = this.wanted.words.filter((_, at) => !whyNot[at]);
    this.missing = this.wanted.words.map((it, at) => ({ name: nameOfWord(it), why: whyNot[at] }))
      .filter(it => it.why);
    await this.look();
    if (!this.isListed) await this.collectInterrupts();
    await Promise.all([this.collectText(), this.collectDisk(), this.collectWords()]);
    this.picture.isMade = true;
    this.onPart(this.picture);
    return this.picture;
  }

  // The looks

  /** Looks at the machine before the first turn of each column, upwards. */
  async look() {
    const { words } = this;
    const { first, end } = this.wanted;
    /** @type {number[]} */
    const turns = [];
    for (let turn = first; turn < end; turn += this.step) turns.push(turn);
    const asked = turns.map(it => this.linesOfLook(it, words));
    for (let begin = 0; begin < turns.length; begin += LOOKS_AT_ONCE) {
      const looks = asked.slice(begin, begin + LOOKS_AT_ONCE);
      const replies = await this.ask(looks.flat());
      let at = 0;
      looks.forEach((lines, number) => {
        this.addLook(turns[begin + number], replies.slice(at, at + lines.length));
        at += lines.length;
      });
      this.tellPart();
    }
  }

  /** Tells of the picture as it grows, a few times a second. */
  tellPart() {
    const now = performance.now();
    if (now - this.told < TIME_OF_A_PART) return;
    this.told = now;
    this.onPart(this.picture);
  }

  /** @param {number} turn @param {WatchedWord[]} words */
  linesOfLook(turn, words) {
    const lines = [`regs ${turn}`, `devices ${turn}`];
    lines.push(...words.map(it => questionOf(this.past, it, turn)));
    if (this.isListed) lines.push(this.trailFrom(turn));
    return lines;
  }

  /** @param {number} turn */
  trailFrom(turn) {
    const count = Math.min(TURNS_OF_A_TRAIL, this.wanted.end - turn);
    return `trail ${turn + count} ${count}`;
  }

  /** @param {number} turn @param {string[]} replies */
  addLook(turn, replies) {
    const [registers, devices, ...rest] = replies;
    const { pc, mode, priority, state } = registersOf(registers);
    const disk = devicesOf(devices);
    const words = rest.slice(0, this.words.length).map(it => wordsOf(it)[0]);
    const busy = disk.diskIsReady ? null : disk;
    this.picture.looks.push({ turn, pc, mode, priority, state, busy, words });
    this.picture.reached = Math.min(this.picture.end, turn + this.step);
    if (this.isListed) this.picture.interrupts.push(...interruptsOf(rest[this.words.length]));
  }

  // The interrupts

  /** All interrupts, by each vector. Those of a vector that has too many are taken from trails: of
      all turns, or of the first of each step. */
  async collectInterrupts() {
    const { picture, step, wanted: { first, end, listed = [] } } = this, many = [...listed];
    for (const vector of DEVICE_VECTORS.filter(it => !listed.includes(it))) {
      const turns = await this.turnsOf(vector);
      if (turns) picture.interrupts.push(...turns.map(turn => ({ turn, vector })));
      else many.push(vector);
    }
    const lines = [];
    for (let turn = first; many.length && turn < end; turn += Math.max(step, TURNS_OF_A_TRAIL)) {
      lines.push(this.trailFrom(turn));
    }
    const found = (await this.ask(lines)).flatMap(interruptsOf);
    picture.interrupts.push(...found.filter(it => many.includes(it.vector)));
    picture.interrupts.sort((a, b) => a.turn - b.turn);
    if (step > TURNS_OF_A_TRAIL) picture.sampledVectors = many;
  }

  /** The turns of the interrupts by a vector, or null if there are too many.
      @param {number} vector */
  async turnsOf(vector) {
    const { first, end } = this.wanted;
    /** @type {number[]} */
    const turns = [];
    for (let begin = first; turns.length <= MOST_OF_A_VECTOR;) {
      const turn = turnOf(await this.one(`first ${begin} ${end} vector ${vector.toString(8)}`));
      if (turn === null) return turns;
      turns.push(turn);
      begin = turn + 1;
    }
    return null;
  }

  // The console

  /** The bytes printed in the turns. */
  async collectText() {
    const { first, end } = this.wanted;
    const before = lengthOf(await this.one(`text ${first}`));
    const text = bytesOf(await this.one(`text ${end} from ${before}`));
    const each = Math.ceil(text.length / MOST_BYTES) || 1;
    /** @type {number[]} */
    const places = [];
    for (let at = 0; at < text.length; at += each) places.push(at);
    const turns = (await this.ask(places.map(it => `when ${before + it}`))).map(turnOf);
    const bytes = places.map((it, at) => ({ turn: turns[at] ?? end, byte: text[it] }));
    this.picture.text = { bytes, printed: text.length, each };
  }

  /** @param {string} line */
  async one(line) {
    return (await this.ask([line]))[0];
  }

  // The disk

  /** The disk's functions. A function lasts the disk's delay, unless an event ends it. So looks
      no further apart miss none, and halving between two finds where it begins and ends. */
  async collectDisk() {
    const { looks } = this.picture;
    const delay = this.past.delays.disk;
    const byEvent = this.past.script.some(it => it.text === "disk");
    const isWhole = this.step === 1 || delay >= this.step && !byEvent;
    const busy = looks.filter(it => it.busy);
    if (!isWhole) {
      this.picture.disk = { bars: [], busy, isWhole };
      return;
    }
    /** @type {Edge[]} */
    const edges = [];
    looks.forEach((look, at) => {
      const isBusy = Boolean(look.busy);
      if (at && isBusy !== Boolean(looks[at - 1].busy)) {
        edges.push({ low: looks[at - 1].turn, high: look.turn, isBusy });
      }
    });
    await this.halve(edges);
    this.picture.disk = { bars: this.barsOf(edges, looks), busy: [], isWhole };
  }

  /** Narrows each edge to the turn after whose beginning the disk is busy or ready.
      @param {Edge[]} edges */
  async halve(edges) {
    for (;;) {
      const wide = edges.filter(it => it.high - it.low > 1);
      if (!wide.length) return;
      const middles = wide.map(it => it.low + it.high >> 1);
      const replies = await this.ask(middles.map(it => `devices ${it}`));
      wide.forEach((edge, at) => {
        const isBusy = !devicesOf(replies[at]).diskIsReady;
        if (isBusy === edge.isBusy) edge.high = middles[at];
        else edge.low = middles[at];
      });
    }
  }

  /** @param {Edge[]} edges @param {Look[]} looks */
  barsOf(edges, looks) {
    /** @type {Bar[]} */
    const bars = [];
    /** @type {number | null | undefined} */
    let begin = looks[0]?.busy ? null : undefined;
    /** @param {number} low @param {number} high */
    const what = (low, high) => {
      const found = looks.find(it => it.busy && it.turn >= low && it.turn <= high);
      return found?.busy ? { name: found.busy.diskFunction, title: functionInWords(found.busy) }
        : { name: "busy", title: "busy" };
    };
    for (const edge of edges) {
      if (edge.isBusy) begin = edge.low;
      else if (begin !== undefined) {
        bars.push({ begin, end: edge.low, ...what(begin ?? 0, edge.high) });
        begin = undefined;
      }
    }
    if (begin !== undefined) bars.push({ begin, end: null, ...what(begin ?? 0, Infinity) });
    return bars;
  }

  // The words

  async collectWords() {
    const found = this.words.map((word, at) => word.kind === "core" ? this.writesOf(word, at)
      : this.changesOf(word, at));
    this.picture.words = [...await Promise.all(found), ...this.missing];
  }

  /** @param {WatchedWord} word @param {number} at @returns {DrawnWord} */
  samplesOf(word, at) {
    /** @param {Look} it */
    const valueOf = it => ({ turn: it.turn, word: it.words[at], writer: "" });
    const values = this.picture.looks.map(valueOf);
    return { name: nameOfWord(word), values, isWhole: false };
  }

  /** All writes to a core word, or the values at the looks if there are too many.
      @param {WatchedWord} word @param {number} at @returns {Promise<DrawnWord>} */
  async writesOf(word, at) {
    const { first, end } = this.wanted;
    if (end - first > MOST_SEARCHED_TURNS) return this.samplesOf(word, at);
    /** @type {Value[]} */
    const values = [{ turn: first, word: this.picture.looks[0].words[at], writer: "" }];
    for (let begin = first; values.length <= MOST_WRITES;) {
      const { writes, hasMore } = writesOf(
        await this.one(`writes ${begin} ${end} ${word.at.toString(8)}`));
      values.push(...writes);
      if (!hasMore) return { name: nameOfWord(word), values, isWhole: true };
      begin = writes[writes.length - 1].turn + 1;
    }
    return this.samplesOf(word, at);
  }

  /** The changes of a word of a drive. Only a function's completion changes it.
      @param {WatchedWord} word @param {number} at @returns {Promise<DrawnWord>} */
  async changesOf(word, at) {
    const { looks } = this.picture;
    const { first, end } = this.wanted;
    const delay = this.past.delays.disk;
    const isWhole = this.step === 1 || delay >= this.step || end - first <= MOST_SEARCHED_TURNS;
    if (!isWhole) return this.samplesOf(word, at);
    const values = [{ turn: first, word: looks[0].words[at], writer: "" }];
    const place = onDrive(this.past, word);
    for (let begin = first; values.length <= MOST_CHANGES;) {
      const turn = turnOf(await this.one(`change ${begin} ${end} ${place}`));
      if (turn === null) return { name: nameOfWord(word), values, isWhole: true };
      const [value] = wordsOf(await this.one(questionOf(this.past, word, turn + 1)));
      values.push({ turn, word: value, writer: "disk" });
      begin = turn + 1;
    }
    return this.samplesOf(word, at);
  }
}
