// The panel that shows any stretch of memory before the cursor's turn, and searches core or a
// drive.

import { markTurn, stateOf } from "./cursor.js";
import {
  IN_A_ROW, bytesOfWords, heldBefore, lineOfFind, placeInWords, placeNamed, placesOf,
  rowsOf, stepOf, textOfWords,
} from "./memory.js";
import { choice, element, field, link, make, onSubmit, table } from "./page.js";
import { AskError, octal, physicalOf } from "./replies.js";
import { symbolAt } from "./session.js";

const MOST_WORDS = 512, WORDS_OF_AN_INSTRUCTION = 3;
/** @type {Object<string, string>} */
const NAMES = { core: "core", kernel: "kernel", user: "user", disk: "drive" };

/**
 * @typedef {import("./memory.js").Stretch} Stretch
 * @typedef {import("./memory.js").Held} Held
 * @typedef {import("./cursor.js").State} State
 */

export class Inspect {
  /** @param {import("./app.js").App} app */
  constructor(app) {
    this.app = app;
    /** @type {State | undefined} */
    this.shown = undefined;
    /** @type {Stretch | null} what is shown, or is to be */
    this.stretch = null;
    this.place = element("inspected");
    element("inspect-as").addEventListener("change", () => this.look());
    element("inspect-space").addEventListener("change", () => this.showSpace());
    onSubmit("inspect-form", () => this.read());
    onSubmit("inspect-find", () => this.find(null));
    element("inspect-before").addEventListener("click", () => this.turnPage(-1));
    element("inspect-after").addEventListener("click", () => this.turnPage(1));
  }

  showSpace() {
    const { example = "" } = choice("inspect-space").selectedOptions[0].dataset;
    field("inspect-from").placeholder = example;
  }

  /** @param {string} text */
  say(text) {
    element("inspect-said").textContent = text;
  }

  /** Does work, and says what is wrong with what was asked.
      @param {() => Promise<void>} work */
  attempt(work) {
    return this.app.answer(work, why => this.say(why));
  }

  /** Shows what the form says. */
  read() {
    const space = choice("inspect-space").value, text = field("inspect-from").value.trim();
    const count = Number(field("inspect-count").value);
    this.say("");
    return this.attempt(async () => {
      if (!(Number.isInteger(count) && count > 0 && count <= MOST_WORDS)) {
        throw new AskError(`the count of words is 1 to ${MOST_WORDS}`);
      }
      const { symbols } = this.app.session, { cursor } = this.app.view.timeline;
      const { drive, at, isVirtual } = placeNamed(space, text || "0", symbols);
      const line = `translate ${cursor} kernel ${at.toString(8)}`;
      const real = isVirtual ? physicalOf((await this.app.asker("inspect")([line]))[0]) : at;
      if (real === null) throw new AskError("the kernel can't read this address now");
      await this.show({ space, drive, at: real, count });
    });
  }

  /** Shows the words before these, or after them.
      @param {number} direction */
  turnPage(direction) {
    const { stretch } = this;
    if (!stretch) return this.read();
    const { space, at, count } = stretch;
    const next = Math.max(0, at + direction * count * stepOf(space));
    return this.attempt(() => this.show({ ...stretch, at: next }));
  }

  /** The cursor was moved, or the past has changed. */
  look() {
    const { stretch } = this;
    if (!stretch) return;
    this.mark();
    if (this.app.dock.isSeen("memory")) this.attempt(() => this.show(stretch));
  }

  mark() {
    const { session: { run }, view: { timeline: { cursor } } } = this.app;
    markTurn(element("inspect-turn"), this.shown, stateOf(run, cursor));
  }

  /** @param {Stretch} wanted */
  async show(wanted) {
    const { app } = this, { session: { run }, view: { timeline: { cursor } } } = app;
    const ask = app.asker("inspect");
    this.stretch = wanted;
    this.mark();
    const held = await heldBefore(ask, run.past, cursor, wanted);
    const { stretch, why } = held, kind = choice("inspect-as").value;
    this.stretch = { ...stretch, count: wanted.count };
    const rows = kind === "instructions" ? await this.instructions(ask, held)
      : rowsOf(held, IN_A_ROW[kind]).map(it => this.row(stretch, it, kind));
    const heads = [NAMES[stretch.space], kind, kind === "octal" ? "text" : ""];
    const left = why ? [make("p", {}, `The next word can't be read: ${why}.`)] : [];
    if (!rows.length && !why) left.push(make("p", {}, "There is no such word."));
    const shown = rows.length ? [table("Words of memory", heads, rows)] : [];
    this.place.replaceChildren(...shown, ...left);
    this.shown = stateOf(run, cursor);
    this.mark();
  }

  /** @param {Stretch} stretch @param {{at: number, words: number[]}} row @param {string} kind
      @returns {import("./page.js").Inside[]} */
  row({ space, drive }, { at, words }, kind) {
    const place = placeInWords(space, at);
    if (kind === "text") return [place, textOfWords(words), ""];
    if (kind === "bytes") return [place, bytesOfWords(words), textOfWords(words)];
    const cells = words.flatMap((word, number) => [
      this.wordCell(space, drive, at + number * stepOf(space), word), " "]);
    return [place, make("span", { class: "words" }, ...cells), textOfWords(words)];
  }

  /** A word: touched, it is asked why it is so.
      @param {string} space @param {number} drive @param {number} at @param {number} word */
  wordCell(space, drive, at, word) {
    const cell = link(octal(word), `Why is ${placeInWords(space, at)} so?`, () => this.touch(
      space, drive, at));
    cell.setAttribute("aria-label", `${placeInWords(space, at)}: ${octal(word)}. Why?`);
    return cell;
  }

  /** @param {string} space @param {number} drive @param {number} at */
  touch(space, drive, at) {
    const { reasons, session: { run }, view: { timeline: { cursor } } } = this.app;
    return this.attempt(async () => {
      if (space === "disk") return reasons.ask({ kind: "disk", drive, at });
      if (space === "core") return reasons.ask({ kind: "core", drive: 0, at });
      const line = `translate ${cursor} ${space} ${at.toString(8)}`;
      const real = physicalOf((await this.app.asker("inspect")([line]))[0]);
      if (real === null || real >= run.past.core) throw new AskError("that is no word of core");
      return reasons.ask({ kind: "core", drive: 0, at: real });
    });
  }

  /** @param {import("./cursor.js").Ask} ask @param {Held} held */
  async instructions(ask, { stretch, words }) {
    const { space, at } = stretch, step = stepOf(space), { symbols } = this.app.session;
    const mode = space === "user" ? "user" : "kernel";
    const asked = words.map((_, number) => ({ pc: at + number * 2 & 0o177777,
      words: words.slice(number, number + WORDS_OF_AN_INSTRUCTION) }));
    const texts = await this.app.panels.texts(ask, asked), rows = [];
    for (let number = 0; number < texts.length; number += texts[number].words) {
      const place = at + number * step;
      const symbol = space === "disk" ? "" : symbolAt(symbols, mode, place & 0o177777);
      rows.push([placeInWords(space, place), texts[number].text, symbol]);
    }
    return rows;
  }

  // Find

  /** Finds a word from a place on, or in all of core or of the drive.
      @param {number | null} from */
  find(from) {
    const [word, mask] = ["inspect-word", "inspect-mask"].map(id => field(id).value.trim());
    this.say("");
    return this.attempt(async () => {
      /** @param {string} it */
      const isWord = it => /^[0-7]{1,6}$/.test(it) && parseInt(it, 8) <= 0o177777;
      if (!isWord(word) || mask && !isWord(mask)) {
        throw new AskError("a word, and the bits that are compared, are octal, up to 177777");
      }
      const { session: { run, symbols }, view: { timeline: { cursor } } } = this.app;
      const isDisk = choice("inspect-space").value === "disk", space = isDisk ? "disk" : "core";
      const where = field("inspect-from").value.trim() || "0";
      const { drive } = isDisk ? placeNamed("disk", where, symbols) : { drive: 0 };
      const line = lineOfFind({ space, drive }, run.past, cursor,
        from ?? 0, parseInt(word, 8), mask ? parseInt(mask, 8) : null);
      const reply = line ? (await this.app.asker("inspect")([line]))[0] : "find 0";
      this.showFound(space, drive, placesOf(reply));
    });
  }

  /** @param {string} space @param {number} drive
      @param {{places: number[], hasMore: boolean}} found */
  showFound(space, drive, { places, hasMore }) {
    const { cursor } = this.app.view.timeline, what = space === "disk" ? `drive ${drive}` : "core";
    const count = `${places.length}${hasMore ? " or more" : ""}`;
    const noun = places.length === 1 ? "word" : "words";
    this.say(`${count} ${noun} of ${what} before turn ${cursor}.`);
    const items = places.map(at => link(placeInWords(space, at), "Show the words from here on",
      () => this.go(space, drive, at)));
    const last = (places.at(-1) ?? 0) + stepOf(space), further = () => this.find(last);
    if (hasMore) items.push(make("button", { type: "button", onclick: further }, "Further"));
    element("inspect-found").replaceChildren(...items.flatMap(it => [it, " "]));
  }

  /** Shows the words from a place that was found.
      @param {string} space @param {number} drive @param {number} at */
  go(space, drive, at) {
    choice("inspect-space").value = space;
    field("inspect-from").value = `${drive ? `${drive} ` : ""}${at.toString(8)}`;
    const count = Number(field("inspect-count").value) || 64;
    return this.attempt(() => this.show({ space, drive, at, count }));
  }
}
