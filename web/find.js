// Finds the next turn, or the one before, in which something is so. Each way to find is a search of
// the program; of the console's text the bytes are looked through here.

import { nameOfWord, wordNamed } from "./names.js";
import { choice, element, field } from "./page.js";
import { onDrive } from "./questions.js";
import {
  AskError, bytesOf, lastOf, lengthOf, turnOf, vectorNamed, visibleName, writesOf,
} from "./replies.js";
import { latin1 } from "./session.js";

// Changes of a drive are searched forwards alone: backwards in stretches, each twice as long.
const [FIRST_STRETCH, MOST_CHANGES] = [65_536, 4_096];

/**
 * The cursor's turn, the last turn that is searched, and what asks one line.
 * @typedef {{cursor: number, end: number, one: (line: string) => Promise<string>}} Turns
 * @typedef {(from: number, to: number) => Promise<number | null>} Next change in these turns
 * @typedef {import("./names.js").WatchedWord} WatchedWord
 */

export class Finder {
  /** @param {import("./app.js").App} app */
  constructor(app) {
    this.app = app;
    this.kind = choice("find-kind");
    this.what = field("find-what");
    this.kind.addEventListener("change", () => {
      this.what.placeholder = this.kind.selectedOptions[0].dataset.example ?? "";
    });
  }

  /** @param {string} text */
  say(text) {
    element("find-said").textContent = text;
  }

  /** Goes to the next turn after the cursor's, or with -1 to the one before.
      @param {number} direction */
  find(direction) {
    const { app } = this, { cursor } = app.view.timeline;
    const kind = this.kind.value, what = this.what.value.trim();
    const ask = app.asker("find");
    this.say("");
    return app.answer(async () => {
      if (!what) {
        this.say("Say what to find.");
        return;
      }
      /** @param {string} line */
      const one = async line => (await ask([line]))[0];
      const last = Math.max(app.session.end, cursor);
      const turn = await this.foundBy(kind, what, direction, { cursor, end: last, one });
      const where = direction > 0 ? `after turn ${cursor}, up to ${last}` : `before turn ${cursor}`;
      if (turn !== null) app.goTo(turn);
      this.say(turn === null ? `None ${where}.` : `Turn ${turn}.`);
    }, why => this.say(`${visibleName(what)}: ${why}`));
  }

  /** @param {string} kind @param {string} what @param {number} direction @param {Turns} turns
      @returns {Promise<number | null>} */
  async foundBy(kind, what, direction, turns) {
    switch (kind) {
      case "at": return this.search(`at ${this.placeOf(what)}`, direction, turns);
      case "where": return this.search(`where ${what}`, direction, turns);
      case "vector": return this.vector(what, direction, turns);
      case "text": return this.text(what, direction, turns);
      default: return this.write(what, direction, turns);
    }
  }

  /** The first turn after the cursor's that fits, or the last before it.
      @param {string} what @param {number} direction @param {Turns} turns */
  async search(what, direction, { cursor, end, one }) {
    if (direction < 0) return turnOf(await one(`latest 0 ${cursor} ${what}`));
    return turnOf(await one(`first ${Math.min(cursor + 1, end)} ${end} ${what}`));
  }

  /** An address, or a symbol as the address in its mode.
      @param {string} what */
  placeOf(what) {
    if (/^[0-7]{1,6}( (kernel|user))?$/.test(what)) return what;
    for (const mode of /** @type {const} */ (["kernel", "user"])) {
      const symbol = this.app.session.symbols[mode].find(it => it.name === what);
      if (symbol) return `${symbol.value.toString(8)} ${mode}`;
    }
    throw new AskError("no symbol has this name, and an address is octal");
  }

  /** An interrupt or a trap by a vector, whichever comes first.
      @param {string} what @param {number} direction @param {Turns} turns */
  async vector(what, direction, turns) {
    const vector = /^[0-7]{1,3}$/.test(what) ? parseInt(what, 8) : vectorNamed(what);
    if (vector === null) throw new AskError("a vector is octal, or a name such as clock");
    /** @type {number[]} */
    const found = [];
    for (const kind of ["vector", "trap"]) {
      const turn = await this.search(`${kind} ${vector.toString(8)}`, direction, turns);
      if (turn !== null) found.push(turn);
    }
    if (!found.length) return null;
    return direction > 0 ? Math.min(...found) : Math.max(...found);
  }

  /** The turn that printed the first byte of a text.
      @param {string} what @param {number} direction @param {Turns} turns */
  async text(what, direction, { cursor, end, one }) {
    const printed = latin1(bytesOf(await one(`text ${end}`)));
    const turn = direction > 0 ? Math.min(cursor + 1, end) : cursor;
    const before = lengthOf(await one(`text ${turn}`));
    const at = direction > 0 ? printed.indexOf(what, before)
      : before ? printed.lastIndexOf(what, before - 1) : -1;
    return at < 0 ? null : turnOf(await one(`when ${at}`));
  }

  /** A word by its name in the session language, by what the session calls it, or a symbol.
      @param {string} what */
  wordOf(what) {
    const { watched, session: { symbols } } = this.app;
    const called = [...watched.called].find(([, name]) => name === what)?.[0];
    const symbol = symbols.kernel.find(it => it.name === what);
    const word = wordNamed(called ?? what) ?? (symbol && wordNamed(symbol.value.toString(8)));
    if (!word) throw new AskError("a word is named as 2000, core 2000, disk 0 or disk 1 0 are");
    return word;
  }

  /** @param {string} what @param {number} direction @param {Turns} turns
      @returns {Promise<number | null>} */
  async write(what, direction, turns) {
    const word = this.wordOf(what), { cursor, end, one } = turns, at = word.at.toString(8);
    if (word.kind === "disk") return this.change(word, direction, turns);
    if (direction < 0) return lastOf(await one(`last ${cursor} ${at}`))?.turn ?? null;
    const reply = await one(`writes ${Math.min(cursor + 1, end)} ${end} ${at}`);
    return writesOf(reply).writes[0]?.turn ?? null;
  }

  /** @param {WatchedWord} word @param {number} direction @param {Turns} turns
      @returns {Promise<number | null>} */
  async change(word, direction, { cursor, end, one }) {
    const { past } = this.app.session.run, place = onDrive(past, word);
    if (word.drive && past.version === 1) {
      throw new AskError(`${nameOfWord(word)}: there is one drive`);
    }
    /** @type {Next} */
    const next = async (from, to) => turnOf(await one(`change ${from} ${to} ${place}`));
    if (direction > 0) return next(Math.min(cursor + 1, end), end);
    let to = cursor;
    for (let length = FIRST_STRETCH; to > 0; length *= 2) {
      const from = Math.max(0, to - length), turn = await this.lastChange(from, to, next);
      if (turn !== null) return turn;
      to = from;
    }
    return null;
  }

  /** @param {number} from @param {number} to @param {Next} next */
  async lastChange(from, to, next) {
    /** @type {number | null} */
    let last = null;
    for (let count = 0; ; count++) {
      /** @type {number | null} */
      const turn = await next(last === null ? from : last + 1, to);
      if (turn === null) return last;
      if (count === MOST_CHANGES) throw new AskError("it changes too often to search back");
      last = turn;
    }
  }
}
