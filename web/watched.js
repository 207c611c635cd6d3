// The watch list: registers, and words of core and of drives, which the timeline draws; each with
// its value before the cursor's turn, in the old past too.

import { SHOWN_REGISTERS, markTurn, stateOf } from "./cursor.js";
import { shownOf } from "./kept.js";
import { nameOfWord, namesOfSession, symbolOfWord, wordNamed } from "./names.js";
import { element, make, table } from "./page.js";
import { whyNoWord } from "./picture.js";
import { questionOf } from "./questions.js";
import { isRefused, octal, registersOf, wordsOf } from "./replies.js";
import { Priority } from "./run.js";

// So many of the words that the session names are drawn at first.
const MOST_NAMED = 8;

/**
 * @typedef {import("./names.js").WatchedWord} WatchedWord
 * @typedef {import("./run.js").Run} Run
 */

export class Watched {
  /** @param {import("./app.js").App} app */
  constructor(app) {
    this.app = app;
    /** @type {import("./names.js").WatchedWord[]} */
    this.words = [];
    /** @type {string[]} the names of registers */
    this.registers = [];
    /** @type {Map<string, string>} the values by names, and those of the old past */
    this.values = new Map();
    /** @type {Map<string, string>} */
    this.olds = new Map();
    /** @type {import("./cursor.js").State | null} of which turn and past the values are */
    this.shown = null;
    /** @type {Map<string, string>} what words are called, by their names */
    this.called = new Map();
  }

  /** Another session is open. */
  sessionBegins() {
    const { contents } = this.app.session;
    this.called = namesOfSession(contents);
    const named = [...this.called.keys()].slice(0, MOST_NAMED).flatMap(it => wordNamed(it) ?? []);
    this.words = shownOf(contents)?.words ?? named;
    this.registers = (shownOf(contents)?.registers ?? []).filter(it => isRegister(it));
    this.values = new Map();
    this.olds = new Map();
  }

  pastChanged() {
    this.show();
    this.look();
  }

  /** The names of what is watched, as far as that isn't what the session names.
      @returns {{words?: string[], registers?: string[]}} */
  kept() {
    const { registers } = this, names = this.words.map(nameOfWord);
    const begun = [...namesOfSession(this.app.session.contents).keys()].slice(0, MOST_NAMED);
    return { ...names.join() === begun.join() ? {} : { words: names },
      ...registers.length ? { registers } : {} };
  }

  /** Watches what has these names.
      @param {{words?: string[], registers?: string[]}} kept */
  take({ words, registers }) {
    this.watch({ words: words?.flatMap(it => wordNamed(it) ?? []),
      registers: registers?.filter(isRegister) });
  }

  /** Draws a word; one that is drawn already stays.
      @param {WatchedWord} word */
  add(word) {
    const name = nameOfWord(word);
    if (this.words.some(it => nameOfWord(it) === name)) this.isListed(this.titleOf(name));
    else this.watch({ words: [...this.words, word] });
  }

  /** Watches a register; one that is watched already stays.
      @param {string} name */
  addRegister(name) {
    if (this.registers.includes(name)) this.isListed(name);
    else this.watch({ registers: [...this.registers, name] });
  }

  /** @param {string} title */
  isListed(title) {
    this.app.say(`${title} is in the watch list already.`);
  }

  /** Watches these, and of what isn't given what was watched.
      @param {{words?: WatchedWord[], registers?: string[]}} watched */
  watch({ words = this.words, registers = this.registers }) {
    this.words = words;
    this.registers = registers;
    this.show();
    this.look();
    this.app.pictures.draw();
    this.app.view.timeline.draw();
  }

  /** Watches what has a name no longer.
      @param {string} name */
  drop(name) {
    this.watch({ words: this.words.filter(it => nameOfWord(it) !== name),
      registers: this.registers.filter(it => it !== name) });
  }

  /** What a word is called, and its name.
      @param {string} name */
  titleOf(name) {
    const called = this.called.get(name);
    return called ? `${called} (${name})` : name;
  }

  /** The words that are drawn, each with a button that takes it away. */
  show() {
    const names = this.words.map(nameOfWord);
    this.app.view.timeline.words = names.map(name => (
      { name, label: this.called.get(name) ?? "" }));
    this.showList();
    for (const it of this.words) this.nameBySymbol(it);
  }

  /** The list, with the values that are known. */
  showList() {
    const { olds, values, app } = this;
    /** @param {string} name @param {string} what */
    const row = (name, what) => [this.titleOf(name), values.get(name) ?? "..",
      olds.get(name) ?? "", make("button", { type: "button", class: "link", title: what,
        onclick: () => this.drop(name), "aria-label": `${what}: ${this.titleOf(name)}` },
      "\u2715")];
    const rows = [
      ...this.words.map(it => row(nameOfWord(it), "Draw no longer")),
      ...this.registers.map(it => row(it, "Watch no longer"))];
    const heads = ["", "value", olds.size ? app.pasts.inWords() : "", ""];
    element("words").replaceChildren(...rows.length ? [table("Watch list", heads, rows)] : []);
  }

  /** Asks for the values before the cursor's turn, if the list is seen. */
  look() {
    const { app } = this, { run, old, oldIsLoaded, base } = app.session;
    const { cursor } = app.view.timeline, state = stateOf(run, cursor);
    const place = element("watched-turn"), token = app.token("watched");
    markTurn(place, this.shown, state);
    if (!app.dock.isSeen("memory")) return;
    app.attempt(async () => {
      const values = await this.valuesOf(run, run.past, cursor, token);
      if (old) await oldIsLoaded;
      this.olds = old ? await this.valuesOf(old, base.past, cursor, token) : new Map();
      this.values = values;
      this.shown = state;
      this.showList();
      markTurn(place, state, state);
    });
  }

  /** What is watched, in a past before a turn.
      @param {Run} run @param {import("./past.js").Past} past @param {number} turn
      @param {import("./tasks.js").Token} token */
  async valuesOf(run, past, turn, token) {
    const { words, registers } = this;
    const lines = [`regs ${turn}`, ...words.map(it => questionOf(past, it, turn))];
    const [regs, ...replies] = await run.ask(lines, Priority.QUESTION, token);
    const held = registersOf(regs).words;
    /** @param {string} reply */
    const valueOf = reply => isRefused(reply) ? "none" : octal(wordsOf(reply)[0]);
    return new Map([...registers.map(it => /** @type {const} */ ([it, octal(held[it])])),
      ...words.map((it, at) => /** @type {const} */ ([nameOfWord(it), valueOf(replies[at])]))]);
  }

  /** A word that the session doesn't name is called as its symbol is.
      @param {WatchedWord} word */
  nameBySymbol(word) {
    const { app } = this, name = nameOfWord(word);
    if (this.called.has(name)) return;
    this.called.set(name, "");
    app.attempt(async () => {
      const { session, view: { timeline } } = app;
      const symbol = await symbolOfWord(session.run, word, session.symbols, timeline.cursor);
      if (session !== app.opened || !symbol) return;
      this.called.set(name, symbol);
      this.show();
      timeline.draw();
    });
  }

  /** Watches a register by its name, or draws a word, if the machine has it.
      @param {string} name */
  addNamed(name) {
    const { app } = this;
    if (isRegister(name)) return this.addRegister(name);
    return app.attempt(async () => {
      const word = wordNamed(name);
      const why = word ? await whyNoWord(app.session.run, word)
        : "a word is named as 2000, core 2000, disk 0 or disk 1 0 are, in octal";
      if (why) app.say(`${name} can't be drawn: ${why}.`);
      else if (word) this.add(word);
    });
  }
}

/** @param {string} name */
const isRegister = name => SHOWN_REGISTERS.includes(name);
