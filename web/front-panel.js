// The console of the 11/40: lights that show the machine before the cursor's turn, and switches
// with the keys that the machine has an event for. It is closed at first, and then asks nothing.

import { markTurn, spaceOf, stateOf, wordsAt } from "./cursor.js";
import { element, make } from "./page.js";
import { devicesOf, octal, pagesOf, registersOf, wordsOf } from "./replies.js";
import { Priority } from "./run.js";

const [SWITCHES, BITS_OF_A_WORD, IN_A_GROUP, LARGEST_WORD] = [18, 16, 3, 0o177777];

/**
 * What the lights show: a word is null if there is none at the address.
 * @typedef {{address: number, data: number | null, isRunning: boolean, isUser: boolean,
 *   register: number}} Lights
 * @typedef {import("./cursor.js").Ask} Ask
 */

/** The numbers of the bits, in groups of three, the highest first.
    @returns {number[][]} */
function groupsOfBits() {
  return Array.from({ length: SWITCHES / IN_A_GROUP }, (_, group) =>
    Array.from({ length: IN_A_GROUP }, (_, at) => SWITCHES - 1 - group * IN_A_GROUP - at));
}

/** A row of lights, of which these bits are there.
    @param {number} count */
function rowOfLights(count) {
  const groups = groupsOfBits().map(bits => make("span", { class: "group" },
    ...bits.map(it => make("span", { class: it < count ? "light" : "", "data-bit": it }))));
  return make("div", { class: "bits", "aria-hidden": "true" }, ...groups);
}

/** Lights a row.
    @param {Element} row @param {number | null} word */
function light(row, word) {
  for (const it of row.querySelectorAll("[data-bit]")) {
    const bit = Number(/** @type {HTMLElement} */ (it).dataset.bit);
    it.classList.toggle("on", word !== null && (word >> bit & 1) === 1);
  }
}

export class FrontPanel {
  /** @param {import("./app.js").App} app */
  constructor(app) {
    this.app = app;
    this.place = /** @type {HTMLDetailsElement} */ (element("front"));
    /** What the switches are set to. */
    this.word = 0;
    /** Which switch a key changes. */
    this.focus = BITS_OF_A_WORD - 1;
    /** @type {number | null} the address that was examined last, while the switches stay */
    this.examined = null;
    /** @type {import("./cursor.js").State | null} what the lights show */
    this.shown = null;
    this.address = rowOfLights(SWITCHES);
    this.data = rowOfLights(BITS_OF_A_WORD);
    element("front-address").append(this.address);
    element("front-data").append(this.data);
    this.switches = this.makeSwitches();
    this.place.addEventListener("toggle", () => this.look());
    element("front-set").addEventListener("click", () => this.set());
    element("front-continue").addEventListener("click", () => this.event("continue"));
    element("front-examine").addEventListener("click", () => this.examine());
    this.showSwitches();
  }

  // Lights

  /** Shows the machine before the cursor's turn, if the panel is seen. */
  look() {
    const { app } = this;
    if (!this.place.open || !app.isOpen || !app.dock.isSeen("machine")) return;
    this.examined = null;
    this.say("");
    this.show(ask => this.lightsBefore(ask));
  }

  /** Shows lights, and of which turn they are.
      @param {(ask: Ask) => Promise<Lights>} find */
  show(find) {
    const { app } = this, { run } = app.session, token = app.token("front");
    const state = stateOf(run, this.turn), place = element("front-turn");
    markTurn(place, this.shown, state);
    app.attempt(async () => {
      this.showLights(await find(lines => run.ask(lines, Priority.CURSOR, token)));
      this.shown = state;
      markTurn(place, state, state);
    });
  }

  get turn() {
    return this.app.view.timeline.cursor;
  }

  /** PC, and the word at it, as the program of the mode has them.
      @param {Ask} ask @returns {Promise<Lights>} */
  async lightsBefore(ask) {
    const { turn } = this;
    const [regs, devices, pages] = await ask(
      [`regs ${turn}`, `devices ${turn}`, `pages ${turn}`]);
    const { pc, mode, state } = registersOf(regs), space = spaceOf(pagesOf(pages), mode);
    const [data = null] = await wordsAt(ask, { turn, space }, pc, 1);
    return { address: pc, data, isRunning: state !== "halted", isUser: mode === "user",
      register: devicesOf(devices).words.SWR };
  }

  /** @param {Lights} lights */
  showLights({ address, data, isRunning, isUser, register }) {
    light(this.address, address);
    light(this.data, data);
    element("front-address-word").textContent = octal(address);
    element("front-data-word").textContent = data === null ? "none" : octal(data);
    for (const [id, isOn] of /** @type {const} */ ([
      ["front-run", isRunning], ["front-kernel", !isUser], ["front-user", isUser]])) {
      element(id).classList.toggle("on", isOn);
      element(`${id}-said`).textContent = isOn ? "on" : "off";
    }
    element("front-register").textContent = octal(register);
  }

  /** @param {string} text */
  say(text) {
    element("front-said").textContent = text;
  }

  // Switches

  makeSwitches() {
    const place = element("front-switches");
    /** @param {number} bit */
    const made = bit => make("button", {
      type: "button", role: "switch", class: "switch", "data-bit": bit,
      "aria-label": `Switch ${bit}`, onclick: () => this.turnSwitch(bit),
      onkeydown: event => this.key(event, bit),
    });
    const groups = groupsOfBits().map(bits => make("span", { class: "group" }, ...bits.map(made)));
    place.append(make("div", { class: "bits" }, ...groups));
    const found = /** @type {NodeListOf<HTMLElement>} */ (place.querySelectorAll("[data-bit]"));
    return new Map([...found].map(it => [Number(it.dataset.bit), it]));
  }

  /** @param {number} bit */
  turnSwitch(bit) {
    this.word ^= 1 << bit;
    this.examined = null;
    this.goTo(bit);
  }

  /** Shows how the switches are. Tab goes to one of them.
      @param {number} [bit] which one has the focus from now on */
  goTo(bit) {
    this.focus = bit ?? this.focus;
    this.showSwitches();
    this.switches.get(this.focus)?.focus();
  }

  showSwitches() {
    for (const [bit, it] of this.switches) {
      it.ariaChecked = (this.word >> bit & 1) === 1 ? "true" : "false";
      it.tabIndex = bit === this.focus ? 0 : -1;
    }
    element("front-word").textContent = octal(this.word);
  }

  /** Arrows go from switch to switch; up and down turn one on and off; a digit sets its group, and
      goes to the next one.
      @param {KeyboardEvent} event @param {number} bit */
  key(event, bit) {
    const group = bit - bit % IN_A_GROUP, { key } = event;
    if (event.altKey || event.ctrlKey || event.metaKey) return;
    if (key === "ArrowLeft") this.goTo(Math.min(SWITCHES - 1, bit + 1));
    else if (key === "ArrowRight") this.goTo(Math.max(0, bit - 1));
    else if (key === "ArrowUp") this.put(bit, 1, 1);
    else if (key === "ArrowDown") this.put(bit, 1, 0);
    else if (/^[0-7]$/.test(key)) {
      this.put(group, IN_A_GROUP, Number(key));
      this.goTo(Math.max(0, group - 1));
    } else return;
    event.preventDefault();
  }

  /** Puts a number into switches.
      @param {number} bit the lowest of them @param {number} count @param {number} value */
  put(bit, count, value) {
    const mask = (1 << count) - 1 << bit;
    this.word = this.word & ~mask | value << bit;
    this.examined = null;
    this.goTo();
  }

  // Keys

  set() {
    if (this.word > LARGEST_WORD) {
      return this.say("The event has sixteen switches: turn 17 and 16 off, which only EXAM takes.");
    }
    return this.event(`switches ${this.word.toString(8)}`);
  }

  /** An event where the cursor is.
      @param {string} event */
  async event(event) {
    const { ledger } = this.app.session.run, before = ledger.changes.length;
    await this.app.edits.edit(`at ${this.turn} ${event}`);
    this.say(ledger.changes.length > before
      ? `An event where the cursor is: ${event}. Undo takes it back.` : "It was refused.");
  }

  /** Shows the word of core at the address in the switches; again, the word after it. */
  examine() {
    const { core } = this.app.session.run.past, { turn } = this;
    const address = this.examined === null ? this.word & ~1 : this.examined + 2;
    if (address >= core) {
      this.say(`There is no core at ${octal(address)}: it ends at ${octal(core - 1)}.`);
      return;
    }
    this.show(async ask => {
      const lights = await this.lightsBefore(ask);
      const [data] = wordsOf((await ask([`mem ${turn} ${address.toString(8)} 1`]))[0]);
      this.examined = address;
      this.say(`Core ${octal(address)} before turn ${turn}: ${octal(data)}. EXAM again shows the `
        + "word after it.");
      return { ...lights, address, data };
    });
  }
}
