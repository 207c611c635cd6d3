// The console: once it is begun, the machine runs on from the cursor's turn while the pane has the
// focus. It shows what is printed, and each key that is struck is an event.

import { choice, element, field } from "./page.js";
import {
  LAST_TURN, bytesOf, counted, devicesOf, lengthOf, readableText, registersOf, tailOf,
} from "./replies.js";
import { Priority } from "./run.js";
import { Screen } from "./screen.js";

// About what a PDP-11/40 does in a second.
const TURNS_A_SECOND = 250_000;
const [TICK, MOST_TURNS, MOST_BYTES] = [50, 4_000_000, 20_000];
const KEYS = new Map(
  [["Enter", 0o15], ["Backspace", 0o177], ["Delete", 0o177], ["Escape", 0o33]]);

/** The byte of a key, or null if it has none. Tab leaves the pane.
    @param {KeyboardEvent} event */
export function byteOfKey(event) {
  if (event.altKey || event.metaKey) return null;
  const named = KEYS.get(event.key);
  if (named !== undefined) return named;
  if ([...event.key].length !== 1) return null;
  const code = event.key.charCodeAt(0);
  if (event.ctrlKey) return code >= 0o100 && code < 0o177 ? code & 0o37 : null;
  return code < 0o200 ? code : null;
}

/**
 * A time of running: the turn up to which it is, whether the line that is typed goes on, and what
 * gives it up.
 * @typedef {{turn: number, isInLine: boolean, token: import("./tasks.js").Token}} Running
 */

export class Console {
  /** @param {import("./app.js").App} app */
  constructor(app) {
    this.app = app;
    this.pane = element("terminal");
    this.status = element("terminal-status");
    this.speed = choice("speed");
    this.isScreen = field("terminal-screen");
    this.isScreen.addEventListener("change", () => this.showText());
    /** @type {number[]} bytes that were struck and wait */
    this.keys = [];
    /** @type {Running | null} what tells one time of running from the next, if it runs */
    this.running = null;
    /** How many turns are run before the next look. */
    this.step = 0;
    /** How many bytes were printed, and the last of them. */
    this.printed = 0;
    /** @type {number[]} */
    this.bytes = [];
    element("terminal-run").addEventListener("click", () => {
      this.pane.focus();
      this.begin();
    });
    this.pane.addEventListener("blur", () => this.end());
    this.pane.addEventListener("paste", event => this.paste(event));
    this.pane.addEventListener("keydown", event => this.strike(event));
  }

  sessionEnds() {
    this.end();
  }

  /** A key goes to the machine if it runs; otherwise Enter begins. Enter isn't repeated.
      @param {KeyboardEvent} event */
  strike(event) {
    const byte = byteOfKey(event), isEnter = event.key === "Enter";
    if (byte === null || !this.running && !isEnter) return;
    event.preventDefault();
    event.stopPropagation();
    if (!this.running) this.begin();
    else if (!isEnter || !event.repeat) this.keys.push(byte);
  }

  begin() {
    if (this.running) return;
    const token = { isStopped: false };
    const running = { turn: this.app.view.timeline.cursor, isInLine: false, token };
    this.running = running;
    this.keys = [];
    this.pane.classList.add("running");
    this.app.edits.inTurn(() => this.runOn(running)).then(() => {
      if (this.running === running) this.end();
    });
  }

  /** Ends at once: what the machine is still asked isn't shown. */
  end() {
    const { running, app } = this;
    if (!running) return;
    this.running = null;
    running.token.isStopped = true;
    this.pane.classList.remove("running");
    app.view.reach(running.turn);
    app.view.timeline.setCursor(running.turn);
    const left = this.keys.length;
    if (left) app.say(`Left out, since the keyboard wasn't ready: ${counted(left, "key")}.`);
  }

  /** Shows what was printed before the cursor's turn, if the terminal is seen and doesn't run. */
  look() {
    const { app } = this, { run } = app.session, { cursor } = app.view.timeline;
    const token = app.token("terminal");
    if (this.running || !app.dock.isSeen("console")) return;
    app.attempt(async () => {
      const [text, registers] = await run.ask([`text ${cursor}`, `regs ${cursor}`],
        Priority.QUESTION, token);
      if (this.running) return;
      this.take(text);
      this.show(cursor, registersOf(registers).state);
    });
  }

  /** The terminal is brought into sight, and the keys are its own. */
  sit() {
    this.app.dock.bring("console-panel");
    this.pane.focus({ preventScroll: true });
    element("dock").scrollTop = 0;
    element("dock").scrollIntoView({ block: "end" });
    this.pane.scrollIntoView({ block: "nearest" });
  }

  /** @param {string} reply of `text` */
  take(reply) {
    this.bytes = [...tailOf(reply, MOST_BYTES).bytes];
    this.printed = lengthOf(reply);
  }

  /** Runs on until it is ended.
      @param {Running} running */
  async runOn(running) {
    this.step = TURNS_A_SECOND * TICK / 1000;
    const [reply] = await this.ask(running, `text ${running.turn}`);
    this.take(reply);
    this.show(running.turn, "run");
    let hasKeys = false;
    try {
      while (this.running === running) {
        const began = performance.now();
        hasKeys = await this.strikeNext(running) || hasKeys;
        await this.goOn(running);
        const time = performance.now() - began;
        this.adapt(time);
        await new Promise(resolve => setTimeout(resolve, Math.max(0, TICK - time)));
      }
    } finally {
      if (hasKeys) await this.app.changed();
    }
  }

  /** @param {Running} running @param {string[]} lines */
  ask(running, ...lines) {
    return this.app.session.run.ask(lines, Priority.CURSOR, running.token);
  }

  /** Strikes the next key, if the keyboard can take one. One undo takes back a typed line.
      @param {Running} running */
  async strikeNext(running) {
    const { app, keys: [byte] } = this;
    if (byte === undefined) return false;
    const [devices] = await this.ask(running, `devices ${running.turn}`);
    if (devicesOf(devices).keyWaits) return false;
    this.keys.shift();
    const line = `at ${running.turn} key ${byte.toString(8)}`;
    const reply = await app.edits.make(line, running.isInLine);
    running.isInLine = byte !== KEYS.get("Enter");
    this.tellKey();
    app.say(`${line}: ${reply}`);
    return true;
  }

  /** A key has made another past. What takes long to ask is told once the console ends. */
  tellKey() {
    const { app } = this;
    for (const it of [app.edits, app.events, app.sweep, app.linking]) it.pastChanged();
    app.text.isOld();
    app.story.isOld();
    app.notes.pastChanged();
    app.pasts.differences.showLater();
    app.pictures.say("The lanes are those before the keys that you typed.");
    for (const kind of ["story", "comparison", "picture"]) app.token(kind);
  }

  /** @param {Running} running */
  async goOn(running) {
    const turn = Math.min(LAST_TURN, running.turn + Math.round(this.step));
    const [text, registers] = await this.ask(
      running, `text ${turn} from ${this.printed}`, `regs ${turn}`);
    if (this.running !== running) return;
    if (turn === running.turn) {
      this.end();
      return;
    }
    running.turn = turn;
    const more = bytesOf(text);
    this.printed += more.length;
    if (more.length) this.bytes = [...this.bytes, ...more].slice(-MOST_BYTES);
    this.show(turn, registersOf(registers).state, more.length > 0);
  }

  /** At the machine's rate, or as many turns as are run in the time between two looks.
      @param {number} time */
  adapt(time) {
    if (this.speed.value === "real") this.step = TURNS_A_SECOND * TICK / 1000;
    else if (time < TICK) this.step = Math.min(MOST_TURNS, this.step * 1.5);
    else this.step = Math.max(1_000, this.step / 2);
  }

  /** @param {number} turn @param {string} state */
  show(turn, state, isNew = true) {
    const cut = this.printed > this.bytes.length ? `, the last ${this.bytes.length} bytes` : "";
    this.status.textContent = `before turn ${turn}, ${state}${cut}`;
    if (isNew) this.showText();
  }

  /** The text as lines, or as it stands on the screen of a terminal. */
  showText() {
    const { pane, bytes, isScreen: { checked } } = this;
    pane.textContent = checked ? new Screen().print(bytes).text : readableText(bytes);
    pane.classList.toggle("screen", checked);
    pane.scrollTop = checked ? 0 : pane.scrollHeight;
  }

  /** Pasted text is struck key by key.
      @param {ClipboardEvent} event */
  paste(event) {
    if (!this.running) return;
    event.preventDefault();
    const text = event.clipboardData?.getData("text/plain").replace(/\r?\n/g, "\r") ?? "";
    this.keys.push(...[...text.slice(0, MOST_BYTES)].map(it => it.charCodeAt(0))
      .filter(it => it < 0o200));
  }
}
