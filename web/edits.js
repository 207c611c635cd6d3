// What the user does to the past: edits, moves of events, undo and redo, one after the other.

import { keepEdits, sumOf } from "./kept.js";
import { checkPlace, patchesOf } from "./loading.js";
import { element, field, itemsOf, link, make } from "./page.js";
import { isEdit, wordsOfLine } from "./past.js";
import { isRefused } from "./replies.js";
import { Priority } from "./run.js";
import { itemsOf as itemsOfLedger, switchItem } from "./switching.js";

const [MOST_REPLY, MOST_LINES] = [20_000, 256];
// Stands before the text of what is switched off: no line begins with it.
const OFF = "\n";

/**
 * A move of an event that isn't ended: the turns that are wanted and tried, each with its line.
 * @typedef {{line: string, turn: number}} Move
 * @typedef {{isAtWork: boolean, wanted: Move, now: Move | null}} Moves
 * @typedef {import("./past.js").ScriptEvent} ScriptEvent
 * @typedef {import("./ledger.js").Edit} Edit
 * @typedef {import("./kept.js").KeptEdits} KeptEdits
 * @typedef {import("./kept.js").KeptEdit} KeptEdit
 */

export class Edits {
  /** @param {import("./app.js").App} app */
  constructor(app) {
    this.app = app;
    /** @type {Promise<void>} */
    this.last = Promise.resolve();
    /** @type {Moves | null} */
    this.moves = null;
    this.list = element("edits");
    this.showItems = itemsOf(this.list, text => this.shownItem(text));
    /** @type {string | null} a sum of the past that was saved last */
    this.saved = null;
  }

  pastChanged() {
    this.show();
  }

  /** Does work after all that was begun before it, unless another session is open by then.
      @param {() => Promise<void>} work */
  inTurn(work) {
    const { app } = this, { opened } = app;
    this.last = this.last.then(() => opened === app.opened ? app.attempt(work) : undefined);
    return this.last;
  }

  /** A line of the user: an edit, undo or redo, or a question.
      @param {string} line */
  do(line) {
    const { app } = this, words = wordsOfLine(line).join(" ");
    if (isEdit(line)) return this.edit(line);
    if (words === "undo") return this.undo();
    if (words === "redo") return this.redo();
    return app.attempt(() => this.askQuestion(line));
  }

  /** Shows the reply to a question. Another question gives up the one before it.
      @param {string} line */
  async askQuestion(line) {
    const { app } = this, { run } = app.session;
    const reply = await run.askOne(line, Priority.QUESTION, app.token("question"));
    const lines = reply.includes("\n") ? `\n${reply}` : reply;
    const left = lines.length - MOST_REPLY;
    const cut = left > 0 ? `\n.. ${left} characters more aren't shown` : "";
    app.say(`${line}: ${lines.slice(0, MOST_REPLY)}${cut}`);
  }

  /** Makes an edit, and shows what follows.
      @param {string} line */
  edit(line) {
    return this.inTurn(() => this.makeShown(line));
  }

  /** The reply is said once the lists and panels are those of the edit.
      @param {string} line */
  async makeShown(line) {
    const reply = await this.make(line);
    if (isRefused(reply)) this.show();
    else await this.app.changed();
    this.app.say(`${line}: ${reply}`);
  }

  /** Makes an edit. One that joins is undone with the one before it. Returns the reply.
      @param {string} line */
  async make(line, joins = false) {
    const { app } = this, { run } = app.session;
    app.pasts.keepOld();
    const reply = await run.commit(line, joins);
    await run.askPast();
    return reply;
  }

  /** Puts an event's edit into the field.
      @param {ScriptEvent} event */
  openEvent(event) {
    field("follow-event").value = String(event.number);
    this.writeLine(`alter ${event.number} `, String(event.turn), ` ${event.text}`);
  }

  /** What opens an event's edit, with a text, its number if none is given.
      @param {ScriptEvent} event */
  linkTo(event, text = String(event.number)) {
    return link(text, "Open the event", () => this.openEvent(event));
  }

  /** Puts a line into the field, with the part selected that is to be changed.
      @param {string} before @param {string} changed */
  writeLine(before, changed, after = "") {
    const line = field("line");
    this.app.dock.bring("line-panel");
    line.value = `${before}${changed}${after}`;
    line.focus();
    line.setSelectionRange(before.length, before.length + changed.length);
  }

  /** Loads a program into core, as one edit. Returns how many patches that took.
      @param {import("./loading.js").Loaded} program */
  async load(program) {
    const { app } = this;
    let count = 0;
    await this.inTurn(async () => {
      const { run } = app.session;
      checkPlace(program, run.past.core);
      const lines = await patchesOf(it => run.ask(it, Priority.EDIT), program.bytes);
      app.pasts.keepOld();
      count = await run.commitAll(lines);
      await app.changed();
    });
    return count;
  }

  // Moves of events

  /** While an event is moved its turn is tried, if the machine is quick enough.
      @param {ScriptEvent} event @param {number} turn */
  preview(event, turn) {
    const { app } = this, { run, end } = app.session, wanted = { line: moveOf(event, turn), turn };
    app.say(wanted.line);
    app.text.isOld();
    app.story.isOld();
    if (!run.isNear(end, Math.min(event.turn, turn))) return;
    for (const kind of ["picture", "cursor", "comparison", "text", "story"]) app.token(kind);
    /** @type {Moves} */
    const moves = this.moves ?? { isAtWork: false, wanted, now: null };
    this.moves = moves;
    moves.wanted = wanted;
    if (moves.isAtWork) return;
    moves.isAtWork = true;
    this.inTurn(() => this.tryTurns(moves)).then(() => { moves.isAtWork = false; });
  }

  /** Tries the turn that is wanted, until it is the one that was tried. What comes of another turn
      isn't shown.
      @param {Moves} moves */
  async tryTurns(moves) {
    const { app } = this, { run, end } = app.session;
    while (this.moves === moves && moves.wanted !== moves.now) {
      const now = moves.wanted;
      moves.now = now;
      const [text, outcome] = await run.preview(now.line, [`text ${end}`, ...app.story.lines]);
      app.panels.want(run, app.view.timeline.cursor);
      app.pictures.say("The lanes are those before the event's move.");
      if (this.moves !== moves || moves.wanted !== now) continue;
      app.text.show(text);
      app.story.show(outcome, now.turn);
    }
  }

  /** Ends a move: the event is put back, and then altered by one edit, unless the turn is null.
      @param {ScriptEvent} event @param {number | null} turn */
  drop(event, turn) {
    const { app } = this;
    this.moves = null;
    return this.inTurn(async () => {
      if (turn !== null) return this.makeShown(moveOf(event, turn));
      await app.session.run.putBack();
      return app.changed();
    });
  }

  // Undo and redo

  undo() {
    return this.inTurn(async () => {
      await this.app.session.run.undo();
      await this.app.changed();
      this.app.say("undone");
    });
  }

  redo() {
    return this.inTurn(async () => {
      const refused = (await this.app.session.run.redo()).map(it => it.line).join(", ");
      await this.app.changed();
      this.app.say(refused ? `refused, so not made again: ${refused}` : "made again");
    });
  }

  // Switched off and on

  /** Switches off what the user did at once, or on.
      @param {Element} item */
  toggle(item) {
    // of the list as it is now: what was begun before may make the item anew
    const place = [...this.list.children].indexOf(item);
    return this.inTurn(async () => {
      const { app } = this, { run } = app.session;
      const found = itemsOfLedger(run.ledger)[place];
      if (!found) return;
      const [{ line }] = found.change;
      const refused = await switchItem(run, place);
      await app.changed();
      const more = refused.length ? `, and with it off: ${refused.join(", ")}` : "";
      this.list.children[place]?.querySelector("input")?.focus();
      app.say(`${line}: switched ${found.isOn ? "off" : "on"}${more}`);
    });
  }

  /** What the user did at once, with a box that switches it. The text has a mark before its lines
      if it is off.
      @param {string} text */
  shownItem(text) {
    const isOn = !text.startsWith(OFF);
    const lines = text.slice(isOn ? 0 : OFF.length).split("\n");
    const box = make("input", { type: "checkbox", checked: isOn, "aria-label": `On: ${lines[0]}` });
    const item = make("li", { class: isOn ? "" : "off" }, box, shownLines(lines));
    box.addEventListener("change", () => this.toggle(item));
    return item;
  }

  // Kept until the tab is closed

  /** Makes the edits again that were kept of the session. Returns what is said of it.
      @param {KeptEdits | null} kept */
  async restore(kept) {
    const { app } = this, { run } = app.session;
    this.saved = kept?.saved ?? null;
    app.notes.take(kept?.notes);
    if (!kept?.changes.length && !kept?.off?.length) return "";
    await this.inTurn(async () => {
      app.pasts.keepOld();
      app.view.reach(kept.end);
      run.ledger.off = (kept.off ?? []).map(it => ({ ...it, change: it.change.map(restored) }));
      run.ledger.undone = kept.changes.map(it => it.map(restored)).reverse();
      while (run.ledger.undone.length) await run.redo();
      await run.askPast();
    });
    return "The edits that were kept are made again: Undo takes them back.";
  }

  /** The edits as they are kept.
      @returns {KeptEdits} */
  kept() {
    const { run: { ledger }, end } = this.app.session;
    const off = ledger.off.map(({ change, place }) => ({ change: change.map(kept), place }));
    const { saved, app: { pasts: { compared }, notes } } = this;
    return { changes: ledger.changes.map(it => it.map(kept)), off, end, saved, compared,
      notes: notes.kept() };
  }

  noteSaved() {
    this.saved = this.sum();
    this.show();
  }

  /** A sum of what is saved. */
  sum() {
    const { session: { run }, notes } = this.app;
    return sumOf([...run.past.lines(), ...notes.lines()]);
  }

  /** Whether something would be lost if the page were left now. */
  areUnsaved() {
    const { opened, notes } = this.app, hasEdits = opened?.run.ledger.changes.length;
    return Boolean(opened && (hasEdits || notes.kept())) && this.sum() !== this.saved;
  }

  /** An edit that the past takes, as an example: it moves the story's event to where it is safe. */
  example() {
    const { session: { run: { past } }, view: { timeline: { target } } } = this.app;
    const event = past.events.get(target?.event ?? 0) ?? past.script[0];
    return event ? moveOf(event, target?.from ?? Math.abs(event.turn - 1)) : "at 1000 key 101";
  }

  /** Shows what the user did, and keeps it. */
  show() {
    const { contents, run: { ledger } } = this.app.session;
    field("line").placeholder = this.example();
    element("edits-kept").hidden = keepEdits(contents, this.kept());
    this.showItems(itemsOfLedger(ledger).map(({ change, isOn }) =>
      (isOn ? "" : OFF) + change.map(edit => edit.line).join("\n")));
    // (what is disabled would lose the focus)
    element("undo").ariaDisabled = String(!ledger.changes.length);
    element("redo").ariaDisabled = String(!ledger.undone.length);
  }
}

/** The edit that moves an event into a turn.
    @param {ScriptEvent} event @param {number} turn */
const moveOf = (event, turn) => `alter ${event.number} ${turn} ${event.text}`;

/** An edit as it is kept.
    @param {Edit} edit @returns {KeptEdit} */
const kept = ({ line, event }) => ({ line, event });

/** The edit that was kept, which isn't made yet.
    @param {KeptEdit} edit @returns {Edit} */
const restored = ({ line, event }) => ({ line, event, before: 0 });

/** The lines of what the user did at once: one, or how many there are, with the first of them
    folded.
    @param {string[]} lines */
function shownLines(lines) {
  if (lines.length === 1) return make("code", {}, lines[0]);
  const summary = make("summary", {}, `${lines.length} lines, from ${lines[0]} on`);
  const shown = lines.slice(0, MOST_LINES).map(it => make("div", {}, make("code", {}, it)));
  const left = lines.length - shown.length;
  const more = left > 0 ? [make("div", {}, `and ${left} more`)] : [];
  return make("details", {}, summary, ...shown, ...more);
}
