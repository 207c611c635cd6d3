// The panel of what the cursor's turn does: its events and cycles on the bus, as `accesses` has
// them, and its moves of data, as `moves` has them. What a row names can be asked why it is so.

import {
  REGISTER_NAMES, cellNamed, coreWord, firstOf, isCode, isCore, isOfDrive, isOnBus, isRegister,
  nameOfCell, wordOf,
} from "./cells.js";
import { isSame, markTurn, stateOf } from "./cursor.js";
import { Facts } from "./facts.js";
import { element, link, make, table } from "./page.js";
import { eventInWords } from "./past.js";
import { LAST_TURN, counted, lengthOf, octal } from "./replies.js";
import { Priority } from "./run.js";
import { transfersOf } from "./transfers.js";
import { Values } from "./values.js";

/**
 * A word, or the condition codes, after the act of a turn, and the words that it is made of.
 * @typedef {{targets: number[], sources: number[]}} Group
 * @typedef {import("./page.js").Inside} Inside
 */

/** Each word once, and N before Z, V and C.
    @param {number[]} cells */
const ordered = cells => [...new Set(cells.map(firstOf))].sort((a, b) => b - a);

/** The lines of `moves` that are of cells, as groups.
    @param {string[]} lines @returns {Group[]} */
export function groupsOf(lines) {
  /** @type {Map<string | number, number[][]>} */
  const groups = new Map();
  for (const line of lines) {
    const [cell, ...source] = line.split(" of ").filter(it => it !== "nothing").map(cellNamed);
    const key = isCode(cell) ? "codes" : firstOf(cell);
    groups.set(key, [...groups.get(key) ?? [], [cell, ...source]]);
  }
  return [...groups.values()].map(group => ({ targets: ordered(group.map(([cell]) => cell)),
    sources: ordered(group.flatMap(([, ...source]) => source)) }));
}

/** What Why is asked about for a cell; null of what it doesn't follow.
    @param {number} cell @returns {import("./made.js").MadeThing | null} */
function thingOf(cell) {
  if (isCore(cell) || isOfDrive(cell)) return wordOf(cell);
  if (isRegister(cell)) return { kind: "register", name: REGISTER_NAMES[cell >> 1 & 7] };
  return isCode(cell) ? { kind: "register", name: nameOfCell(cell, false).slice(-1) } : null;
}

export class TurnPanel {
  /** @param {import("./app.js").App} app */
  constructor(app) {
    this.app = app;
    /** @type {import("./cursor.js").State | undefined} */
    this.shown = undefined;
  }

  look() {
    const { app } = this, { run } = app.session, { cursor: turn } = app.view.timeline;
    const wanted = stateOf(run, turn), ask = app.asker("turn"), place = element("turn-said");
    const mark = () => markTurn(place, this.shown, wanted, "turn");
    mark();
    const isDone = turn === LAST_TURN || isSame(this.shown, wanted);
    if (isDone || !app.dock.isSeen("machine")) return;
    app.attempt(async () => {
      const facts = new Facts(ask, run.past);
      const cycles = await this.cycles(facts, turn), moves = await this.moves(facts, turn);
      element("cycles").replaceChildren(
        table("Events and cycles of the turn", ["in the turn", "of", "word"], cycles));
      element("moves").replaceChildren(moves);
      this.shown = wanted;
      mark();
    });
  }

  /** A link to why something is so before a turn.
      @param {import("./made.js").MadeThing | null} thing @param {number} turn @param {string} text
      @returns {Inside} */
  why(thing, turn, text) {
    return thing ? link(text, `Why is it so before turn ${turn}?`,
      () => this.app.reasons.ask(thing, turn)) : text;
  }

  // Cycles

  /** @param {Facts} facts @param {number} turn */
  async cycles(facts, turn) {
    const [accesses, transfers] = await facts.ask(
      [`accesses ${turn + 1} 1`, `transfers ${turn} ${turn + 1}`]);
    const [, head, ...lines] = accesses.split("\n"), [ended] = transfersOf(transfers).ended;
    const events = facts.past.script.filter(it => it.turn === turn);
    let isFetch = head?.endsWith(" instr") ?? false;
    return lines.map(line => {
      const [word, ...rest] = line.split(" ");
      if (word === "event") return this.event(events.shift());
      if (word === "disk") return this.ofTheDisk(rest, ended?.begin ?? null);
      if (word === "printed" || word === "punched") return this.byte(facts, word, rest[0], turn);
      const what = isFetch && word === "read" ? "fetch" : word === "byte" ? "write a byte" : word;
      isFetch = false;
      return this.cycle(what, rest, turn);
    });
  }

  /** @param {import("./past.js").ScriptEvent | undefined} event @returns {Inside[]} */
  event(event) {
    if (!event) return ["event", "", ""];
    return ["event", this.app.edits.linkTo(event, eventInWords(event)), ""];
  }

  /** @param {string[]} fields of `disk` @param {number | null} begin @returns {Inside[]} */
  ofTheDisk([name, drive, index, core, count], begin) {
    const words = counted(Number(count), "word");
    const text = `${name} of ${words}, drive ${drive} word ${index}, core ${core}`;
    return ["disk", begin === null ? text
      : this.app.linkTo(begin, text), ""];
  }

  /** @param {Facts} facts @param {string} word @param {string} byte @param {number} turn
      @returns {Inside[]} */
  byte(facts, word, byte, turn) {
    if (word === "punched") return [word, "", byte];
    const ask = () => this.app.reasons.attempt(async () => {
      const reply = await this.app.session.run.askOne(`text ${turn}`, Priority.QUESTION);
      await this.app.reasons.ask({ kind: "byte", number: lengthOf(reply) });
    });
    return [word, "", link(byte, "Why was it printed?", ask)];
  }

  /** @param {string} what @param {string[]} fields @param {number} turn @returns {Inside[]} */
  cycle(what, fields, turn) {
    const { app } = this, isOfCore = fields[0] === "core";
    const [address, word] = isOfCore ? fields.slice(1) : fields, at = parseInt(address, 8);
    const before = what.startsWith("write") ? turn + 1 : turn;
    if (!isOfCore) {
      const name = nameOfCell(at, false);
      const text = name === octal(at & ~1) ? address : `${name} (${address})`;
      return [what, link(text, "Show the devices", () => app.dock.bring("devices-panel")), word];
    }
    const place = coreWord(at & ~1), { titleOf } = app.watched;
    const name = link(titleOf.call(app.watched, `core ${address}`),
      "Draw this word on the timeline", () => app.watched.add(place));
    return [what, name, this.why(place, before, word)];
  }

  // Moves

  /** The moves of data of a turn as a table.
      @param {Facts} facts @param {number} turn */
  async moves(facts, turn) {
    const [, , ...lines] = (await facts.one(`moves ${turn + 1} 1`)).split("\n");
    const events = facts.past.script.filter(it => it.turn === turn);
    const isOfAct = (/** @type {string} */ it) => !/^disk [a-z]| of (event|tape) /.test(it);
    const isKnown = !lines.some(it => /^disk [a-z]/.test(it));
    const values = new Values(facts), groups = groupsOf(lines.filter(isOfAct));
    const rows = await values.known(() => groups.map(it => this.move(it, values, turn, isKnown)));
    const begun = lines.filter(it => !isOfAct(it)).map(it => this.begun(it, events));
    return begun.length + rows.length
      ? table("Moves of data in the turn", ["moved to", "made of"], [...begun, ...rows])
      : make("p", { class: "faint" }, "It moves no data.");
  }

  /** What the beginning of the turn moves.
      @param {string} line @param {import("./past.js").ScriptEvent[]} events @returns {Inside[]} */
  begun(line, events) {
    const [what, source] = line.split(" of "), [kind, number, end] = (source ?? "").split(" ");
    if (kind === "event") return [what, this.event(events[Number(number)])[1]];
    if (kind === "tape") return [what, `byte ${number} of the tape${end ? ", which ends" : ""}`];
    const [, name, drive, index, core, count, ...place] = line.split(" ");
    const sides = [`core ${core}`, `word ${index} of drive ${drive}`];
    const [to, from] = name === "write" ? sides.reverse() : sides;
    const words = counted(Number(count), "word");
    return [`${to}, ${words}${place.length ? ", in place" : ""}`, from];
  }

  /** A move. Values of before the turn are shown if the sources are known to have kept them, which
      the disk may have changed when the act began.
      @param {Group} group @param {Values} values @param {number} turn @param {boolean} isKnown
      @returns {Inside[]} */
  move({ targets, sources }, values, turn, isKnown) {
    /** @param {number[]} cells @param {number} before @param {boolean} hasValues */
    const list = (cells, before, hasValues) => make("span", {}, ...cells.flatMap((cell, at) => {
      const text = hasValues && !isOnBus(cell) ? values.named(cell, before) : values.name(cell);
      const made = this.why(thingOf(cell), before, text.replace(/^code /, ""));
      return at ? [", ", made] : [made];
    }));
    const made = sources.length ? list(sources, turn, isKnown) : "no data";
    return [list(targets, turn + 1, true), made];
  }
}
