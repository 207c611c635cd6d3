// The panel of what was lost, as explore's `lost` tells it: keys that weren't read, and runs of an
// instruction that have left nothing on the disk.

import { accountOf } from "./accounts.js";
import { isCore, isOfDrive, isRegister } from "./cells.js";
import { Inquiry } from "./inquiry.js";
import { Labels } from "./labels.js";
import { choice, element, field, make, table } from "./page.js";
import { eventInWords, eventsIn } from "./past.js";
import { AskError, MODES, counted, octal, someAre, turnOf } from "./replies.js";
import { fateOf } from "./struck.js";

const [MOST_RUNS, MOST_LINES] = [4_096, 60];
const RESULTS = new Set(["value", "copy"]);

/**
 * @typedef {import("./facts.js").Facts} Facts
 * @typedef {import("./struck.js").StruckKey} StruckKey
 * @typedef {import("./turn-flow.js").Flow} Flow
 */

/** The turns from one to another, in words.
    @param {number} first @param {number} last */
const span = (first, last) => first === last ? `turn ${first}` : `the turns ${first} to ${last}`;

/** The runs of an instruction, each with a label of its own. */
class Runs {
  /** @param {number} pc @param {number} mode */
  constructor(pc, mode) {
    this.pc = pc;
    this.mode = mode;
    /** @type {number[]} */
    this.turns = [];
    this.labels = new Labels();
    /** How many runs wrote no word and no register. */
    this.withoutResult = 0;
  }

  /** @param {Flow} flow */
  take(flow) {
    if (flow.transfer) this.labels.transfer(flow.transfer);
    this.labels.turn(flow.moves, this.label(flow));
  }

  /** The label of what a turn writes, if it runs the instruction to its end.
      @param {Flow} flow */
  label({ turn, act, mode, vector, moves }) {
    const isHere = act.pc === this.pc && mode === this.mode && act.act === "instr";
    if (!isHere || vector !== null) return 0n;
    if (!moves.some(it => RESULTS.has(it.how))) {
      this.withoutResult += 1;
      return 0n;
    }
    if (this.turns.length === MOST_RUNS) {
      throw new AskError(`There are more than ${MOST_RUNS} runs; name fewer turns`);
    }
    this.turns.push(turn);
    return 1n << BigInt(this.turns.length - 1);
  }

  /** The labels on the drives, and those in core and in registers. */
  left() {
    let onDisk = 0n, inCore = 0n;
    for (const [cell, labels] of this.labels.bits) {
      if (isOfDrive(cell)) onDisk |= labels;
      else if (isCore(cell) || isRegister(cell)) inCore |= labels;
    }
    return { onDisk, inCore };
  }

  /** The runs that left nothing on the disk, each with whether something is in core. */
  kept() {
    const { onDisk, inCore } = this.left();
    return this.turns.map((turn, at) => ({ turn, bit: 1n << BigInt(at) }))
      .filter(it => !(onDisk & it.bit)).map(({ turn, bit }) => (
        { turn, isInCore: (inCore & bit) !== 0n }));
  }
}

export class Lost extends Inquiry {
  /** @param {import("./app.js").App} app */
  constructor(app) {
    super(app, "lost");
    this.what = choice("lost-what");
    this.what.addEventListener("change", () => this.showFields());
    this.showFields();
  }

  /** The instruction is named only where its runs are asked for. */
  showFields() {
    element("lost-instruction").hidden = this.what.value === "keys";
  }

  /** @param {Facts} facts */
  async work(facts) {
    const [first, last] = this.turns(0, this.app.session.end);
    if (this.what.value === "keys") await this.keys(facts, first, last);
    else await this.runs(facts, first, last);
  }

  // Keys

  /** @param {Facts} facts @param {number} first @param {number} end */
  async keys(facts, first, end) {
    if (first === end) throw new AskError("Give two turns, the first one first");
    const { script } = facts.past;
    const keys = eventsIn(script, first, end - 1).filter(it => it.text.startsWith("key "));
    /** @type {StruckKey[]} */
    const found = [];
    for (const [at, key] of keys.entries()) {
      if (this.isEnded) break;
      this.tell(() => `Looking: ${at} of ${counted(keys.length, "key")} ..`);
      found.push(await fateOf(facts, key, keys[at + 1] ?? null, end));
    }
    await this.showKeys(facts, found);
    const lost = found.filter(isLost).length, read = found.filter(it => it.fate === "read").length;
    const waiting = found.find(it => it.fate === "waits");
    const waits = waiting ? `, 1 waits before turn ${waiting.turn}` : "";
    const count = found.length < keys.length
      ? `stopped: ${someAre(found.length, keys.length, "key")} looked at`
      : `${counted(keys.length, "key")} in ${span(first, end - 1)}`;
    this.say(`${count}: ${lost} lost, ${read} read${waits}`);
  }

  /** Those that were lost, the one that waits, and those that were read, the longest delay first.
      @param {Facts} facts @param {StruckKey[]} keys */
  async showKeys(facts, keys) {
    const lost = keys.filter(isLost), waiting = keys.filter(it => it.fate === "waits");
    const read = keys.filter(it => it.fate === "read")
      .sort((a, b) => b.turn - b.event.turn - (a.turn - a.event.turn));
    const shown = [...lost.slice(0, MOST_LINES), ...waiting, ...read.slice(0, MOST_LINES)];
    const acted = shown.filter(it => !it.by && it.fate !== "waits").map(it => it.turn);
    const turns = [...new Set(acted)].sort((a, b) => a - b);
    const texts = await this.app.panels.turnsInWords(facts.ask, turns);
    const acts = new Map(turns.map((it, at) => [it, texts[at]]));
    if (shown.length) {
      this.found.append(table("Keys", ["event", "turn", "key", "until", "turns", ""],
        shown.map(it => this.row(it, acts.get(it.turn) ?? ""))));
    }
    const left = [{ count: lost.length, what: "lost" },
      { count: read.length, what: "read, none after more turns than these" }];
    this.found.append(...left.filter(it => it.count > MOST_LINES).map(({ count, what }) =>
      make("p", {}, `.. ${counted(count - MOST_LINES, "key")} more ${what}`)));
  }

  /** @param {StruckKey} key @param {string} act what the turn of its fate does
      @returns {import("./page.js").Inside[]} */
  row({ event, fate, turn, by }, act) {
    const { app } = this;
    const said = { read: `read by ${act}`, dropped: `lost: dropped by ${act}`, waits: "waits still",
      overwritten: by ? `lost: event ${by.number}, ${eventInWords(by)}, takes its place` : "" };
    return [app.edits.linkTo(event), app.linkTo(event.turn), eventInWords(event), app.linkTo(turn),
      turn - event.turn, said[fate]];
  }

  // Runs

  /** @param {Facts} facts @param {number} first @param {number} last */
  async runs(facts, first, last) {
    const mode = choice("lost-mode").value, pc = this.address(mode);
    const runs = new Runs(pc, MODES.indexOf(mode)), stop = last + 1;
    let end = first;
    const reply = await facts.one(`first ${first} ${stop} at ${pc.toString(8)} ${mode}`);
    const why = await this.walk(facts, turnOf(reply) ?? stop, stop, flow => {
      runs.take(flow);
      end = flow.turn + 1;
    });
    await this.showRuns(facts, runs, mode, span(first, Math.max(why ? end : stop, first + 1) - 1));
    if (why) {
      this.found.append(make("p", {}, `the turns from ${end} on weren't looked at: ${why}`));
    }
  }

  /** The address of the instruction, which may be a symbol of its mode.
      @param {string} mode */
  address(mode) {
    const name = field("lost-pc").value.trim(), { symbols } = this.app.session;
    const named = symbols[mode === "user" ? "user" : "kernel"].find(it => it.name === name);
    if (named) return named.value;
    if (/^[0-7]{1,6}$/.test(name) && parseInt(name, 8) <= 0o177777) return parseInt(name, 8);
    throw new AskError("No symbol has this name, and an address is octal, up to 177777");
  }

  /** @param {Facts} facts @param {Runs} runs @param {string} mode @param {string} where */
  async showRuns(facts, runs, mode, where) {
    const kept = runs.kept(), gone = kept.filter(it => !it.isInCore), { turns } = runs;
    const shown = kept.slice(0, MOST_LINES);
    const texts = await this.app.panels.turnsInWords(facts.ask, shown.map(it => it.turn));
    this.found.append(accountOf(this.app, shown.map(({ turn, isInCore }, at) => {
      const left = isInCore ? "in core or a register, not on the disk" : "nothing of it is left";
      return { turn, text: `turn ${turn}: ${texts[at]}: ${left}` };
    }), "Runs"));
    const more = kept.length - shown.length;
    if (more > 0) this.found.append(make("p", {}, `.. ${counted(more, "run")} more`));
    /** @type {[number, string][]} */
    const counts = [[turns.length - kept.length, "on the disk"],
      [kept.length - gone.length, "in core or a register alone"], [gone.length, "left nothing"],
      [runs.withoutResult, "wrote no word and no register"]];
    const all = counted(turns.length + runs.withoutResult, "run");
    const told = counts.filter(([count, what]) => count || what === "left nothing");
    this.say(`${all} of ${mode} ${octal(runs.pc)} in ${where}: `
      + told.map(it => it.join(" ")).join(", "));
  }
}

/** @param {StruckKey} key */
const isLost = ({ fate }) => fate === "overwritten" || fate === "dropped";
