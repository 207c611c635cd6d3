// A sweep: an event is tried in each turn of some, on a machine of its own. Turns with equal
// outcomes get one letter and one colour.

import { Inquiry, TIME_BETWEEN } from "./inquiry.js";
import { element, field, link, make, part, table } from "./page.js";
import { eventInWords, isQuestion } from "./past.js";
import { AskError, isRefused } from "./replies.js";
import { Priority } from "./run.js";

const MOST_TURNS = 20_000;
const TURNS_AT_ONCE = 32;
const MOST_ROWS = 200;
const LETTERS = "ABCDEFGHIJKLMNOPQRSTUVWXYZ";
export const SWEEP_COLOURS = 6;

/** The turns in an order in which those that come first are far apart.
    @param {number} from @param {number} to */
export function spreadTurns(from, to) {
  const count = to - from + 1;
  let step = 1;
  while (step < count) step *= 2;
  /** @type {number[]} */
  const turns = [];
  for (let first = true; step >= 1; step /= 2, first = false) {
    const apart = first ? step : 2 * step;
    for (let at = first ? 0 : step; at < count; at += apart) turns.push(from + at);
  }
  return turns;
}

/** The turns in this order, but that of the event itself first: moved away and back, it would come
    after the others of its turn.
    @param {number[]} turns @param {ScriptEvent} event */
const ownFirst = (turns, { turn }) =>
  turns.includes(turn) ? [turn, ...turns.filter(it => it !== turn)] : turns;

/** Turns that follow one another and have the same outcome, as they are known.
    @param {Map<number, number>} outcomes */
export function runsOf(outcomes) {
  /** @type {Stretch[]} */
  const runs = [];
  for (const [turn, outcome] of [...outcomes].sort((a, b) => a[0] - b[0])) {
    const last = runs.at(-1);
    if (last && last.outcome === outcome) last.to = turn;
    else runs.push({ from: turn, to: turn, outcome });
  }
  return runs;
}

/** @param {number} outcome */
export const letterOf = outcome => LETTERS[outcome] ?? `#${outcome + 1}`;

/**
 * @typedef {import("./past.js").ScriptEvent} ScriptEvent
 * @typedef {import("./run.js").Run} Run
 * @typedef {{from: number, to: number, outcome: number}} Stretch turns with one outcome
 * @typedef {{place: HTMLElement, turns: HTMLElement, reply: HTMLElement}} Row
 */

export class Sweep extends Inquiry {
  /** @param {import("./app.js").App} app */
  constructor(app) {
    super(app, "sweep");
    /** @type {Run | null} the machine that tries, if it does */
    this.run = null;
    /** @type {ScriptEvent | null} the event of the sweep, as it was when that began */
    this.tried = null;
    this.question = "";
    /** @type {Map<number, number>} by the turn, the number of its outcome */
    this.outcomes = new Map();
    /** @type {string[]} by its number, each outcome */
    this.replies = [];
    /** @type {Map<string, number>} by the outcome, its number */
    this.numbers = new Map();
    /** @type {string[]} the edits of the past that it is of */
    this.isOf = [];
    // where the outcomes are shown: the table's rows, each by its first turn, and what is left out
    this.body = make("tbody");
    /** @type {Map<number, Row>} */
    this.rows = new Map();
    this.more = make("p");
    field("sweep-event").addEventListener("input", () => this.showChosen());
    element("sweep-stop").addEventListener("click", () => this.end());
  }

  /** The form for a session: the event is one of its script. */
  offer() {
    const { story, end } = this.app.session;
    const offered = story?.sweep ?? { event: "", from: "", to: "", question: `text ${end}` };
    for (const [name, value] of Object.entries(offered)) {
      field(`sweep-${name}`).value = String(value);
    }
    this.showChosen();
  }

  /** @param {string} [text] */
  forget(text) {
    super.forget(text);
    this.end();
    this.tried = null;
    this.app.view.timeline.sweep = null;
    this.app.view.timeline.draw();
  }

  showChosen() {
    const { named } = this, event = this.app.session.run.past.eventNamed(named);
    element("sweep-chosen").textContent = event ? `${eventInWords(event)} at ${event.turn}`
      : named && "no event";
  }

  /** Outcomes stay if only the event of the sweep changed. */
  pastChanged() {
    this.showChosen();
    if (!this.tried) return;
    const { ledger: { lines } } = this.app.session.run, { isOf } = this;
    const moves = `alter ${this.tried.number} `;
    const differs = lines.findIndex((it, at) => it !== isOf[at]);
    const same = differs < 0 ? lines.length : differs;
    const others = [...isOf.slice(same), ...lines.slice(same)];
    if (others.every(it => it.startsWith(moves))) this.isOf = lines;
    else this.forget();
  }

  stopped() {
    this.end();
  }

  end() {
    this.run?.end();
    this.run = null;
  }

  /** What the form says. */
  asked() {
    const event = this.event(), [from, to] = this.turns(NaN, NaN);
    const question = field("sweep-question").value.trim();
    if (to - from >= MOST_TURNS) throw new AskError(`At most ${MOST_TURNS} turns at once`);
    if (!isQuestion(question)) {
      throw new AskError("Ask a question, such as regs 1000: a line that changes nothing");
    }
    return { event, question, turns: ownFirst(spreadTurns(from, to), event) };
  }

  /** Tries the event in each turn; what is known is shown as it comes. */
  async work() {
    this.forget();
    const { event, question, turns } = this.asked(), { session } = this.app;
    const run = session.newRun(), { ledger: { lines } } = session.run;
    this.run = run;
    this.question = question;
    this.tried = { ...event };
    this.isOf = lines;
    this.outcomes = new Map();
    this.numbers = new Map();
    this.replies = [];
    // at once: what the outcomes take of the page doesn't move the button later
    this.showTable();
    this.show(turns.length);
    await run.takeUp(lines);
    const refusal = await run.refusalOf(question);
    if (refusal) {
      this.forget();
      throw new AskError(`${question}: ${refusal}`);
    }
    for (let at = 0; at < turns.length && this.run === run; at += TURNS_AT_ONCE) {
      await this.tryTurns(run, event, turns.slice(at, at + TURNS_AT_ONCE));
      this.show(turns.length);
    }
    if (this.run === run) this.end();
  }

  /** @param {Run} run @param {ScriptEvent} event @param {number[]} turns */
  async tryTurns(run, event, turns) {
    const { question, replies, numbers } = this;
    const lines = turns.flatMap(it => [`alter ${event.number} ${it} ${event.text}`, question]);
    const found = await run.ask(lines, Priority.COMPARISON);
    turns.forEach((turn, at) => {
      const [altered, reply] = found.slice(2 * at, 2 * at + 2);
      const outcome = isRefused(altered) ? altered : reply;
      const number = numbers.get(outcome) ?? replies.push(outcome) - 1;
      numbers.set(outcome, number);
      this.outcomes.set(turn, number);
    });
  }

  /** @param {number} all */
  show(all) {
    const known = this.outcomes.size, now = performance.now();
    if (known && known < all && now - this.told < TIME_BETWEEN) return;
    this.told = now;
    const runs = runsOf(this.outcomes);
    const state = known === all ? "each was tried" : "tried so far; between them isn't known";
    const outcomes = `Outcomes of ${this.question}: ${this.replies.length}.`;
    this.say(`${known} of ${all} turns: ${state}. ${outcomes}`);
    this.app.view.timeline.sweep = { runs, isWhole: known === all };
    this.app.view.timeline.draw();
    this.showRows(runs.slice(0, MOST_ROWS));
    const left = runs.length - MOST_ROWS;
    this.more.textContent = left > 0 ? `and ${left} more` : "";
  }

  /** A table without rows. */
  showTable() {
    this.more = make("p");
    this.found.replaceChildren(
      table("Turns with equal outcomes", ["", "turns", "outcome"], []), this.more);
    this.body = part(this.found, "tbody");
    this.rows = new Map();
  }

  /** A row for each of these runs. One that stays is left in place, so a click on it counts.
      @param {Stretch[]} runs */
  showRows(runs) {
    const { body, rows } = this, firsts = new Set(runs.map(it => it.from));
    for (const [from, { place }] of [...rows].filter(it => !firsts.has(it[0]))) {
      place.remove();
      rows.delete(from);
    }
    let next = body.firstElementChild;
    for (const it of runs) {
      const row = rows.get(it.from) ?? this.row(it);
      if (rows.has(it.from)) next = row.place.nextElementSibling;
      else body.insertBefore(row.place, next);
      rows.set(it.from, row);
      row.turns.textContent = `${it.from} to ${it.to}`;
      row.reply.textContent = this.shortReply(it.outcome);
    }
  }

  /** @param {Stretch} stretch @returns {Row} */
  row({ from, outcome }) {
    const { app, tried } = this, colour = `outcome outcome-${outcome % SWEEP_COLOURS}`;
    const put = () => tried && app.edits.edit(`alter ${tried.number} ${from} ${tried.text}`);
    const turns = link("", "Put the event into the first of these turns", put);
    const reply = make("td"), letter = make("span", { class: colour }, letterOf(outcome));
    const place = make("tr", {}, make("td", {}, letter), make("td", {}, turns), reply);
    return { place, turns, reply };
  }

  /** The reply from where it begins to differ from the first one.
      @param {number} outcome */
  shortReply(outcome) {
    const [reply, first] = [this.replies[outcome], this.replies[0]];
    const other = outcome ? first : this.replies[1] ?? "";
    let at = 0;
    while (at < reply.length && reply[at] === other[at]) at++;
    const begin = reply.length > 60 ? Math.max(0, at - 12) : 0;
    const end = begin + 60 < reply.length ? " .." : "";
    return `${begin ? ".. " : ""}${reply.slice(begin, begin + 60)}${end}`;
  }
}
