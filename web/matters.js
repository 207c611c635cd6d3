// The panel that tells which events a reply depends on, and by how few turns, as `matters` of
// explore does. Moves are tried on machines of their own.

import { MARK_ROWS } from "./clusters.js";
import { Inquiry, numberIn } from "./inquiry.js";
import { MattersTable, isReply } from "./matters-table.js";
import { Machine, Stopped } from "./machine.js";
import { Moves, Results, WAYS, inOneLine } from "./moves.js";
import { choice, element, field, keepChildren, link, make, part, table } from "./page.js";
import { eventInWords, eventLabel } from "./past.js";
import { Pins } from "./pins.js";
import { isQuestionOfTurn, questionOf, turnsAsked } from "./questions.js";
import { AskError, counted, mustBeTaken, someAre } from "./replies.js";

const USUAL_MOST = 1_024;
const [MOST_ROWS, MOST_MARKS, MOST_MACHINES] = [200, 100, 3];
// Of many edits whose runs soon meet the one before: so few states are kept.
const [LEAST_STRIDE, STATES] = [50_000, 8];
// The table is shown anew no oftener, in milliseconds.
const TIME_OF_TABLE = 700;
const SIGNS = { dropped: "\u00d7", earlier: "\u25c2", later: "\u25b8" };

/**
 * The nearest move of an event in one way that changes the answer, at the turn where it puts it.
 * @typedef {import("./pins.js").Pin & {event: ScriptEvent}} Near
 * @typedef {import("./past.js").ScriptEvent} ScriptEvent
 */

export class MattersPanel extends Inquiry {
  /** @param {import("./app.js").App} app */
  constructor(app) {
    super(app, "matters");
    /** @type {Machine[]} those that try */
    this.machines = [];
    /** @type {Near[]} what is marked on the timeline */
    this.near = [];
    this.pins = new Pins(app, "nearest");
    this.body = make("tbody");
    this.more = make("p");
    /** When the table was shown last. */
    this.drawn = 0;
    element("matters-stop").addEventListener("click", () => this.endMachines());
    field("matters-question").addEventListener("focus", () => this.offer());
  }

  sessionBegins() {
    super.sessionBegins();
    const { story, end } = this.app.session;
    field("matters-question").value = story?.sweep?.question ?? `text ${end}`;
  }

  pastChanged() {
    super.pastChanged();
    this.mark(null);
  }

  /** @param {string} [text] */
  forget(text) {
    super.forget(text);
    this.endMachines();
    this.mark(null);
  }

  endMachines() {
    for (const it of this.machines.splice(0)) it.close(new Stopped());
    this.app.bar.show(this, null);
  }

  /** Asks which events matter to a question's reply.
      @param {string} question */
  ask(question) {
    this.app.dock.bring("matters-panel");
    field("matters-question").value = question;
    return this.begin();
  }

  /** Offers what may be asked: of the cursor's turn, the words that are drawn, and the text. */
  offer() {
    const { watched: { words }, session: { run, end }, view: { timeline: { cursor } } } = this.app;
    const lines = [`text ${end}`, ...words.map(it => questionOf(run.past, it, cursor)),
      `regs ${cursor}`, `devices ${cursor}`];
    element("matters-asks").replaceChildren(...lines.map(value => make("option", { value })));
  }

  // What is asked

  /** @param {import("./facts.js").Facts} facts */
  async moves(facts) {
    const question = field("matters-question").value.trim();
    const sought = field("matters-until").value.trim();
    const most = numberIn("matters-most", "How many turns", USUAL_MOST, 1);
    if (!isQuestionOfTurn(question)) {
      throw new AskError("Ask a question that names its turn, such as text 1000 or regs 1000");
    }
    const reply = inOneLine(await facts.one(question)), [, end] = turnsAsked(question);
    if (sought && isReply(sought, reply)) {
      throw new AskError(`The reply is that without a move: ${reply}`);
    }
    /** @param {string} it */
    const isSought = it => sought ? isReply(sought, it) : it !== reply;
    const isNear = choice("matters-how").value === "near";
    return new Moves({ question, reply, end, most, isNear, isSought });
  }

  /** The events that are named, or all that can matter.
      @param {import("./past.js").Past} past @param {Moves} moves @returns {ScriptEvent[]} */
  events(past, moves) {
    const names = new Set(field("matters-events").value.split(/[ ,]+/).filter(Boolean));
    if (!names.size) return past.script.filter(it => moves.canMatter(it));
    return [...names].map(name => {
      const event = past.eventNamed(name);
      if (!event) throw new AskError(`No event has the number ${name}`);
      return event;
    });
  }

  /** @param {import("./facts.js").Facts} facts */
  async work(facts) {
    const { past } = facts, moves = await this.moves(facts), events = this.events(past, moves);
    const isNamed = field("matters-events").value.trim() !== "";
    const left = isNamed ? 0 : past.script.length - events.length;
    const results = new Results(moves, events);
    const sought = field("matters-until").value.trim();
    const shown = () => new MattersTable(results, sought ? "no" : "same");
    this.showTable();
    try {
      await this.tryAll(results, shown);
    } finally {
      this.endMachines();
    }
    this.show(shown(), true);
    this.say(this.ending(shown(), sought, left));
  }

  /** What is said once it has ended.
      @param {MattersTable} shown @param {string} sought @param {number} left */
  ending(shown, sought, left) {
    const { results } = shown, { moves, events } = results;
    const found = sought ? `; the nearest change found: ${shown.nearest() ?? "none"}` : "";
    const near = moves.isNear ? "; moves that double were tried, and halves: a nearer one, or the "
      + "only one, may be missed" : "";
    const out = left ? `. Left out: ${counted(left, "event")}, which no such move brings before `
      + `turn ${moves.end}` : "";
    const done = results.done === results.ways ? ""
      : `. Stopped: ${someAre(results.done, results.ways, "way")} tried to the end`;
    return `${moves.question}: ${moves.reply.slice(0, 160)}. ${counted(events.length, "event")}`
      + `${found}${near}${out}${done}.`;
  }

  // Trying

  /** @param {Results} results @param {() => MattersTable} shown */
  async tryAll(results, shown) {
    const { token, app } = this, { moves, events, ways } = results;
    const most = Math.min(MOST_MACHINES, Math.max(1, navigator.hardwareConcurrency - 1));
    const hands = Array.from({ length: Math.min(most, events.length) }, async () => {
      const machine = await this.newMachine(moves.end);
      /** @param {string[]} lines */
      const ask = async lines => {
        const replies = await machine.ask(lines);
        if (token?.isStopped) throw new Stopped();
        this.tell(() => `Trying: ${results.done} of ${ways} ways of moving `
          + `${counted(events.length, "event")} ..`);
        return replies;
      };
      for (let left = results.next(); left && !this.isEnded; left = results.next()) {
        results.add(left, await moves.change(ask, left.tasks[0]));
        app.bar.show(this, { done: results.done, all: ways, what: "ways" });
        this.show(shown(), false);
      }
    });
    const ended = await Promise.allSettled(hands);
    const failed = ended.flatMap(it => it.status === "rejected" ? [it.reason] : []);
    const isEnd = failed.every(it => it instanceof Stopped) && !token?.isStopped;
    if (failed.length && !(isEnd && this.isEnded)) throw failed[0];
  }

  /** A machine of its own, of the past as it is.
      @param {number} end */
  async newMachine(end) {
    const { contents: { arguments: words, files }, run } = this.app.session;
    const at = words.indexOf("--stride");
    const others = words.filter((_, place) => at < 0 || place !== at && place !== at + 1);
    const stride = Math.max(LEAST_STRIDE, Math.floor(end / STATES));
    const machine = new Machine({ arguments: [...others, "--stride", String(stride)], files });
    this.machines.push(machine);
    (await machine.ask(run.ledger.lines)).forEach(mustBeTaken);
    return machine;
  }

  // What is shown

  showTable() {
    const heads = ["event", "turn", "what", ...WAYS];
    this.found.replaceChildren(table("Events and their nearest moves", heads, []), this.more);
    this.body = part(this.found, "tbody");
  }

  /** Shows what is known, and marks it on the timeline; while it goes on not too often.
      @param {MattersTable} shown @param {boolean} isLast */
  show(shown, isLast) {
    if (!isLast && performance.now() - this.drawn < TIME_OF_TABLE) return;
    this.drawn = performance.now();
    const events = shown.events(), left = events.length - MOST_ROWS;
    keepChildren(this.body, events.slice(0, MOST_ROWS).map(it => this.row(shown, it)));
    this.more.textContent = left > 0 ? `and ${counted(left, "event")} more` : "";
    this.mark(shown);
  }

  /** @param {MattersTable} shown @param {ScriptEvent} event */
  row(shown, event) {
    const { app } = this;
    const cells = WAYS.map(way => {
      const text = shown.cell(event, way), edit = shown.edit(event, way);
      return edit ? link(text, `Make this edit: ${edit}`, () => app.edits.edit(edit)) : text;
    });
    const inside = [app.edits.linkTo(event), app.linkTo(event.turn), eventInWords(event),
      ...cells];
    return make("tr", {}, ...inside.map(it => make("td", {}, it)));
  }

  // Marks

  /** Marks what was found on the timeline, or nothing.
      @param {MattersTable | null} shown */
  mark(shown) {
    const { timeline } = this.app.view;
    const near = shown ? shown.events().flatMap(event => WAYS.flatMap(way => {
      const { change } = shown.results.of(event, way);
      const shift = change ? way === "earlier" ? -change.shift : change.shift : 0;
      const said = `event ${event.number}, ${eventInWords(event)}, ${way}`;
      const label = eventLabel(event), sign = SIGNS[way];
      return change ? [{ event, turn: event.turn + shift, kind: "near",
        text: way === "later" ? label + sign : sign + label,
        said: `${said} ${shown.cell(event, way)}` }] : [];
    })) : [];
    this.near = near.sort((a, b) => a.turn - b.turn);
    timeline.matters = this.near.length ? this.near : null;
    timeline.draw();
  }

  /** Puts a mark at each such turn in sight, as far as they aren't too many. */
  draw() {
    const { lanes, marks } = this.app.view.timeline, ends = new Array(MARK_ROWS).fill(-Infinity);
    const lane = lanes.find(it => it.kind === "matters");
    this.pins.place.style.top = `${(lane?.top ?? 0) + 2}px`;
    this.pins.show(lane ? this.near : [], MOST_MARKS, it => marks.putIntoRow(it, ends));
  }
}
