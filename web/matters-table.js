// What `matters` shows of each event: how near a move of it changes the reply. The words are those
// of src/nezdrab/analysis/matters_table.py.

import { WAYS } from "./moves.js";
import { LAST_TURN } from "./replies.js";

// Of a value in the table, in characters.
const [LONGEST_VALUE, SHOWN_BEFORE, NEAR_DIFFERENCE] = [24, 6, 24];
const OF_TEXTS = /^(?:text|punched) /;

/**
 * @typedef {import("./moves.js").Results} Results
 * @typedef {import("./moves.js").Way} Way
 * @typedef {import("./past.js").ScriptEvent} ScriptEvent
 */

/** The bytes of a text as they are shown, or the words of another reply, without its name.
    @param {string} reply @returns {string[]} */
const partsOf = reply => OF_TEXTS.test(reply)
  ? reply.slice(reply.indexOf(":") + 1).match(/\\[0-7]{3}|./gs) ?? [] : reply.split(" ").slice(1);

/** Shows other replies beside one: what each has around its first difference. Those whose
    differences lie near each other begin at the same part. */
class Beside {
  /** @param {string} reply @param {string[]} others */
  constructor(reply, others) {
    this.parts = partsOf(reply);
    this.between = OF_TEXTS.test(reply) ? "" : " ";
    /** @type {number[]} */
    this.starts = [];
    for (const begin of others.map(it => this.begin(it)).sort((a, b) => a - b)) {
      const last = this.starts.at(-1);
      if (last === undefined || this.width(last, begin) > NEAR_DIFFERENCE) this.starts.push(begin);
    }
  }

  /** @param {number} begin @param {number} end */
  width(begin, end) {
    return this.parts.slice(begin, end).join(this.between).length;
  }

  /** The part a little before the first difference.
      @param {string} other */
  begin(other) {
    const { parts } = this, others = partsOf(other);
    let at = 0;
    while (at < Math.min(parts.length, others.length) && parts[at] === others[at]) at++;
    let begin = at;
    while (begin && this.width(begin - 1, at) <= SHOWN_BEFORE) begin--;
    return begin;
  }

  /** A reply without its first word, or what it has from such a part on.
      @param {string} other */
  value(other) {
    const parts = partsOf(other), begin = this.begin(other), whole = parts.join(this.between);
    if (whole.length <= LONGEST_VALUE) return whole || "no byte";
    const start = Math.max(...this.starts.filter(it => it <= begin));
    const longest = LONGEST_VALUE + this.width(start, begin);
    let end = start;
    while (end < parts.length
      && parts.slice(start, end + 1).join(this.between).length <= longest) end++;
    const value = parts.slice(start, end).join(this.between);
    return `${start ? ".." : ""}${value}${end < parts.length ? ".." : ""}`;
  }
}

export class MattersTable {
  /** `same` says that no move of those tried is one that is looked for.
      @param {Results} results @param {string} same */
  constructor(results, same) {
    this.results = results;
    this.same = same;
    const changes = [...results.tried.values()].flatMap(it => it.change ?? []);
    this.beside = new Beside(results.moves.reply, changes.map(it => it.reply));
  }

  /** The events: those that small moves matter of come first, then those that can't be dropped. */
  events() {
    return this.results.events.map(event => ({ event, order: this.order(event) }))
      .sort((a, b) => a.order.map((it, at) => it - b.order[at]).find(it => it) ?? 0)
      .map(it => it.event);
  }

  /** @param {ScriptEvent} event */
  order(event) {
    const [dropped, ...moved] = WAYS.map(it => this.results.of(event, it).change);
    const nearest = Math.min(...moved.map(it => it?.shift ?? LAST_TURN + 1));
    return [nearest, Number(!dropped), event.turn, event.number];
  }

  /** What is known of the moves of an event in one way.
      @param {ScriptEvent} event @param {Way} way */
  cell(event, way) {
    const { known, change } = this.results.of(event, way), { same } = this;
    if (change) {
      const value = this.beside.value(change.reply);
      return way === "dropped" ? value : `by ${change.shift}: ${value}`;
    }
    if (way === "dropped") return known < 0 ? "not tried" : same;
    const [first, last] = way === "earlier" ? [event.turn, 0]
      : [LAST_TURN - event.turn, LAST_TURN];
    if (!first) return `in turn ${last}`;
    if (known < 1) return "not tried";
    const end = known === first ? `, turn ${last}` : "";
    return `${this.results.moves.isNear ? "none found" : same} (to ${known}${end})`;
  }

  /** The edit of the nearest move of an event in one way that is looked for, or null.
      @param {ScriptEvent} event @param {Way} way */
  edit(event, way) {
    const { change } = this.results.of(event, way), { number, turn, text } = event;
    if (!change) return null;
    if (way === "dropped") return `drop ${number}`;
    return `alter ${number} ${turn + (way === "later" ? change.shift : -change.shift)} ${text}`;
  }

  /** The edit of the nearest move of all that is looked for, or else of the first drop, or null. */
  nearest() {
    for (const event of this.events()) {
      const moved = WAYS.slice(1).flatMap(way => {
        const { change } = this.results.of(event, way);
        return change ? [{ way, shift: change.shift }] : [];
      }).sort((a, b) => a.shift - b.shift);
      const edit = this.edit(event, moved[0]?.way ?? "dropped");
      if (edit) return edit;
    }
    return null;
  }
}

/** Whether a reply is the one that is sought, with or without its first word. `..` stands for
    anything. Except in texts, zeros before numbers count for nothing, and so do further blanks.
    @param {string} sought @param {string} reply */
export function isReply(sought, reply) {
  const isText = OF_TEXTS.test(reply), blank = isText ? sought.trim()
    : sought.trim().split(/[ \t]+/).join(" ");
  /** @param {string} text */
  const literal = text => text.replace(/[.*+?^${}()|[\]\\]/g, "\\$&");
  /** @param {string} word */
  const number = word => /^\d+$/.test(word) ? `0*${word.replace(/^0+(?=\d)/, "")}` : literal(word);
  const pattern = blank.split("..").map(part =>
    isText ? literal(part) : part.split(" ").map(number).join(" ")).join(".*");
  const whole = new RegExp(`^(?:${pattern})$`, "s");
  return whole.test(reply) || whole.test(reply.slice(reply.indexOf(" ") + 1));
}
