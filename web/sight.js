// What the timeline shows in sight, as a table: made of the picture that is drawn.

import { delayed, make, part, table } from "./page.js";
import { eventInWords } from "./past.js";
import { counted, octal, readableText, vectorName } from "./replies.js";

const MOST_OF_A_LANE = 100;

/**
 * @typedef {{turn: number, lane: string, what: string}} Row
 * @typedef {{first: number, end: number, events: ScriptEvent[], gone: ScriptEvent[],
 *   picture: Picture | null, ghost: Picture | null,
 *   part: {turn: number, isExact: boolean} | null, same?: number | null}} Drawn
 * @typedef {import("./past.js").ScriptEvent} ScriptEvent
 * @typedef {import("./timeline.js").Timeline} Timeline
 * @typedef {import("./picture.js").Picture} Picture
 * @typedef {import("./picture.js").DrawnWord} DrawnWord
 * @typedef {import("./picture.js").Value} Value
 */

/** All rows of what is drawn, by their turns.
    @param {Drawn} drawn @returns {Row[]} */
export function rowsOf({ first, end, events, gone, picture, ghost, part, same }) {
  /** @param {{turn: number}} it */
  const isInSight = it => it.turn >= first && it.turn <= end;
  // of many events only the first are shown: only these are put into words
  /** @type {Row[]} */
  const rows = events.filter(isInSight).map(it => ({
    turn: it.turn, lane: "event", get what() { return `${it.number}: ${eventInWords(it)}`; },
  }));
  const lost = gone.map(it => (
    { turn: it.turn, lane: "event, old past", what: eventInWords(it) }));
  const differ = part?.isExact ? "the registers first differ" : "the registers differ";
  if (part !== null) rows.push({ turn: part.turn, lane: "pasts", what: differ });
  const now = picture ? rowsOfPicture(picture) : [];
  /** @param {Row} it */
  const keyOf = it => `${it.turn} ${it.lane} ${it.what}`;
  const known = new Set(now.map(keyOf));
  const old = ghost && isBeside(picture, ghost)
    ? rowsOfPicture(ghost).filter(it => !known.has(keyOf(it)) && it.turn < (same ?? Infinity)) : [];
  const olds = old.map(it => ({ ...it, lane: `${it.lane}, old past` }));
  return [...rows, ...lost, ...now, ...olds].filter(isInSight).sort((a, b) => a.turn - b.turn);
}

/** Whether two pictures are whole and of the same turns, so that each row of one may be missed in
    the other.
    @param {Picture | null} one @param {Picture | null} other */
const isBeside = (one, other) => Boolean(one?.isMade && other?.isMade
  && one.first === other.first && one.end === other.end);

/** @param {Picture} picture @returns {Row[]} */
function rowsOfPicture({ first, interrupts, disk, words }) {
  const rows = interrupts.map(({ turn, vector }) => (
    { turn, lane: "interrupt", what: `${octal(vector, 3)} ${vectorName(vector)}` }));
  for (const { begin, end, title } of disk.bars) {
    const until = end === null ? "goes on past what is in sight" : `ends in turn ${end}`;
    const under = begin === null ? "under way: " : "";
    rows.push({ turn: begin ?? first, lane: "disk", what: `${under}${title}; ${until}` });
  }
  const busy = disk.busy.map(it => ({ turn: it.turn, lane: "disk", what: "busy (a sample)" }));
  const missing = words.filter(it => it.why)
    .map(({ name, why = "" }) => ({ turn: first, lane: name, what: why }));
  return [...rows, ...busy, ...missing, ...words.filter(it => !it.why).flatMap(rowsOfWord)];
}

/** The writes of a word, or the samples in which it is another than before.
    @param {DrawnWord} word @returns {Row[]} */
function rowsOfWord({ name, values = [], isWhole }) {
  /** @param {Value} value @param {number} at */
  const isShown = ({ word, writer }, at) => writer || word !== values[at - 1]?.word;
  /** @param {string} writer @param {number} at */
  const how = (writer, at) => writer ? `, written by ${writer}`
    : !at ? " at the left edge" : isWhole ? "" : " (a sample)";
  return values.map(({ turn, word, writer }, at) => (
    { turn, lane: name, what: octal(word) + how(writer, at) }))
    .filter((_, at) => isShown(values[at], at));
}

/** At most so many rows of each lane, and how many of which are left out.
    @param {Row[]} rows */
export function boundedRows(rows) {
  /** @type {Map<string, number>} */
  const counts = new Map();
  const shown = rows.filter(({ lane }) => {
    const count = (counts.get(lane) ?? 0) + 1;
    counts.set(lane, count);
    return count <= MOST_OF_A_LANE;
  });
  const left = [...counts].filter(([, count]) => count > MOST_OF_A_LANE)
    .map(([lane, count]) => `${counted(count - MOST_OF_A_LANE, "row")} of '${lane}'`);
  return { shown, left };
}

/** The lanes that have no rows, in words.
    @param {Picture} picture */
function othersOf({ looks, text, step }) {
  /** @param {string} mode */
  const countersOf = mode => looks.filter(it => it.mode === mode && it.state === "run")
    .map(it => it.pc).sort((a, b) => a - b);
  /** @param {string} mode */
  const range = mode => {
    const counters = countersOf(mode);
    return counters.length ? `from ${octal(counters[0])} to ${octal(counters[counters.length - 1])}`
      : step > 1 ? "none was seen" : "none";
  };
  const printed = text.each > 1 ? `${text.printed} bytes are printed`
    : readableText(text.bytes.map(it => it.byte)).trim() || "nothing is printed";
  return `PC in kernel mode: ${range("kernel")}. PC in user mode: ${range("user")}. Console: `
    + `${printed}.`;
}

export class Sight {
  /** @param {HTMLDetailsElement} place @param {Timeline} timeline
      @param {import("./app.js").App} app */
  constructor(place, timeline, app) {
    this.place = place;
    this.timeline = timeline;
    this.app = app;
    /** What the table says. */
    this.said = "";
    this.body = part(place, "div");
    place.addEventListener("toggle", () => this.show());
    this.showLater = delayed(150, () => this.show());
  }

  /** Shows what is drawn now, if the table is seen. It is made anew only if it differs. */
  show() {
    const { place, timeline, app } = this;
    if (!place.open || !app.dock.isSeen("past")) return;
    const { shown, left } = boundedRows(rowsOf(timeline.drawn()));
    const said = this.sentences(left);
    const all = JSON.stringify([said, shown]);
    if (all === this.said) return;
    this.said = all;
    const rows = shown.map(({ turn, lane, what }) => [app.linkTo(turn), lane, what]);
    this.body.replaceChildren(make("p", {}, said),
      table("What is in sight", ["turn", "lane", ""], rows));
  }

  /** @param {string[]} left */
  sentences(left) {
    const { picture, ghost, view, past, oldPast } = this.timeline;
    const isMade = picture?.isMade && picture.first <= view.first && picture.end >= view.end;
    const isAll = isMade && (past === oldPast || isBeside(picture, ghost));
    const found = picture && isMade ? [othersOf(picture)] : [];
    if (!isAll) found.push("Not all of it is known yet.");
    if (left.length) found.push(`Left out are ${left.join(", ")}: zoom in for them.`);
    return found.join(" ");
  }
}
