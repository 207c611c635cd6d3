// The past as the program tells it: what the edits that it took have made of it.

import { DELAYS } from "./hardware.js";
import { LINES } from "./lines.js";
import { eventsOf, keyName, patchesOf, setupOf } from "./replies.js";

/**
 * An event of a script: its number, its turn and what it is, as the session language has it.
 * @typedef {{number: number, turn: number, text: string}} ScriptEvent
 * @typedef {Object<string, number>} Delays of the devices, by their names
 */

const EDITS_OF_SCRIPT = new Set(["at", "alter", "drop"]);
/** The first words of the lines of a kind.
    @param {string} kind */
const wordsOfKind = kind =>
  new Set(LINES.filter(it => it.kind === kind).map(it => it.form.split(" ")[0]));
const EDITS = wordsOfKind("edit"), STEPS = wordsOfKind("step");
/**
 * The lines that tell the past, and what each reply has of it.
 * @type {Object<string, (reply: string) => Partial<Past>>}
 */
const TOLD = {
  setup: setupOf,
  patches: reply => ({ patches: patchesOf(reply) }),
  events: reply => {
    const script = eventsOf(reply);
    return { script, events: new Map(script.map(it => [it.number, it])) };
  },
};
export const PAST_LINES = Object.keys(TOLD);

/** The words of a line; a comment has none.
    @param {string} line */
export const wordsOfLine = line => line.startsWith("#") ? [] : line.split(/[ \t]+/).filter(Boolean);

/** The first word of a line, or an empty text: there may be 10,000 lines to look at.
    @param {string} line */
export const wordOfLine = line => line.startsWith("#") ? "" : /[^ \t]+/.exec(line)?.[0] ?? "";

/** @param {string} line */
export const isEdit = line => EDITS.has(wordOfLine(line));

/** The lines that tell what an edit has changed.
    @param {string} line */
export const linesThatTell = line =>
  EDITS_OF_SCRIPT.has(wordOfLine(line)) ? ["events"] : ["setup", "patches"];

/** Whether a line takes an edit back, or makes it again.
    @param {string} line */
export const isStep = line => STEPS.has(wordOfLine(line));

/** Whether a line changes nothing, and is no comment.
    @param {string} line */
export const isQuestion = line => wordOfLine(line) !== "" && !isEdit(line) && !isStep(line);

/** Whether a line runs no turns, whatever the past is.
    @param {string} line */
export const runsNothing = line => isEdit(line) || isStep(line) || PAST_LINES.includes(line);

/** An event with the name of its key, such as `key 66 '6'`.
    @param {ScriptEvent} event */
export function eventInWords(event) {
  const [word, byte] = event.text.split(" ");
  return word === "key" ? `key ${byte} '${keyName(parseInt(byte, 8))}'` : event.text;
}

/** What stands on an event's mark.
    @param {ScriptEvent} event */
export function eventLabel(event) {
  const [word, value] = event.text.split(" ");
  if (word === "key") return keyName(parseInt(value, 8));
  return value === undefined ? word : `${word} ${value}`;
}

/** Where in a script the events of a turn begin, or those of later ones.
    @param {ScriptEvent[]} script @param {number} turn */
function placeIn(script, turn) {
  let [low, high] = [0, script.length];
  while (low < high) {
    const middle = low + high >> 1;
    if (script[middle].turn < turn) low = middle + 1;
    else high = middle;
  }
  return low;
}

/** The events of a script in the turns from `first` to `last`.
    @param {ScriptEvent[]} script @param {number} first @param {number} last */
export const eventsIn = (script, first, last) =>
  script.slice(placeIn(script, first), placeIn(script, Math.floor(last) + 1));

/** Version, size of core, patches, tape, delays and events, as the program told them. */
export class Past {
  constructor() {
    this.version = 1;
    /** How many bytes core has. */
    this.core = 0;
    /** @type {Delays} */
    this.delays = DELAYS;
    /** @type {string | null} the line that put the tape in */
    this.tape = null;
    /** @type {Map<string, string>} by `core A`, `disk I` or `disk D I`, its word; all in octal */
    this.patches = new Map();
    /** @type {Map<number, ScriptEvent>} */
    this.events = new Map();
    /** @type {ScriptEvent[]} all events, in the order in which they happen */
    this.script = [];
  }

  /** The event with this number, if there is one.
      @param {string} number */
  eventNamed(number) {
    return /^\d+$/.test(number) ? this.events.get(Number(number)) : undefined;
  }

  /** The past of which these lines of PAST_LINES have these replies; the rest of it is as here.
      @param {string[]} lines @param {string[]} replies @param {string | null} tape */
  told(lines, replies, tape) {
    const parts = lines.map((it, at) => TOLD[it](replies[at]));
    return Object.assign(new Past(), this, { tape }, ...parts);
  }

  /** The lines of the patches that make the setup of another past this one, or null if it takes
      further edits.
      @param {Past} past */
  patchesFrom(past) {
    /** @param {Past} it */
    const rest = it => JSON.stringify([it.version, it.tape, it.delays]);
    const lacks = [...past.patches.keys()].some(it => !this.patches.has(it));
    if (lacks || rest(past) !== rest(this)) return null;
    return [...this.patches].filter(([name, word]) => past.patches.get(name) !== word)
      .map(it => it.join(" "));
  }

  /** A session that gives the same machine. Its events are numbered anew, in their order. */
  lines() {
    const found = [];
    if (this.version !== 1) found.push(`version ${this.version}`);
    if (this.tape !== null) found.push(this.tape);
    /** @type {Delays} */
    const usual = DELAYS;
    for (const [device, turns] of Object.entries(this.delays)) {
      if (turns !== usual[device]) found.push(`delay ${device} ${turns}`);
    }
    const patches = [...this.patches].map(it => it.join(" "));
    return [...found, ...patches, ...this.script.map(it => `at ${it.turn} ${it.text}`)];
  }
}

/** The events of a turn that others of it don't have too.
    @param {ScriptEvent[]} events @param {ScriptEvent[]} others */
function without(events, others) {
  const left = others.map(it => it.text);
  return events.filter(({ text }) => {
    const place = left.indexOf(text);
    if (place >= 0) left.splice(place, 1);
    return place < 0;
  });
}

/** How many events two scripts begin with that are the same.
    @param {ScriptEvent[]} old @param {ScriptEvent[]} now */
function sameAtFirst(old, now) {
  const most = Math.min(old.length, now.length);
  let at = 0;
  while (at < most && old[at].turn === now[at].turn && old[at].text === now[at].text) at++;
  return at;
}

/** How many events two scripts end with that are the same.
    @param {ScriptEvent[]} old @param {ScriptEvent[]} now */
function sameAtLast(old, now) {
  const most = Math.min(old.length, now.length);
  /** @param {number} count */
  const isSame = count => {
    const [one, other] = [old[old.length - count], now[now.length - count]];
    return one.turn === other.turn && one.text === other.text;
  };
  let count = 0;
  while (count < most && isSame(count + 1)) count++;
  return count;
}

/** How a script differs from an old one: the events that are gone and that came, and the turns
    whose events, or their order, are others.
    @param {ScriptEvent[]} old @param {ScriptEvent[]} now */
export function differenceOf(old, now) {
  /** @type {{gone: ScriptEvent[], come: ScriptEvent[], turns: number[]}} */
  const { gone, come, turns } = { gone: [], come: [], turns: [] };
  const begin = sameAtFirst(old, now), end = old.length - sameAtLast(old, now);
  for (let at = begin, place = begin; at < old.length || place < now.length;) {
    if (at >= end && old.length - at === now.length - place) break;
    const [one, other] = [old[at], now[place]];
    if (one && other && one.turn === other.turn && one.text === other.text) {
      at++;
      place++;
    } else {
      const turn = Math.min(one?.turn ?? Infinity, other?.turn ?? Infinity);
      const [olds, news] = [eventsIn(old, turn, turn), eventsIn(now, turn, turn)];
      gone.push(...without(olds, news));
      come.push(...without(news, olds));
      turns.push(turn);
      at = placeIn(old, turn + 1);
      place = placeIn(now, turn + 1);
    }
  }
  return { gone, come, turns };
}
