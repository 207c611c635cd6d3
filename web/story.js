// The story of a session, which it tells in comments `# story ..`: a title and steps to take, an
// event to be moved, what comes of that by a question and its replies, and what to ask after that.

import { element, make } from "./page.js";
import { madeNamed } from "./made.js";
import { wordNamed } from "./names.js";
import { turnsAsked } from "./questions.js";
import { LAST_TURN, isRefused, visibleName } from "./replies.js";
import { Priority } from "./run.js";
import { readableLine } from "./session.js";

const STORY = /^# story ([a-z]+) (\S.*)$/;
const VALUE = /^[0-7]{6}(?![0-7])/;
const ASKED = { value: "..", verdict: "the machine runs again", look: "" };
const MOST_STEPS = 12;

/**
 * A question after success: what something is made of before a turn, and what its button says.
 * @typedef {{thing: import("./made.js").MadeThing, turn: number, text: string}} Next
 * @typedef {{look: string, values: [number, string][], text: string}} Verdict
 * @typedef {{event: number, from: number, to: number, tick: number}} Target
 */

/**
 * The turns in sight and the cursor; the event that is to be moved, from where to where it is safe,
 * and the turn of the tick that it is to pass; a sweep; the question of which values come, those
 * that stand after a sign; and which of them is shown, with its label.
 * @typedef {{title: string, texts: string[], steps: string[],
 *   turns: {first: number, span: number, cursor: number} | null, target: Target | null,
 *   sweep: {event: number, from: number, to: number, question: string} | null, question: string,
 *   sign: string, shown: {number: number, label: string} | null, verdicts: Verdict[],
 *   next: Next[]}} Story
 */

/** What a line of a story puts into it, by its first word; false if it can't be read.
    @type {Object<string, (story: Story, text: string) => unknown>} */
const LINES = {
  title: (story, text) => { story.title = text; },
  text: (story, text) => story.texts.push(text),
  step: (story, text) => story.steps.length < MOST_STEPS && story.steps.push(text),
  ask: (story, text) => { story.question = text; },
  values: (story, text) => text.length === 1 && (story.sign = text),
  turns: (story, text) => {
    const [first, span, cursor, isLong] = numbersIn(text);
    const isRight = cursor !== undefined && isLong === undefined && span > 0;
    return isRight && (story.turns = { first, span, cursor });
  },
  target: (story, text) => {
    const [event, from, to, tick] = numbersIn(text);
    return tick !== undefined && (story.target = { event, from, to, tick });
  },
  sweep: (story, text) => {
    const [, event, from, to, question] = /^(\d+) (\d+) (\d+) (\S.*)$/.exec(text) ?? [];
    return question !== undefined && (story.sweep = { event: Number(event), from: Number(from),
      to: Number(to), question });
  },
  shows: (story, text) => {
    const [, number, label] = /^(\d{1,3}) (\S.*)$/.exec(text) ?? [];
    return label !== undefined && (story.shown = { number: Number(number), label });
  },
  verdict: (story, text) => {
    const [, look, values, said] =
      /^(good|bad)((?: \d{1,3} (?:[0-7]{1,6}|any|none))*): (\S.*)$/.exec(text) ?? [];
    const found = [...(values ?? "").matchAll(/ (\d+) (\w+)/g)];
    return look !== undefined && story.verdicts.push({ look, text: said,
      values: found.map(it => [Number(it[1]), it[2]]) });
  },
  next: (story, text) => {
    const [, name, turn, said] = /^why (.+) at (\d{1,10}): (\S.*)$/.exec(text) ?? [];
    const thing = name === undefined ? null : madeNamed(name) ?? wordNamed(name);
    return thing !== null && story.next.push({ thing, turn: Number(turn), text: said });
  },
};

/** @param {string} text */
const numbersIn = text => text.split(" ").map(it => /^\d{1,10}$/.test(it) ? Number(it) : undefined)
  .map(it => /** @type {number} */ (it));

/** The lines of a session that tell its story.
    @param {{lines: string[]}} session */
export const linesOfStory = ({ lines }) => lines.filter(it => STORY.test(it));

/** The story of a session that is shown up to a turn, or null if it has no title; and its lines
    that can't be read. What it asks is a question about these turns, and never an edit.
    @param {{lines: string[]}} session @param {number} end
    @returns {{story: Story | null, wrong: string[]}} */
export function storyOf(session, end = LAST_TURN) {
  /** @type {Story} */
  const story = { title: "", texts: [], steps: [], turns: null, target: null, sweep: null,
    question: "", sign: " ", shown: null, verdicts: [], next: [] };
  const wrong = linesOfStory(session).map(it => visibleName(readableLine(it))).filter(line => {
    const [, word, text] = STORY.exec(line) ?? [];
    return !Object.hasOwn(LINES, word) || LINES[word](story, text) === false;
  });
  const [, last] = turnsAsked(story.question);
  if (story.question && !(last > 0 && last <= end)) {
    wrong.push(`# story ask ${story.question}`);
    story.question = "";
  }
  return { story: story.title ? story : null, wrong };
}

/** The values in a reply: the words of six digits after each sign, without their zeros.
    @param {string} reply @param {string} sign */
export const valuesIn = (reply, sign) => reply.split(sign).slice(1).flatMap(it =>
  VALUE.exec(it)?.[0].replace(/^0+(?=.)/, "") ?? []);

/** Which way an event is to be moved on from a turn: in a word, and as a part of a sentence.
    @param {number | null} turn @param {Target | null} target */
function wayFrom(turn, target) {
  if (target && turn !== null && turn < target.from) return ["to the right", "move it right"];
  if (target && turn !== null && turn > target.to) return ["too far", "too far, go back"];
  return ["no", "try another turn"];
}

/** What the reply to the story's question means: in a word, too.
    @param {Story} story @param {string} reply
    @param {{isMoved?: boolean, turn?: number | null, hasOthers?: boolean}} past whether the event
      is moved, and to which turn; whether there are edits other than moves of events */
export function verdictOf(story, reply, { isMoved = false, turn = null, hasOthers = false } = {}) {
  const values = isRefused(reply) ? [] : valuesIn(reply, story.sign);
  const value = values[(story.shown?.number ?? 1) - 1] ?? "none";
  const found = story.verdicts.find(it => it.values.every(([number, wanted]) => {
    const one = values[number - 1];
    return wanted === "any" ? one !== undefined : (one ?? "none") === wanted;
  }));
  const others = hasOthers ? "there are other edits: see the list" : "";
  if (hasOthers || !found) return { value, look: "", word: "", verdict: others };
  const text = found.text.replace(/\{(\d{1,3})\}/g, (_, it) => values[Number(it) - 1] ?? "none");
  if (found.look === "good") {
    return { value, look: "good", word: text, verdict: `\u2713 ${text}` };
  }
  const [word, again] = isMoved ? wayFrom(turn, story.target) : ["", ""];
  const verdict = `\u2717 ${[text, again].filter(Boolean).join("; ")}`;
  return { value, look: "bad", word, verdict };
}

/** A text of a story: `[6]` in it is a key, and what stands between two `*` matters most.
    @param {string} text @returns {import("./page.js").Inside[]} */
const marked = text => text.split(/(\*[^*]+\*|\[[^\]]+\])/).map(it => {
  if (it.startsWith("[") && it.endsWith("]")) return make("kbd", {}, it.slice(1, -1));
  const isStrong = it.length > 2 && it.startsWith("*") && it.endsWith("*");
  return isStrong ? make("strong", {}, ...marked(it.slice(1, -1))) : it;
});

/** All that a past has but the turns of its events.
    @param {import("./past.js").Past} past */
const restOf = past => [...past.lines().filter(it => !it.startsWith("at ")),
  ...past.script.map(it => it.text).sort()].join("\n");

export class StoryPanel {
  /** @param {import("./app.js").App} app */
  constructor(app) {
    this.app = app;
    /** What the past as it was opened has but the turns of its events. */
    this.rest = "";
  }

  /** The session's story, or null. */
  get story() {
    return this.app.session.story;
  }

  /** Another session is open. */
  sessionBegins() {
    const { story } = this, { begun } = this.app.session;
    element("story").hidden = !story;
    if (!story) return;
    this.rest = restOf(begun.past);
    element("story-title").textContent = story.title;
    element("story-texts").replaceChildren(...story.texts.map(it => make("p", {}, ...marked(it))));
    element("sentences").replaceChildren(...story.steps.map(it => make("li", {}, ...marked(it))));
    element("outcome").hidden = !story.question;
    element("balance-label").textContent = story.shown?.label ?? "";
    element("next").replaceChildren(...story.next.map(it => make("button",
      { type: "button", onclick: () => this.askNext(it) }, it.text)));
    this.put(ASKED);
  }

  pastChanged() {
    const { app } = this, { timeline } = app.view;
    timeline.target = this.target();
    this.ask();
  }

  /** Where the event is to be dropped, or null if the past has more edits than moves of it. */
  target() {
    const { story } = this, { begun, run } = this.app.session;
    if (!story?.target) return null;
    const { event } = story.target;
    /** @param {import("./past.js").Past} it */
    const others = it => JSON.stringify([it.lines().filter(line => !line.startsWith("at ")),
      it.script.filter(({ number }) => number !== event)]);
    const isThere = run.past.events.has(event) && others(run.past) === others(begun.past);
    return isThere ? story.target : null;
  }

  /** The lines whose replies say what comes of a past: none without a story. */
  get lines() {
    return this.story?.question ? [this.story.question] : [];
  }

  /** Asks what comes of the past as it is now. */
  ask() {
    const { app, lines } = this, { run, end } = app.session, token = app.token("story");
    if (!lines.length) return;
    this.put(ASKED);
    const priority = run.isNear(end) ? Priority.CURSOR : Priority.TEXT;
    app.attempt(async () => this.show((await run.ask(lines, priority, token))[0]));
  }

  /** What is shown was of another turn, or of another past. */
  isOld() {
    if (this.lines.length) this.put(ASKED);
  }

  /** Shows what comes of a past by the reply to the story's question. `moved` is the turn to which
      its event is carried.
      @param {string | undefined} reply @param {number | null} moved */
  show(reply, moved = null) {
    const { story } = this, { session: { run }, view: { timeline } } = this.app;
    if (!story || reply === undefined) return;
    const turn = moved ?? run.past.events.get(story.target?.event ?? 0)?.turn ?? null;
    const isMoved = moved !== null || run.ledger.changes.length > 0;
    const hasOthers = restOf(run.past) !== this.rest;
    const found = verdictOf(story, reply, { isMoved, turn, hasOthers });
    this.put(found);
    if (moved === null) return;
    timeline.tellOutcome([found.value, found.word].filter(Boolean).join(", "));
  }

  /** @param {{value: string, verdict: string, look: string}} found */
  put({ value, verdict, look }) {
    element("balance").textContent = value;
    element("verdict").textContent = verdict;
    element("outcome").className = look;
    element("next").hidden = look !== "good" || !this.app.session.old;
  }

  /** What happened, by the notes of the past as it is now; if it has none, by those of another.
      @param {import("./notes.js").Note[]} notes */
  showNotes(notes) {
    const own = notes.filter(it => this.app.notes.isOf(it)), shown = own.length ? own : notes;
    element("happened").hidden = !shown.length;
    element("happened-title").textContent = own.length ? "What happened" : "In another past";
    element("steps").replaceChildren(...shown.slice(0, MOST_STEPS).map(({ turn, text }) =>
      make("li", {}, this.app.linkTo(turn, text), make("small", {}, ` turn ${turn}`))));
  }

  /** Asks what something was made of in the old past. The story's turns are in sight.
      @param {Next} next */
  askNext({ thing, turn }) {
    const { app, story } = this;
    const asked = app.reasons.askOld(thing, turn);
    if (story?.turns) app.view.timeline.show(story.turns.first, story.turns.span);
    return asked;
  }
}
