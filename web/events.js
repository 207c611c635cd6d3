// The events as a list with links, and a form that makes one where the cursor is: no line of the
// language is needed.

import { choice, delayed, element, field, link, make, table } from "./page.js";
import { eventInWords, eventsIn } from "./past.js";
import { byteNamed, counted } from "./replies.js";

const MOST_ROWS = 40;
const MOST_TEXT = 40;
const LARGEST_WORD = 0o177777;

/** The event that a form's kind and value make, as the session language has it; null if the value
    is none for it.
    @param {string} kind @param {string} value */
export function eventOfForm(kind, value) {
  if (kind === "key") {
    const byte = byteNamed(value);
    return byte === null ? null : `key ${byte.toString(8)}`;
  }
  if (kind !== "switches") return kind;
  const isWord = /^[0-7]{1,6}$/.test(value.trim()) && parseInt(value, 8) <= LARGEST_WORD;
  return isWord ? `switches ${parseInt(value, 8).toString(8)}` : null;
}

/** The events of a script that lie nearest to a turn, in their order, and how many are left out.
    @param {ScriptEvent[]} script @param {number} turn */
export function eventsNear(script, turn, most = MOST_ROWS) {
  const place = script.findIndex(it => it.turn >= turn), middle = place < 0 ? script.length : place;
  const first = Math.max(0, Math.min(middle - Math.floor(most / 2), script.length - most));
  const shown = script.slice(first, first + most);
  return { shown, before: first, after: script.length - first - shown.length };
}

/** @typedef {import("./past.js").ScriptEvent} ScriptEvent */

/** Puts the focus on what a selector finds in the list, if it is there.
    @param {string} selector */
function focusOn(selector) {
  const it = element("events").querySelector(selector);
  if (it instanceof HTMLElement) it.focus();
}

export class EventList {
  /** @param {import("./app.js").App} app */
  constructor(app) {
    this.app = app;
    this.kind = choice("event-kind");
    this.value = field("event-value");
    this.kind.addEventListener("change", () => this.showKind());
    /** What the list shows, as a text. */
    this.key = "";
    this.showLater = delayed(150, () => this.show());
    this.showKind();
  }

  pastChanged() {
    this.show();
  }

  cursorMoved() {
    this.showLater();
  }

  /** Which value an event has, if it has one. */
  showKind() {
    const { example = "" } = this.kind.selectedOptions[0].dataset;
    this.value.placeholder = example;
    this.value.disabled = !example;
  }

  /** Makes the event of the form in the cursor's turn. */
  add() {
    const { app } = this, event = eventOfForm(this.kind.value, this.value.value);
    if (event === null) {
      app.say(this.kind.value === "key"
        ? "A key is one character, or a name: Enter, ESC, DEL, Tab, space, LF, Ctrl-C, 015."
        : "The switches are a word: up to six octal digits, at most 177777.");
      return undefined;
    }
    const { cursor } = app.view.timeline;
    return app.edits.edit(`at ${cursor} ${event}`).then(() => this.bringIntoSight(cursor));
  }

  /** Scrolls the list, and not the page, to the last event of a turn.
      @param {number} turn */
  bringIntoSight(turn) {
    const place = element("events"), links = place.querySelectorAll(`[data-turn="${turn}"]`);
    const row = links[links.length - 1]?.getBoundingClientRect();
    const { top, bottom } = place.getBoundingClientRect();
    if (row) place.scrollTop += Math.min(0, row.top - top) + Math.max(0, row.bottom - bottom);
  }

  /** Takes an event out.
      @param {ScriptEvent} event */
  drop(event) {
    return this.app.edits.edit(`drop ${event.number}`);
  }

  /** Goes to a turn with many events, and to the list of them.
      @param {number} turn */
  open(turn) {
    const { app } = this;
    app.goTo(turn);
    this.show();
    app.dock.bring("events-panel");
    focusOn(`[data-turn="${turn}"]`);
  }

  /** Shows the events near the cursor. */
  show() {
    const { opened, view: { timeline: { cursor } } } = this.app;
    if (!opened) return;
    const { script } = opened.run.past, { shown, before, after } = eventsNear(script, cursor);
    /** @param {number} count @param {string} where */
    const left = (count, where) => count ? [`${counted(count, "event")} ${where}`] : [];
    const others = [...left(before, "before these"), ...left(after, "after them")].join(", ");
    const here = eventsIn(script, cursor, cursor).length;
    const all = counted(script.length, "event");
    element("events-count").textContent = `${all}, ${here} in turn ${cursor}`;
    const key = JSON.stringify([shown, others]);
    if (key === this.key) return;
    this.key = key;
    this.replace(table("Events near the cursor", ["turn", "event", ""],
      shown.map(it => this.row(it))), make("p", { class: "faint" }, others));
  }

  /** Puts another list into the place of this one. The focus stays at the event where it was, and
      the list as it is scrolled.
      @param {Node[]} made */
  replace(...made) {
    const place = element("events"), { scrollTop } = place, { activeElement: it } = document;
    const name = it instanceof HTMLElement && place.contains(it) ? it.dataset.name : null;
    place.replaceChildren(...made);
    place.scrollTop = scrollTop;
    if (name) focusOn(`[data-name="${name}"]`);
  }

  /** @param {ScriptEvent} event */
  row(event) {
    const { app } = this, { number, turn } = event, words = eventInWords(event);
    const goTo = app.linkTo(turn);
    Object.assign(goTo.dataset, { turn, name: `turn of ${number}` });
    const move = () => app.edits.edit(`alter ${number} ${app.view.timeline.cursor} ${event.text}`);
    /** @param {string} text @param {string} what @param {() => void} onclick */
    const button = (text, what, onclick) => make("button", {
      type: "button", class: "link", title: what, "data-name": `${text} ${number}`, onclick,
      "aria-label": `${what}: event ${number}, ${words}`,
    }, text);
    const cut = words.length > MOST_TEXT ? `${words.slice(0, MOST_TEXT)} ..` : words;
    return [goTo, cut, make("span", {}, button("move here", "Move to the cursor's turn", move), " ",
      button("take out", "Take out", () => this.drop(event)))];
  }
}
