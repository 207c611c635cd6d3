// The panel that follows an event: what became of a key, or of the switches, with its path over the
// timeline.

import { accountOf } from "./accounts.js";
import { Followed } from "./followed.js";
import { Inquiry, numberIn } from "./inquiry.js";
import { element, field, make } from "./page.js";
import { eventInWords } from "./past.js";
import { AskError, LAST_TURN } from "./replies.js";

const FOLLOWED_TURNS = 10_000;

export class Follow extends Inquiry {
  /** @param {import("./app.js").App} app */
  constructor(app) {
    super(app, "follow");
    element("follow-none").addEventListener("click", () => this.forget());
  }

  /** @param {string} [text] */
  forget(text) {
    super.forget(text);
    this.showPath([]);
  }

  pastChanged() {
    super.pastChanged();
    this.showPath([]);
  }

  /** @param {import("./path.js").PathStep[]} steps */
  showPath(steps) {
    this.app.view.path.show(steps, this);
    element("follow-none").hidden = !steps.length;
  }

  /** Follows an event.
      @param {import("./past.js").ScriptEvent} event */
  ask(event) {
    this.app.dock.bring("follow-panel");
    field("follow-event").value = String(event.number);
    return this.begin();
  }

  /** The event that the form names. */
  chosen() {
    const event = this.event();
    if (/^(key|switches) /.test(event.text)) return event;
    throw new AskError(`Event ${event.number} is ${event.text}: it brings no data`);
  }

  /** The turn before which it ends: the cursor's if that comes after the event, and no later than
      so many turns after it, unless the form names one.
      @param {number} turn */
  endAfter(turn) {
    const { cursor } = this.app.view.timeline, most = Math.min(turn + FOLLOWED_TURNS, LAST_TURN);
    const end = numberIn("follow-to", "A turn", cursor > turn ? Math.min(cursor, most) : most);
    if (end <= turn) throw new AskError(`The event is in turn ${turn}: follow it to a later one`);
    return end;
  }

  /** @param {import("./facts.js").Facts} facts */
  async work(facts) {
    this.showPath([]);
    const event = this.chosen(), { turn, number } = event, end = this.endAfter(turn);
    const followed = new Followed(facts, event, field("follow-places").checked);
    const why = await this.walk(facts, turn, end, it => followed.turn(it));
    const { panels } = this.app;
    const { lines, ends } = await followed.written(it => panels.turnsInWords(facts.ask, it));
    const first = { turn, lane: "events", text:
      `turn ${turn}: event ${number}, ${eventInWords(event)}` };
    if (why) ends.push(`the turns from ${followed.end} on weren't looked at: ${why}`);
    this.found.append(accountOf(this.app, [first, ...lines], "What became of it"),
      ...ends.map(it => make("p", {}, it)));
    this.showPath([first, ...lines]);
    this.say(`Event ${number}, up to turn ${followed.end}:`);
  }
}
