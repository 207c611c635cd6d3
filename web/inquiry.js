// A panel with a question that takes a while: its form begins it, and a button ends it. What was
// found up to there is shown, and says of which past it is.

import { Facts } from "./facts.js";
import { Stopped } from "./machine.js";
import { element, field, onSubmit } from "./page.js";
import { AskError, LAST_TURN, TURNS_OF_A_TRAIL, mustBeTaken } from "./replies.js";
import { Priority } from "./run.js";
import { NotFollowed } from "./space.js";
import { Flows } from "./turn-flow.js";

/** How often it is said how far the work is, in milliseconds. */
export const TIME_BETWEEN = 250;

/**
 * @typedef {import("./cursor.js").Ask} Ask
 * @typedef {import("./run.js").Run} Run
 */

/** The number in a field; without a text there it is `usual`.
    @param {string} id @param {string} what @param {number} usual */
export function numberIn(id, what, usual, least = 0, most = LAST_TURN) {
  const text = field(id).value.trim(), number = text ? Number(text) : usual;
  if (/^\d{0,10}$/.test(text) && number >= least && number <= most) return number;
  throw new AskError(`${what} is a number from ${least} to ${most}`);
}

export class Inquiry {
  /** The elements of the panel have ids with its name: `-form`, `-stop`, `-said` and `-found`.
      @param {import("./app.js").App} app @param {string} name */
  constructor(app, name) {
    this.app = app;
    this.name = name;
    /** @type {import("./tasks.js").Token | null} that of the work under way */
    this.token = null;
    /** Whether the user ended the work: what was found is still shown. */
    this.isEnded = false;
    /** When it was said last how far the work is. */
    this.told = 0;
    onSubmit(`${name}-form`, () => this.begin());
    element(`${name}-stop`).addEventListener("click", () => { this.isEnded = true; });
  }

  sessionBegins() {
    this.forget();
  }

  /** The past has changed: what was found is of the one before. */
  pastChanged() {
    if (this.token) this.forget();
    else if (this.hasFound) this.say("Of the past before the last edit:");
  }

  /** Whether something was found that is shown. */
  get hasFound() {
    return this.found.hasChildNodes();
  }

  stopped() {
    if (this.token) this.forget("Stopped.");
  }

  /** Nothing is asked, and nothing was found. */
  forget(text = "") {
    this.app.token(this.name);
    this.token = null;
    this.found.replaceChildren();
    this.say(text);
  }

  get found() {
    return element(`${this.name}-found`);
  }

  /** @param {string} text */
  say(text) {
    element(`${this.name}-said`).textContent = text;
  }

  /** Says how far the work is, unless it said so just now.
      @param {() => string} text */
  tell(text) {
    const now = performance.now();
    if (now - this.told < TIME_BETWEEN) return;
    this.told = now;
    this.say(text());
  }

  /** What it does once its form is sent; `ask` asks the machine, of the past as it is now.
      @param {Facts} _facts @returns {Promise<void>} */
  async work(_facts) {}

  /** What the form's field of an event has. */
  get named() {
    return field(`${this.name}-event`).value.trim();
  }

  /** The event that the form names. */
  event() {
    const event = this.app.session.run.past.eventNamed(this.named);
    if (!event) throw new AskError("No event has this number");
    return event;
  }

  /** The first and the last turn that the form names, or these.
      @param {number} usualFirst @param {number} usualLast @returns {[number, number]} */
  turns(usualFirst, usualLast) {
    const first = numberIn(`${this.name}-from`, "A turn", usualFirst);
    const last = numberIn(`${this.name}-to`, "A turn", Math.max(usualLast, first + 1));
    if (last < first) throw new AskError("Give two turns, the first one first");
    return [first, last];
  }

  begin() {
    const { app, name } = this, { run } = app.session, token = app.token(name);
    this.isEnded = false;
    this.found.replaceChildren();
    this.say("Looking ..");
    this.token = token;
    return app.answer(async () => {
      try {
        await app.edits.last;
        await this.work(new Facts(asker(run, token), run.past));
      } catch (error) {
        // the past is another one, which is told soon
        if (error instanceof Stopped && this.token === token) this.forget();
        throw error;
      } finally {
        if (this.token === token) this.token = null;
      }
    }, why => this.say(why));
  }

  /** Takes the flows of turns one after the other. Returns why it ended before the last one, or an
      empty text.
      @param {Facts} facts @param {number} first @param {number} end
      @param {(flow: import("./turn-flow.js").Flow) => unknown} take */
  async walk(facts, first, end, take) {
    const flows = new Flows(facts);
    try {
      for (let from = first; from < end; from += TURNS_OF_A_TRAIL) {
        if (this.isEnded) return "stopped";
        this.tell(() => `Looking: ${from - first} of ${end - first} turns ..`);
        await flows.walk(from, Math.min(end, from + TURNS_OF_A_TRAIL), take);
      }
    } catch (error) {
      if (error instanceof NotFollowed) return error.message;
      throw error;
    }
    return "";
  }
}

/** What asks a machine as long as its past stays, and refuses a refusal.
    @param {Run} run @param {import("./tasks.js").Token} token @returns {Ask} */
function asker(run, token) {
  const { pasts } = run.ledger;
  return async lines => {
    const replies = await run.ask(lines, Priority.QUESTION, token);
    if (run.ledger.pasts !== pasts) throw new Stopped();
    return replies.map(mustBeTaken);
  };
}
