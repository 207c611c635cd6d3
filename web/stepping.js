// Steps over a call, out of a routine, and to an instruction. What a call is, and when it has
// returned, is as in the call stack.

import { Facts } from "./facts.js";
import { Stacks } from "./levels.js";
import { element } from "./page.js";
import { octal, turnOf, turnsOf } from "./replies.js";

/**
 * The cursor's turn, the last turn that is searched, and what asks lines; the turn to which a step
 * goes, and what is said of it.
 * @typedef {(lines: string[]) => Promise<string[]>} Ask
 * @typedef {{ask: Ask, cursor: number, end: number}} Turns
 * @typedef {{turn: number | null, said: string}} Step
 */

export class Stepping {
  /** @param {import("./app.js").App} app */
  constructor(app) {
    this.app = app;
  }

  /** Does a step, which returns the turn to which it goes, and what is said of it.
      @param {(turns: Turns) => Promise<Step>} work */
  step(work) {
    const { app } = this, ask = app.asker("find");
    const { cursor } = app.view.timeline;
    return app.attempt(async () => {
      const { end } = app.session;
      const { turn, said } = await work({ ask, cursor, end: Math.max(end, cursor + 1) });
      if (turn !== null) app.goTo(turn);
      element("step-said").textContent = said;
    });
  }

  over() {
    return this.step(turns => this.overFrom(turns));
  }

  out() {
    return this.step(turns => this.outFrom(turns));
  }

  /** On to the next turn with this PC, or back to the last one.
      @param {number} pc @param {string} mode @param {number} direction */
  runTo(pc, mode, direction) {
    const where = `at ${octal(pc)} ${mode}`;
    return this.step(async ({ ask, cursor, end }) => {
      const line = direction > 0 ? `first ${cursor + 1} ${end} ${where}`
        : `latest 0 ${cursor} ${where}`;
      const turn = turnOf((await ask([line]))[0]);
      const none = direction > 0 ? `up to turn ${end}` : "before";
      return { turn, said: turn === null ? `PC isn't ${octal(pc)} ${none}.` : "" };
    });
  }

  /** The text of what a turn did.
      @param {Ask} ask @param {number} turn */
  async instruction(ask, turn) {
    const trail = turnsOf((await ask([`trail ${turn + 1} 1`]))[0]);
    return (await this.app.panels.pastInstructions(ask, trail))[0].text.trim();
  }

  /** What finds calls and returns.
      @param {Ask} ask */
  stacks(ask) {
    return new Stacks(new Facts(ask, this.app.session.run.past));
  }

  /** One turn on; from a call to where its routine has been left.
      @param {Turns} turns @returns {Promise<Step>} */
  async overFrom({ ask, cursor, end }) {
    const stacks = this.stacks(ask), call = await stacks.call(cursor);
    if (!call) return { turn: cursor + 1, said: "" };
    const turn = await stacks.leftIn(call, cursor + 1, end);
    if (turn === null) return { turn, said: `It doesn't return up to turn ${end}.` };
    return { turn, said: `Turn ${turn}: ${call.kind} has returned.` };
  }

  /** On to where the routine of the innermost call has been left.
      @param {Turns} turns @returns {Promise<Step>} */
  async outFrom({ ask, cursor, end }) {
    const stacks = this.stacks(ask), [level] = await stacks.levels(cursor);
    if (!level) return { turn: null, said: `No call is found that turn ${cursor} stands in.` };
    const { call, doubt } = level, turn = await stacks.leftIn(call, cursor + 1, end);
    const believed = doubt ? ` That it is of turn ${call.turn} is believed: ${doubt}.` : "";
    if (turn === null) {
      return { turn, said: `${call.kind} doesn't return up to turn ${end}.${believed}` };
    }
    const text = await this.instruction(ask, turn - 1);
    return { turn, said: `Turn ${turn}: after ${text}, out of ${call.kind}.${believed}` };
  }
}
