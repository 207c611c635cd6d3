// The panel of the calls that the machine stands in before the cursor's turn, the innermost first.
// It is asked while it is seen.

import { markTurn, stateOf } from "./cursor.js";
import { Facts, SPACES } from "./facts.js";
import { CHECKED_TURNS, Stacks } from "./levels.js";
import { element, make, table } from "./page.js";
import { octal } from "./replies.js";
import { symbolAt } from "./session.js";

/**
 * @typedef {import("./levels.js").Level} Level
 * @typedef {import("./page.js").Inside} Inside
 */

export class Calls {
  /** @param {import("./app.js").App} app */
  constructor(app) {
    this.app = app;
    this.panel = /** @type {HTMLDetailsElement} */ (element("calls"));
    /** @type {import("./cursor.js").State | undefined} */
    this.shown = undefined;
    this.panel.addEventListener("toggle", () => this.look());
  }

  look() {
    const { app } = this;
    if (!this.panel.open || !app.isOpen || !app.dock.isSeen("machine")) return;
    app.attempt(() => this.show());
  }

  async show() {
    const { app } = this, { run } = app.session, { cursor } = app.view.timeline;
    const wanted = stateOf(run, cursor);
    markTurn(element("calls-turn"), this.shown, wanted);
    const facts = new Facts(app.asker("calls"), run.past), stacks = new Stacks(facts);
    const levels = await stacks.levels(cursor), { pc, ps } = await facts.row(cursor);
    const rows = [this.rowOf(SPACES[ps >> 14] ?? "", pc, make("b", {}, "here"), ""),
      ...levels.map(it => this.level(it))];
    const notes = stacks.isCut ? ["There may be more: 256 words of a stack were looked at."] : [];
    if (!levels.length) notes.push("In no call that is found.");
    if (levels.some(it => it.doubt)) {
      notes.push(`Believed: if a routine was left is looked for in ${CHECKED_TURNS} turns, and `
        + "isn't known once SP was loaded, as when stacks are switched.");
    }
    element("call-list").replaceChildren(
      table("Calls, the innermost first", ["turn", "mode", "PC", "", "what called"], rows),
      ...notes.map(it => make("p", {}, it)));
    this.shown = wanted;
    markTurn(element("calls-turn"), this.shown, wanted);
  }

  /** @param {Level} level */
  level({ call: { turn, mode, pc, kind, routine, inside }, doubt }) {
    const go = this.app.linkTo(turn);
    const to = this.symbol(SPACES[inside] ?? "", routine);
    const name = `${kind} to ${octal(routine)}${to ? ` ${to}` : ""}`;
    return this.rowOf(SPACES[mode] ?? "", pc, go, doubt ? `${name} (believed: ${doubt})` : name);
  }

  /** @param {string} mode @param {number} pc @param {Inside} turn @param {string} what
      @returns {Inside[]} */
  rowOf(mode, pc, turn, what) {
    return [turn, mode, octal(pc), this.symbol(mode, pc), what];
  }

  /** @param {string} mode @param {number} address */
  symbol(mode, address) {
    return symbolAt(this.app.session.symbols, mode, address);
  }
}
