// The panel that says why a word, a register or a printed byte is so, with a path over the
// timeline: what it is made of, not what would be otherwise.

import { MadeQuestion } from "./accounts.js";
import { markTurn, stateOf } from "./cursor.js";
import { madeNamed } from "./made.js";
import { element, field, make, onSubmit } from "./page.js";

/**
 * What is shown of a question, and the turn before which it is.
 * @typedef {{turn: number, inside: HTMLElement[], path: import("./path.js").PathStep[]}} Answer
 * @typedef {import("./run.js").Run} Run
 */

export class Reasons {
  /** @param {import("./app.js").App} app */
  constructor(app) {
    this.app = app;
    /** @type {MadeQuestion | null} what is asked, before a turn */
    this.question = null;
    this.turn = 0;
    /** @type {import("./cursor.js").Shown | undefined} */
    this.shown = undefined;
    onSubmit("why-form", () => this.askNamed(field("why-word").value.trim()));
    element("why-none").addEventListener("click", () => this.forget());
    element("why-matters").addEventListener("click", () =>
      this.question && app.matters.ask(this.question.line(this.turn)));
  }

  /** @param {string} name */
  askNamed(name) {
    const { app } = this;
    return this.attempt(() =>
      this.show(new MadeQuestion(app, madeNamed(name) ?? app.finder.wordOf(name))));
  }

  /** Why something is so before a turn, that of the cursor if none is given; the panel is brought
      into sight.
      @param {import("./made.js").MadeThing} thing @param {number} [turn] */
  ask(thing, turn) {
    this.app.dock.bring("why-panel");
    return this.attempt(() => this.show(new MadeQuestion(this.app, thing), turn));
  }

  /** Why something was so in the old past, before a turn.
      @param {import("./made.js").MadeThing} thing @param {number} turn */
  askOld(thing, turn) {
    const { app } = this, { old: run, oldIsLoaded, base: { past } } = app.session;
    if (!run) return undefined;
    const token = app.token("why");
    app.dock.bring("why-panel");
    return this.attempt(async () => {
      await oldIsLoaded;
      if (!token.isStopped) await this.show(new MadeQuestion(app, thing, { run, past }), turn);
    });
  }

  /** Does work, and says what is wrong with what was asked.
      @param {() => Promise<void>} work */
  attempt(work) {
    return this.app.answer(work, why => element("reasons").replaceChildren(why));
  }

  sessionBegins() {
    this.forget();
  }

  /** The path is no longer wanted. */
  forget() {
    this.app.token("why");
    this.question = null;
    this.shown = undefined;
    this.app.view.path.show([], this);
    element("reasons").replaceChildren();
    element("why-turn").textContent = "";
    element("why-none").hidden = element("why-matters").hidden = true;
  }

  /** The past has changed: what is shown is asked again, before the same turn. The old past has
      changed only if it is another one. */
  pastChanged() {
    const { question, turn } = this;
    if (question?.old && question.run !== this.app.session.old) this.forget();
    else if (question && !question.old) this.attempt(() => this.show(question.anew(), turn));
  }

  /** The machine was stopped. */
  stopped() {
    const work = document.querySelector("#reasons .at-work");
    if (work) work.textContent = "Stopped: it isn't known why.";
  }

  /** Shows the answer to a question before a turn, at first that of the cursor.
      @param {MadeQuestion} question */
  async show(question, turn = this.app.view.timeline.cursor) {
    const { app } = this, { run, old } = question, ask = app.asker("why", run);
    this.question = question;
    this.turn = turn;
    field("why-word").value = question.name;
    this.mark(run);
    element("reasons").replaceChildren(make("p", { class: "faint at-work" }, "Looking back .."));
    const answer = await question.answer(ask, turn);
    this.turn = answer.turn;
    this.shown = { ...stateOf(run, answer.turn), more: old ? `, ${app.pasts.inWords()}` : "" };
    element("reasons").replaceChildren(...answer.inside);
    app.view.path.show(answer.path, this);
    element("why-none").hidden = false;
    element("why-matters").hidden = old !== null;
    this.mark(run);
  }

  /** @param {Run} run */
  mark(run) {
    markTurn(element("why-turn"), this.shown, stateOf(run, this.turn));
  }
}
