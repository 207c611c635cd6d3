// Pasts that the user gave names: with one of them the past as it is now is compared, and each can
// be gone to.

import { Comparison } from "./comparison.js";
import { Differences } from "./differences.js";
import { sameFrom } from "./fades.js";
import { Stopped } from "./machine.js";
import { button, choice, element, make } from "./page.js";
import { Past } from "./past.js";
import { visibleName } from "./replies.js";
import { storePasts, storedPasts } from "./stored.js";

const LONGEST_NAME = 40;
// The past that was left for another one, if it had no name.
const LEFT = "what you left";

/**
 * A past with its name; `lines` are the edits that make it. The past of one that was stored isn't
 * loaded at first. `changes` are what the user did, and `end` is the turn up to which it was shown.
 * @typedef {{name: string, lines: string[], past: Past, isLoaded?: boolean, changes?: Changes,
 *   end?: number}} NamedPast
 * @typedef {import("./stored.js").Changes} Changes
 */

export class NamedPasts {
  /** @param {import("./app.js").App} app */
  constructor(app) {
    this.app = app;
    this.choice = choice("compared-with");
    this.choice.addEventListener("change", () => this.choose());
    this.differences = new Differences(element("difference"), app);
    /** @type {NamedPast[]} the first is the session as it was opened */
    this.kept = [];
    /** @type {(() => Promise<void>) | null} what is left to be compared */
    this.rest = null;
    element("past-go").addEventListener("click", () => this.go());
    element("past-forget").addEventListener("click", () => this.forget());
  }

  sessionBegins() {
    const { begun, contents } = this.app.session;
    const stored = storedPasts(contents).map(it => ({ ...it, past: new Past(), isLoaded: false }));
    this.kept = [begun, ...stored];
    this.show(0);
  }

  pastChanged() {
    this.compare();
  }

  tabOpened() {
    if (this.app.isOpen) this.app.attempt(() => this.showRest());
  }

  stopped() {
    this.rest = null;
    this.differences.showStopped();
  }

  /** Keeps the past as it is now under a name. One with this name is replaced.
      @param {string} name */
  keep(name) {
    const { app } = this, short = visibleName(name).slice(0, LONGEST_NAME);
    if (!short) return app.say("Give the past a name first.");
    return app.edits.inTurn(async () => {
      const { found, isCompared } = await this.keepAs(short);
      app.say(`Kept as ${short}: choose it to compare another past with it.`);
      if (isCompared) await this.compareWith(found);
    });
  }

  /** @param {string} name */
  async keepAs(name) {
    const { app } = this, { run } = app.session, { changes, end } = app.edits.kept();
    /** @type {NamedPast} */
    const found = { name, lines: run.ledger.lines, past: await run.askPast(), changes, end };
    const at = this.kept.findIndex((it, place) => place > 0 && it.name === name);
    if (at < 0) this.kept.push(found);
    else this.kept[at] = found;
    const isCompared = at > 0 && at === this.choice.selectedIndex;
    this.store();
    this.show(this.choice.selectedIndex);
    return { found, isCompared };
  }

  store() {
    storePasts(this.app.session.contents, this.kept.slice(1));
  }

  get chosen() {
    return this.kept[this.choice.selectedIndex];
  }

  /** The name of the past that is compared with, if that isn't the session as it was opened. */
  get compared() {
    return this.choice.selectedIndex > 0 ? this.chosen.name : undefined;
  }

  /** The past that is compared with, as it is stored, if it isn't the session as it was opened.
      @returns {import("./stored.js").StoredPast | undefined} */
  get comparedPast() {
    if (this.compared === undefined) return undefined;
    const { name, lines, changes = [], end = 0 } = this.chosen;
    return { name, lines, changes, end };
  }

  /** Chooses the past with this name, if it is still there.
      @param {string | undefined} name */
  restore(name) {
    const at = this.kept.findIndex((it, place) => place > 0 && it.name === name);
    if (at < 0) return undefined;
    this.choice.selectedIndex = at;
    return this.choose();
  }

  choose() {
    const { app, chosen } = this;
    return app.edits.inTurn(async () => {
      await this.load(chosen);
      await this.compareWith(chosen);
    });
  }

  /** Loads a past that was stored.
      @param {NamedPast} named */
  async load(named) {
    if (named.isLoaded !== false) return;
    const run = this.app.session.newRun();
    try {
      await run.takeUp(named.lines);
      named.past = await run.askPast();
      named.isLoaded = true;
    } finally {
      run.end();
    }
  }

  /** Makes the chosen past the present one. That which is left gets a name, if it has none. */
  go() {
    const { app, chosen } = this, { name, changes = [], end = 0 } = chosen;
    return app.attempt(async () => {
      await app.edits.last;
      const said = await this.keepLeft();
      const edits = { changes: structuredClone(changes), off: [], end, saved: null,
        notes: app.notes.kept() };
      await app.opening.open(app.session.contents, app.view.place(), edits);
      app.say(`This is the past ${name} now.${said}`);
    });
  }

  /** Keeps what is left, unless a past with a name is the same. Returns what is said of it. */
  async keepLeft() {
    /** @param {Changes} changes */
    const linesOf = changes => JSON.stringify(changes.map(it => it.map(({ line }) => line)));
    const { changes, off = [] } = this.app.edits.kept(), lines = linesOf(changes);
    const has = this.kept.some(it => linesOf(it.changes ?? []) === lines);
    if (has && !off.length) return "";
    await this.keepAs(LEFT);
    return ` The one before is kept as ${LEFT}.`;
  }

  /** Forgets the chosen past, which is no longer compared with. */
  forget() {
    const { app, chosen } = this;
    return app.edits.inTurn(async () => {
      this.kept = this.kept.filter(it => it !== chosen);
      this.store();
      this.show(0);
      await this.compareWith(this.kept[0]);
      this.choice.focus();
      app.say(`Forgotten: ${chosen.name}.`);
    });
  }

  /** Shows the names; `chosen` is the place of the past that is compared with.
      @param {number} chosen */
  show(chosen) {
    this.choice.replaceChildren(...this.kept.map(it => make("option", {}, it.name)));
    this.choice.selectedIndex = chosen;
    button("past-forget").disabled = chosen === 0;
    element("legend-old").textContent = this.inWords();
  }

  /** What the old past is, such as `before your edits`. */
  inWords() {
    return this.compared === undefined ? "before your edits" : `in ${this.compared}`;
  }

  // The old past

  /** Keeps the old past, on a machine of its own, and what is drawn of it: an edit follows. */
  keepOld() {
    const { session, view: { timeline } } = this.app;
    if (session.old) return;
    timeline.ghost = timeline.picture;
    this.loadOld();
  }

  loadOld() {
    const loaded = this.app.session.loadOld();
    if (loaded) this.app.attempt(() => loaded);
  }

  /** Takes another past as the old one.
      @param {NamedPast} base */
  compareWith(base) {
    const { app } = this, { session } = app;
    session.compareWith(base);
    app.view.timeline.ghost = null;
    if (session.isEdited) this.loadOld();
    app.text.forgetOld();
    this.show(this.kept.indexOf(base));
    return app.changed();
  }

  /** Compares the words of core and of the drives, once somebody looks at that. */
  async showRest() {
    const { rest } = this;
    if (!rest || !this.app.dock.isSeen("past")) return;
    this.rest = null;
    await rest();
  }

  /** Compares the past as it is now with the old one. */
  compare() {
    const { app, differences } = this, { session, view: { timeline } } = app;
    const { run, old, oldIsLoaded, end } = session, token = app.token("comparison");
    timeline.part = timeline.same = this.rest = null;
    if (!old || !session.isEdited) {
      differences.showNone();
      return;
    }
    differences.showAtWork();
    app.attempt(async () => {
      await oldIsLoaded;
      // by now the past may be another one, about which nothing needs to be asked
      if (token.isStopped) return;
      const comparison = new Comparison(run, old, token);
      try {
        timeline.same = await sameFrom(old, run.past, end, token);
        timeline.draw();
        timeline.part = await differences.show(comparison, end, timeline.same);
        timeline.draw();
        this.rest = () => differences.showWords(comparison, end);
        await this.showRest();
      } catch (error) {
        if (!(error instanceof Stopped)) differences.showStopped();
        throw error;
      }
    });
  }
}
