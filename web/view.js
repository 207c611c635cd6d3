// Where one looks: the timeline with its cursor, the place in the page's address, and what follows
// when they move.

import { Minimap } from "./minimap.js";
import { showExamples } from "./names.js";
import { delayed, element, field } from "./page.js";
import { Path } from "./path.js";
import { keepPlace } from "./place.js";
import { firstOf } from "./questions.js";
import { registersOf } from "./replies.js";
import { Priority } from "./run.js";
import { Sight } from "./sight.js";
import { Timeline } from "./timeline.js";
import { Tips } from "./tips.js";

const FEWEST_TURNS = 16;
// A machine that halts runs in less than this part of the turns in sight: then it is shown alone.
const SMALL_PART = 1 / 4;
// The place is put into the address once the pointer or a key has rested so long.
const PAUSE = 300;

/**
 * @typedef {import("./place.js").Place} Place
 */

export class PageView {
  /** @param {import("./app.js").App} app */
  constructor(app) {
    this.app = app;
    this.timeline = new Timeline(element("timeline"), this.listener());
    this.tips = new Tips(element("tip"), this.timeline, app);
    this.minimap = new Minimap(element("minimap"), this.timeline);
    this.path = new Path(this.timeline);
    const table = /** @type {HTMLDetailsElement} */ (element("sight"));
    this.sight = new Sight(table, this.timeline, app);
    this.keepPlaceLater = delayed(PAUSE, () => keepPlace(this.place(), false));
  }

  /** What the page does as the timeline is touched.
      @returns {import("./timeline.js").Listener} */
  listener() {
    const { app } = this;
    return {
      onCursor: () => this.cursorWent(), onView: () => this.viewMoved(),
      onDrag: (event, turn) => {
        this.tips.hide();
        app.edits.preview(event, turn);
      },
      onDrop: (event, turn) => app.edits.drop(event, turn),
      onDraw: () => app.tasks.add(1), onDrawn: () => this.drawn(),
      onOpen: event => app.edits.openEvent(event),
      onDelete: event => app.events.drop(event), onList: turn => app.events.open(turn),
      onKey: key => this.keyAct(key), turnAt: (x, y) => this.tips.turnAt(x, y),
    };
  }

  /** What a key at the timeline does. Returns whether it does something.
      @param {string} key */
  keyAct(key) {
    if (key !== " ") return this.tips.act(key);
    this.app.play.toggle();
    return true;
  }

  // What the page tells its parts

  sessionBegins() {
    const { symbols, end } = this.app.session;
    this.timeline.symbols = symbols;
    this.timeline.whole = end;
    showExamples(symbols);
  }

  pastChanged() {
    const { timeline } = this, { run, old, base, story } = this.app.session;
    timeline.picture = null;
    this.minimap.forget();
    timeline.showPasts(run.past, old ? base.past : run.past);
    timeline.wanted = run.ledger.changes.length ? 0 : story?.target?.event ?? 0;
    timeline.draw();
  }

  /** The timeline was drawn, which was work under way: what shows it otherwise follows. */
  drawn() {
    this.sight.showLater();
    this.minimap.draw();
    this.path.draw();
    this.app.notes.draw();
    this.app.matters.draw();
    this.app.tasks.add(-1);
  }

  // Turns

  /** Shows a session from its beginning, or where its story is. */
  showBeginning() {
    const { timeline } = this, { end, story } = this.app.session, turns = story?.turns;
    timeline.ghost = null;
    if (turns) timeline.show(turns.first, turns.span);
    else timeline.show(0, Math.max(FEWEST_TURNS, end));
    timeline.setCursor(turns?.cursor ?? 0, { isTold: false });
  }

  /** Shows the turns up to which the machine runs, if it halts so early that they have few pixels,
      and the user hasn't gone elsewhere by then. */
  showRunning() {
    const { app, timeline: { view } } = this, { run, end, story } = app.session;
    const { first, span } = view, token = app.token("beginning");
    const priority = run.isNear(end) ? Priority.CURSOR : Priority.COMPARISON;
    /** @param {number} turn */
    const isHalted = async turn =>
      registersOf(await run.askOne(`regs ${turn}`, priority, token)).state === "halted";
    return app.attempt(async () => {
      if (story?.turns || !await isHalted(end)) return;
      // after the last event it halts for good
      const high = await firstOf(run.past.script.at(-1)?.turn ?? 0, end, isHalted);
      const isThere = view.first === first && view.span === span && high < span * SMALL_PART;
      if (isThere) this.timeline.show(0, Math.max(FEWEST_TURNS, high * 1.1));
    });
  }

  /** The run is shown at least up to this turn.
      @param {number} turn */
  reach(turn) {
    const { session } = this.app;
    session.end = Math.max(session.end, turn);
    this.timeline.whole = session.end;
  }

  /** The cursor was put at another turn by the pointer or a key. */
  cursorWent() {
    this.showTurn();
    this.app.tell("cursorMoved");
    this.keepPlaceLater();
  }

  tabOpened() {
    this.sight.show();
  }

  /** Other turns are in sight. */
  viewMoved() {
    if (!this.app.isOpen) return;
    this.app.pictures.drawLater();
    this.keepPlaceLater();
  }

  showTurn() {
    field("turn").value = String(this.timeline.cursor);
  }

  // Places

  /** Goes to a turn, and to an address in memory, as a place to come back from.
      @param {number} turn @param {number | null} address */
  goTo(turn, address = null) {
    keepPlace(this.place(), false);
    if (address !== null) this.showAddress(address);
    this.timeline.setCursor(turn, { isTold: false });
    this.showTurn();
    keepPlace(this.place(), true);
    this.app.tell("cursorMoved");
  }

  /** @returns {Place} */
  place() {
    const { cursor, view } = this.timeline, { panels: { address }, dock } = this.app;
    return { turn: cursor, first: view.first, span: view.span, core: address, tab: dock.named };
  }

  /** Goes to the place that the address names.
      @param {Partial<Place>} place */
  goToPlace({ turn, first, span, core, tab }) {
    this.app.dock.open(tab);
    if (core !== undefined) this.showAddress(core);
    const keepsView = span !== undefined;
    if (keepsView) this.timeline.show(first ?? 0, span);
    if (turn !== undefined) this.timeline.setCursor(turn, { isTold: false, keepsView });
    this.showTurn();
    this.app.tell("cursorMoved");
  }

  /** @param {number} address */
  showAddress(address) {
    const { panels } = this.app;
    panels.address = address & ~1;
    field("address").value = panels.address.toString(8);
  }

  /** Work was stopped: the cursor goes back to the turn that is shown. */
  stopped() {
    const { app } = this, { turn } = app.panels;
    if (turn === null || !app.isOpen) return;
    this.timeline.setCursor(turn, { isTold: false });
    this.showTurn();
    app.panels.want(app.session.run, this.timeline.cursor);
    this.keepPlaceLater();
  }
}
