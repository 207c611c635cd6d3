// The page: the session that is open, its edits, where one looks, and the other parts. Each part is
// told what it must know.

import { Calls } from "./calls.js";
import { ChosenByte } from "./chosen-byte.js";
import { Console } from "./console.js";
import { CursorPanels } from "./cursor.js";
import { Dock } from "./dock.js";
import { Drives } from "./drives.js";
import { Edits } from "./edits.js";
import { EventList } from "./events.js";
import { Examples } from "./examples.js";
import { Finder } from "./find.js";
import { Follow } from "./follow.js";
import { FrontPanel } from "./front-panel.js";
import { Inspect } from "./inspect.js";
import { Linking } from "./linking.js";
import { Listings } from "./listings.js";
import { Lost } from "./lost.js";
import { MattersPanel } from "./matters.js";
import { Notes } from "./notes.js";
import { Opening } from "./opening.js";
import { link } from "./page.js";
import { NamedPasts } from "./pasts.js";
import { Pictures } from "./pictures.js";
import { Play } from "./play.js";
import { Reasons } from "./reasons.js";
import { AskError, mustBeTaken } from "./replies.js";
import { Priority } from "./run.js";
import { Stepping } from "./stepping.js";
import { StoryPanel } from "./story.js";
import { Sweep } from "./sweep.js";
import { Tasks } from "./tasks.js";
import { ConsoleText } from "./text.js";
import { TurnPanel } from "./turn.js";
import { PageView } from "./view.js";
import { Watched } from "./watched.js";
import { WorkBar } from "./work.js";

/**
 * A part of the page. It is told of these, as far as it has a method for them:
 * - `sessionEnds`: another session will be opened, and the one that is open is still there;
 * - `sessionBegins`: another session is open, and its kept edits aren't made again yet;
 * - `pastChanged`: an edit was made, and the past is told; also after a session is opened;
 * - `cursorMoved`: the cursor is before another turn, or memory is shown from another address;
 * - `tabOpened`: another tab is open, and what it has is seen;
 * - `stopped`: the user has stopped the machine's work.
 * One that has `look` is told by that of the past, the cursor or the tab, if it has no method of
 * its own for it: it shows what is seen now.
 * @typedef {{sessionEnds?: () => void, sessionBegins?: () => void, pastChanged?: () => void,
 *   cursorMoved?: () => void, tabOpened?: () => void, stopped?: () => void,
 *   look?: () => void}} Part
 * @typedef {import("./opened.js").OpenSession} OpenSession
 */

export class App {
  constructor() {
    this.bar = new WorkBar();
    this.tasks = new Tasks();
    /** @type {OpenSession | null} */
    this.opened = null;
    this.dock = new Dock(this);
    this.opening = new Opening(this);
    this.edits = new Edits(this);
    this.view = new PageView(this);
    this.panels = new CursorPanels(this);
    this.watched = new Watched(this);
    this.turn = new TurnPanel(this);
    this.pictures = new Pictures(this);
    this.pasts = new NamedPasts(this);
    this.text = new ConsoleText(this);
    this.console = new Console(this);
    this.events = new EventList(this);
    this.sweep = new Sweep(this);
    this.story = new StoryPanel(this);
    this.notes = new Notes(this);
    this.finder = new Finder(this);
    this.stepping = new Stepping(this);
    this.play = new Play(this);
    this.inspect = new Inspect(this);
    this.reasons = new Reasons(this);
    this.follow = new Follow(this);
    this.lost = new Lost(this);
    this.matters = new MattersPanel(this);
    this.chosenByte = new ChosenByte(this);
    this.calls = new Calls(this);
    this.listings = new Listings(this);
    this.front = new FrontPanel(this);
    this.examples = new Examples(this);
    this.drives = new Drives(this);
    this.linking = new Linking(this);
    this.parts = this.inOrder();
  }

  /** The parts in the order in which they are told: what is asked first is shown first.
      @returns {Part[]} */
  inOrder() {
    return [
      this.view, this.story, this.watched, this.edits, this.events, this.sweep, this.console,
      this.pictures, this.text, this.chosenByte, this.panels, this.turn, this.inspect,
      this.reasons, this.follow, this.matters, this.lost, this.calls, this.listings, this.notes,
      this.pasts, this.linking, this.front, this.drives, this.play,
    ];
  }

  /** The session that is open. */
  get session() {
    if (!this.opened) throw new Error("no session is open yet");
    return this.opened;
  }

  /** Whether a session is open: none is until the first one is loaded. */
  get isOpen() {
    return this.opened !== null;
  }

  /** Tells the parts.
      @param {keyof Part} what */
  tell(what) {
    if (!this.opened) return;
    const isLook = ["pastChanged", "cursorMoved", "tabOpened"].includes(what);
    for (const it of this.parts) {
      if (it[what] || !isLook) it[what]?.();
      else it.look?.();
    }
  }

  /** Takes another session in the place of the one that is open.
      @param {OpenSession} session */
  begin(session) {
    this.tell("sessionEnds");
    this.tasks.giveUp();
    this.opened?.close();
    this.opened = session;
    this.tell("sessionBegins");
  }

  /** The past has changed: it and all that is shown is asked anew. */
  async changed() {
    const { session } = this;
    await session.run.askPast();
    if (session === this.opened) this.tell("pastChanged");
  }

  /** Stops the machine's work. The edits are kept. */
  stop() {
    return this.attempt(async () => {
      this.opening.stop();
      this.tasks.giveUp();
      this.opened?.stop();
      this.say("Stopped. The edits are kept.");
      this.tell("stopped");
    });
  }

  // What parts do by the page

  /** A token for work of a kind: what was under way of this kind is given up.
      @param {string} kind */
  token(kind) {
    return this.tasks.token(kind);
  }

  /**
   * Does work, and shows why it failed, unless it was given up, or `complain` says it.
   * @param {() => Promise<void>} work @param {(error: any) => boolean} [complain]
   */
  attempt(work, complain) {
    return this.tasks.attempt(work, complain);
  }

  /** Does what the user asks for; `say` says what is wrong with that, if anything is.
      @param {() => Promise<void>} work @param {(text: string) => void} say */
  answer(work, say) {
    return this.attempt(work, error => {
      if (error instanceof AskError) say(`${error.message}.`);
      return error instanceof AskError;
    });
  }

  /** What asks a machine, and fails at a refusal, until newer work of this kind begins.
      @param {string} kind @returns {import("./cursor.js").Ask} */
  asker(kind, run = this.session.run) {
    const token = this.token(kind);
    return async lines => (await run.ask(lines, Priority.QUESTION, token)).map(mustBeTaken);
  }

  /** @param {string} text */
  say(text) {
    this.tasks.say(text);
  }

  /** What goes to a turn, with a text, its number if none is given.
      @param {number} turn */
  linkTo(turn, text = String(turn)) {
    return link(text, `Go to turn ${turn}`, () => this.goTo(turn));
  }

  /** Goes to a turn, and to an address in memory, as a place to come back from.
      @param {number} turn @param {number | null} [address] */
  goTo(turn, address) {
    this.view.goTo(turn, address);
  }
}
