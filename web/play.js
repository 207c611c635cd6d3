// Play: the cursor goes on through the turns at a chosen rate, and all that is shown goes with it.
// A pause is the cursor. Turns are left out if what is shown takes longer than they do.

import { choice, element } from "./page.js";

// The cursor moves so often at most; and what isn't of the registers is waited for so long.
const [BEAT, LONGEST] = [50, 1_000];

/** @param {number} time */
const rest = time => new Promise(resolve => setTimeout(resolve, time));

export class Play {
  /** @param {import("./app.js").App} app */
  constructor(app) {
    this.app = app;
    /** Whether it plays: what tells one time of playing from the next. */
    this.playing = 0;
    this.count = 0;
    /** The turn at which it put the cursor. */
    this.turn = -1;
    element("play").addEventListener("click", () => this.toggle());
  }

  sessionEnds() {
    this.pause();
  }

  stopped() {
    this.pause();
  }

  /** Who moves the cursor wants to look there. */
  cursorMoved() {
    if (this.app.view.timeline.cursor !== this.turn) this.pause();
  }

  toggle() {
    if (this.playing) this.pause();
    else this.begin();
  }

  pause() {
    this.playing = 0;
    this.show();
  }

  show() {
    const button = element("play"), isPlaying = this.playing > 0;
    button.textContent = isPlaying ? "\u23f8 Pause" : "\u25b6 Play";
    button.ariaPressed = String(isPlaying);
  }

  async begin() {
    const { app, app: { view: { timeline } } } = this, playing = ++this.count;
    this.playing = playing;
    this.show();
    let [at, before] = [timeline.cursor, performance.now()];
    while (this.playing === playing) {
      await rest(BEAT);
      const now = performance.now(), { end } = app.session;
      at += (now - before) / 1000 * Number(choice("play-rate").value);
      before = now;
      if (this.playing === playing && Math.floor(at) > timeline.cursor) await this.go(at, end);
      if (at >= end && this.playing === playing) this.pause();
    }
  }

  /** Goes to a turn, and waits until the machine before it is shown.
      @param {number} at @param {number} end */
  async go(at, end) {
    const { app } = this, { playing } = this;
    this.turn = Math.max(app.view.timeline.cursor, Math.min(end, Math.floor(at)));
    app.view.timeline.setCursor(this.turn);
    while (this.playing === playing && app.panels.turn !== this.turn) await rest(BEAT / 2);
    const most = performance.now() + LONGEST;
    while (this.playing === playing && app.tasks.count && performance.now() < most) {
      await rest(BEAT / 5);
    }
  }
}
