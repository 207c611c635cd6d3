// The pictures that the timeline draws: they are asked of the run, and of the old past, for the
// turns in sight, and what of them is sampled is said.

import { NOTHING_SAMPLED, sampledIn } from "./sampled.js";
import { delayed, element } from "./page.js";
import { PictureMaker } from "./picture.js";
import { LAST_TURN } from "./replies.js";

// A picture is asked once what is in sight has rested so long.
const PAUSE = 60;
const FEWEST_COLUMNS = 64;
const ASKED = "The machine is asked: what is hatched isn't known yet.";
const STOPPED = "Stopped: what is hatched wasn't asked.";

/**
 * @typedef {import("./picture.js").Picture} Picture
 */

export class Pictures {
  /** @param {import("./app.js").App} app */
  constructor(app) {
    this.app = app;
    /** Whether the picture in sight is being asked. */
    this.isAsked = false;
    /** Whether one is to be asked. */
    this.isDelayed = false;
    this.drawDelayed = delayed(PAUSE, () => {
      app.tasks.add(-1);
      this.isDelayed = false;
      this.draw();
    });
  }

  pastChanged() {
    this.draw();
  }

  stopped() {
    this.showSampled(STOPPED);
  }

  /** Draws the turns in sight once they have rested. */
  drawLater() {
    if (!this.isDelayed) this.app.tasks.add(1);
    this.isDelayed = true;
    this.drawDelayed();
  }

  /** Asks for what is in sight, and draws it. */
  draw() {
    const { app } = this, { session: { run, old, oldIsLoaded } } = app, wanted = this.wanted();
    const token = app.token("picture");
    this.isAsked = true;
    this.showSampled();
    app.attempt(async () => {
      const { sampledVectors } =
        await new PictureMaker(run, wanted, token, it => this.show(it, "picture")).make();
      if (!old) return;
      await oldIsLoaded;
      // what is sampled of one past is so of the other: otherwise they would seem to differ
      const likewise = { ...wanted, listed: sampledVectors };
      await new PictureMaker(old, likewise, token, it => this.show(it, "ghost")).make();
    });
  }

  /** The turns and words that are drawn.
      @returns {import("./picture.js").Wanted} */
  wanted() {
    const { view: { timeline: { view } }, watched: { words } } = this.app;
    const first = Math.max(0, Math.floor(view.first));
    const end = Math.min(LAST_TURN, Math.max(first + 1, Math.ceil(view.end)));
    return { first, end, columns: Math.max(FEWEST_COLUMNS, Math.round(view.width)), words };
  }

  /** Shows a picture. One of other turns, if there is one, stays until this one is made.
      @param {Picture} picture @param {"picture" | "ghost"} place */
  show(picture, place) {
    const { timeline, minimap } = this.app.view;
    if (picture.isMade || !timeline[place]?.isMade) timeline[place] = picture;
    if (picture.isMade && place === "picture") minimap.note(picture);
    timeline.draw();
    if (place === "picture") this.isAsked = !picture.isMade;
    this.showSampled();
  }

  /** What of the picture is sampled, and what isn't known. */
  showSampled(unknown = ASKED) {
    const { picture, ghost } = this.app.view.timeline;
    const sampled = picture?.isMade ? sampledIn(picture, ghost) : [];
    const notes = this.isAsked ? [unknown, ...sampled.filter(it => it !== NOTHING_SAMPLED)]
      : sampled;
    this.say(notes.join(" "));
  }

  /** @param {string} text */
  say(text) {
    element("sampled").textContent = text;
  }
}
