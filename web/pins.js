// Buttons that stand at turns over the timeline: a click on one goes to its turn.

import { List } from "./lists.js";
import { element, keepChildren, make } from "./page.js";

/**
 * A pin at a turn: what it shows, what it says, and its class.
 * @typedef {{turn: number, text: string, said: string, kind: string}} Pin
 */

export class Pins {
  /** @param {import("./app.js").App} app @param {string} id */
  constructor(app, id) {
    this.app = app;
    this.place = element(id);
    this.list = new List(this.place);
    // the timeline would take the pointer
    this.place.addEventListener("pointerdown", event => event.stopPropagation());
    this.place.addEventListener("click", ({ target }) => {
      const turn = target instanceof HTMLElement ? target.dataset.turn : undefined;
      if (turn) app.goTo(Number(turn));
    });
  }

  /** Shows those in sight, if they aren't too many. `put` is told of each, if it is given.
      @param {Pin[]} pins @param {(pin: HTMLElement) => void} [put] */
  show(pins, most = Infinity, put = () => {}) {
    const { view } = this.app.view.timeline;
    const seen = pins.filter(({ turn }) => turn >= view.first && turn <= view.end);
    const made = (seen.length > most ? [] : seen).map(({ turn, text, said, kind }) => {
      const pin = make("button", { type: "button", class: kind, title: said, "aria-label": said,
        "data-turn": turn }, text);
      pin.style.left = `${view.x(turn)}px`;
      put(pin);
      return pin;
    });
    this.list.settle(made);
    keepChildren(this.place, made);
  }
}
