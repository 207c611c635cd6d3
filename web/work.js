// The bar that says how far the machines at work are. It comes only for what takes a while, and
// stays while one question follows another.

import { element } from "./page.js";

const [UNTIL_SHOWN, UNTIL_HIDDEN] = [300, 200];

/** @typedef {{done: number, all: number, what: string}} Work */
export class WorkBar {
  constructor() {
    /** @type {Map<object, Work>} by a machine, what it is doing */
    this.works = new Map();
    this.timer = 0;
  }

  /** What a machine is doing, or null if it waits.
      @param {object} machine @param {Work | null} work */
  show(machine, work) {
    if (work) this.works.set(machine, work);
    else this.works.delete(machine);
    const place = element("work"), isAtWork = this.works.size > 0;
    if (place.hidden === !isAtWork) this.end();
    else this.timer ||= setTimeout(() => this.change(), isAtWork ? UNTIL_SHOWN : UNTIL_HIDDEN);
    if (!isAtWork) return;
    const [{ done, all, what }] = this.works.values();
    const bar = /** @type {HTMLProgressElement} */ (element("bar"));
    bar.value = all ? done / all : 0;
    element("work-text").textContent = `${done} of ${all} ${what}`;
  }

  end() {
    clearTimeout(this.timer);
    this.timer = 0;
  }

  change() {
    this.timer = 0;
    element("work").hidden = this.works.size === 0;
  }
}
