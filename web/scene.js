// What the timeline draws: the turns in sight, the pictures of the past as it is now and of the old
// one, and where these differ. The page's parts set it.

import { View } from "./lanes.js";
import { Past, differenceOf, eventsIn } from "./past.js";

/**
 * @typedef {import("./past.js").ScriptEvent} ScriptEvent
 * @typedef {import("./picture.js").Picture} Picture
 * @typedef {import("./session.js").Symbols} Symbols
 * @typedef {import("./lanes.js").Part} Part
 * @typedef {import("./lanes.js").SweepRuns} SweepRuns
 * @typedef {import("./lanes.js").Target & {event: number, tick: number}} Target
 */

export class Scene {
  constructor() {
    this.view = new View(0, 1000);
    /** Up to which turn the run is shown. */
    this.whole = 1000;
    this.cursor = 0;
    /** @type {Picture | null} */
    this.picture = null;
    /** @type {Picture | null} the old past's */
    this.ghost = null;
    /** @type {Part | null} */
    this.part = null;
    /** @type {number | null} from which turn on the old past and the new one are the same */
    this.same = null;
    this.past = this.oldPast = new Past();
    /** @type {ScriptEvent[]} the old past's that aren't there now */
    this.gone = [];
    /** @type {SweepRuns | null} */
    this.sweep = null;
    /** @type {import("./lanes.js").Nearest[] | null} the nearest moves that change an answer */
    this.matters = null;
    /** The number of the event that is to be moved, or 0. */
    this.wanted = 0;
    /** @type {Target | null} where that event is to be dropped */
    this.target = null;
    /** @type {Partial<Symbols>} */
    this.symbols = {};
    /** @type {{name: string, label: string}[]} */
    this.words = [];
  }

  /** Shows the events of a past, and those of an old one that are gone.
      @param {Past} past @param {Past} oldPast */
  showPasts(past, oldPast) {
    this.past = past;
    this.oldPast = oldPast;
    this.gone = differenceOf(oldPast.script, past.script).gone;
  }

  /** The lanes of what was tried.
      @returns {("sweep" | "matters")[]} */
  get tried() {
    return [...this.sweep ? [/** @type {const} */ ("sweep")] : [],
      ...this.matters ? [/** @type {const} */ ("matters")] : []];
  }

  /** @param {ScriptEvent[]} script */
  eventsInSight(script) {
    return eventsIn(script, this.view.first, this.view.end);
  }

  /** What is drawn, by those who show it otherwise.
      @returns {import("./sight.js").Drawn} */
  drawn() {
    const { view, picture, ghost, part, same } = this;
    return {
      first: view.first, end: view.end, events: this.eventsInSight(this.past.script),
      gone: this.eventsInSight(this.gone), picture, ghost, part, same,
    };
  }
}
