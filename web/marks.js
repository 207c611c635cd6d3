// The marks of events on the timeline: one for each event, or for those near one another, and grey
// ones of the old past's events that are gone.

import { MARK_ROWS, clusterInWords, clustersOf } from "./clusters.js";
import { List } from "./lists.js";
import { keepChildren } from "./page.js";
import { eventInWords, eventLabel } from "./past.js";

/** About how many pixels a mark has from left to right.
    @param {HTMLElement} mark */
const wideOf = mark => 9 + 8 * (mark.textContent ?? "").length;

/**
 * @typedef {import("./past.js").ScriptEvent} ScriptEvent
 * @typedef {import("./clusters.js").Cluster} Cluster
 */

export class Marks {
  /** @param {HTMLElement} place @param {import("./timeline.js").Timeline} timeline */
  constructor(place, timeline) {
    this.place = place;
    this.timeline = timeline;
    this.list = new List(place);
  }

  /** The number of the event whose mark has the focus, or null. */
  get focused() {
    const { activeElement: it } = document;
    if (!(it instanceof HTMLElement) || !this.place.contains(it)) return null;
    return it.dataset.event ? Number(it.dataset.event) : null;
  }

  /** The marks that are shown. */
  shown() {
    return /** @type {HTMLElement[]} */ ([...this.place.children]);
  }

  /** Shows a mark for each of the events in sight.
      @param {ScriptEvent[]} seen */
  show(seen) {
    if (this.timeline.dragged) {
      for (const it of this.shown()) this.put(it, Number(it.dataset.turn));
      return;
    }
    const { focused } = this;
    // the grey ones lie below the others
    const ends = new Array(MARK_ROWS).fill(-Infinity);
    const events = this.eventMarks(seen), marks = [...this.ghostMarks(), ...events];
    this.list.settle(events);
    const inOrder = [...marks].sort((a, b) => Number(a.dataset.turn) - Number(b.dataset.turn));
    for (const it of inOrder) this.putIntoRow(it, ends);
    keepChildren(this.place, marks);
    if (focused !== null) this.focusOn(focused);
  }

  /** Puts the focus on the mark that an event has, alone or with others.
      @param {number} number */
  focusOn(number) {
    const turn = this.timeline.past.events.get(number)?.turn ?? NaN;
    const found = this.shown().find(({ dataset: { event, first, last } }) =>
      event === `${number}` || Number(first) <= turn && turn <= Number(last));
    (found ?? this.list.settle())?.focus();
  }

  /** @param {ScriptEvent[]} events */
  eventMarks(events) {
    return clustersOf(events, this.timeline.view).map(cluster => {
      const button = document.createElement("button");
      button.type = "button";
      if (cluster.count > 1) this.markCluster(button, cluster);
      else this.markEvent(button, cluster.event);
      return button;
    });
  }

  /** Puts a mark into the first row that is free at its turn.
      @param {HTMLElement} mark @param {number[]} ends */
  putIntoRow(mark, ends) {
    const x = this.timeline.view.x(Number(mark.dataset.turn));
    const row = Math.max(0, ends.findIndex(it => x >= it));
    ends[row] = x + wideOf(mark);
    mark.style.setProperty("--row", String(row));
  }

  /** @param {HTMLElement} button @param {ScriptEvent} event */
  markEvent(button, event) {
    button.className = event.text.startsWith("key") ? "mark" : "mark other";
    if (event.number === this.timeline.wanted) button.classList.add("wanted");
    button.textContent = eventLabel(event);
    button.dataset.event = String(event.number);
    this.placeMark(button, event, this.turnOf(event));
  }

  /** Events that have one mark together: it zooms to them.
      @param {HTMLElement} button @param {Cluster} cluster */
  markCluster(button, cluster) {
    const how = cluster.event.turn === cluster.last.turn ? "list them" : "zoom in";
    const said = `${clusterInWords(cluster)}: ${how}`;
    button.className = "mark cluster";
    button.textContent = `\u00d7${cluster.count}`;
    button.title = said;
    button.setAttribute("aria-label", said);
    Object.assign(button.dataset, { first: cluster.event.turn, last: cluster.last.turn });
    this.put(button, Math.round((cluster.event.turn + cluster.last.turn) / 2));
  }

  /** Shows the turns of a mark of many events; those of one turn as a list.
      @param {HTMLElement} mark */
  zoomTo({ dataset: { first, last } }) {
    if (first === last) {
      this.timeline.listener.onList(Number(first));
      return;
    }
    const span = Number(last) - Number(first) + 1;
    this.timeline.show(Number(first) - span / 20, span * 1.1);
  }

  /** Puts a mark at its turn. Its text isn't cut at the right edge: a part of a number is another
      number.
      @param {HTMLElement} mark @param {number} turn */
  put(mark, turn) {
    const { view, width } = this.timeline, x = view.x(turn);
    const most = width - wideOf(mark) / 2;
    mark.dataset.turn = String(turn);
    mark.style.left = `${x > view.left + view.width ? x : Math.min(x, most)}px`;
  }

  /** @param {HTMLElement} button @param {ScriptEvent} event @param {number} turn */
  placeMark(button, event, turn) {
    const words = eventInWords(event);
    this.put(button, turn);
    button.setAttribute("aria-label", `Event ${event.number}, ${words}, turn ${turn}`);
    button.title = `event ${event.number}: at ${turn} ${words}`;
  }

  /** The turn of an event, or where it was put last.
      @param {ScriptEvent} event */
  turnOf(event) {
    const { put } = this.timeline;
    return put?.number === event.number ? put.turn : event.turn;
  }

  ghostMarks() {
    const { timeline } = this, gone = timeline.eventsInSight(timeline.gone);
    return clustersOf(gone, timeline.view).map(cluster => {
      const { event, count } = cluster;
      const mark = document.createElement("span");
      mark.className = "mark ghost";
      mark.textContent = count > 1 ? `\u00d7${count}` : eventLabel(event);
      mark.title = count > 1 ? `were there: ${clusterInWords(cluster)}`
        : `was at ${event.turn} ${eventInWords(event)}`;
      this.put(mark, event.turn);
      return mark;
    });
  }

  /** @param {HTMLElement} button */
  eventOf(button) {
    return this.timeline.past.events.get(Number(button.dataset.event));
  }
}
