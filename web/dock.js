// The dock: panels in tabs, of which one is open. What nobody sees asks nothing of the machine.

import { element } from "./page.js";

// In a narrow page the timeline stays in sight if it leaves so many pixels to the panels.
const ROOM = 340;

/** @typedef {"machine" | "memory" | "ask" | "past" | "console"} TabName */

export class Dock {
  /** @param {import("./app.js").App} app */
  constructor(app) {
    this.app = app;
    /** @type {TabName} the tab that is open */
    this.chosen = "machine";
    /** @type {HTMLElement[]} */
    this.tabs = [...element("dock").querySelectorAll("[role=tab]")].flatMap(it =>
      it instanceof HTMLElement ? it : []);
    for (const it of this.tabs) {
      it.addEventListener("click", () => this.open(nameOf(it)));
      it.addEventListener("keydown", event => this.key(event, it));
    }
    this.show();
    const settle = () => this.settle();
    new ResizeObserver(settle).observe(element("view"));
    addEventListener("resize", settle);
  }

  /** The tab that is open, as a place names it: the first isn't named. */
  get named() {
    return this.chosen === nameOf(this.tabs[0]) ? undefined : this.chosen;
  }

  /** Whether a tab is open.
      @param {TabName} name */
  isSeen(name) {
    return this.chosen === name;
  }

  /** Opens the tab with this name, if there is one.
      @param {string | undefined} name */
  open(name) {
    const found = this.tabs.map(nameOf).find(it => it === name);
    if (!found || found === this.chosen) return;
    this.chosen = found;
    this.show();
    this.app.tell("tabOpened");
    this.app.view.keepPlaceLater();
  }

  /** Opens the tab that has an element, and brings the element into sight.
      @param {string} id */
  bring(id) {
    const place = element(id);
    this.open(place.closest("[role=tabpanel]")?.id.replace("dock-", ""));
    place.scrollIntoView({ block: "nearest" });
  }

  show() {
    for (const it of this.tabs) {
      const isOpen = this.isSeen(nameOf(it));
      it.ariaSelected = String(isOpen);
      it.tabIndex = isOpen ? 0 : -1;
      element(`dock-${nameOf(it)}`).hidden = !isOpen;
    }
    element("dock").scrollTop = 0;
  }

  /** Arrows go from tab to tab, around the ends, and open it.
      @param {KeyboardEvent} event @param {HTMLElement} tab */
  key(event, tab) {
    const { tabs } = this, at = tabs.indexOf(tab), last = tabs.length - 1;
    if (event.altKey || event.ctrlKey || event.metaKey || event.shiftKey) return;
    /** @type {Object<string, number>} */
    const places = { ArrowLeft: at ? at - 1 : last, ArrowRight: at < last ? at + 1 : 0,
      Home: 0, End: last };
    const to = tabs[places[event.key]];
    if (!to) return;
    event.preventDefault();
    event.stopPropagation();
    to.focus();
    this.open(nameOf(to));
  }

  /** In a narrow page the timeline stays in sight while the panels are scrolled below it, if it
      leaves them room. */
  settle() {
    const view = element("view"), { offsetHeight } = view;
    view.classList.toggle("stays", offsetHeight <= innerHeight - ROOM);
    const stays = getComputedStyle(view).position === "sticky";
    document.documentElement.style.scrollPaddingTop = stays ? `${offsetHeight}px` : "";
  }
}

/** The name of a tab.
    @param {HTMLElement} tab */
const nameOf = tab => /** @type {TabName} */ (tab.id.replace("tab-", ""));
