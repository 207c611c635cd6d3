// Lists of many buttons: Tab comes to one of them, and arrows go from it to the others.

const ITEMS = "button:enabled, input:enabled, summary";

/** Of rows of items: that to which a key goes from one of them, or undefined.
    @template Item @param {Item[][]} rows @param {Item} from @param {string} key */
function itemAt(rows, from, key) {
  const items = rows.flat(), at = items.indexOf(from);
  const row = rows.findIndex(it => it.includes(from)), column = rows[row].indexOf(from);
  const [above, below] = [rows[row - 1] ?? [], rows[row + 1] ?? []];
  /** @type {Object<string, Item | undefined>} */
  const places = {
    ArrowLeft: items[at - 1], ArrowRight: items[at + 1], Home: items[0], End: items.at(-1),
    ArrowUp: above[column] ?? above.at(-1), ArrowDown: below[column] ?? below.at(-1),
  };
  return places[key];
}

export class List {
  /** @param {HTMLElement} place */
  constructor(place) {
    this.place = place;
    /** Which item Tab comes to. */
    this.at = 0;
    /** @type {HTMLElement | null} the item that has the focus, or lost it by going away */
    this.last = null;
    /** Whether the focus came by a click: then arrows are keys of the timeline. */
    this.isClicked = false;
    place.addEventListener("pointerdown", () => { this.isClicked = true; });
    addEventListener("keydown", ({ key }) => { this.isClicked &&= key !== "Tab"; }, true);
    new MutationObserver(() => this.changed()).observe(
      place, { childList: true, subtree: true, attributeFilter: ["disabled"] });
    place.addEventListener("focusin", ({ target }) => {
      this.at = Math.max(0, this.items.findIndex(it => it === target));
      this.last = this.settle() ?? null;
    });
    place.addEventListener("focusout", ({ target }) => queueMicrotask(() => {
      if (this.last === target && this.last?.isConnected) this.last = null;
    }));
    place.addEventListener("keydown", event => this.onKey(event));
    this.settle();
  }

  get items() {
    return /** @type {HTMLElement[]} */ ([...this.place.querySelectorAll(ITEMS)]);
  }

  /** Tab comes to one of these items. */
  settle(items = this.items) {
    this.at = Math.min(this.at, Math.max(0, items.length - 1));
    items.forEach((it, at) => { it.tabIndex = at === this.at ? 0 : -1; });
    return items[this.at];
  }

  /** It has other items. The focus doesn't leave it. */
  changed() {
    const it = this.settle(), isLost = this.last?.isConnected === false;
    if (isLost && document.activeElement === document.body) it?.focus({ preventScroll: true });
  }

  /** @param {KeyboardEvent} event */
  onKey(event) {
    const { items } = this, from = items.find(it => it === event.target);
    const isOther = event.altKey || event.ctrlKey || event.metaKey || event.shiftKey;
    if (!from || isOther || this.isClicked) return;
    /** @type {Map<Element, HTMLElement[]>} */
    const rows = new Map();
    for (const it of items) {
      const row = it.closest("tr, li") ?? this.place;
      rows.set(row, [...rows.get(row) ?? [], it]);
    }
    const to = itemAt([...rows.values()], from, event.key);
    if (!to) return;
    event.preventDefault();
    event.stopPropagation();
    to.focus();
  }
}
