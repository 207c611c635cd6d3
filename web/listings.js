// The panel of the listings among the session's files: the source, with the line of the cursor's
// PC, and how often each instruction ran, as explore's `covered` counts it.

import { markTurn, stateOf } from "./cursor.js";
import { Inquiry } from "./inquiry.js";
import { countOf, listedLines, stretchesOf } from "./listing.js";
import { choice, element, field, link, make } from "./page.js";
import { AskError, counted, octal, registersOf, visibleName } from "./replies.js";
import { modesOfSymbols } from "./symbols.js";

const MOST_LINES = 6_000;
const [NEVER, NO_CODE] = ["#####", "-"];

/**
 * How often instructions ran before a turn, by their addresses, in a listing and a mode.
 * @typedef {{of: string, counts: Map<number, number>}} Counts
 * @typedef {import("./listing.js").ListedLine} ListedLine
 */

export class Listings extends Inquiry {
  /** @param {import("./app.js").App} app */
  constructor(app) {
    super(app, "listing");
    /** @type {Map<string, string>} the texts of the listings, by the names of their files */
    this.texts = new Map();
    /** @type {ListedLine[]} those of the listing that is shown */
    this.lines = [];
    /** @type {Counts} */
    this.known = { of: "", counts: new Map() };
    /** @type {HTMLElement[]} the lines as they are shown */
    this.rows = [];
    /** @type {import("./cursor.js").State | null} where the line of PC is marked */
    this.shown = null;
    this.file = choice("listing-file");
    for (const it of [this.file, choice("listing-mode"), field("listing-base")]) {
      it.addEventListener("change", () => this.choose());
    }
  }

  sessionBegins() {
    super.sessionBegins();
    const { contents: { files } } = this.app.session, decoder = new TextDecoder();
    const texts = Object.entries(files).filter(([name]) => /\.(lst|lis)$/i.test(name))
      .map(([name, bytes]) => /** @type {const} */ ([name, decoder.decode(bytes)]));
    this.texts = new Map(texts.filter(([, text]) => listedLines(text)));
    this.file.replaceChildren(...[...this.texts.keys()].map(it =>
      make("option", { value: it }, visibleName(it))));
    element("listing-panel").hidden = !this.texts.size;
    const [mode] = modesOfSymbols(this.file.value);
    choice("listing-mode").value = mode;
    this.choose();
  }

  /** What is shown: the listing, where its addresses begin, and the mode that they are of. */
  get chosen() {
    const base = field("listing-base").value.trim() || "0", mode = choice("listing-mode").value;
    return { name: this.file.value, base: /^[0-7]{1,6}$/.test(base) ? parseInt(base, 8) : 0, mode };
  }

  /** Another listing is chosen, or where it is. */
  choose() {
    const { name, base } = this.chosen;
    this.lines = listedLines(this.texts.get(name) ?? "", base) ?? [];
    this.known = { of: "", counts: new Map() };
    this.shown = null;
    this.say("");
    this.showRows();
    if (this.app.isOpen) this.look();
  }

  get hasFound() {
    return this.known.of !== "";
  }

  pastChanged() {
    super.pastChanged();
    this.look();
  }

  /** @param {string} [text] */
  forget(text) {
    super.forget(text);
    this.showRows();
  }

  // Lines

  showRows() {
    const { lines, known: { of, counts } } = this, left = lines.length - MOST_LINES;
    this.rows = lines.slice(0, MOST_LINES).map(line => {
      const count = countOf(line, counts);
      const mark = !of ? "" : count === null ? NO_CODE : String(count || NEVER);
      return make("div", {}, make("span", { class: "runs" }, mark), this.textOf(line));
    });
    const more = left > 0 ? [make("div", {}, `and ${counted(left, "line")} more`)] : [];
    this.found.replaceChildren(...this.rows, ...more);
    this.shown = null;
  }

  /** The text of a line; of an instruction it goes on to that.
      @param {ListedLine} line */
  textOf({ text, address, isInstruction }) {
    if (!isInstruction || address === null) return make("code", {}, text);
    const { mode } = this.chosen;
    return link(text, "On to this instruction", () => this.app.stepping.runTo(address, mode, 1));
  }

  /** Marks the line of the cursor's PC, if the listing is seen. */
  look() {
    const { app } = this, { run } = app.session, { cursor } = app.view.timeline;
    const state = stateOf(run, cursor), place = element("listing-turn");
    if (!this.texts.size) return;
    markTurn(place, this.shown, state);
    if (!app.dock.isSeen("machine")) return;
    const ask = app.asker("listed line");
    app.attempt(async () => {
      const [reply] = await ask([`regs ${cursor}`]);
      this.mark(registersOf(reply));
      this.shown = state;
      markTurn(place, state, state);
    });
  }

  /** @param {{pc: number, mode: string}} registers */
  mark({ pc, mode }) {
    const { chosen, lines, rows } = this;
    const at = mode === chosen.mode ? lines.findIndex(it => it.address === pc) : -1;
    for (const it of rows) it.ariaCurrent = null;
    const row = rows[at];
    element("listing-place").textContent = row ? `line ${at + 1}`
      : `no line has PC ${octal(pc)} in ${mode} mode`;
    if (!row) return;
    row.ariaCurrent = "true";
    const { found } = this, middle = (found.clientHeight - row.offsetHeight) / 2;
    found.scrollTop = row.offsetTop - middle;
  }

  // Counts

  /** @param {import("./facts.js").Facts} facts */
  async work(facts) {
    const { cursor: end } = this.app.view.timeline, { mode, name } = this.chosen, { lines } = this;
    this.showRows();
    if (!end) throw new AskError("No turn comes before turn 0");
    /** @type {Map<number, number>} */
    const counts = new Map();
    for (const { first, count } of stretchesOf(lines)) {
      const reply = await facts.one(`counts 0 ${end} ${mode} ${first.toString(8)} ${count}`);
      reply.split(" ").slice(1).forEach((it, at) => counts.set(first + 2 * at, Number(it)));
    }
    this.known = { of: name, counts };
    this.showRows();
    this.look();
    const all = lines.flatMap(it => countOf(it, counts) ?? []), ran = all.filter(Boolean).length;
    const part = (100 * ran / all.length).toFixed(1);
    this.say(`${ran} of ${counted(all.length, "instruction")} ran (${part} %) in `
      + `${end === 1 ? "turn 0" : `the turns 0 to ${end - 1}`}, in ${mode} mode`);
  }
}
