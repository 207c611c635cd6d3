// What the panels show of the machine before the turn of the cursor.

import { REGISTER_NAMES, coreWord } from "./cells.js";
import { Machine } from "./machine.js";
import { Priority } from "./run.js";
import { element, link, make, table } from "./page.js";
import { symbolAt } from "./session.js";
import {
  LAST_TURN, devicesOf, functionInWords, lastOf, octal, pageInWords, pagesOf, physicalOf,
  registersOf, shownByte, statusInWords, turnsOf, unreadOf, vectorName, wordsOf,
} from "./replies.js";

const [TURNS_BEFORE, INSTRUCTIONS, WORDS_BEFORE_SP, WORDS_OF_MEMORY] = [6, 8, 8, 16];
const WORDS_OF_AN_INSTRUCTION = 3;
/** @type {Object<string, "machine" | "memory">} the tab of each panel */
const PANELS = { devices: "machine", pages: "machine", instructions: "machine", stack: "machine",
  memory: "memory" };
export const SHOWN_REGISTERS = [...REGISTER_NAMES, "PC", "PS"];

/**
 * The machine before a turn, as the edits that a run has taken make it; what a panel shows may say
 * more.
 * @typedef {{run: Run, turn: number, pasts: number}} State
 * @typedef {State & {more?: string}} Shown
 * @typedef {import("./run.js").Run} Run
 * @typedef {import("./session.js").Symbols} Symbols
 * @typedef {import("./names.js").WatchedWord} WatchedWord
 * @typedef {import("./tasks.js").Token} Token
 * @typedef {import("./session.js").Symbol} Symbol
 * @typedef {import("./page.js").Inside} Inside
 */

/**
 * What asks lines; what replies have; and the mode that a line names for the addresses of a mode,
 * or null if the mode has no pages.
 * @typedef {(lines: string[]) => Promise<string[]>} Ask
 * @typedef {ReturnType<typeof registersOf>} Registers
 * @typedef {ReturnType<typeof pagesOf>} Pages
 * @typedef {ReturnType<typeof turnsOf>} Trail
 * @typedef {string | null} Space
 * @typedef {{turn: number, core: number, registers: Registers, space: Space}} TheMachine
 */

/**
 * An instruction at an address, or what a turn did if it ran none.
 * @typedef {{mode: string, pc: number, text: string, symbol: string}} Instruction
 * @typedef {{turn: number, pc: number, act: string, vector: number | null}} Turn
 * @typedef {Instruction & Turn} PastTurn
 * @typedef {Turn & {mode: string, space: Space, words: number[], text: string | null}} Fetched
 */

export class CursorPanels {
  /** @param {import("./app.js").App} app */
  constructor(app) {
    this.app = app;
    this.disassembler = new Machine({ program: "disassemble" });
    /** The first word of core that is shown. */
    this.address = 0o2000;
    /** @type {State | null} the state that is asked for */
    this.wanted = null;
    /** @type {Map<string, State>} by panel, the state that it shows */
    this.shown = new Map();
    /** @type {Symbols} */
    this.symbols = { kernel: [], user: [] };
  }

  /** What is seen now is asked, unless it is of this turn and past already. */
  tabOpened() {
    const { run } = this.app.session, now = stateOf(run, this.app.view.timeline.cursor);
    if (this.seen().some(it => !isSame(this.shown.get(it), now))) this.look();
  }

  /** The panels in the tab that is open. */
  seen() {
    return Object.keys(PANELS).filter(it => this.app.dock.isSeen(PANELS[it]));
  }

  /** Asks for the machine before the turn of the cursor, and shows it. */
  look() {
    const { app } = this, { run, symbols } = app.session, token = app.token("cursor");
    app.attempt(() => this.show(run, app.view.timeline.cursor, symbols, token));
  }

  /** The turn that the panels show, or null. */
  get turn() {
    return this.shown.get("registers")?.turn ?? null;
  }

  /** Each panel says of which turn it is, and if that isn't the one that is asked for. */
  mark() {
    for (const name of ["registers", ...Object.keys(PANELS)]) {
      markTurn(element(`${name}-turn`), this.shown.get(name), this.wanted);
    }
    element("does").classList.toggle("stale", !isSame(this.shown.get("does"), this.wanted));
  }

  /** The state that is asked for, which no panel may show yet.
      @param {Run} run @param {number} turn */
  want(run, turn) {
    this.wanted = stateOf(run, turn);
    this.mark();
    return this.wanted;
  }

  /** @param {string} name @param {State} state */
  isShown(name, state) {
    this.shown.set(name, state);
    this.mark();
  }

  /** Shows the machine before a turn.
      @param {Run} run @param {number} turn @param {Symbols} symbols @param {Token} token */
  async show(run, turn, symbols, token) {
    const state = this.want(run, turn);
    /** @type {Ask} */
    const ask = lines => run.ask(lines, Priority.CURSOR, token);
    const before = Math.max(0, turn - 1);
    const [old, now, pages] = await ask([`regs ${before}`, `regs ${turn}`, `pages ${turn}`]);
    const registers = registersOf(now), mapping = pagesOf(pages), { core } = run.past;
    const machine = { turn, core, registers, space: spaceOf(mapping, registers.mode) };
    this.symbols = symbols;
    this.showRegisters(registersOf(old), registers);
    this.isShown("registers", state);
    /** @type {Object<string, () => void | Promise<void>>} */
    const shows = {
      does: () => this.showDoes(ask, turn), pages: () => this.showPages(mapping),
      devices: () => this.showDevices(ask, turn), stack: () => this.showStack(ask, machine),
      instructions: () => this.showInstructions(ask, machine),
      memory: () => this.showMemory(ask, machine),
    };
    await Promise.all(["does", ...this.seen()].map(async name => {
      await shows[name]();
      this.isShown(name, state);
    }));
  }

  /** What the machine does in the cursor's turn.
      @param {Ask} ask @param {number} turn */
  async showDoes(ask, turn) {
    const place = element("does");
    place.textContent = "";
    if (turn === LAST_TURN) return;
    const trail = turnsOf((await ask([`trail ${turn + 1} 1`]))[0]);
    const [{ text, symbol, mode, pc }] = await this.pastInstructions(ask, trail);
    place.textContent = `Turn ${turn} does: ${text} at ${symbol || octal(pc)}, ${mode}`;
  }

  /** @param {Registers} old @param {Registers} now */
  showRegisters(old, now) {
    const cells = SHOWN_REGISTERS.map(name => {
      const isChanged = old.words[name] !== now.words[name];
      return make("div", { class: isChanged ? "register changed" : "register" },
        make("dt", {}, name),
        make("dd", {}, this.registerWord(name, now.words[name]), isChanged ? "*" : ""));
    });
    const status = `${now.state}; ${statusInWords(now.ps)}`;
    element("registers").replaceChildren(make("p", {}, status),
      make("dl", { class: "registers" }, ...cells));
  }

  /** A register's word: touched, it is asked why it is so. Where a program stands isn't followed.
      @param {string} name @param {number} word */
  registerWord(name, word) {
    if (name === "PC") return octal(word);
    const made = link(octal(word), `Why is ${name} so?`,
      () => this.app.reasons.ask({ kind: "register", name }));
    made.setAttribute("aria-label", `${name}: ${octal(word)}. Why?`);
    return made;
  }

  /** @param {Ask} ask @param {number} turn */
  async showDevices(ask, turn) {
    const devices = devicesOf((await ask([`devices ${turn}`]))[0]);
    const words = Object.entries(devices.words);
    const cells = words.map(([name, word]) => make("div", { class: "register" },
      make("dt", {}, name), make("dd", {}, octal(word))));
    const disk = devices.diskIsReady ? "The disk is ready."
      : `The disk does a ${functionInWords(devices)}.`;
    const key = devices.keyWaits ? "A key waits." : "No key waits.";
    element("devices").replaceChildren(make("p", {}, `${disk} ${key}`),
      make("dl", { class: "registers" }, ...cells));
  }

  /** @param {Pages} pages */
  showPages(pages) {
    if (!(pages.sr0 & 1)) {
      element("pages").replaceChildren(make("p", {},
        "Mapping is off: addresses up to 157777 are physical ones, the others the I/O page."));
      return;
    }
    const all = Array.from({ length: 8 }, (_, page) => page);
    const rows = /** @type {const} */ (["kernel", "user"]).flatMap(mode => all
      .filter(page => pages.descriptors[mode][page] >> 1 & 3)
      .map(page => [mode, octal(page << 13), pageInWords(pages, mode, page)]));
    element("pages").replaceChildren(table("Pages that are there", ["mode", "from", "is"], rows));
  }

  // Instructions

  /** @param {Ask} ask @param {TheMachine} machine */
  async showInstructions(ask, machine) {
    const { turn: end } = machine, count = Math.min(TURNS_BEFORE, end);
    const trail = count ? turnsOf((await ask([`trail ${end} ${count}`]))[0]) : [];
    const past = await this.pastInstructions(ask, trail);
    const next = await this.nextInstructions(ask, machine);
    /** @param {Instruction} it @param {Inside} turn @returns {Inside[]} */
    const row = (it, turn) => [turn, it.mode, octal(it.pc), it.text, it.symbol];
    const rows = [
      ...past.map(it => row(it, this.app.linkTo(it.turn))),
      ...next.map((it, at) => row(it, at ? this.linksTo(it)
        : make("b", {}, `\u25b6 ${nextInWords(machine)}`))),
    ];
    element("instructions").replaceChildren(
      table("Turns before, and instructions from PC on", ["turn", "mode", "PC", "", ""], rows));
  }

  /** Buttons that go back to an instruction, and on to it.
      @param {Instruction} instruction */
  linksTo({ pc, mode }) {
    if (!["kernel", "user"].includes(mode)) return "";
    /** @param {string} text @param {string} what @param {number} direction */
    const made = (text, what, direction) => make("button", {
      type: "button", class: "link", title: what, "aria-label": `${what} at ${octal(pc)}`,
      onclick: () => this.app.stepping.runTo(pc, mode, direction),
    }, text);
    return make("span", { class: "to" }, made("\u2190", "Back to the instruction", -1),
      made("\u2192", "On to the instruction", 1));
  }

  /** @param {Ask} ask @param {Trail} trail @returns {Promise<PastTurn[]>} */
  async pastInstructions(ask, trail) {
    const replies = await ask(trail.flatMap(it => [`regs ${it.turn}`, `pages ${it.turn}`]));
    /** @type {Fetched[]} */
    const turns = trail.map((it, at) => {
      const { mode } = registersOf(replies[2 * at]);
      const space = spaceOf(pagesOf(replies[2 * at + 1]), mode);
      return { ...it, mode, space, words: [], text: null };
    });
    await Promise.all(turns.filter(it => it.act === "instr").map(async it => {
      it.words = await wordsRun(ask, it, it.pc, WORDS_OF_AN_INSTRUCTION);
    }));
    const fetched = turns.filter(it => it.words.length);
    const texts = await this.texts(ask, fetched);
    fetched.forEach((it, number) => { it.text = texts[number].text; });
    return turns.map(it => {
      const symbol = symbolAt(this.symbols, it.mode, it.pc);
      return { ...it, text: it.text ?? actInWords(it), symbol };
    });
  }

  /** What turns did, each in one line, such as `kernel 001040 ADD #7,@#2000`.
      @param {Ask} ask @param {number[]} turns */
  async turnsInWords(ask, turns) {
    const replies = await ask(turns.map(it => `trail ${it + 1} 1`));
    const found = await this.pastInstructions(ask, replies.flatMap(turnsOf));
    return found.map(({ mode, pc, symbol, text }) =>
      `${mode} ${octal(pc)}${symbol ? ` (${symbol})` : ""} ${text.trim()}`);
  }

  /** @param {Ask} ask @param {TheMachine} machine @returns {Promise<Instruction[]>} */
  async nextInstructions(ask, machine) {
    const { registers: { mode, pc } } = machine;
    const words = await wordsRun(ask, machine, pc, INSTRUCTIONS * WORDS_OF_AN_INSTRUCTION);
    if (!words.length) return [{ mode, pc, text: "(can't be fetched)", symbol: "" }];
    const texts = await this.texts(ask, words.map((_, at) => (
      { pc: pc + 2 * at & 0o177777, words: words.slice(at, at + WORDS_OF_AN_INSTRUCTION) })));
    const found = [];
    for (let at = 0; at < texts.length && found.length < INSTRUCTIONS;) {
      const address = pc + 2 * at & 0o177777;
      const symbol = symbolAt(this.symbols, mode, address);
      found.push({ mode, pc: address, text: texts[at].text, symbol });
      at += texts[at].words;
    }
    return found;
  }

  /** The texts of instructions, each from its address, its word and the two that follow.
      @param {Ask} ask @param {{pc: number, words: number[]}[]} asked */
  async texts(ask, asked) {
    if (!asked.length) return [];
    const lines = asked.map(({ pc, words }) =>
      [pc, ...words, 0, 0].slice(0, 4).map(it => octal(it)).join(" "));
    const replies = await this.disassembler.ask(lines);
    // what was given up meanwhile goes no further
    await ask([]);
    return replies.map((reply, at) => {
      const [count, ...text] = reply.trimEnd().split(" ");
      const words = Number(count) || 1, isWhole = words <= asked[at].words.length;
      return { words, text: isWhole ? text.join(" ") : "(its operands can't be fetched)" };
    });
  }

  // Words

  /** @param {Ask} ask @param {TheMachine} machine */
  async showStack(ask, machine) {
    const { turn, registers } = machine;
    const name = registers.mode === "kernel" ? "KSP" : "USP";
    const sp = registers.words[name];
    const places = await placesAt(ask, machine, sp, WORDS_BEFORE_SP);
    const rows = await this.wordRows(ask, turn, places);
    rows.forEach((row, at) => row.unshift((at ? "" : `${name} `) + octal(sp + 2 * at & 0o177777)));
    const heads = ["stack", "core", "word", "text", "last written"];
    element("stack").replaceChildren(rows.length
      ? table("Words from the stack pointer on", heads, rows)
      : make("p", {}, `${name} ${octal(sp)} is no word of core.`));
  }

  /** @param {Ask} ask @param {TheMachine} machine */
  async showMemory(ask, { turn, core }) {
    const { address } = this;
    const places = Array.from({ length: WORDS_OF_MEMORY }, (_, at) => address + 2 * at)
      .filter(it => it < core);
    const rows = await this.wordRows(ask, turn, places);
    element("memory").replaceChildren(rows.length
      ? table("Words of core", ["core", "word", "text", "last written"], rows)
      : make("p", {}, `${octal(address)} is no word of core.`));
  }

  /** Each word with who wrote it last: a click goes to that turn.
      @param {Ask} ask @param {number} turn @param {number[]} places */
  async wordRows(ask, turn, places) {
    const replies = await ask(places.flatMap(it => [
      `mem ${turn} ${it.toString(8)} 1`, `last ${turn} ${it.toString(8)}`]));
    return places.map((place, at) => this.wordRow(place, replies[2 * at], replies[2 * at + 1]));
  }

  /** @param {number} place @param {string} value @param {string} written @returns {Inside[]} */
  wordRow(place, value, written) {
    const [word] = wordsOf(value);
    const last = lastOf(written);
    const { app } = this;
    const watch = link(octal(place), "Draw this word on the timeline",
      () => app.watched.add(coreWord(place)));
    const text = shownByte(word & 0o377) + shownByte(word >> 8);
    const write = () => app.edits.writeLine(`core ${place.toString(8)} `, octal(word));
    const change = link(octal(word), "Change this word as of power-up", write);
    const by = last && app.linkTo(last.turn, `${last.writer}, turn ${last.turn}`);
    return [watch, change, text, by ?? "never"];
  }
}

/** The mode that a line names for the addresses of a mode: while mapping is off they are the same
    in all modes. Null while it is on for the modes 01 and 10, which have no pages.
    @param {Pages} pages @param {string} mode @returns {Space} */
export function spaceOf({ sr0, descriptors }, mode) {
  if (!(sr0 & 1)) return "kernel";
  return Object.hasOwn(descriptors, mode) ? mode : null;
}

/** The words at virtual addresses that an instruction can read, up to the first that it can't.
    @param {Ask} ask @param {{turn: number, space: Space}} machine @param {number} address
    @param {number} count @returns {Promise<number[]>} */
export async function wordsAt(ask, { turn, space }, address, count) {
  if (!space || address % 2 || !count) return [];
  const most = Math.min(count, 0o200000 - address >> 1);
  const [reply] = await ask([`virtual ${turn} ${space} ${address.toString(8)} ${most}`]);
  const unread = unreadOf(reply);
  if (unread !== null) return wordsAt(ask, { turn, space }, address, unread - address >> 1);
  return [...wordsOf(reply), ...await wordsAt(ask, { turn, space }, 0, count - most)];
}

/** The words from PC on, those of the turn's instruction as it read them: a transfer that ended in
    the turn had already brought them.
    @param {Ask} ask @param {{turn: number, space: Space}} machine @param {number} pc
    @param {number} count */
async function wordsRun(ask, machine, pc, count) {
  const words = await wordsAt(ask, machine, pc, count);
  const [reply] = await ask([`accesses ${machine.turn + 1} 1`]);
  if (!/ instr\n(.*\n)*disk read /.test(reply)) return words;
  const reads = [...reply.matchAll(/^read core (\d+) (\d+)$/gm)]
    .map(([, place, word]) => [place, word].map(it => parseInt(it, 8)));
  const [first] = reads[0] ?? [], ofPage = (0o20000 - pc % 0o20000) / 2;
  return words.map((word, at) =>
    reads.find(([place]) => place === first + 2 * at && at < ofPage)?.[1] ?? word);
}

/** The physical addresses of words at virtual ones, as far as they are core.
    @param {Ask} ask @param {{turn: number, space: Space, core: number}} machine
    @param {number} address @param {number} count */
export async function placesAt(ask, { turn, space, core }, address, count) {
  if (!space || address % 2) return [];
  const replies = await ask(Array.from({ length: count }, (_, at) =>
    `translate ${turn} ${space} ${(address + 2 * at & 0o177777).toString(8)}`));
  /** @type {number[]} */
  const places = [];
  for (const it of replies.map(physicalOf)) {
    if (it === null || it >= core) break;
    places.push(it);
  }
  return places;
}

/** The machine before a turn, as the edits that a run has taken make it.
    @param {Run} run @param {number} turn @returns {State} */
export const stateOf = (run, turn) => ({ run, turn, pasts: run.ledger.pasts });

/** Whether a panel shows a state.
    @param {Shown | null | undefined} shown @param {State | null} wanted */
export const isSame = (shown, wanted) => shown?.run === wanted?.run && shown?.turn === wanted?.turn
  && shown?.pasts === wanted?.pasts;

/** Says of which turn a panel is: `wanted` is the state that is asked for, `shown` what it has.
    @param {HTMLElement} place @param {Shown | null | undefined} shown
    @param {State | null} wanted */
export function markTurn(place, shown, wanted, where = "before turn") {
  const isNow = shown?.run === wanted?.run && shown?.pasts === wanted?.pasts;
  const isStale = !isNow || shown?.turn !== wanted?.turn;
  place.classList.toggle("stale", isStale);
  if (!shown) place.textContent = "not known yet";
  else if (shown.run !== wanted?.run) place.textContent = "still of the session before";
  else {
    const past = isNow ? "" : ", from before the last edit";
    const still = isStale ? "still " : "";
    place.textContent = `${still}${where} ${shown.turn}${shown.more ?? ""}${past}`;
  }
}

/** What the processor does next.
    @param {TheMachine} machine */
const nextInWords = ({ registers: { state } }) =>
  ({ run: "next", wait: "waits", halted: "halted" })[state];

/** @param {Turn} turn */
function actInWords({ act, vector }) {
  if (act === "irq" && vector !== null) {
    return `interrupt ${octal(vector, 3)} ${vectorName(vector)}`;
  }
  if (act === "instr") return "(can't be fetched)";
  return { idle: "waits or is halted", trace: "trace trap", stack: "stack trap" }[act] ?? act;
}
