// The words that are drawn, and what they are called: by the session language, and by the session's
// own names or the symbols.

import { octal, physicalOf, visibleName } from "./replies.js";
import { Priority } from "./run.js";
import { readableLine, symbolsOfMode } from "./session.js";

/**
 * A word that is drawn as steps: of core by its address, or of a drive by its number.
 * @typedef {{kind: "core" | "disk", drive: number, at: number}} WatchedWord
 * @typedef {import("./run.js").Run} Run
 * @typedef {import("./session.js").Symbols} Symbols
 */

/** The name of a word as the session language has it.
    @param {WatchedWord} word */
export const nameOfWord = word => word.kind === "core" ? `core ${octal(word.at)}`
  : `disk ${word.drive ? `${word.drive} ` : ""}${octal(word.at, 7)}`;

/** The word with a name such as `2000`, `core 2000`, `disk 0` or `disk 1 0`, or null.
    @param {string} name @returns {WatchedWord | null} */
export function wordNamed(name) {
  const [, core, drive = "0", index] =
    /^(?:(?:core +)?([0-7]{1,10})|disk +(?:([0-7]{1,10}) +)?([0-7]{1,10}))$/.exec(name) ?? [];
  if (core) return { kind: "core", drive: 0, at: parseInt(core, 8) };
  return index ? { kind: "disk", drive: parseInt(drive, 8), at: parseInt(index, 8) } : null;
}

// Says what a session calls a word: `# name core 30000 clerk A's balance`.
const NAMED = /^# name ((?:core|disk)(?: [0-7]{1,10}){1,2}) ([^\s0-7].*)$/;

/** The lines of a session that say what words are called.
    @param {{lines: string[]}} session */
export const linesOfNames = ({ lines }) => lines.filter(it => NAMED.test(it));

/** What a session calls its words, by their names.
    @param {{lines: string[]}} session @returns {Map<string, string>} */
export function namesOfSession({ lines }) {
  const found = new Map();
  for (const line of lines) {
    const [, place, name] = NAMED.exec(line) ?? [];
    const word = place ? wordNamed(place) : null;
    if (word) found.set(nameOfWord(word), visibleName(readableLine(name)));
  }
  return found;
}

/** The symbol of a word of core that the kernel has at the same virtual address before a turn, or
    an empty text.
    @param {Run} run @param {WatchedWord} word @param {Partial<Symbols>} symbols
    @param {number} turn */
export async function symbolOfWord(run, { kind, at }, symbols, turn) {
  const symbol = kind === "core" && symbols.kernel?.find(it => !it.isConstant && it.value === at);
  if (!symbol) return "";
  const line = `translate ${turn} kernel ${at.toString(8)}`;
  const place = physicalOf(await run.askOne(line, Priority.PICTURE));
  return place === at ? visibleName(symbol.name) : "";
}

/** The forms that take an address have one of the session as an example, by its name too.
    @param {Symbols} symbols */
export function showExamples(symbols) {
  /** @type {NodeListOf<HTMLElement>} */
  const options = document.querySelectorAll("option[data-mode]");
  for (const it of options) {
    const named = symbolsOfMode(symbols, it.dataset.mode ?? "").find(one => !one.isConstant);
    it.dataset.example = !named ? "1000"
      : `${named.value.toString(8)} or ${visibleName(named.name)}`;
    it.parentElement?.dispatchEvent(new Event("change"));
  }
}
