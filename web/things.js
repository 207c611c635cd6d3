// What is drawn in the lanes, each thing with its turn and in words: for the pointer, and for keys
// that go from one to the next.

import { symbolAt } from "./session.js";
import { counted, keyName, octal, vectorName } from "./replies.js";

// A thing is touched if the pointer is within so many pixels of it.
const NEAR = 7;

/**
 * Something that is drawn, from turn `turn` to `until`. A click goes to `goTo`: of a write by the
 * disk it is the turn in which the transfer began. `isWrite` says that an instruction or a transfer
 * made it in turn `goTo`.
 * @typedef {{turn: number, until: number, goTo: number, isWrite: boolean, text: string}} Thing
 * @typedef {import("./lanes.js").Lane} Lane
 * @typedef {import("./lanes.js").View} View
 * @typedef {import("./picture.js").Picture} Picture
 * @typedef {import("./session.js").Symbols} Symbols
 */

/** @returns {Thing}
    @param {number} turn @param {string} text @param {Partial<Thing>} more */
const thing = (turn, text, more = {}) =>
  ({ turn, until: turn, goTo: turn, isWrite: false, text, ...more });

/** What is drawn in a lane of a picture, by turns.
    @param {Lane} lane @param {Picture | null} picture @param {Partial<Symbols>} symbols
    @returns {Thing[]} */
export function thingsOf(lane, picture, symbols) {
  if (!picture) return [];
  if (lane.kind === "counter") return looksOf(lane, picture, symbols);
  if (lane.kind === "steps") return writesOf(lane, picture);
  if (lane.name === "disk") return diskOf(picture);
  if (lane.name === "interrupts") return interruptsOf(picture);
  return lane.name === "console" ? bytesOf(picture) : [];
}

/** @param {Lane} lane @param {Picture} picture @param {Partial<Symbols>} symbols */
function looksOf({ mode }, { looks, step }, symbols) {
  const sampled = step > 1 ? `, the first of ${step} turns` : "";
  return looks.filter(it => it.mode === mode).map(({ turn, pc, state }) => ({
    ...thing(turn, "", { until: turn + step - 1 }),
    get text() {
      const symbol = symbolAt(symbols, mode ?? "", pc);
      const how = { wait: ", waits", halted: ", halted" }[state] ?? "";
      return `${mode} PC ${octal(pc)}${symbol ? ` ${symbol}` : ""}${how}${sampled}`;
    },
  }));
}

/** @param {Picture} picture */
function diskOf({ first, disk }) {
  const bars = disk.bars.map(({ begin, end, title }) => {
    const until = end === null ? "" : `, up to turn ${end}`;
    const isWrite = begin !== null;
    return thing(begin ?? first, `${title}${until}`, { until: end ?? Infinity, isWrite });
  });
  return [...bars, ...disk.busy.map(it => thing(it.turn, "the disk is busy, a sample"))];
}

/** @param {Picture} picture */
const interruptsOf = ({ interrupts }) => interrupts.map(({ turn, vector }) =>
  thing(turn, `interrupt ${octal(vector, 3)} ${vectorName(vector)}`));

/** @param {Picture} picture */
const bytesOf = ({ text }) => text.bytes.map(({ turn, byte }) =>
  thing(turn, `byte ${octal(byte, 3)} ${keyName(byte)} printed`
    + (text.each > 1 ? `, one of each ${counted(text.each, "byte")}` : "")));

/** @param {Lane} lane @param {Picture} picture */
function writesOf({ name, label }, { words, disk }) {
  const word = words.find(it => it.name === name), title = label ? `${label} ${name}` : name;
  const values = word?.values ?? [];
  return values.map(({ turn, word: value, writer }, at) => {
    const next = values[at + 1]?.turn ?? Infinity, until = next - 1;
    const said = `${title} is ${octal(value)}`;
    if (!writer) return thing(turn, word?.isWhole ? said : `${said}, a sample`, { until });
    // a transfer that ends in this turn made it
    const bar = writer === "disk" ? disk.bars.find(it => it.end === turn) : null;
    const goTo = bar?.begin ?? turn;
    const who = writer === "cpu" ? "the processor" : "the disk";
    const since = goTo < turn ? `, by a transfer begun in turn ${goTo}` : "";
    return thing(turn, `${said}, written by ${who}${since}`, { until, goTo, isWrite: true });
  });
}

/** The thing of a lane that is touched at a pixel, or null. Of several it is the nearest; a word
    has a value between its writes too: then nothing is there to go to.
    @param {Lane} lane @param {Thing[]} things @param {View} view @param {number} x
    @returns {{thing: Thing, isThere: boolean} | null} */
export function thingAt(lane, things, view, x) {
  /** @param {Thing} it */
  const apart = it => Math.abs(view.x(it.turn) - x), turn = view.turn(x);
  const near = least(things.filter(it => apart(it) <= NEAR), apart);
  const isLong = lane.kind === "counter" || lane.name === "disk" || lane.kind === "steps";
  const all = isLong ? things.filter(it => it.turn <= turn && turn < it.until + 1) : [];
  const around = all.at(-1) ?? null;
  const found = lane.kind === "counter" ? around ?? near : near ?? around;
  return found ? { thing: found, isThere: near !== null || lane.kind !== "steps" } : null;
}

/** The next thing after a turn, or with -1 the one before it; null if there is none.
    @param {Thing[]} things @param {number} turn @param {number} direction */
export function thingFrom(things, turn, direction) {
  if (direction > 0) return least(things.filter(it => it.goTo > turn), it => it.goTo);
  return least(things.filter(it => it.goTo < turn), it => -it.goTo);
}

/** The first of the things of which a number is the least, or null.
    @param {Thing[]} things @param {(it: Thing) => number} numberOf */
function least(things, numberOf) {
  /** @type {Thing | null} */
  let best = null;
  for (const it of things) if (!best || numberOf(it) < numberOf(best)) best = it;
  return best;
}
