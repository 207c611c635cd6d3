// What became of keys that were struck: which the program read, and which were lost before. The
// rules are those of src/nezdrab/core/struck.py.

import { firstOf } from "./questions.js";
import { devicesOf } from "./replies.js";

/**
 * A key, what became of it, and the turn of that: the one that reads TKB, in which the next key
 * comes, or that is a RESET; of a key that waits the end of the turns that were looked at. `by` is
 * the key that overwrites it.
 * @typedef {"read" | "overwritten" | "dropped" | "waits"} Fate
 * @typedef {{event: ScriptEvent, fate: Fate, turn: number, by: ScriptEvent | null}} StruckKey
 * @typedef {import("./facts.js").Facts} Facts
 * @typedef {import("./past.js").ScriptEvent} ScriptEvent
 */

/** What becomes of a key up to the next one, or before turn `stop` if there is none.
    @param {Facts} facts @param {ScriptEvent} event @param {ScriptEvent | null} by
    @param {number} stop @returns {Promise<StruckKey>} */
export async function fateOf(facts, event, by, stop) {
  const end = by?.turn ?? stop, clear = await firstClear(facts, event.turn, end);
  if (clear === null) return { event, fate: by ? "overwritten" : "waits", turn: end, by };
  const fate = await readsBuffer(facts, clear - 1) ? "read" : "dropped";
  return { event, fate, turn: clear - 1, by: null };
}

/** Whether a key waits before a turn.
    @param {Facts} facts @param {number} turn */
const waits = async (facts, turn) => devicesOf(await facts.one(`devices ${turn}`)).keyWaits;

/** The first turn up to `end` before which done is clear, after the turn in which a key is struck,
    or null. It stays clear up to `end`, so it is looked for at distances that double, and then by
    halves.
    @param {Facts} facts @param {number} struck @param {number} end */
async function firstClear(facts, struck, end) {
  let last = struck, look = Math.min(struck + 1, end);
  while (look > last && await waits(facts, look)) {
    [last, look] = [look, Math.min(end, 2 * look - struck)];
  }
  return look > last ? firstOf(last, look, async it => !await waits(facts, it)) : null;
}

/** Whether a turn reads TKB, also at its odd address.
    @param {Facts} facts @param {number} turn */
const readsBuffer = async (facts, turn) =>
  /^read 77756[23] /m.test(await facts.one(`accesses ${turn + 1} 1`));
