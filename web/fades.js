// From which turn on the old past and the new one are the same again.

import { differenceOf } from "./past.js";
import { isRefused, turnOf } from "./replies.js";
import { Priority } from "./run.js";

// The program is asked up to so many turns after the edit at first, then twice as many, and so on.
const [FIRST_TURNS, MOST_TURNS] = [65_536, 4_194_304];

/**
 * @typedef {import("./past.js").ScriptEvent} ScriptEvent
 * @typedef {import("./past.js").Past} Past
 * @typedef {import("./tasks.js").Token} Token
 */

/** A script in which one event is gone and another came, if there are such.
    @param {ScriptEvent[]} script @param {ScriptEvent | undefined} gone
    @param {ScriptEvent | undefined} come */
function scriptWith(script, gone, come) {
  if (gone && come?.turn === gone.turn) return script.map(it => it === gone ? come : it);
  const rest = script.filter(it => it !== gone);
  const at = come ? rest.findIndex(it => it.turn > come.turn) : -1;
  if (come) rest.splice(at < 0 ? rest.length : at, 0, come);
  return rest;
}

/** @param {ScriptEvent} event */
const lineOf = ({ turn, text }) => `${turn} ${text}`;

/**
 * The one edit that makes an old past the one now, and the last turn whose events it changes, 0 for
 * a patch; an empty line if they are the same. Null if it takes more edits, or one that the line
 * `fades` of the program doesn't take: it takes `core`, `disk`, `at`, `alter` and `drop`.
 * @returns {{line: string, last: number} | null}
 * @param {Past} old @param {Past} now
 */
export function editBetween(old, now) {
  const patches = now.patchesFrom(old);
  if (patches === null || patches.length > 1) return null;
  if (patches.length === 0) return eventBetween(old.script, now.script);
  const { turns } = differenceOf(old.script, now.script);
  return turns.length ? null : { line: patches[0], last: 0 };
}

/** The same of two scripts.
    @param {ScriptEvent[]} old @param {ScriptEvent[]} now */
function eventBetween(old, now) {
  const { gone: [gone, otherGone], come: [come, otherCome] } = differenceOf(old, now);
  if (otherGone || otherCome) return null;
  if (differenceOf(scriptWith(old, gone, come), now).turns.length) return null;
  const last = Math.max(gone?.turn ?? 0, come?.turn ?? 0);
  if (gone && come) return { line: `alter ${gone.number} ${lineOf(come)}`, last };
  if (gone) return { line: `drop ${gone.number}`, last };
  return { line: come ? `at ${lineOf(come)}` : "", last };
}

/**
 * The turn from which on a run and the old one are the same, or null if that isn't known: there is
 * none up to `end`, it is far from the edit, or the program is an older one without the line.
 * @param {import("./run.js").Run} old
 * @param {Past} now @param {number} end @param {Token | null} token
 */
export async function sameFrom(old, now, end, token) {
  const edit = editBetween(old.past, now);
  if (edit === null) return null;
  if (edit.line === "") return 0;
  for (let turns = FIRST_TURNS; turns <= MOST_TURNS; turns *= 2) {
    const to = Math.min(end, edit.last + turns);
    if (to <= edit.last) return null;
    const reply = await old.askOne(`fades ${to} ${edit.line}`, Priority.COMPARISON, token);
    if (isRefused(reply)) return null;
    const turn = turnOf(reply);
    if (turn !== null || to === end) return turn;
  }
  return null;
}
