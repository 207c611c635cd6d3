// The pasts of a session that have names: the browser keeps them after the tab is closed. If it
// keeps nothing, they stay until the page is reloaded.

import { ofPage, shownOf, sumOfSession } from "./kept.js";
import { isEdit } from "./past.js";

const MOST_PASTS = 16, LONGEST_NAME = 40;

/**
 * A past as it is stored: the edits that make it, those of the session among them; what the user
 * did, each at once; and the turn up to which it was shown.
 * @typedef {import("./kept.js").KeptEdit[][]} Changes
 * @typedef {{name: string, lines: string[], end: number, changes: Changes}} StoredPast
 * @typedef {import("./session.js").Session} Session
 */

/** @type {Map<string, string>} what the browser may not keep */
const here = new Map();

/** @param {Session} session */
const keyOf = session => `nezdrab pasts ${sumOfSession(session)}${ofPage}`;

/** @param {string} key */
function read(key) {
  try {
    return localStorage.getItem(key) ?? here.get(key);
  } catch {
    return here.get(key);
  }
}

/** @param {string[]} lines */
const areEdits = lines => lines.every(it => isEdit(it) && !/[\r\n]/.test(it));

/** Whether a past is as this page stores it.
    @param {StoredPast} past */
export function isStoredPast({ name, lines, changes, end }) {
  return typeof name === "string" && name.length <= LONGEST_NAME && Number.isSafeInteger(end)
    && areEdits(lines) && changes.every(it => areEdits(it.map(({ line }) => line)));
}

/** @param {Session} session @returns {StoredPast[]} */
export function storedPasts(session) {
  try {
    const found = JSON.parse(read(keyOf(session)) ?? "null") ?? shownOf(session)?.pasts ?? [];
    return found.every(isStoredPast) ? found : [];
  } catch {
    return [];
  }
}

/** Keeps the pasts of a session: the last of them, if there are many.
    @param {Session} session
    @param {{name: string, lines: string[], end?: number, changes?: Changes}[]} pasts */
export function storePasts(session, pasts) {
  const kept = pasts.slice(-MOST_PASTS)
    .map(({ name, lines, changes = [], end = 0 }) => ({ name, lines, changes, end }));
  const key = keyOf(session), text = JSON.stringify(kept);
  here.set(key, text);
  try {
    localStorage.removeItem(key);
    if (kept.length || ofPage) localStorage.setItem(key, text);
  } catch {
    // it keeps nothing, or has no room
  }
}
