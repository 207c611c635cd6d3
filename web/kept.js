// What the browser keeps for this tab until it is closed: the session that was opened in this page,
// and the edits of each session, by a sum of its contents.

import {
  packedSession, packedShown, packedText, sessionOfText, textOfSession,
} from "./packed.js";
import { isEdit } from "./past.js";

/**
 * An edit, and the number of the event that it made.
 * @typedef {{line: string, event: string | undefined}} KeptEdit
 */

/**
 * The edits, the turn up to which the run was shown, a sum of the past that was saved last, and the
 * name of the past with which it is compared, if that isn't the session as it was opened; and the
 * notes, if they aren't those of the session.
 * @typedef {{changes: KeptEdit[][], end: number, off?: {change: KeptEdit[], place: number}[],
 *   saved: string | null, compared?: string, notes?: import("./notes.js").Note[]}} KeptEdits
 */

/**
 * What a page that was saved showed: the sum of its session, the edits, the place, the words and
 * registers of the watch list, and the pasts with names.
 * @typedef {{sum: string, edits: KeptEdits, place: import("./place.js").Place,
 *   words: import("./names.js").WatchedWord[], registers?: string[],
 *   pasts: import("./stored.js").StoredPast[]}} Shown
 */

/**
 * @typedef {string | ArrayLike<number>} Part
 * @typedef {import("./session.js").Session} Session
 */

/** The bytes of a text, or bytes, as words of 32 bits with their count before them.
    @param {Part} part */
function wordsOf(part) {
  const bytes = typeof part === "string" ? new TextEncoder().encode(part) : part;
  const words = new Uint32Array(1 + (bytes.length + 3 >> 2));
  words[0] = bytes.length;
  new Uint8Array(words.buffer).set(bytes, 4);
  return words;
}

/** A sum of parts, texts and bytes. That two which differ have the same one is hardly ever so.
    @param {Part[]} parts */
export function sumOf(parts) {
  let [one, other] = [0x811c9dc5, 0x41c6ce57];
  for (const words of parts.map(wordsOf)) {
    for (let at = 0; at < words.length; at++) {
      one = Math.imul(one ^ words[at], 0x01000193);
      one ^= one >>> 15;
      other = Math.imul(other ^ words[at], 0x5f356495);
      other ^= other >>> 13;
    }
  }
  return [one, other].map(it => (it >>> 0).toString(36)).join("-");
}

const sums = new WeakMap();

/** A sum of all that a session has.
    @param {Session} session @returns {string} */
export function sumOfSession(session) {
  const { files, ...texts } = session;
  if (!sums.has(session)) {
    sums.set(session, sumOf([JSON.stringify(texts), ...Object.entries(files).flat()]));
  }
  return sums.get(session);
}

/** What this page showed of a session as it was saved, or null.
    @param {Session} session */
export function shownOf(session) {
  const shown = packedShown();
  return shown?.sum === sumOfSession(session) ? shown : null;
}

// A saved page keeps edits and pasts of its own: of none too, since it has some.
export const ofPage = packedShown() ? ` ${sumOf([JSON.stringify(packedShown())])}` : "";

/** @param {Session} session */
const keyOfEdits = session => `nezdrab edits ${sumOfSession(session)}${ofPage}`;

const keyOfPage = () => `nezdrab session ${location.pathname} ${sumOf([packedText()])}`;

/** @param {string} key */
function read(key) {
  try {
    return sessionStorage.getItem(key);
  } catch {
    return null;
  }
}

/** Keeps a text, or with null nothing. Returns whether the browser does so.
    @param {string} key @param {string | null} text */
function keep(key, text) {
  try {
    sessionStorage.removeItem(key);
    if (text !== null) sessionStorage.setItem(key, text);
    return true;
  } catch {
    return text === null;
  }
}

const own = new WeakSet();

/** Whether a session is the one in the page.
    @param {Session} session */
export const isOwn = session => own.has(session);

/** The session to begin with: the one that was opened in this tab, or the one in the page. */
export async function firstSession() {
  try {
    const text = read(keyOfPage());
    if (text !== null) return await sessionOfText(text);
  } catch {
    forgetSession();
  }
  const session = await packedSession();
  own.add(session);
  return session;
}

export const forgetSession = () => keep(keyOfPage(), null);

/** Keeps a session that was opened. Returns whether the browser does so: it may be too large.
    @param {Session} session */
export async function keepSession(session) {
  return keep(keyOfPage(), await textOfSession(session));
}

/** The edits of a session that were kept, or with which the page was saved; or null.
    @param {Session} session
    @returns {KeptEdits | null} */
export function keptEdits(session) {
  try {
    const kept = JSON.parse(read(keyOfEdits(session)) ?? "null") ?? shownOf(session)?.edits;
    /** @param {KeptEdit} edit */
    const isLine = ({ line }) => isEdit(line) && !/[\r\n]/.test(line);
    const areEdits = kept?.changes.every((/** @type {KeptEdit[]} */ it) => it.every(isLine));
    /** @param {{change: KeptEdit[], place: number}} it */
    const isOff = it => it.change.every(isLine) && Number.isSafeInteger(it.place);
    const isRight = areEdits && (kept.off ?? []).every(isOff);
    return isRight && Number.isSafeInteger(kept.end) ? kept : null;
  } catch {
    return null;
  }
}

/** Keeps the edits of a session. Returns whether the browser does so.
    @param {Session} session @param {KeptEdits} edits */
export function keepEdits(session, edits) {
  const { changes, off, compared, notes } = edits;
  const hasAny = changes.length || off?.length || compared !== undefined || notes || ofPage;
  return keep(keyOfEdits(session), hasAny ? JSON.stringify(edits) : null);
}
