// A link that holds the edits of one of the page's examples, on and off, and what is shown of it:
// as the part of an address after #. The lines of edits stand there as they are, with - for a
// space; if that is long, they are packed.

import { sumOf } from "./kept.js";
import { notesKept } from "./notes.js";
import { isEdit, wordsOfLine } from "./past.js";
import { latin1 } from "./session.js";
import { isStoredPast } from "./stored.js";
import { itemsOf } from "./switching.js";

const [LONGEST_PLAIN, LONGEST_LINK, LONGEST_TEXT] = [400, 8_000, 200_000];
// What stands between words, between an edit and its event, edits done at once, and others; and
// before what is switched off.
const [SPACE, EVENT, EDIT, CHANGE, OFF] = ["-", "~", "_", ".", "~"];
// The numbers of events that no line of the link names: the program gives none of them.
const FREE = 2 ** 40;

/**
 * What was done, each at once: what is on, and what is off.
 * @typedef {import("./stored.js").Changes} Changes
 * @typedef {{changes: Changes, off: {change: Changes[0], place: number}[]}} Done
 */

// The browser has these; the checker of types doesn't know them.
/** @type {any} */
const { CompressionStream: Deflating, DecompressionStream: Inflating } = globalThis;

/** Why a link can't be made or read, for the user to read. */
export class LinkError extends Error {}

const CUT = "it was cut or changed on its way";

/** @param {string} text */
const shortSum = text => sumOf([text]).split("-")[0];

/** The edits as a text of letters, digits, and - _ . ~ alone.
    @param {Done} done */
export function textOfDone(done) {
  const items = itemsOf(done);
  const words = items.flatMap(it => it.change).map(it => wordsOfLine(it.line));
  const named = new Set(words.filter(([it]) => ["alter", "drop"].includes(it)).map(it => it[1]));
  /** @param {import("./kept.js").KeptEdit} edit */
  const textOf = ({ line, event }) =>
    wordsOfLine(line).join(SPACE) + (event && named.has(event) ? `${EVENT}${event}` : "");
  return items.map(it => (it.isOn ? "" : OFF) + it.change.map(textOf).join(EDIT)).join(CHANGE);
}

/** The edits of such a text.
    @param {string} text */
export function doneOfText(text) {
  let free = FREE;
  /** @type {Done} */
  const done = { changes: [], off: [] };
  /** @param {string} it */
  const editOf = it => {
    const [words, event] = it.split(EVENT), line = words.replaceAll(SPACE, " ");
    if (!/^[a-z0-9 ]+$/.test(line) || !isEdit(line)) throw new LinkError("it has what is no edit");
    const isAt = wordsOfLine(line)[0] === "at";
    return { line, event: event ?? (isAt ? String(free++) : undefined) };
  };
  for (const it of text ? text.split(CHANGE) : []) {
    const isOn = !it.startsWith(OFF), change = it.slice(isOn ? 0 : 1).split(EDIT).map(editOf);
    if (isOn) done.changes.push(change);
    else done.off.push({ change, place: done.changes.length });
  }
  return done;
}

/** @param {BlobPart[]} parts @param {any} stream */
const through = (parts, stream) => new Blob(parts).stream().pipeThrough(stream);

/** @param {string} text */
async function packed(text) {
  const stream = through([text], new Deflating("deflate-raw"));
  const base64 = btoa(latin1(new Uint8Array(await new Response(stream).arrayBuffer())));
  return base64.replaceAll("+", "-").replaceAll("/", "_").replaceAll("=", "");
}

/** What was packed, unless it is longer than any text that the page packs.
    @param {string} text */
async function unpacked(text) {
  /** @type {Uint8Array[]} */
  const parts = [], decoder = new TextDecoder();
  try {
    const base64 = atob(text.replaceAll("-", "+").replaceAll("_", "/"));
    const bytes = Uint8Array.from(base64, it => it.charCodeAt(0));
    const reader = through([bytes], new Inflating("deflate-raw")).getReader();
    for (let length = 0; length <= LONGEST_TEXT;) {
      const { value, done } = await reader.read();
      if (done) return parts.map(it => decoder.decode(it, { stream: true })).join("");
      parts.push(value);
      length += value.length;
    }
    await reader.cancel();
  } catch {
    throw new LinkError(CUT);
  }
  throw new LinkError("its edits are too long");
}

/** The words of an address for the edits of the example `key`, whose sum is `sum`.
    @param {string} key @param {string} sum @param {Done} done */
export async function wordsOfLink(key, sum, done) {
  const text = textOfDone(done);
  if (text.length > LONGEST_TEXT) throw new LinkError("its edits are too long");
  const isPlain = text.length <= LONGEST_PLAIN;
  const held = isPlain ? text : await packed(text);
  if (held.length > LONGEST_LINK) {
    throw new LinkError(`its edits take ${held.length} bytes, and a link has ${LONGEST_LINK}`);
  }
  const name = isPlain ? "edits" : "packed";
  return `${name}=${[key, shortSum(sum), shortSum(text)].join(CHANGE)}${CHANGE}${held}`;
}

/**
 * What a link shows besides edits, as far as it isn't what is shown anyway: words and registers of
 * the watch list, by their names; notes; and the past that is compared with.
 * @typedef {{words?: string[], registers?: string[], notes?: import("./notes.js").Note[],
 *   past?: import("./stored.js").StoredPast}} MoreShown
 */

/** The words of an address for what a link shows besides edits; an empty text if that is nothing.
    @param {MoreShown} more */
export async function wordsOfMore(more) {
  const text = JSON.stringify(more);
  if (text === "{}") return "";
  const held = await packed(text);
  if (text.length > LONGEST_TEXT || held.length > LONGEST_LINK) {
    throw new LinkError(`its notes and words take ${held.length} bytes, and a link has `
      + `${LONGEST_LINK}`);
  }
  return `&shown=${shortSum(text)}${CHANGE}${held}`;
}

/** What a fragment shows besides edits. A LinkError says what is wrong.
    @param {string} fragment @returns {Promise<MoreShown>} */
export async function moreOfLink(fragment) {
  const shown = new URLSearchParams(fragment.replace(/^#/, "")).get("shown");
  if (shown === null) return {};
  const [check, held = ""] = shown.split(CHANGE);
  const text = held.length > 2 * LONGEST_LINK ? "" : await unpacked(held);
  if (shortSum(text) !== check) throw new LinkError(CUT);
  const more = JSON.parse(text);
  /** @param {any} it */
  const areTexts = it => it === undefined
    || Array.isArray(it) && it.every(one => typeof one === "string");
  const isRight = areTexts(more.words) && areTexts(more.registers)
    && (more.notes === undefined || notesKept(more.notes))
    && (more.past === undefined || isStoredPast(more.past));
  if (!isRight) throw new LinkError("it shows what this page doesn't know");
  return more;
}

/** What a fragment says of edits, or null if it says nothing of them.
    @param {string} fragment */
function heldIn(fragment) {
  const words = new URLSearchParams(fragment.replace(/^#/, ""));
  for (const name of ["edits", "packed"]) {
    const held = words.get(name);
    if (held !== null) return { name, held };
  }
  return null;
}

/** @param {string} fragment */
export const hasEdits = fragment => heldIn(fragment) !== null;

/**
 * The edits that a fragment holds, or null if it holds none. A LinkError says what is wrong.
 * `isOf(sum)` says whether they are those of a session with this sum.
 * @param {string} fragment
 * @returns {Promise<{key: string, isOf: (sum: string) => boolean, done: Done} | null>}
 */
export async function editsOfLink(fragment) {
  const found = heldIn(fragment);
  if (!found) return null;
  const { name, held } = found;
  const [key, sum, check, ...parts] = held.split(CHANGE), rest = parts.join(CHANGE);
  if (!parts.length || held.length > 2 * LONGEST_LINK) throw new LinkError(CUT);
  const text = name === "edits" ? rest : await unpacked(rest);
  if (shortSum(text) !== check) throw new LinkError(CUT);
  return { key, isOf: it => shortSum(it) === sum, done: doneOfText(text) };
}
