// What a question needs of the machine: the turns that it is about, and how a search of many turns
// is asked part by part.

import { LINES } from "./lines.js";
import { wordOfLine, wordsOfLine } from "./past.js";
import { LAST_TURN, isRefused, turnOf } from "./replies.js";

/** The first words of some lines.
    @param {(line: import("./lines.js").Line) => boolean} has */
const wordsOf = has => new Set(LINES.filter(has).map(it => wordOfLine(it.form)));

const OF_A_TURN = wordsOf(it => it.turns.endsWith(" N"));
const OF_TURNS = wordsOf(it => it.turns === "N to M");
// Those that are replied to with a line for each turn that is found.
const LISTS = wordsOf(it => it.turns === "N to M" && it.reply.endsWith(" C"));
const MOST_FOUND = 256;
const LONGEST_LINE = 200;
// In the first turns of a run a question is answered at once. A trail has at most so many turns. A
// search of no more turns is asked as other questions are.
const EARLY = 64, SHORT = 64;

/** Whether a reply lists as many turns as it may, so that more may be left.
    @param {string} reply */
export function isFullList(reply) {
  const [word, count] = reply.split(/[ \n]/, 2);
  return LISTS.has(word) && Number(count) === MOST_FOUND;
}

/** A turn as the program takes it: it refuses any other at once.
    @param {string} word */
const isTurn = word => /^\d{1,10}$/.test(word ?? "") && Number(word) <= LAST_TURN;

/** The turns from one before which a question is to one; both are 0 if the program runs none.
    @param {string} line */
export function turnsAsked(line) {
  if (line.length > LONGEST_LINE) return [0, 0];
  const word = wordOfLine(line), count = OF_A_TURN.has(word) ? 1 : OF_TURNS.has(word) ? 2 : 0;
  if (!count) return [0, 0];
  const turns = wordsOfLine(line).slice(1, 1 + count);
  const [begin, end] = turns.every(isTurn) ? turns.map(Number) : [];
  return end < begin ? [0, 0] : [begin ?? 0, end ?? begin ?? 0];
}

/** A word of a drive as lines name it: in version 2 with its drive.
    @param {import("./past.js").Past} past @param {{drive: number, at: number}} word */
export const onDrive = (past, { drive, at }) =>
  `${past.version === 2 ? `${drive} ` : ""}${at.toString(8)}`;

/** The line that asks for a word before a turn, or for some from it on.
    @param {import("./past.js").Past} past @param {import("./names.js").WatchedWord} word
    @param {number} turn */
export const questionOf = (past, word, turn, count = 1) => word.kind === "core"
  ? `mem ${turn} ${word.at.toString(8)} ${count}` : `dsk ${turn} ${onDrive(past, word)} ${count}`;

/** The first number after `low`, up to `high`, of which something is so that is so of `high`: it is
    so of all after that.
    @param {number} low @param {number} high @param {(number: number) => Promise<boolean>} isSo */
export async function firstOf(low, high, isSo) {
  while (high - low > 1) {
    const middle = Math.floor((low + high) / 2);
    if (await isSo(middle)) high = middle;
    else low = middle;
  }
  return high;
}

/** Whether a line is a question that names its turn, or its turns.
    @param {string} line */
export function isQuestionOfTurn(line) {
  const word = wordOfLine(line);
  return word !== "fades" && (OF_A_TURN.has(word) || OF_TURNS.has(word));
}

/** A question like this one about early turns. It is refused if this one is, whatever its turn.
    @param {string} line */
export function earlyQuestion(line) {
  const [word, ...rest] = wordsOfLine(line);
  if (word === "when") return `text ${EARLY} from ${rest.join(" ")}`;
  const turns = OF_TURNS.has(word) ? 2 : OF_A_TURN.has(word) ? 1 : 0;
  const early = rest.slice(0, turns).map(it => isTurn(it) ? Math.min(EARLY, Number(it)) : it);
  return [word, ...early, ...rest.slice(turns)].join(" ");
}

/** What is asked of the line of a session that is opened: an edit as it is, of a question one that
    runs nothing.
    @param {string} line */
export const askedAtOnce = line =>
  turnsAsked(line)[1] > 0 || byteAsked(line) !== null ? earlyQuestion(line) : line;

/** Whether a line is asked in parts.
    @param {string} line */
export function isSearch(line) {
  const [from, to] = turnsAsked(line);
  return OF_TURNS.has(wordOfLine(line)) && to - from > SHORT;
}

/** The byte of the console's text that `when` is about; null for any other line.
    @param {string} line */
export function byteAsked(line) {
  if (line.length > LONGEST_LINE) return null;
  const [, byte] = /^[ \t]*when[ \t]+(\d{1,10})[ \t]*$/.exec(line) ?? [];
  return byte === undefined ? null : Number(byte);
}

/**
 * A search that is asked in parts; null for any other line. The turns from `from` on and before
 * `end` are left: the first of them come next, or of a search backwards the last.
 * `line(from, to)` asks about turns, `add(reply, isLast)` takes the reply, `isLast` if no turns are
 * left. It returns the reply to the whole search, or null if the search goes on. `begin` is the
 * first turn of all.
 * @typedef {{begin: number, from: number, end: number, isBackwards: boolean,
 *   line: (from: number, to: number) => string,
 *   add: (reply: string, isLast: boolean) => string | null}} Search
 * @param {string} line @returns {Search | null}
 */
export function searchOf(line) {
  const [word, , , ...rest] = wordsOfLine(line);
  const [from, to] = turnsAsked(line);
  if (!isSearch(line)) return null;
  /** @param {number} low @param {number} high */
  const part = (low, high) => [word, low, high, ...rest].join(" ");
  /** @type {{found: string[], counts: number[]}} */
  const { found, counts } = { found: [], counts: [] };
  /** @param {string} reply @param {boolean} isLast */
  const add = (reply, isLast) => {
    if (isRefused(reply)) return reply;
    if (LISTS.has(word)) return addFound(found, reply, isLast, to);
    if (word === "counts") return addCounts(counts, reply, isLast);
    return turnOf(reply) === null && !isLast ? null : reply;
  };
  return { begin: from, from, end: to, isBackwards: word === "latest", line: part, add };
}

/** Adds what was found in a part; returns the reply to the whole search if it is known.
    @param {string[]} found @param {string} reply @param {boolean} isLast @param {number} end */
function addFound(found, reply, isLast, end) {
  const [head, ...more] = reply.split("\n"), [word] = head.split(" ");
  found.push(...more);
  const lines = found.slice(0, MOST_FOUND);
  const isFull = lines.length === MOST_FOUND;
  if (!isFull && !isLast) return null;
  const hasMore = isFull && Number(lines[MOST_FOUND - 1].split(" ")[0]) + 1 < end;
  return [`${word} ${lines.length}${hasMore ? " or more" : ""}`, ...lines].join("\n");
}

/** Adds the counts of a part; returns the reply to the whole search after its last part.
    @param {number[]} found @param {string} reply @param {boolean} isLast */
function addCounts(found, reply, isLast) {
  reply.split(" ").slice(1).forEach((it, at) => { found[at] = (found[at] ?? 0) + Number(it); });
  return isLast ? ["counts", ...found].join(" ") : null;
}
