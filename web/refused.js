// The lines of a session that were refused as it was opened.

import { make } from "./page.js";
import { visibleName } from "./replies.js";
import { wordsOfLine } from "./past.js";
import { readableLine } from "./session.js";

const MOST_SHOWN = 20, LONGEST_SHOWN = 80;

/** @typedef {{number: number, line: string, reply: string}} Refused */

/**
 * Lists the refused lines of a session with their numbers and replies, at most some of them.
 * Returns how many they are, in a sentence, or an empty text.
 * @param {HTMLElement} place @param {Refused[]} refused @param {string[]} lines
 */
export function showRefused(place, refused, lines) {
  place.hidden = !refused.length;
  place.replaceChildren();
  if (!refused.length) return "";
  const numbers = new Set(refused.map(it => it.number));
  const isAll = !lines.some((it, at) => wordsOfLine(it).length && !numbers.has(at + 1));
  const were = refused.length > 1 ? "were" : "was";
  const said = isAll ? `All of its lines were refused (${refused.length}): is it a session?`
    : `${refused.length} of its ${lines.length} lines ${were} refused.`;
  const shown = refused.slice(0, MOST_SHOWN).map(lineInWords);
  const left = refused.length - shown.length;
  if (left) shown.push(`and ${left} more`);
  place.append(make("summary", {}, said), make("pre", { tabindex: "0" }, shown.join("\n")));
  return said;
}

/** @param {Refused} refused */
function lineInWords({ number, line, reply }) {
  const text = visibleName(readableLine(line));
  const isCut = text.length > LONGEST_SHOWN;
  const shown = isCut ? `${text.slice(0, LONGEST_SHOWN)} .. (${line.length} bytes)` : text;
  return `line ${number}: ${shown}: ${reply}`;
}
