// Shows how the old past and the new one differ.

import { make, table } from "./page.js";
import { octal } from "./replies.js";

const COMPARED_SECTORS = 96;

/**
 * @typedef {import("./comparison.js").Comparison} Comparison
 * @typedef {import("./comparison.js").Part} Part
 * @typedef {import("./comparison.js").Found} Found
 */

export class Differences {
  /** @param {HTMLElement} place @param {import("./app.js").App} app */
  constructor(place, app) {
    this.place = place;
    this.app = app;
  }

  showNone() {
    this.place.replaceChildren(
      make("p", { class: "faint" }, "Once you make an edit, this says what it changed."));
  }

  showLater() {
    this.place.replaceChildren(
      make("p", { class: "faint" }, "Once the console ends, this says what its keys changed."));
  }

  showAtWork() {
    this.place.replaceChildren(atWork());
  }

  /** What was being compared isn't known. */
  showStopped() {
    this.place.querySelector(".at-work")?.replaceWith(
      make("p", { class: "faint" }, "Stopped: what isn't here wasn't compared."));
  }

  /** Shows the first turn in which the pasts part; returns it for the timeline, or null. From turn
      `same` on they are the same, if that isn't null.
      @param {Comparison} comparison @param {number} end @param {number | null} same */
  async show(comparison, end, same) {
    const last = Math.min(end, same || end);
    const part = await comparison.part(last);
    const again = same === null ? [] : [this.sameLine(same)];
    const line = this.partLine(part, part.later ? last : end);
    this.place.replaceChildren(make("h3", {}, "Registers"), line, ...again, atWork());
    return part.turn === null ? null : { turn: part.turn, isExact: !part.later };
  }

  /** @param {number} same */
  sameLine(same) {
    const go = this.app.linkTo(same, `turn ${same}`);
    return make("p", {}, "From ", go, " on the run is the old one again.");
  }

  /** @param {Part} part @param {number} end */
  partLine({ edited, turn, single, later }, end) {
    const compared = `compared before each of the turns ${edited} to ${single}`
      + `, and before ${later} of those from there to ${turn ?? end}`;
    if (turn === null && !later) {
      return make("p", {}, `The registers don't differ before any turn up to ${end}.`);
    }
    if (turn === null) {
      return make("p", {}, "No difference of the registers was found: "
        + `they were ${compared}. Between those it isn't known.`);
    }
    const go = this.app.linkTo(turn, `turn ${turn}`);
    if (!later) return make("p", {}, "The registers first differ before ", go, ".");
    return make("p", {}, "The registers differ before ", go,
      `. They were ${compared}: between those they may have differed before.`);
  }

  /** Shows the words of core and of the disk that differ.
      @param {Comparison} comparison @param {number} end */
  async showWords(comparison, end) {
    /** @param {Node} it */
    const add = it => this.place.lastElementChild?.before(it);
    add(words("Core", await comparison.core(end), end, it => octal(2 * it)));
    const sectors = `${COMPARED_SECTORS} sectors`;
    /** @type {number[]} */
    const same = [];
    for (const drive of comparison.drives) {
      const disk = await comparison.disk(end, drive, COMPARED_SECTORS);
      const name = `Drive ${drive}, its first ${sectors}`;
      if (disk.count || !drive) add(words(name, disk, end, it => octal(it, 7)));
      else same.push(drive);
    }
    const none = `Drives ${same.join(", ")}: no word of the first ${sectors} differs.`;
    if (same.length) add(make("p", {}, none));
    if (comparison.versionsDiffer) add(make("p", {}, "One of the pasts has drive 0 alone."));
    this.place.lastElementChild?.remove();
  }
}

const atWork = () => make("p", { class: "faint at-work" }, "Comparing ..");

/** @param {string} name @param {Found} found @param {number} end
    @param {(at: number) => string} placeOf */
function words(name, found, end, placeOf) {
  const count = found.count === 1 ? "1 word differs" : `${found.count} words differ`;
  const rows = found.shown.map(it => [placeOf(it.at), octal(it.old), octal(it.now)]);
  const left = found.count - rows.length;
  const list = rows.length ? table(`${name}: words that differ`, ["word", "was", "is now"], rows)
    : "";
  return make("div", {}, make("h3", {}, `${name}: ${count} before turn ${end}`), list,
    left > 0 ? make("p", {}, `and ${left} more`) : "");
}

/** A text as pieces, with what differs from an old text marked: in each line whole words and
    numbers, from the first that differs to the last.
    @param {string} text @param {string} oldText */
export function marked(text, oldText) {
  const [lines, olds] = [text.split("\n"), oldText.split("\n")];
  return lines.flatMap((line, at) => {
    const end = at < lines.length - 1 ? "\n" : "";
    return line === olds[at] ? [line + end] : [...markedLine(line, olds[at] ?? ""), end];
  });
}

/** The words, numbers and other characters of a line.
    @param {string} line @returns {string[]} */
const partsOf = line => line.match(/[A-Za-z]+[0-9]*|[0-9]+|[^]/g) ?? [];

/** @param {string} line @param {string} old */
function markedLine(line, old) {
  const [now, then] = [line, old].map(partsOf), least = Math.min(now.length, then.length);
  let from = 0;
  while (from < least && now[from] === then[from]) from++;
  let same = 0;
  while (same < least - from && now.at(-1 - same) === then.at(-1 - same)) same++;
  /** @param {string} name @param {string[]} parts */
  const piece = (name, parts) => parts.length ? [make(name, {}, parts.join(""))] : [];
  return [
    now.slice(0, from).join(""), ...piece("del", then.slice(from, then.length - same)),
    ...piece("ins", now.slice(from, now.length - same)), now.slice(now.length - same).join(""),
  ];
}
