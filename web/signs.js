// What each lane of the timeline is, in words: for the pointer, for keys, and in the legend.

import { element, make } from "./page.js";

const WORD = "the value of this word, higher for a larger one; a dot where the processor wrote it, "
  + "a square where the disk did";
/** @type {Object<string, string>} */
const LANES = {
  turn: "the steps of the machine, counted from power-up",
  events: "keys, ticks and what else came from outside, each in its turn: drag one to another turn",
  sweep: "what came of the event in each turn that was tried: equal letters, equal outcomes",
  matters: "how near each event is to changing the answer that was asked about: where the nearest "
    + "move puts it, or \u00d7 where it is without it",
  "kernel PC": "where the program runs in kernel mode, higher for a higher address",
  "user PC": "where the program runs in user mode, higher for a higher address",
  disk: "what the disk does, from the turn that begins it to the one that ends it",
  interrupts: "interrupts, each by its device or, if that has no room, by its vector; \u00d73 are "
    + "three too near one another for that, and if they are sampled \u22653 are at least three",
  console: "what the machine prints, each character in the turn that prints it",
};

/** What a lane is, in a sentence.
    @param {import("./lanes.js").Lane} lane */
export const explained = ({ kind, name, label }) =>
  `${label || name}: ${kind === "steps" ? WORD : LANES[name]}`;

/** The lanes in the legend. */
export function listLanes() {
  const all = Object.entries({ ...LANES, "a word": WORD });
  element("lanes").replaceChildren(...all.map(([name, text]) =>
    make("div", {}, make("dt", {}, name), make("dd", {}, text))));
}
