// What of a picture is sampled or cut, in sentences.

import { DEVICE_VECTORS, vectorName } from "./replies.js";

/**
 * @typedef {import("./picture.js").Picture} Picture
 * @typedef {Partial<Picture>} Sampled of which words and interrupts are told
 */

export const NOTHING_SAMPLED = "Each turn in sight is looked at; nothing is sampled.";

/** @param {Sampled | null} picture */
const sampledWords = picture =>
  picture?.words?.filter(it => it.values && !it.isWhole).map(it => it.name) ?? [];

/** The interrupts that are sampled, such as `interrupts by clock`; none if all were found.
    @param {Sampled | null} picture */
function sampledInterrupts(picture) {
  const vectors = picture?.sampledVectors ?? [];
  const isAll = vectors.length === DEVICE_VECTORS.length;
  const by = isAll ? "" : ` by ${vectors.map(vectorName).join(", ")}`;
  return vectors.length ? [`interrupts${by}`] : [];
}

/** What is sampled and what is cut in a picture and in that of the old past, in sentences.
    @param {Picture} picture @param {Sampled | null} ghost */
export function sampledIn(picture, ghost = null) {
  const { step, disk, text } = picture, [interrupts] = sampledInterrupts(picture);
  const notes = [];
  if (step > 1) notes.push(`PC and mode: the first of each ${step} turns.`);
  if (interrupts) notes.push(`Sampled in the first 64 of each ${step} turns: ${interrupts}.`);
  if (!disk.isWhole) notes.push(`Disk: busy or not, at the first of each ${step} turns.`);
  if (disk.isWhole && step > 1) {
    notes.push(`Disk: functions less than ${step} turns apart may be drawn as one.`);
  }
  if (text.each > 1) notes.push(`Console: one of each ${text.each} bytes.`);
  const sampled = sampledWords(picture);
  if (sampled.length) notes.push(`Sampled once each ${step} turns, dotted: ${sampled.join(", ")}.`);
  const olds = [...sampledWords(ghost), ...sampledInterrupts(ghost)]
    .filter(it => it !== interrupts && !sampled.includes(it));
  if (olds.length) notes.push(`Of the old past sampled: ${olds.join(", ")}.`);
  return notes.length ? notes : [NOTHING_SAMPLED];
}
