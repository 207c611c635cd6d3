// Tests of how the timeline's interrupts are found. Each throws if something isn't so.

import { sampledIn } from "/sampled.js";
import { Past } from "/past.js";
import { PictureMaker } from "/picture.js";
import { View } from "/lanes.js";
import { DEVICE_VECTORS, octal, vectorName } from "/replies.js";
import { labelsOf } from "/traces.js";

const [KEYBOARD, PRINTER] = [0o60, 0o64];
const DEVICES = "devices RKCS 000200 RKWC 000000 RKBA 000000 RKDA 000000";

function equal(found, wanted) {
  const [left, right] = [found, wanted].map(it => JSON.stringify(it));
  if (left !== right) throw new Error(`${left} isn't ${right}`);
}

/** A run that is interrupted in these turns by these vectors, and keeps what it is asked. */
function runOf(turns) {
  const asked = [];
  const vectorAt = turn => [...turns].find(([, it]) => it.has(turn))?.[0];
  const trail = (end, count) => {
    const lines = Array.from({ length: count }, (_, at) => {
      const turn = end - count + at, vector = vectorAt(turn);
      return `${turn} 001000 ${vector ? `irq ${octal(vector, 3)}` : "instr"}`;
    });
    return [`trail ${count}`, ...lines].join("\n");
  };
  const replyTo = line => {
    const [word, first, second, , vector] = line.split(" ");
    if (word === "regs") return "R0 000000 PC 001000 PS 000000 run";
    if (word === "devices") return DEVICES;
    if (word === "text") return "text 0:";
    if (word === "trail") return trail(Number(first), Number(second));
    const found = [...turns.get(parseInt(vector, 8)) ?? []];
    return `first ${found.find(it => it >= Number(first) && it < Number(second)) ?? "none"}`;
  };
  const ask = async lines => {
    asked.push(...lines);
    return lines.map(replyTo);
  };
  return { run: { past: new Past(), ask }, asked, trails: () =>
    asked.filter(it => it.startsWith("trail")) };
}

const each = (count, step) => new Set(Array.from({ length: count }, (_, at) => at * step));

async function pictureOf(run, end, more = {}) {
  const wanted = { first: 0, end, columns: 1_000, words: [], ...more };
  return new PictureMaker(run, wanted, null, () => {}).make();
}

const lookLike = (picture, vector) =>
  picture.interrupts.filter(it => it.vector === vector).map(it => it.turn);

export async function test_interrupts_that_are_few_are_all_found() {
  const turns = new Map(
    [[KEYBOARD, new Set([5, 199_999])], [PRINTER, new Set([99, 100, 150_000])]]);
  const { run, trails } = runOf(turns);
  const picture = await pictureOf(run, 200_000);
  equal(picture.interrupts.map(it => it.turn), [5, 99, 100, 150_000, 199_999]);
  equal([picture.sampledVectors, trails()], [[], []]);
  equal(sampledIn(picture).some(it => it.includes("interrupts")), false);
}

export async function test_interrupts_that_are_too_many_are_sampled() {
  const { run } = runOf(new Map([[KEYBOARD, new Set([150])], [PRINTER, each(1_000, 200)]]));
  const picture = await pictureOf(run, 200_000);
  // each step has 200 turns: turn 150 is in none of the trails
  equal([lookLike(picture, KEYBOARD), lookLike(picture, PRINTER).length], [[150], 1_000]);
  equal(picture.sampledVectors, [PRINTER]);
  equal(sampledIn(picture).includes(
    "Sampled in the first 64 of each 200 turns: interrupts by printer."), true);
  const other = await pictureOf(run, 200_000, { listed: [KEYBOARD] });
  equal([lookLike(other, KEYBOARD), other.sampledVectors], [[], [KEYBOARD, PRINTER]]);
  equal(sampledIn(picture, other).at(-1),
    "Of the old past sampled: interrupts by keyboard, printer.");
}

export async function test_trails_of_all_turns_sample_nothing() {
  const { run, trails } = runOf(new Map([[PRINTER, each(2_000, 2)]]));
  const picture = await pictureOf(run, 4_001);
  equal([lookLike(picture, PRINTER).length, picture.sampledVectors], [2_000, []]);
  equal([trails().length, trails().at(-1)], [63, "trail 4001 33"]);
}

/** In too many turns nothing is searched: each look has a trail. */
export async function test_interrupts_in_too_many_turns_are_sampled() {
  const { run, asked, trails } = runOf(new Map([[KEYBOARD, new Set([7, 90_063, 90_064])]]));
  const picture = await pictureOf(run, 90_000_000);
  equal([lookLike(picture, KEYBOARD), picture.sampledVectors], [[7, 90_063], DEVICE_VECTORS]);
  equal([trails().length, asked.some(it => it.startsWith("first"))], [1_000, false]);
}

/** A view in which each turn has so many pixels. */
function viewOf(first, span, pixels) {
  const view = new View(first, span);
  view.width = span * pixels;
  return view;
}

const interruptsAt = (...turns) => turns.map(turn => ({ turn, vector: KEYBOARD }));

/** The labels of interrupts: those of the second row are indented. */
const labelled = (interrupts, view, isSampled) =>
  labelsOf(interrupts, view, isSampled).map(({ text, row }) => (row ? "  " : "") + text);

export function test_each_interrupt_has_a_label_of_its_own() {
  const view = viewOf(100, 200, 1);
  const near = [...interruptsAt(110, 140), { turn: 143, vector: PRINTER }];
  equal(labelled(interruptsAt(110, 200), view), ["keyboard", "keyboard"]);
  equal(labelled(near, view), ["060", "keyboard", "  printer"]);
  equal(labelled(interruptsAt(110, 113, 175, 180, 270), view),
    ["keyboard", "  keyboard", "keyboard", "  keyboard", "060"]);
  // what is out of sight, or is cut at the edge, has none
  equal(labelled(interruptsAt(99, 110, 290, 300), view), ["keyboard"]);
}

export function test_interrupts_without_room_are_counted() {
  const view = viewOf(100, 200, 1), near = interruptsAt(110, 113, 116, 119, 195);
  equal(labelled(near, view), ["keyboard \u00d73", "  keyboard", "keyboard"]);
  equal(labelled(near, view, true), ["keyboard \u22653", "  keyboard", "keyboard"]);
  equal(labelled([...near, { turn: 114, vector: PRINTER }].sort((a, b) => a.turn - b.turn), view),
    ["\u00d74", "  keyboard", "keyboard"]);
}

/** Every interrupt in sight has one label that has room; the counts add up. */
export function test_labels_of_interrupts_stand_for_all() {
  let seed = 1;
  const random = most => (seed = seed * 48_271 % 2_147_483_647) % most;
  for (let round = 0; round < 300; round++) {
    const count = random(60), view = viewOf(random(50), 1_000, 0.5 + random(4));
    const turns = Array.from({ length: count }, () => random(900)).sort((a, b) => a - b);
    const interrupts = turns.map(turn => ({ turn, vector: DEVICE_VECTORS[random(6)] }));
    const seen = interrupts.filter(it => it.turn >= view.first), ends = [0, 0];
    let next = 0;
    for (const { x, text, row } of labelsOf(interrupts, view)) {
      const { turn, vector } = seen[next];
      const [, of, many] = /^(\D*?) ?(?:\u00d7(\d+))?$/.exec(text) ?? [];
      const texts = [vectorName(vector), octal(vector, 3)];
      equal([x, many ? !of || of === texts[0] : texts.includes(text)], [view.x(turn), true]);
      next += Number(many ?? 1);
      equal(ends[row] <= x, true);
      ends[row] = x + 6 * text.length;
    }
    equal([next, Math.max(...ends) <= view.left + view.width], [seen.length, true]);
  }
}
