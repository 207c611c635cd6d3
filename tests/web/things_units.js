// Tests of the things that are drawn, and which of them is touched. Each throws if something isn't
// so.

import { View } from "/lanes.js";
import { thingAt, thingFrom, thingsOf } from "/things.js";

const look = (turn, mode, pc, state = "run") => ({ turn, mode, pc, state });
const PICTURE = {
  first: 0, end: 100, step: 1,
  looks: [look(0, "kernel", 0o1000), look(1, "user", 0o10), look(2, "kernel", 0o1004, "halted")],
  interrupts: [{ turn: 40, vector: 0o100 }, { turn: 42, vector: 0o60 }],
  disk: { bars: [{ begin: 10, end: 30, title: "read of 2 words" },
    { begin: null, end: 5, title: "seek" }], busy: [] },
  text: { bytes: [{ turn: 50, byte: 0o101 }], each: 1 },
  words: [{ name: "core 002000", isWhole: true, values: [{ turn: 0, word: 1, writer: "" },
    { turn: 30, word: 2, writer: "disk" }, { turn: 60, word: 3, writer: "cpu" }] }],
};
const SYMBOLS = { kernel: [{ name: "START", value: 0o1000 }], user: [] };
const LANES = {
  kernel: { kind: "counter", mode: "kernel" }, disk: { kind: "row", name: "disk" },
  interrupts: { kind: "row", name: "interrupts" }, console: { kind: "row", name: "console" },
  word: { kind: "steps", name: "core 002000", label: "count" },
};

function equal(found, wanted) {
  const [left, right] = [found, wanted].map(it => JSON.stringify(it));
  if (left !== right) throw new Error(`${left} isn't ${right}`);
}

const things = name => thingsOf(LANES[name], PICTURE, SYMBOLS);

/** What is told at a turn, with ten pixels for each. */
function told(name, turn) {
  const view = new View(0, 100);
  view.width = 1000;
  const found = thingAt(LANES[name], things(name), view, view.x(turn));
  return found && [found.thing.goTo, found.isThere, found.thing.text];
}

export function test_each_kind_of_thing_is_told() {
  equal(told("kernel", 0.5), [0, true, "kernel PC 001000 START"]);
  equal(told("kernel", 2), [2, true, "kernel PC 001004 START+4, halted"]);
  equal(told("disk", 20), [10, true, "read of 2 words, up to turn 30"]);
  equal(told("disk", 3), [0, true, "seek, up to turn 5"]);
  equal(told("interrupts", 40.4), [40, true, "interrupt 100 clock"]);
  equal(told("interrupts", 41.7), [42, true, "interrupt 060 keyboard"]);
  equal(told("console", 50), [50, true, "byte 101 A printed"]);
  equal([told("console", 60), told("interrupts", 60), told("disk", 40)], [null, null, null]);
}

/** A write by the disk leads to where its transfer began. Between writes a word has its value. */
export function test_a_write_leads_to_what_made_it() {
  equal(told("word", 30), [10, true,
    "count core 002000 is 000002, written by the disk, by a transfer begun in turn 10"]);
  equal(told("word", 60.3), [60, true, "count core 002000 is 000003, written by the processor"]);
  equal(told("word", 80), [60, false, "count core 002000 is 000003, written by the processor"]);
  equal(told("word", 20)[1], false);
}

export function test_what_is_sampled_says_so() {
  const sampled = { ...PICTURE, step: 8, text: { ...PICTURE.text, each: 3 },
    words: [{ ...PICTURE.words[0], isWhole: false, values: [{ turn: 0, word: 1, writer: "" }] }],
    disk: { bars: [], busy: [{ turn: 4 }] } };
  const texts = Object.values(LANES).map(it => thingsOf(it, sampled, SYMBOLS)[0].text);
  equal(texts.map(it => /sample|the first of 8 turns|one of each 3 bytes/.test(it)),
    [true, true, false, true, true]);
}

export function test_the_next_thing_and_the_one_before() {
  const from = (turn, direction) => thingFrom(things("interrupts"), turn, direction)?.goTo ?? null;
  equal([from(0, 1), from(40, 1), from(42, 1), from(42, -1), from(40, -1), from(99, -1)],
    [40, 42, null, 40, null, 42]);
}
