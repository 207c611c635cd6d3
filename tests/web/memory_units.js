// Tests of stretches of memory, and of the words that transfers copied. Each throws if something
// isn't so.

import {
  bytesOfWords, clipped, heldBefore, lineOfFind, placeNamed, placesOf, rowsOf, textOfWords,
} from "/memory.js";
import { linesBetween, pointsOf } from "/path.js";
import { AskError } from "/replies.js";
import { View } from "/lanes.js";
import { copiedBy, hasWritten, transfersOf } from "/transfers.js";

function equal(found, wanted) {
  const [left, right] = [found, wanted].map(it => JSON.stringify(it));
  if (left !== right) throw new Error(`${left} isn't ${right}`);
}

const SYMBOLS = { kernel: [{ name: "BUSY", value: 0o1472 }], user: [{ name: "A+B", value: 8 }] };
const PAST = { version: 1, core: 0o160000 };

function named(space, text) {
  try {
    const { drive, at, isVirtual } = placeNamed(space, text, SYMBOLS);
    return [drive, at, isVirtual];
  } catch (error) {
    if (error instanceof AskError) return "none";
    throw error;
  }
}

export function test_places_by_name() {
  equal(named("core", "1472"), [0, 0o1472, false]);
  equal(named("core", "1473"), [0, 0o1472, false]);
  equal(named("kernel", "BUSY+4"), [0, 0o1476, false]);
  equal(named("core", "BUSY"), [0, 0o1472, true]);
  equal([named("user", "BUSY"), named("core", "9"), named("kernel", "BUSY+9")],
    ["none", "none", "none"]);
  equal(named("disk", "400"), [0, 0o400, false]);
  equal(named("disk", "sector 12"), [0, 12 * 256, false]);
  equal(named("disk", "3 sector 2"), [3, 512, false]);
  equal(named("disk", "3 77"), [3, 0o77, false]);
  equal([named("disk", "sector x"), named("disk", "8 0"), named("disk", "BUSY")],
    ["none", "none", "none"]);
}

/** A stretch goes no further than its space, and has as many words as were asked for. */
export async function test_stretches_end_with_their_space() {
  const at = (space, from, count, past = PAST, drive = 0) => {
    const found = clipped({ space, drive, at: from, count }, past);
    return [found.at, found.count];
  };
  equal(at("core", 0o157770, 64), [0o157770, 4]);
  equal(at("core", 0o170000, 64), [0o157776, 1]);
  equal(at("user", 0o177776, 64), [0o177776, 1]);
  equal(at("disk", 203 * 2 * 12 * 256 - 3, 64), [203 * 2 * 12 * 256 - 3, 3]);
  equal(at("disk", 0, 64, PAST, 1)[1], 0);
  equal(at("disk", 0, 64, { ...PAST, version: 2 }, 1), [0, 64]);
  const asked = [];
  const ask = async ([line]) => {
    asked.push(line);
    const count = Number(line.split(" ").at(-1));
    return [`mem ${Array.from({ length: count }, () => "000001").join(" ")}`];
  };
  const held = await heldBefore(ask, PAST, 9, { space: "core", drive: 0, at: 0, count: 600 });
  equal(asked, ["mem 9 0 256", "mem 9 1000 256", "mem 9 2000 88"]);
  equal([held.words.length, held.why], [600, ""]);
}

/** What can't be read ends a stretch, and says why. */
export async function test_an_address_that_can_not_be_read_ends_it() {
  const ask = async ([line]) => {
    const [, , , at, count] = line.split(" "), first = parseInt(at, 8);
    const isThere = first + 2 * Number(count) <= 0o20000;
    if (!isThere) return [`virtual abort length at ${first < 0o20000 ? "020000" : "020000"}`];
    return [`virtual ${Array.from({ length: Number(count) }, () => "000002").join(" ")}`];
  };
  const held = await heldBefore(ask, PAST, 9,
    { space: "user", drive: 0, at: 0o17770, count: 64 });
  equal([held.words.length, held.why], [4, "abort length at 020000"]);
}

export function test_rows_and_texts() {
  const stretch = { space: "core", drive: 0, at: 0o1000, count: 5 };
  const rows = rowsOf({ stretch, words: [1, 2, 3, 4, 5], why: "" }, 4);
  equal(rows, [{ at: 0o1000, words: [1, 2, 3, 4] }, { at: 0o1010, words: [5] }]);
  const onDisk = { ...stretch, space: "disk" };
  equal(rowsOf({ stretch: onDisk, words: [1, 2, 3, 4, 5], why: "" }, 4)[1].at, 0o1004);
  equal(textOfWords([0x4241, 0x0043]), "ABC\u00b7");
  equal(bytesOfWords([0o1402]), "002 003");
}

export function test_lines_that_find() {
  const core = { space: "core", drive: 0 }, disk = { space: "disk", drive: 2 };
  equal(lineOfFind(core, PAST, 7, 0, 0o130, null), "find 7 0 157776 000130");
  equal(lineOfFind(core, PAST, 7, 0o160000, 0o130, null), null);
  equal(lineOfFind(disk, { ...PAST, version: 2 }, 7, 1, 0o130, 0o377),
    "finddsk 7 2 1 4603777 000130 mask 000377");
  equal(placesOf("find 2\n001000\n001004"), { places: [0o1000, 0o1004], hasMore: false });
  equal(placesOf("finddsk 1 or more\n0000400"), { places: [0o400], hasMore: true });
}

/** Which word a transfer copied, also if it kept to one word of core. */
export function test_words_that_transfers_copy() {
  const [read] = transfersOf("transfers 1\n30 10 read 0 0000400 002000 3 000000").ended;
  equal(read, { turn: 30, begin: 10, name: "read", drive: 0, index: 0o400, core: 0o2000, count: 3,
    error: 0 });
  const { ended, hasMore } = transfersOf("transfers 2 or more\n30 before write 1 0 2000 3 0\n"
    + "40 30 write 1 0 2000 3 0");
  equal([ended.map(it => it.begin), hasMore], [[null, 30], true]);
  equal(transfersOf("transfers 0"), { ended: [], hasMore: false });
  const filled = at => hasWritten(ended[0], { kind: "disk", drive: 1, at });
  equal([0, 0o377, 0o400].map(filled), [true, true, false]);
  equal(hasWritten(ended[0], { kind: "core", drive: 0, at: 0o2000 }), false);
  const from = (it, kind, at) => copiedBy(it, { kind, drive: 0, at })?.at ?? null;
  const inCore = [0o1776, 0o2000, 0o2004, 0o2006], onDrive = [0o377, 0o400, 0o402, 0o403];
  equal(inCore.map(it => from(read, "core", it)), [null, 0o400, 0o402, null]);
  equal(onDrive.map(it => from(read, "disk", it)), [null, 0o2000, 0o2004, null]);
  const one = { ...read, stays: true };
  equal(inCore.map(it => from(one, "core", it)), [null, 0o402, null, null]);
  equal(onDrive.map(it => from(one, "disk", it)), [null, 0o2000, 0o2000, null]);
  equal(from({ ...one, count: 0 }, "core", 0o2000), null);
}

/** A path goes through the middles of the lanes of its steps; what isn't drawn is left out. */
export function test_points_of_a_path() {
  const view = Object.assign(new View(0, 100), { left: 50, width: 1000 });
  const lanes = [{ name: "user PC", top: 20, height: 60 }, { name: "disk", top: 80, height: 30 }];
  const steps = [{ turn: 10, lane: "disk" }, { turn: null, lane: "" }, { turn: 5, lane: "core 0" },
    { turn: 2, lane: "user PC" }];
  const points = pointsOf(steps, lanes, view), [disk, , , user] = points;
  equal(points, [{ x: 100, y: 95 }, null, null, { x: 20, y: 50 }]);
  equal(linesBetween(steps, points), [[disk, user]]);
  const tree = [-1, 0, 0, 0].map((above, at) => ({ ...steps[at], above }));
  equal(linesBetween(tree, points), [[disk, user]]);
  equal(linesBetween([tree[1], tree[3]], [null, user]), []);
}
