// Tests of what registers and bytes are made of. Each throws if something isn't so.

import {
  ALL_CODES, TPB, driveCell, firstOf, nameOfCell, registerCells, wordOfDrive,
} from "/cells.js";
import { rowOf } from "/made-of.js";
import { madeNamed, rangesOf } from "/made.js";
import { Origins } from "/origins.js";
import { shownBytes } from "/replies.js";

function equal(found, wanted) {
  const [left, right] = [found, wanted].map(it => JSON.stringify(it));
  if (left !== right) throw new Error(`${left} isn't ${right}`);
}

export function test_cells_have_names() {
  const cells = [0o2001, TPB, registerCells(6)[1], ALL_CODES[0], driveCell(1, 0o400, 1)];
  equal(cells.map(it => nameOfCell(it, true)),
    ["core 002000", "TPB", "KSP", "code N", "disk 1 0000400"]);
  equal(nameOfCell(driveCell(0, 7), false), "disk 0000007");
  equal(wordOfDrive(driveCell(7, 0o4603777, 1)), { drive: 7, at: 0o4603777 });
  equal([firstOf(0o2001), firstOf(ALL_CODES[3])], [0o2000, ALL_CODES[3]]);
}

export function test_rows_of_instructions() {
  equal([0o012702, 0o112702].map(it => rowOf(it).isByte), [false, true]);
  equal([rowOf(0o010000).low, rowOf(0o162701).high, rowOf(0o000301).low], ["s", "sSdD", "D"]);
  equal([0o000240, 0o004737, 0o070100, 0o106500].map(rowOf), [null, null, null, null]);
}

export function test_things_that_are_made() {
  equal(madeNamed("r2"), { kind: "register", name: "R2" });
  equal(madeNamed("byte 12"), { kind: "byte", number: 12 });
  equal(["R6", "2000", "PC", "byte", "text 1"].map(madeNamed), [null, null, null, null, null]);
  equal([rangesOf([1, 3, 4, 5, 9]), rangesOf([])], ["1, 3-5, 9", ""]);
}

export function test_bytes_that_are_shown() {
  equal(shownBytes([65, 13, 10, 66, 13, 67]), [0, 2, 3, 4, 5]);
}

/** Origins whose writes are given: by number, the turns of what each is made of. */
class GivenOrigins extends Origins {
  constructor(made) {
    super({ past: { delays: { disk: 10 }, script: [] } }, 100);
    this.made = made;
  }

  async inputs({ turn }) {
    return this.made[turn].map(it => ({ cell: 0, origin: this.origin(it ? 0 : 3, it, 0) }));
  }
}

/** The latest writes are followed first, each once; what the limit leaves is said. */
export async function test_the_way_back() {
  const origins = new GivenOrigins({ 9: [5, 7], 7: [5, 3], 5: [0], 3: [0] });
  const turns = async most => {
    const { inputs, left } = await origins.graph([origins.origin(0, 9, 0)], most);
    return [[...inputs.keys()].map(it => it.turn), [...left].map(it => it.turn)];
  };
  equal(await turns(10), [[9, 7, 5, 0, 3], []]);
  equal(await turns(2), [[9, 7, 5, 3], [5, 3]]);
}
