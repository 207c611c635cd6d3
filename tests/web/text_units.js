// Tests of how the bytes of the console are asked. Each throws if something isn't so.

import { PictureMaker } from "/picture.js";
import { Run } from "/run.js";
import { NotingMachine } from "/units.js";

function equal(found, wanted) {
  const [left, right] = [found, wanted].map(it => JSON.stringify(it));
  if (left !== right) throw new Error(`${left} isn't ${right}`);
}

/** The machine that notes what it runs. In each 100th turn it prints the next letter. */
class PrintingMachine extends NotingMachine {
  reply(line) {
    const [word, turn, , from = "0"] = line.split(" ");
    if (word === "when") return `when ${100 * Number(turn)}`;
    if (word === "regs") return "R0 000000 PC 001000 PS 000000 run";
    if (word === "devices") return "devices RKCS 000200 RKWC 000000 RKBA 000000 RKDA 000000";
    if (word === "first") return "first none";
    if (word !== "text") return super.reply(line);
    this.runTo(Number(turn));
    const count = Math.max(0, Math.ceil(Number(turn) / 100) - Number(from));
    const letters = Array.from({ length: count }, (_, at) =>
      String.fromCharCode(65 + (Number(from) + at) % 26));
    return `text ${count}:${letters.join("")}`;
  }
}

class PrintingRun extends Run {
  newMachine() {
    return new PrintingMachine();
  }
}

/** Bytes that are known to be printed are asked together. */
export async function test_a_part_of_a_text_says_how_much_is_printed() {
  const run = new PrintingRun({}), printedAfter = async line => {
    await run.ask([line]);
    return run.reached.printed;
  };
  equal([await printedAfter("text 301 from 9"), await printedAfter("text 901 from 4"),
    await printedAfter("text 201")], [0, 10, 10]);
  await run.ask(["when 7", "when 8", "when 9"]);
  equal(run.machine.sent.at(-1), ["when 7", "when 8", "when 9"]);
}

export async function test_only_the_bytes_in_sight_are_asked() {
  const run = new PrintingRun({});
  const wanted = { first: 250, end: 601, columns: 100, words: [] };
  const { text } = await new PictureMaker(run, wanted, null, () => {}).make();
  equal(text, { bytes: [[300, 68], [400, 69], [500, 70], [600, 71]].map(
    ([turn, byte]) => ({ turn, byte })), printed: 4, each: 1 });
  equal(run.machine.lines.filter(it => /^(text|when)/.test(it)),
    ["text 250", "text 601 from 3", "when 3", "when 4", "when 5", "when 6"]);
}
