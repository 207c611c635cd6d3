// Tests of the lines that count instructions, and of those that look at a state. Each throws if
// something isn't so.

import { askedAtOnce, earlyQuestion, isSearch, searchOf, turnsAsked } from "/questions.js";
import { Run } from "/run.js";
import { NotingMachine } from "/units.js";

function equal(found, wanted) {
  const [left, right] = [found, wanted].map(it => JSON.stringify(it));
  if (left !== right) throw new Error(`${left} isn't ${right}`);
}

/** The machine that notes what it runs. In each turn an instruction begins at address 2, and in each
    10th one at 4 besides. */
class CountingMachine extends NotingMachine {
  reply(line) {
    const [word, first, second, , address] = line.split(" ");
    if (word !== "counts") return super.reply(line);
    if (address === "1001") return "refused 3 OddAddress";
    const [from, to] = [Number(first), Number(second)];
    this.runTo(to);
    const tenths = Math.ceil(to / 10) - Math.ceil(from / 10);
    return `counts ${to - from} ${tenths}`;
  }
}

class CountingRun extends Run {
  newMachine() {
    return new CountingMachine();
  }
}

/** A disk whose functions take 250,000 turns, each 300,000 one, and a word that is read as each of
    them ends. */
class ListingMachine extends NotingMachine {
  reply(line) {
    const [word, ...turns] = line.split(" "), [from, to] = turns.map(Number);
    if (word !== "reads" && word !== "transfers") return super.reply(line);
    if (to > 1_000_000_000) return "refused 7 TurnTooLarge";
    this.runTo(to);
    const lines = [];
    for (let begin = 0; begin + 250_000 < to; begin += 300_000) {
      if (begin + 250_000 < from) continue;
      const rest = word === "reads" ? "cpu 000007" : `${begin < from ? "before" : begin} read`;
      lines.push(`${begin + 250_000} ${rest}`);
    }
    const isFull = lines.length > 256;
    return [`${word} ${isFull ? "256 or more" : lines.length}`, ...lines.slice(0, 256)].join("\n");
  }
}

class ListingRun extends Run {
  newMachine() {
    return new ListingMachine();
  }
}

/** In parts they have the replies that they have at once. */
export async function test_reads_and_transfers_are_asked_in_parts() {
  const run = new ListingRun({}), lines = ["reads 5 30000000 2000", "transfers 5 30000000",
    "transfers 100000 90000000", "transfers 7 2000000000"];
  const replies = await run.ask(lines), most = Math.max(...run.machine.runs);
  equal(replies, lines.map(it => new ListingMachine().reply(it)));
  equal(replies.map(it => it.split("\n")[0]),
    ["reads 100", "transfers 100", "transfers 256 or more", "refused 7 TurnTooLarge"]);
  equal(replies[2].split("\n").filter(it => it.includes("before")), ["250000 before read"]);
  equal([most <= 8_000_000, turnsAsked("accesses 900 5")], [true, [900, 900]]);
}

export function test_lines_about_a_state_are_about_its_turn() {
  const lines = ["translate 70 user 20000", "virtual 70 kernel 1000 4", "find 70 0 776 5 mask 7",
    "finddsk 70 3 0 776 5"];
  equal(lines.map(it => [turnsAsked(it), isSearch(it), searchOf(it)]),
    lines.map(() => [[70, 70], false, null]));
  equal(lines.map(askedAtOnce), lines.map(it => it.replace("70", "64")));
  equal(lines.map(earlyQuestion), lines.map(askedAtOnce));
}

export function test_conditions_stay_in_each_part() {
  const { from, end, isBackwards, line } = searchOf("latest 5 900 where R0 & 7 = 5 and user");
  equal([from, end, isBackwards, line(7, 9)],
    [5, 900, true, "latest 7 9 where R0 & 7 = 5 and user"]);
}

export async function test_counts_of_parts_are_added() {
  const run = new CountingRun({});
  equal(await run.ask(["counts 5 9000005 user 2 2", "regs 7"]),
    ["counts 9000000 900000", "regs 7"]);
  const parts = run.machine.lines.filter(it => it.startsWith("counts")).map(turnsAsked);
  equal([parts.length > 3, parts.at(-1)[1], run.reached.known], [true, 9_000_005, 9_000_005]);
  const begins = parts.map(([begin]) => begin), ends = parts.map(([, end]) => end);
  equal(begins.slice(1), ends.slice(0, -1));
  equal(Math.max(...run.machine.runs) <= 8_000_000, true);
}

export async function test_counts_that_are_refused_or_of_no_turn() {
  const run = new CountingRun({});
  equal(await run.ask(["counts 0 900000000 user 1001 2", "counts 7 7 user 2 2", "regs 5"]),
    ["refused 3 OddAddress", "counts 0 0", "regs 5"]);
  equal(Math.max(...run.machine.runs) <= 1_000_000, true);
}

/** Replies that come as they are given up are of another state by then. */
export async function test_replies_that_come_too_late_are_dropped() {
  const run = new CountingRun({}), { machine } = run, stopped = { isStopped: true };
  const late = { isStopped: false }, ask = machine.ask.bind(machine);
  machine.ask = lines => ask(lines).finally(() => { late.isStopped = true; });
  /** @param {Promise<string[]>} asked */
  const endOf = asked => asked.then(() => "replies", it => it.constructor.name);
  equal([await endOf(run.ask(["regs 5"], 1, late)), await endOf(run.ask([], 1, stopped)),
    await endOf(run.ask([])), await run.ask(["counts 7 7 user 2 2"])],
    ["Stopped", "Stopped", "replies", ["counts 0 0"]]);
}
