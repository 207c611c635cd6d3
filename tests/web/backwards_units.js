// Tests of searches backwards, which begin with their last turns. Each throws if something isn't
// so.

import { earlyQuestion, isSearch, turnsAsked } from "/questions.js";
import { turnOf } from "/replies.js";
import { Priority } from "/run.js";
import { NotingMachine, NotingRun } from "/units.js";

function equal(found, wanted) {
  const [left, right] = [found, wanted].map(it => JSON.stringify(it));
  if (left !== right) throw new Error(`${left} isn't ${right}`);
}

/** The machine that notes what it runs, with PC 4 in turn 25,000,000 alone. It searches backwards
    as the program does: from checkpoint to checkpoint, once the turns before its end are known. */
class BackwardsMachine extends NotingMachine {
  reply(line) {
    const [word, first, second, , address] = line.split(" ");
    if (word !== "latest" || line.endsWith("x")) return super.reply(line);
    const [from, to] = [Number(first), Number(second)];
    if (to > 1_000_000_000) return "refused 7 TurnTooLarge";
    if (from > to) return "refused 8 CountOutOfRange";
    return `latest ${this.latest(from, to, address === "4" ? 25_000_000 : -1)}`;
  }

  latest(from, to, turn) {
    if (to > this.known) this.runTo(to);
    for (let start = to; start > from;) {
      const end = start;
      start = Math.max(from, Math.floor((end - 1) / this.stride) * this.stride);
      this.runTo(start);
      this.runs.push(this.runs.pop() + end - start);
      this.at = end;
      if (start <= turn && turn < end) return turn;
    }
    return "none";
  }
}

class BackwardsRun extends NotingRun {
  newMachine() {
    return new BackwardsMachine();
  }

  /** The turns of each part of the searches that were asked. */
  get parts() {
    return this.machine.lines.filter(it => it.startsWith("latest")).map(turnsAsked);
  }

  /** The most turns that the machine ran for one message. */
  get most() {
    return Math.max(...this.machine.runs);
  }
}

/** That each part ends where the one before it begins. */
function areTogether(parts) {
  equal(parts.slice(1).map(([, end]) => end), parts.slice(0, -1).map(([begin]) => begin));
}

export function test_a_search_backwards_is_a_search() {
  const line = "latest 2 400 at 1040 user";
  equal([isSearch(line), turnsAsked(line)], [true, [2, 400]]);
  equal([line, "latest 70 400 vector 60", "latest 0 x"].map(earlyQuestion),
    ["latest 2 64 at 1040 user", "latest 64 64 vector 60", "latest 0 x"]);
  equal(["latest 11", "latest none"].map(turnOf), [11, null]);
}

export async function test_a_search_backwards_asks_its_last_turns_first() {
  const run = new BackwardsRun({});
  await run.ask(["regs 30000000"]);
  const replies = await run.ask(["latest 7 30000000 at 4", "latest 7 25000000 at 4", "regs 5"]);
  equal(replies, ["latest 25000000", "latest none", "regs 5"]);
  const { parts } = run, found = parts.findIndex(([begin]) => begin <= 25_000_000);
  equal([parts[0][1], parts[found + 1][1], parts.at(-1)[0]], [30_000_000, 25_000_000, 7]);
  areTogether(parts.slice(0, found + 1));
  areTogether(parts.slice(found + 1));
  equal(run.most <= 4_000_000, true);
}

export async function test_a_search_backwards_of_turns_that_are_not_known() {
  const run = new BackwardsRun({});
  equal(await run.ask(["latest 7 30000000 at 4"]), ["latest 25000000"]);
  equal(run.reached.known, 30_000_000);
  areTogether(run.parts.slice(1));   // the first one is about early turns
  const [early, last] = run.parts;
  equal([early, last[1], run.most <= 8_000_000], [[7, 64], 30_000_000, true]);
  // an edit among them: the turns up to the end run again
  await run.commit("at 5 tick");
  equal(await run.ask(["latest 24000000 26000000 at 4"]), ["latest 25000000"]);
  equal([run.reached.known, run.most <= 8_000_000], [26_000_000, true]);
}

/** Checkpoints are further apart than a part is long. */
export async function test_a_search_backwards_between_checkpoints() {
  const run = new BackwardsRun({});
  await run.ask(["regs 1000000000"]);
  run.machine.runs = [];
  equal(await run.ask(["latest 900000000 1000000000 at 2"]), ["latest none"]);
  areTogether(run.parts);
  equal([run.reached.stride, run.parts.at(-1)[0], run.most <= 8_000_000],
    [5_120_000, 900_000_000, true]);
  const ran = run.machine.runs.reduce((sum, it) => sum + it);
  equal(ran <= 300_000_000, true);
}

export async function test_a_search_backwards_says_how_far_it_is() {
  const works = [];
  const run = new BackwardsRun({}, it => works.push(it));
  await run.ask(["latest 10000000 90000000 at 2"]);
  const shown = works.filter(it => it?.what === "turns");
  const back = shown.findIndex(it => it.all === 80_000_000);
  equal(shown.slice(0, back).every(it => it.all === 90_000_000), true);
  equal(shown.slice(back).every(it => it.all === 80_000_000 && it.done < it.all), true);
  for (const part of [shown.slice(0, back), shown.slice(back)]) {
    const done = part.map(it => it.done);
    equal(done, [...done].sort((a, b) => a - b));
  }
}

export async function test_the_cursor_goes_before_a_search_backwards() {
  const run = new BackwardsRun({});
  const far = run.ask(["latest 0 900000000 at 2"], Priority.QUESTION);
  while (run.parts.length < 10) await null;
  equal(await run.ask(["regs 5"], Priority.CURSOR), ["regs 5"]);
  equal(run.parts.length < 15, true);
  run.jobs.forEach(it => { it.token = { isStopped: true }; });
  equal(await far.catch(error => error.message), "the question was stopped");
}

export async function test_a_search_backwards_that_is_refused_runs_nothing() {
  const run = new BackwardsRun({});
  const lines = ["latest 0 1000000001 at 2", "latest 5 4 at 2", "latest 9 900000000 x", "regs 9"];
  equal(await run.ask(lines), ["refused 7 TurnTooLarge", "refused 8 CountOutOfRange",
    "refused 3 OddAddress", "regs 9"]);
  equal([run.most <= 64, await run.ask(["latest 9 9 at 4"])], [true, ["latest none"]]);
}
