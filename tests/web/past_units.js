// Tests of the past as the program tells it, and of how two pasts differ. Each throws if something
// isn't so.

import { Comparison } from "/comparison.js";
import { editBetween, sameFrom } from "/fades.js";
import { sumOf } from "/kept.js";
import { PAST_LINES, Past, differenceOf, eventLabel, eventsIn } from "/past.js";
import { lastTurnOf } from "/session.js";
import { itemsOf, switchItem } from "/switching.js";
import { NotingRun, SETUP } from "/units.js";

function equal(found, wanted) {
  const [left, right] = [found, wanted].map(it => JSON.stringify(it));
  if (left !== right) throw new Error(`${left} isn't ${right}`);
}

/** A past with the lines of `patches` and `events`, and with these changes of the setup. */
function pastOf({ patches = [], events = [], setup = {}, tape = null }) {
  const fields = Object.entries(setup).reduce((text, [name, value]) =>
    text.replace(new RegExp(` ${name} \\d+`), ` ${name} ${value}`), SETUP);
  const replies = { setup: fields, patches: [`patches ${patches.length}`, ...patches].join("\n"),
    events: [`events ${events.length}`, ...events].join("\n") };
  return new Past().told(PAST_LINES, PAST_LINES.map(it => replies[it]), tape);
}

const MOVED = { patches: ["core 001000 000005"], setup: { disk: 200 },
  events: ["1 9 key 066", "2 9 tick"] };

export function test_a_past_is_saved() {
  const past = pastOf({ setup: { version: 2, disk: 200, clock: 0 }, tape: "tape 101 7",
    patches: ["disk 1 0000000 000100", "core 000000 000000"],
    events: ["1 3 key 067", "2 5 tick", "4 5 switches 000012"] });
  equal(past.lines(), ["version 2", "tape 101 7", "delay disk 200", "disk 1 0 100", "core 0 0",
    "at 3 key 67", "at 5 tick", "at 5 switches 12"]);
  equal([past.core, past.events.get(4).turn, eventLabel(past.script[0])], [0o760000, 5, "7"]);
}

export function test_only_what_is_told_anew_changes() {
  const before = pastOf(MOVED), past = before.told(["events"], ["events 0"], null);
  equal([past.lines(), before.script.length], [["delay disk 200", "core 1000 5"], 2]);
}

/** The events of a turn are in their order again. */
export async function test_an_undo_keeps_the_order_of_a_turn() {
  const run = new NotingRun({});
  await run.load(["at 9 key 66", "at 9 tick", "at 9 key 101"]);
  const script = async () => (await run.askPast()).script.map(it => it.text);
  const before = await script();
  for (const line of ["alter 1 8 key 66", "drop 2"]) await run.commit(line);
  equal(await script(), ["key 66", "key 101"]);
  await run.undo();
  await run.undo();
  equal(await script(), before);
}

/** The script of a run, told anew, and the edits that the ledger has. */
const stateOf = async run =>
  [(await run.askPast()).script.map(it => `${it.turn} ${it.text}`), run.ledger.lines];

/** Version 2 is taken back by a machine that begins anew. Each event has its number again. */
export async function test_no_edit_is_lost_by_undo_and_redo() {
  const run = new NotingRun({}), lines = ["version 2", "drop 2"];
  await run.load(["at 9 key 66", "at 9 tick", "at 9 key 101"]);
  const numbers = async () => (await run.askPast()).script.map(it => it.number);
  for (const line of lines) await run.commit(line);
  await run.undo();
  equal(await numbers(), [1, 2, 3]);
  await run.undo();
  equal([await run.redo(), await run.redo()], [[], []]);
  equal([await numbers(), run.ledger.changes.flat().map(it => it.line)], [[1, 3], lines]);
  equal([await switchItem(run, 0), await numbers()], [[], [1, 3]]);
}

/** A question about a drive that waits would be refused in version 2. */
export async function test_what_waits_is_given_up_as_the_version_changes() {
  const run = new NotingRun({}), edit = run.askEdits(["version 2"]);
  const found = run.ask(["dsk 5 0 1"]).catch(error => error.message);
  equal([await edit, await found, run.machine.lines],
    [["version 2"], "the question was stopped", ["version 2"]]);
}

/** What is refused is told, and no edit names an event that another one made. */
export async function test_events_that_are_off_keep_numbers_of_their_own() {
  const run = new NotingRun({});
  await run.load(["at 9 key 66"]);
  for (const line of ["tape 1", "at 5 tick", "alter 2 6 tick"]) await run.commit(line);
  equal(await switchItem(run, 1), ["alter 2 6 tick"]);
  // the machine begins anew: the next event is number 2 once more
  await switchItem(run, 0);
  equal(await run.commit("at 40 disk"), "event 2");
  for (const at of [1, 2]) equal(await switchItem(run, at), []);
  equal((await stateOf(run))[0], ["6 tick", "9 key 66", "40 disk"]);
}

/** Edits are undone, made again, switched off and on in some order. With all of them on the past is
    as it was, and without them as it was before. */
export async function test_all_edits_come_back() {
  let seed = 1;
  const below = count => (seed = seed * 16_807 % (2 ** 31 - 1)) % count;
  for (let walk = 0; walk < 20; walk++) {
    const run = new NotingRun({}), state = async () => JSON.stringify((await stateOf(run))[0]);
    await run.load(["at 9 key 66", "at 9 tick", "at 30 tick"]);
    const numbered = async () => JSON.stringify((await run.askPast()).script);
    const first = await numbered();
    for (const line of ["at 5 key 101", "version 2", "at 5 key 102", "alter 4 9 key 103", "drop 2",
      "at 7 disk", "alter 5 30 key 104", "tape 1", "alter 1 9 key 67"]) await run.commit(line);
    const last = await state(), { ledger } = run;
    for (let step = 0; step < 12; step++) {
      if (ledger.undone.length || !below(3)) await (below(2) ? run.undo() : run.redo());
      else await switchItem(run, below(9));
    }
    while (ledger.undone.length) await run.redo();
    for (let at = 0; at < 9; at++) if (!itemsOf(ledger)[at].isOn) await switchItem(run, at);
    equal([await state(), ledger.off, ledger.changes.length], [last, [], 9]);
    while (ledger.changes.length) await run.undo();
    equal(await numbered(), first);
  }
}

/** What is tried is put back by the edit that follows, and leaves nothing in the ledger. */
export async function test_what_is_tried_is_no_edit() {
  const run = new NotingRun({}), lines = ["at 9 key 66", "at 9 tick", "at 30 tick"];
  await run.load(lines);
  const before = await stateOf(run);
  for (const turn of [12, 15, 21]) {
    equal(await run.preview(`alter 1 ${turn} key 66`, ["regs 40"]), ["regs 40"]);
    equal((await stateOf(run))[0].includes(`${turn} key 66`), true);
  }
  equal(run.ledger.changes, []);
  await run.putBack();
  equal(await stateOf(run), before);
  // another event takes the place of the one that was tried
  await run.preview("alter 1 12 key 66");
  await run.preview("alter 2 20 tick");
  equal((await stateOf(run))[0], ["9 key 66", "20 tick", "30 tick"]);
  equal(await run.commit("alter 1 15 key 66"), "ok");
  equal(await stateOf(run),
    [["9 tick", "15 key 66", "30 tick"], [...lines, "alter 1 15 key 66"]]);
  equal(run.ledger.changes.length, 1);
  await run.undo();
  equal((await stateOf(run))[0], before[0]);
}

/** An event that is tried is gone again, and another one has its number. */
export async function test_an_event_is_tried() {
  const run = new NotingRun({});
  await run.load(["at 9 key 66"]);
  await run.preview("at 5 tick");
  equal((await stateOf(run))[0], ["5 tick", "9 key 66"]);
  equal(await run.commit("at 7 tick"), "event 2");
  equal(await stateOf(run), [["7 tick", "9 key 66"], ["at 9 key 66", "at 7 tick"]]);
  await run.undo();
  await run.redo();
  equal((await stateOf(run))[0], ["7 tick", "9 key 66"]);
  equal(await run.preview("at 5 tick x").catch(it => it.reply), "refused 3 OddAddress");
}

/** What no edit has changed isn't asked again. */
export async function test_the_past_is_asked_once() {
  const run = new NotingRun({});
  await run.load(["at 9 key 66", "regs 5"]);
  await run.commit("at 5 tick");
  await run.askPast();
  await run.askPast();
  await run.commit("core 0 1");
  await run.askPast();
  const asked = run.machine.lines.filter(it => PAST_LINES.includes(it));
  equal(asked, ["setup", "patches", "events", "events", "setup", "patches"]);
}

/** Edits that aren't told yet leave no more known than the program knows. */
export async function test_what_is_known_before_the_past_is_told() {
  const run = new NotingRun({}), knownAfter = async line => {
    await run.ask([line]);
    return run.reached.known;
  };
  await run.load(["at 500 key 66"]);
  await run.ask(["regs 900"]);
  equal([await knownAfter("alter 1 700 key 66"), await knownAfter("regs 900")], [500, 900]);
  // event 2 may have been in turn 700, as far as the page remembers
  equal([await knownAfter("at 800 tick"), await knownAfter("alter 2 850 tick")], [800, 700]);
  await run.askPast();
  await run.ask(["regs 900"]);
  equal([await knownAfter("alter 2 860 tick"), await knownAfter("drop 1")], [850, 700]);
}

export function test_sums_of_sessions() {
  const [low, high] = [[1, 0, 0, 0, 1, 0, 0, 0], [1, 0, 0, 128, 1, 0, 0, 128]];
  const sums = [[low], [high], [[...low, 0]], ["a", "b"], ["ab"]].map(it =>
    sumOf(it.map(part => typeof part === "string" ? part : Uint8Array.from(part))));
  equal(new Set(sums).size, sums.length);
  const numbers = Array.from({ length: 65_536 }, (_, at) => at);
  const past = pastOf({ patches: numbers.map(it => `core ${(2 * it).toString(8)} 000001`),
    events: numbers.map(it => `${it + 1} ${it} tick`) });
  equal([past.script.length, past.patches.size], [65_536, 65_536]);
}

export function test_events_in_some_turns() {
  const { script } = pastOf({ events: ["4 2 tick", "1 3 key 001", "3 3 tick", "2 5 disk"] });
  const numbers = (first, last) => eventsIn(script, first, last).map(it => it.number);
  equal([numbers(3, 4), numbers(2.5, 3), numbers(0, 1.9), numbers(3.5, 9)],
    [[1, 3], [1, 3], [], [2]]);
  equal(lastTurnOf(["regs 7", ...new Array(300_000).fill("text 5"), "at 9 tick"]), 7);
}

export function test_how_two_scripts_differ() {
  const difference = (old, now) => {
    const { gone, come, turns } = differenceOf(
      ...[old, now].map(it => pastOf({ events: it }).script));
    return [gone.map(it => it.number), come.map(it => it.number), turns];
  };
  const old = ["1 2 tick", "2 5 key 066", "3 5 tick", "4 9 tick"];
  equal(difference(old, old), [[], [], []]);
  equal(difference(old, ["1 2 tick", "3 5 tick", "4 9 tick", "2 9 key 066"]), [[2], [2], [5, 9]]);
  // in another order; one more of what is there; and nothing at all
  equal(difference(old, ["1 2 tick", "3 5 tick", "2 5 key 066", "4 9 tick"]), [[], [], [5]]);
  equal(difference(old, [...old, "5 9 tick"]), [[], [5], [9]]);
  equal(difference(old, []), [[1, 2, 3, 4], [], [2, 5, 9]]);
  // what both end with is there once more
  equal(difference(["1 5 tick", "2 9 tick"], ["3 9 tick", "2 9 tick"]), [[1], [2], [5, 9]]);
}

/** A run whose registers before a turn are these. */
const runOf = (past, registers) => ({
  past, ask: async lines => lines.map(it => registers(Number(it.split(" ")[1]))),
});

const keyAt = turn => pastOf({ events: [`1 ${turn} key 066`] });

export async function test_where_two_pasts_part() {
  const comparison = new Comparison(runOf(keyAt(50), turn => turn < 5_000 ? "same" : "other"),
    runOf(keyAt(20), () => "same"), null);
  equal(comparison.editedTurns(), [20, 50]);
  equal(await comparison.part(9_000), { edited: 20, turn: 5_000, single: 5_000, later: 0 });
  equal(await comparison.part(4_000), { edited: 20, turn: null, single: 4_000, later: 0 });
}

/** Edits of the setup and of a key, with a difference that is gone again before the end. */
export async function test_a_difference_that_is_gone_at_the_end() {
  const now = pastOf({ setup: { punch: 5 }, events: ["1 700000 key 066"] }), old = keyAt(600_000);
  const differFrom = (first, last) => new Comparison(
    runOf(now, turn => turn >= first && turn <= last ? "other" : "same"), runOf(old, () => "same"),
    null);
  equal((await differFrom(127_163, 200_000).part(238_614)).turn, 127_163);
  const after = await differFrom(600_200, 600_300).part(5_000_000);
  equal([after.turn, after.single, after.later > 0], [600_200, 65_535, true]);
  const missed = await differFrom(5_000_100, 5_000_101).part(9_000_000);
  equal([missed.turn, missed.single, missed.later > 2_000], [null, 65_535, true]);
}

export async function test_two_equal_refusals_are_no_equal_registers() {
  const refused = () => "refused 1 NoMemory";
  const comparison = new Comparison(runOf(keyAt(50), refused), runOf(keyAt(20), refused), null);
  equal(await comparison.part(90).catch(it => it.name + it.reply), "Errorrefused 1 NoMemory");
}

const OLD = { patches: ["core 001000 000005"], events: ["1 20 key 066", "2 50 tick"] };

export function test_the_one_edit_between_two_pasts() {
  const lineOf = changes => editBetween(pastOf(OLD), pastOf({ ...OLD, ...changes }))?.line ?? null;
  const lineTo = (...events) => lineOf({ events });
  equal([lineTo("2 50 tick", "1 50 key 066"), lineTo("1 20 key 066"),
    lineTo("1 20 key 066", "2 50 tick", "3 50 tick"), lineTo("3 9 tick", "1 20 key 066")],
  ["alter 1 50 key 66", "drop 2", "at 50 tick", "alter 2 9 tick"]);
  const patch = "disk 0000010 000007", [first] = OLD.patches;
  equal([lineOf({ patches: ["core 001000 000007"] }), lineOf({ patches: [first, patch] }),
    lineTo("3 20 key 066", "2 50 tick")], ["core 1000 7", "disk 10 7", ""]);
  // two edits, what `fades` doesn't take, and an event that comes before another of its turn
  equal([lineTo(), lineOf({ patches: [first, patch], events: ["2 50 tick"] }),
    lineOf({ patches: [first, patch, "core 000002 000003"] }), lineOf({ patches: [] }),
    lineOf({ setup: { disk: 5 } }), lineTo("1 50 key 066", "2 50 tick")], Array(6).fill(null));
}

export async function test_from_which_turn_two_pasts_are_the_same() {
  const old = pastOf(OLD), now = pastOf({ ...OLD, events: ["1 20 key 066"] }), asked = [];
  const found = (end, ...replies) => sameFrom(
    { past: old, askOne: async line => asked.push(line) && replies.shift() }, now, end, null);
  equal([await found(99_999_999, "fades none", "fades 70000"), await found(50),
    await found(90, "fades none"), await found(90, "refused 10 BadLine")],
  [70_000, null, null, null]);
  equal(asked, [65_586, 131_122, 90, 90].map(it => `fades ${it} drop 2`));
}
