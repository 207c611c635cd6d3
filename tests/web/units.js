// Tests of the page's modules. Each throws if something isn't so.

import { byteOfKey } from "/console.js";
import { marked } from "/differences.js";
import { eventOfForm, eventsNear } from "/events.js";
import { LanesDrawing, View, lanesOf, ticksOf } from "/lanes.js";
import { linesOfNames, namesOfSession } from "/names.js";
import { sampledIn } from "/sampled.js";
import { optionLines, optionText, shellWords } from "/options.js";
import { PAST_LINES, isEdit } from "/past.js";
import { fragmentOf, placeOf } from "/place.js";
import { turnsAsked } from "/questions.js";
import {
  DEVICE_VECTORS, WrongReply, byteNamed, bytesOf, devicesOf, eventOf, functionInWords,
  interruptsOf, keyName, lastOf, lengthOf, pageInWords, pagesOf, physicalOf, readableText, registersOf, statusInWords,
  tailOf, turnOf, turnsOf, unreadOf, visibleName, wordsOf, writesOf,
} from "/replies.js";
import { Priority, Run } from "/run.js";
import { boundedRows, rowsOf } from "/sight.js";
import { kindOfFile, symbolNear, withFile } from "/session.js";
import { storyOf, verdictOf } from "/story.js";
import { symbolsOfSession } from "/symbols.js";
import { runsOf, spreadTurns } from "/sweep.js";

function equal(found, wanted) {
  const [one, other] = [found, wanted].map(it => JSON.stringify(it));
  if (one !== other) throw new Error(`${one} isn't ${other}`);
}

const REGISTERS = "R0 000002 R1 030000 R2 000002 R3 000101 R4 000000 R5 000000 KSP 000772 "
  + "USP 030000 PC 001476 PS 030344 run";
const PAGES = "pages SR0 000001 SR2 001476 KPDR 077406 000000 000000 000000 000000 000000 000000 "
  + "077406 KPAR 000000 000000 000000 000000 000000 000000 000000 007600 UPDR 077402 037406 "
  + "000000 000000 000000 000000 000000 000000 UPAR 000200 000300 000000 000000 000000 000000 "
  + "000000 000000";

export function test_registers() {
  const found = registersOf(REGISTERS);
  equal([found.pc, found.mode, found.priority, found.state], [0o1476, "kernel", 7, "run"]);
  equal(statusInWords(0o170014), "user, previous user, priority 0, NZ..");
}

export function test_devices() {
  const found = devicesOf("devices TKS 000300 TKB 000066 TPS 000200 LKS 000100 PRS 000000 PRB "
    + "000000 PPS 000200 RKDS 004700 RKER 000000 RKCS 000004 RKWC 177400 RKBA 030000 RKDA 000000 "
    + "SWR 000000");
  equal([found.diskIsReady, found.keyWaits], [false, true]);
  equal(functionInWords(found), "read of 256 words from sector 0 of drive 0 to core 030000");
}

export function test_pages() {
  const pages = pagesOf(PAGES);
  equal(pageInWords(pages, "user", 1), "core 030000 to 037777, read and write");
}

export function test_trails_and_writes() {
  equal(turnsOf("trail 2\n126998 001472 instr\n126999 001476 irq 060"), [
    { turn: 126998, pc: 0o1472, act: "instr", vector: null },
    { turn: 126999, pc: 0o1476, act: "irq", vector: 0o60 },
  ]);
  equal(interruptsOf("trail 2\n126998 001472 instr\n126999 001476 irq 060"),
    [{ turn: 126999, vector: 0o60 }]);
  equal(writesOf("writes 256 or more\n9 disk 000100"),
    { writes: [{ turn: 9, writer: "disk", word: 0o100 }], hasMore: true });
  equal([lastOf("last never"), lastOf("last 19 cpu 000107").turn], [null, 19]);
}

export function test_text() {
  const bytes = bytesOf("text 7:A\\015\\012\\134b\\000\\377");
  equal([...bytes], [65, 13, 10, 92, 98, 0, 255]);
  equal(readableText(bytes), "A\n\\b\u00b7\u00b7");
  const long = `text 12:${"A\\012".repeat(6)}`;
  const { bytes: tail, isCut } = tailOf(long, 11);
  equal([[...tail], isCut, tailOf(long, 1000).isCut], [[65, 10], true, false]);
  const ends = [1, 2, 3, 4, 5].map(it => [...tailOf("text 3:AB\\001C", it).bytes]);
  equal(ends, [[67], [1, 67], [1, 67], [1, 67], [1, 67]]);
  equal([keyName(3), keyName(0o75), keyName(0o15)], ["Ctrl-C", "=", "CR"]);
  equal(visibleName("a\u202eb\u0007"), "a\\u202eb\\u0007");
}

export function test_lines() {
  equal(["at 5 tick", "regs 4", "# at 5"].map(isEdit), [true, false, false]);
  const lines = ["regs 7", "alter 3 9 tick", "first 2 40 at 1040", "regs 1000000001", "mem 5x 0 1"];
  equal(lines.map(turnsAsked), [[7, 7], [0, 0], [2, 40], [0, 0], [0, 0]]);
}

export function test_symbols() {
  const list = "START 1000\nDISK 001434 # a comment\n000000001500 T main\n"
    + "ADD 1600\nFACED 2000\n";
  const listing = " 1 001432 000015 A: .WORD 15\n\nSymbol table\nA 001432   Y =001434\n";
  const bytes = Object.fromEntries(Object.entries({ "kernel.sym": list, "image": "NONE 1\n",
    "user.lst": listing, "none.sym": "" }).map(([name, it]) => [name, new TextEncoder().encode(it)]));
  const session = { name: "", arguments: ["--core", "image"], files: bytes, lines: [] };
  const { kernel, user } = symbolsOfSession(session);
  equal(kernel.map(it => it.value), [0o1000, 0o1434, 0o1500, 0o1600, 0o2000]);
  equal(kernel.slice(3).map(it => it.name), ["ADD", "FACED"]);
  equal([symbolNear(kernel, 0o1440), symbolNear(kernel, 0o776)], ["DISK+4", ""]);
  equal([symbolNear(user, 0o1436), user.find(it => it.name === "Y").value], ["A+4", 0o1434]);
}

export function test_files() {
  equal(["a.RK05", "x.sym", "my.session", "b.tape", "c.args", "d.LDA", "e.lst"].map(kindOfFile),
    ["disk", "symbols", "session", "tape", "arguments", "program", "symbols"]);
  const session = { name: "", arguments: ["--disk", "a", "--start", "2000"], files: { a: 1 } };
  equal(withFile(session, "disk", "b", 2),
    { name: "", arguments: ["--start", "2000", "--disk", "b"], files: { b: 2 } });
}

export function test_places() {
  const place = { turn: 5, first: 0.25, span: 40.125, core: 0o2000 };
  equal(placeOf(fragmentOf(place)), place);
  equal(placeOf("#turn=x&core=9"), {});
}

export function test_axis() {
  const view = new View(0, 1_000_000_000);
  view.width = 800;
  equal(ticksOf(view, 8).length <= 9, true);
  const near = new View(7, 1);
  equal(ticksOf(near, 8), [7, 8]);
}

export function test_what_is_sampled_is_said() {
  const picture = {
    step: 100, sampledVectors: DEVICE_VECTORS, disk: { isWhole: false }, text: { each: 3 },
    words: [{ name: "core 002000", values: [], isWhole: false }],
  };
  equal(sampledIn(picture).length, 5);
  const words = [{ ...picture.words[0], name: "core 004000" }];
  equal(sampledIn(picture, { words }).at(-1), "Of the old past sampled: core 004000.");
  const whole = { ...picture, step: 1, sampledVectors: [], disk: { isWhole: true } };
  Object.assign(whole, { text: { each: 1 }, words: [] });
  equal(sampledIn(whole), ["Each turn in sight is looked at; nothing is sampled."]);
}

export function test_the_table_says_what_it_leaves_out() {
  const interrupts = Array.from({ length: 150 }, (_, turn) => ({ turn, vector: 0o100 }));
  const disk = { bars: [{ begin: null, end: null, title: "read" }], busy: [] };
  const word = { name: "core 002000", isWhole: false, values: [5, 5, 6].map((it, turn) => (
    { turn, word: it, writer: "" })) };
  const picture = { first: 0, end: 200, isMade: true, interrupts, disk, words: [word] };
  const old = { ...picture, interrupts: [...interrupts, { turn: 190, vector: 0o60 }] };
  const rows = (ghost, same = null) => boundedRows(rowsOf(
    { first: 0, end: 200, events: [], gone: [], picture, ghost, part: null, same }));
  const { shown, left } = rows(old);
  equal([shown.length, left], [104, ["50 rows of 'interrupt'"]]);
  equal(shown.filter(it => it.lane !== "interrupt").map(it => it.what),
    ["under way: read; goes on past what is in sight", "000005 at the left edge",
      "000006 (a sample)", "060 keyboard"]);
  const lanes = ghost => rows(ghost).shown.map(it => it.lane);
  equal([lanes(old).at(-1), lanes({ ...old, isMade: false }).at(-1)],
    ["interrupt, old past", "interrupt"]);
  equal([rows(old, 191), rows(old, 190)].map(it => it.shown.at(-1).lane),
    ["interrupt, old past", "interrupt"]);
}

export function test_differences_are_marked() {
  const pieces = marked("a\nB6 =145\n", "a\nB6 =137\n");
  equal(pieces.map(it => it.textContent ?? it).join("|"), "a\n|B6 =|137|145||\n|");
}

export function test_the_verdicts_of_a_story() {
  const { story, wrong } = storyOf({ lines: ["# story title it", "# story values =",
    "# story shows 2 The second", "# story target 3 100 200 90",
    "# story verdict good 2 5 3 7: all is there", "# story verdict good 3 7: it came later",
    "# story verdict bad 3 none: not printed", "# story verdict bad 1 any: it is {3}, not 7",
    "# story verdict ugly 1 2: x", "# story turns 1 0 5", "# story next why nothing at 5: Why",
    "# story of a day"] });
  equal(wrong.length, 4);
  const told = (text, past) => {
    const { value, verdict, look, word } = verdictOf(story, text, past);
    return [value, verdict, look, word];
  };
  const text = "text 30:=000001\\012=000005\\012=000007";
  equal(told(text), ["5", "\u2713 all is there", "good", "all is there"]);
  equal(told(text.replace("005", "004")), ["4", "\u2713 it came later", "good", "it came later"]);
  equal(told(text.slice(0, -1)), ["5", "\u2717 not printed", "bad", ""]);
  equal(told(text, { hasOthers: true }), ["5", "there are other edits: see the list", "", ""]);
  equal(told("refused 7"), ["none", "\u2717 not printed", "bad", ""]);
  const lost = text.replace("007", "006");
  equal([99, 100, 200, 201].map(turn => told(lost, { isMoved: true, turn }).slice(1)),
    [["\u2717 it is 6, not 7; move it right", "bad", "to the right"],
      ["\u2717 it is 6, not 7; try another turn", "bad", "no"],
      ["\u2717 it is 6, not 7; try another turn", "bad", "no"],
      ["\u2717 it is 6, not 7; too far, go back", "bad", "too far"]]);
  equal(storyOf({ lines: ["core 1000 5"] }), { story: null, wrong: [] });
}

export function test_words_are_named_by_comments() {
  const lines = ["# name core 30000 clerk A's balance", "# name disk 1 0 caf\u00c3\u00a9",
    "# name disk 2 the day\u00e2\u0080\u00ae", "core 1000 5", "# name core 1000", "# name R0 count",
    "# name core 30000 x", "#name core 5 y", "# name core 5 6 z"];
  equal([...namesOfSession({ lines })], [["core 030000", "x"], ["disk 1 0000000", "caf\u00e9"],
    ["disk 0000002", "the day\\u202e"]]);
  equal(linesOfNames({ lines }), [...lines.slice(0, 3), lines[6], lines[8]]);
}

/** A processor that halts is drawn as halted, in the mode in which it is. */
export function test_a_halted_machine_is_drawn_as_halted() {
  const look = (turn, state) => ({ turn, state, mode: "kernel", pc: 0o1000, words: [5] });
  const looks = Array.from({ length: 100 }, (_, at) =>
    look(at, at < 20 ? "run" : at < 50 ? "wait" : "halted"));
  const { texts } = drawn({ ...PICTURE, looks }, { first: 0, span: 100 });
  equal(texts.filter(it => /halted|waits|mode/.test(it)), ["waits", "halted",
    "doesn't run in user mode"]);
}

export const SETUP = "setup version 1 units 31 start 001000 stride 10000 printer 1 reader 4 punch 4 disk 10 "
  + "clock 0 tape 0";

/** A machine that notes what it is asked, and the turns that each message runs, with checkpoints as
    the program has them. A word is written every 20,000 turns, and no PC is 2. */
export class NotingMachine {
  constructor() {
    Object.assign(this, { sent: [], runs: [], at: 0, known: 0, stride: 10_000 });
    this.past = { script: [], events: 0 };
    // the pasts before the edits that can be taken back
    this.before = [];
  }

  get script() {
    return this.past.script;
  }

  get lines() {
    return this.sent.flat();
  }

  close() {}

  async ask(lines) {
    this.sent.push(lines);
    this.runs.push(0);
    return lines.map(it => {
      const before = { ...this.past }, reply = this.reply(it);
      if (it === "version 2") this.before = [];
      else if (isEdit(it) && !reply.startsWith("refused ")) this.before.push(before);
      return `${reply}\n`;
    });
  }

  undo() {
    if (!this.before.length) return "refused 17 NoSuchEdit";
    this.past = this.before.pop();
    return "ok";
  }

  reply(line) {
    const [word, first, second, third] = line.split(" ");
    if (third === "x" || second === "1001") return "refused 3 OddAddress";
    if (word === "setup") return SETUP;
    if (word === "patches") return "patches 0";
    if (word === "events") return this.told();
    if (word === "undo") return this.undo();
    if (["at", "alter", "drop"].includes(word)) return this.edit(line);
    if (Number(first) > 1_000_000_000) return "refused 7 TurnTooLarge";
    const end = Number(["first", "writes"].includes(word) ? second : first);
    this.runTo(end);
    return word === "first" ? "first none" : word === "writes" ? this.writes(+first, end) : line;
  }

  /** Makes an edit of the script. An event that comes into another turn is the last of it. */
  edit(line) {
    const [word, ...rest] = line.split(" ");
    const number = word === "at" ? this.past.events + 1 : Number(rest.shift());
    const [turn, ...text] = rest, event = { number, turn: Number(turn), text: text.join(" ") };
    const place = this.script.findIndex(it => it.number === number);
    if (word !== "at" && place < 0) return "refused 5 NoSuchEvent";
    let script = this.script.filter(it => it.number !== number);
    const stays = word === "alter" && this.script[place].turn === event.turn;
    if (stays) script = this.script.with(place, event);
    else if (word !== "drop") script.push(event);
    script.sort((one, other) => one.turn - other.turn);
    this.past = { script, events: Math.max(number, this.past.events) };
    return word === "at" ? `event ${number}` : "ok";
  }

  told() {
    const lines = this.script.map(it => `${it.number} ${it.turn} ${it.text}`);
    return [`events ${lines.length}`, ...lines].join("\n");
  }

  runTo(turn) {
    const known = Math.min(this.known, turn), checkpoint = known - known % this.stride;
    const begin = this.at <= turn ? Math.max(this.at, checkpoint) : checkpoint;
    this.runs.push(this.runs.pop() + turn - begin);
    this.at = turn;
    this.known = Math.max(this.known, turn);
    while (this.known >= 256 * this.stride) this.stride *= 2;
  }

  writes(first, end) {
    const lines = [];
    for (let turn = Math.ceil(first / 20_000) * 20_000; turn < end; turn += 20_000) {
      lines.push(`${turn} cpu 000001`);
    }
    return [`writes ${lines.length}`, ...lines].join("\n");
  }
}

export class NotingRun extends Run {
  newMachine() {
    return new NotingMachine();
  }
}

const FAR = "regs 1000000000";

export async function test_an_edit_runs_nothing() {
  const run = new NotingRun({});
  const refused = await run.load(["at 99999999 tick x", "at 5 tick", "regs 700000000"]);
  equal(refused, [{ number: 1, line: "at 99999999 tick x", reply: "refused 3 OddAddress" }]);
  const edits = ["at 400000000 tick", "alter 1 999999990 tick", "drop 2"];
  for (const line of edits) await run.commit(line);
  const asked = () => run.machine.lines.filter(it => !PAST_LINES.includes(it));
  const all = ["at 99999999 tick x", "at 5 tick", "regs 64", ...edits];
  equal(asked(), all);
  await run.undo();
  equal([asked(), run.ledger.lines], [[...all, "undo"], ["at 5 tick", ...edits.slice(0, 2)]]);
}

/** What a session takes back, and makes again, isn't in the past twice. */
export async function test_steps_in_a_session_are_taken_up() {
  const run = new NotingRun({});
  await run.load(["at 9 key 66", "at 5 tick", "undo", "undo", "undo", "at 7 tick"]);
  equal([run.ledger.lines, (await run.askPast()).script.map(it => it.turn)], [["at 7 tick"], [7]]);
  for (const [line, reply] of [["undo", "ok"], ["redo", "ok"]]) run.ledger.note(line, reply);
  equal(run.ledger.lines, ["at 7 tick"]);
}

export async function test_a_long_question_is_asked_in_parts() {
  const run = new NotingRun({});
  const lines = Array.from({ length: 250 }, (_, at) => `at ${4_000_000 * (at + 1)} tick x`);
  await run.load(lines);
  equal(await run.ask([FAR]), [FAR]);
  equal(run.machine.runs.every(it => it <= 4_000_000), true);
  // looks that lie far apart, at turns that were run
  const looks = Array.from({ length: 1_000 }, (_, at) => `regs ${1_000_000 * at}`);
  await run.ask([...looks, ...looks.reverse()]);
  equal(run.machine.runs.every(it => it <= 4_000_000), true);
}

export async function test_the_cursor_goes_before_a_long_question() {
  const run = new NotingRun({});
  const far = run.ask([FAR], Priority.QUESTION);
  while (run.machine.lines.length < 20) await null;
  equal(await run.ask(["regs 5"], Priority.CURSOR), ["regs 5"]);
  equal(run.machine.lines.length < 25, true);
  run.stop = () => run.jobs.forEach(it => { it.token = { isStopped: true }; });
  run.stop();
  equal(await far.catch(error => error.message), "the question was stopped");
}

export async function test_searches_in_parts() {
  const run = new NotingRun({});
  const asked = ["first 7 30000000 at 2", "writes 10 4000000 2000", "writes 10 90000000 2000",
    "writes 1 5120001 2000", "writes 1 5120002 2000"];
  const replies = await run.ask(asked);
  equal(replies.map(it => it.split("\n")[0]),
    ["first none", "writes 199", "writes 256 or more", "writes 256", "writes 256 or more"]);
  equal(replies[2].split("\n").at(-1), "5120000 cpu 000001");
  equal(run.machine.runs.every(it => it <= 4_000_000), true);
}

export async function test_what_is_refused_is_refused_at_once() {
  const run = new NotingRun({});
  const lines = ["regs 2000000000", "mem 1000000000 1001 1"];
  equal(await run.ask(lines), ["refused 7 TurnTooLarge", "refused 3 OddAddress"]);
  equal(run.machine.runs.every(it => it <= 64), true);
  const refusals = [FAR, "when 5", "when x", "mem 5 1001 1"].map(it => run.refusalOf(it));
  const odd = "refused 3 OddAddress";
  equal(await Promise.all(refusals), [null, null, odd, odd]);
}

export function test_sweeps_begin_far_apart() {
  equal(spreadTurns(10, 15), [10, 14, 12, 11, 13, 15]);
  equal(spreadTurns(7, 7), [7]);
  const outcomes = new Map([[3, 0], [1, 0], [2, 0], [4, 1]]);
  equal(runsOf(outcomes), [{ from: 1, to: 3, outcome: 0 }, { from: 4, to: 4, outcome: 1 }]);
}

export function test_keys_and_their_bytes() {
  const byte = (key, more = {}) => byteOfKey({ key, ...more });
  equal([byte("a"), byte("Enter"), byte("Backspace")], [97, 13, 127]);
  equal(byte("c", { ctrlKey: true }), 3);
  equal([byte("Tab"), byte("ArrowLeft"), byte("a", { altKey: true }), byte("\u00e9")],
    [null, null, null, null]);
}

/** What is drawn of a picture: each text, and each colour that is in the column of a turn. */
function drawn(picture, view) {
  const { first, span, ghost = null, same = null, target = null, tick = null } = view;
  const canvas = document.createElement("canvas");
  document.body.append(canvas);
  const colours = { faint: "#f00", ghost: "#f00", disk: "#0f0", grid: "#00f" };
  for (const name of Object.keys(colours)) canvas.style.setProperty(`--${name}`, colours[name]);
  const drawing = new LanesDrawing(canvas), shown = new View(first, span), texts = [];
  Object.assign(shown, { left: 100, width: 1000 });
  const write = drawing.pen.fillText;
  drawing.pen.fillText = (text, ...more) => {
    texts.push(text);
    write.call(drawing.pen, text, ...more);
  };
  const { lanes, height } = lanesOf(picture.words);
  drawing.draw({
    view: shown, lanes, height, width: 1110, picture, ghost, symbols: {}, events: [], part: null,
    same, sweep: null, target, tick,
  });
  const coloursOf = (lane, turn) => {
    const { top } = lanes.find(it => it.name === lane);
    const { data } = drawing.pen.getImageData(shown.x(turn), top + 2, 3, 28);
    const seen = at => data.some((it, place) => place % 4 === at && it > 100);
    return ["faint", "disk", "grid"].filter((_, at) => seen(at));
  };
  canvas.remove();
  return { texts, coloursOf };
}

const PICTURE = {
  first: 0, end: 100, reached: 100, step: 1, isMade: true, looks: [], interrupts: [],
  sampledVectors: [], disk: { bars: [{ begin: 50, end: null, name: "read" }], busy: [] },
  text: { bytes: [], printed: 0, each: 1 },
  words: [{ name: "core 002000", isWhole: true, values: [{ turn: 0, word: 5, writer: "" }] }],
};

export function test_no_part_of_a_picture_is_drawn_for_other_turns() {
  const { coloursOf } = drawn(PICTURE, { first: 0, span: 200 });
  equal(["disk", "core 002000"].map(it => coloursOf(it, 60)), [["disk"], ["faint"]]);
  equal(["disk", "core 002000", "console"].map(it => coloursOf(it, 150)),
    [["grid"], ["grid"], ["grid"]]);
  const growing = { ...PICTURE, isMade: false, reached: 60 };
  equal(["kernel PC", "disk", "console"].map(it => drawn(growing, { first: 0, span: 100 })
    .coloursOf(it, 30)), [[], ["grid"], ["grid"]]);
  equal(drawn(growing, { first: 0, span: 100 }).coloursOf("kernel PC", 80), ["grid"]);
}

export function test_the_old_past_is_drawn_up_to_where_both_are_the_same() {
  const picture = { ...PICTURE, disk: { bars: [], busy: [] } };
  const coloursAt = same => [60, 90].map(turn =>
    drawn(picture, { first: 0, span: 100, ghost: PICTURE, same }).coloursOf("disk", turn));
  equal([coloursAt(null), coloursAt(70)], [[["faint"], ["faint"]], [["faint"], []]]);
}

export function test_letters_that_do_not_fit_are_no_text() {
  const at = (turn, letter) => ({ turn, byte: letter.charCodeAt(0) });
  const bytes = [at(10, "A"), at(50, "C"), at(50.2, "A"), at(50.4, "T"), at(50.6, "S"), at(90, "B")];
  const lettersOf = text => drawn({ ...PICTURE, text }, { first: 0, span: 100 }).texts
    .filter(it => /^([A-Z]$|stroke)/.test(it));
  equal(lettersOf({ bytes, printed: 6, each: 1 }), ["A", "B", "stroke: a byte"]);
  equal(lettersOf({ bytes, printed: 60, each: 10 }), ["stroke: a byte"]);
  equal(lettersOf({ bytes: bytes.slice(0, 2), printed: 2, each: 1 }), ["A", "C"]);
}

export function test_numbers_are_not_cut_at_the_edge() {
  const values = [{ turn: 5, word: 0o170, writer: "cpu" }, { turn: 99, word: 0o176, writer: "cpu" }];
  const words = [{ ...PICTURE.words[0], values }];
  const { texts } = drawn({ ...PICTURE, words }, { first: 0, span: 100 });
  equal(texts.filter(it => it.startsWith("17")), ["170 cpu"]);
}

export function test_a_refusal_is_never_a_value() {
  const parsers = {
    registersOf, devicesOf, pagesOf, turnsOf, interruptsOf, writesOf, lastOf, wordsOf, turnOf,
    eventOf, lengthOf, bytesOf, tailOf, physicalOf, unreadOf,
  };
  const taken = Object.entries(parsers).filter(([, parse]) => {
    try {
      parse("refused 4 OutsideDisk", 100);
      return true;
    } catch (error) {
      return !(error instanceof WrongReply);
    }
  });
  equal(taken.map(([name]) => name), []);
}

export function test_what_the_disk_does_in_words() {
  const devices = { diskFunction: "seek", wordCount: 65_536, sector: 12, drive: 1, busAddress: 0 };
  equal(functionInWords(devices), "seek of sector 12 of drive 1");
  equal(functionInWords({ ...devices, diskFunction: "read check", wordCount: 1 }),
    "read check of 1 word from sector 12 of drive 1 on");
  const { sector } = devicesOf("devices RKCS 000004 RKWC 177400 RKBA 030000 RKDA 000017");
  equal(sector, null);
}

export function test_options_are_read_as_a_shell_reads_them() {
  const words = ["--start", "2000", "--disk", "a 'b\".disk"];
  equal(shellWords(optionText(optionLines(words)), ""), words);
  const long = ["--disk", "x".repeat(400)];
  equal(shellWords(optionText(["# first", ...optionLines(long), "regs 1"]), ""), long);
  equal(optionLines(long).map(it => it.length < 200), [true, true, true]);
  equal([optionText(["regs 1", "#! --start 2"]), optionText(["#!"])], [null, " "]);
}

export function test_events_of_the_form() {
  equal([eventOfForm("key", "a"), eventOfForm("key", " "), eventOfForm("key", "Ctrl-C"),
    eventOfForm("key", "esc"), eventOfForm("key", "015"), eventOfForm("tick", "x")],
  ["key 141", "key 40", "key 3", "key 33", "key 15", "tick"]);
  equal([eventOfForm("key", ""), eventOfForm("key", "ab"), eventOfForm("key", "400"),
    eventOfForm("key", "\u00e9"), eventOfForm("switches", "8"), eventOfForm("switches", "200000"),
    eventOfForm("switches", " 000017 ")], [null, null, null, null, null, null, "switches 17"]);
  const codes = Array.from({ length: 128 }, (_, it) => it);
  equal(codes.filter(it => byteNamed(keyName(it)) !== it), []);
}

export function test_the_events_near_a_turn() {
  const script = Array.from({ length: 100 }, (_, at) => ({ number: at + 1, turn: 10 * at }));
  const near = (turn, most) => {
    const { shown, before, after } = eventsNear(script, turn, most);
    return [shown[0]?.turn, shown.length, before, after];
  };
  equal([near(0, 10), near(500, 10), near(9999, 10), near(5, 1000)],
    [[0, 10, 0, 90], [450, 10, 45, 45], [900, 10, 90, 0], [0, 100, 0, 0]]);
  equal(eventsNear([], 5), { shown: [], before: 0, after: 0 });
}

export function test_where_an_event_is_to_be_dropped_is_told() {
  const target = { from: 50, to: 70 }, tick = 40;
  const told = view => drawn(PICTURE, view).texts.filter(it => it.includes("the tick"));
  equal(told({ first: 0, span: 100, target, tick }),
    ["drop it here, after the tick", "the tick is here"]);
  equal(told({ first: 0, span: 100, tick }), ["the tick is here"]);
  equal(told({ first: 0, span: 100 }), []);
  equal(told({ first: 60, span: 100, target, tick }), []);
}
