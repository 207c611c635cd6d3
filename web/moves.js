// An event that is dropped, or moved by some turns, and the nearest move that changes the reply to
// a question. The rules are those of src/nezdrab/analysis/moves.py, the work of `matters`.

import { firstOf } from "./questions.js";
import { LAST_TURN, mustBeTaken } from "./replies.js";

// Moves that are tried in one task.
const [FIRST_BLOCK, LARGEST_BLOCK] = [16, 256];
/** What is done with an event.
    @type {Way[]} */
export const WAYS = ["dropped", "earlier", "later"];

/**
 * Moves by `from` turns and more, up to those by `stop`, which isn't among them. A task has moves
 * of an event in one way: once those of `runs` are tried, all by `shifts` turns are known. The
 * others leave each turn that is asked about as it is, or as the one tried last. Of the moves of an
 * event in one way all by up to `known` turns are known, -1 if none is, and `change` is the nearest
 * that changes the reply.
 * @typedef {"dropped" | "earlier" | "later"} Way
 * @typedef {{from: number, stop: number}} Range
 * @typedef {{event: ScriptEvent, way: Way, shifts: Range, runs: Range}} Task
 * @typedef {{shift: number, reply: string}} Change a move by so many turns, and the reply after it
 * @typedef {{known: number, change: Change | null}} Tried
 * @typedef {(lines: string[]) => Promise<string[]>} Ask
 * @typedef {import("./past.js").ScriptEvent} ScriptEvent
 */

/** @param {Range} range */
const lengthOf = ({ from, stop }) => Math.max(0, stop - from);

/**
 * What is asked with an event moved: the reply without a move, the turn before which events count,
 * and by how many turns they are moved at most: by each number of turns, or, if `isNear`, by some
 * that double, and then by halves. `isSought` says whether a reply is one that is looked for.
 */
export class Moves {
  /** @param {{question: string, reply: string, end: number, most: number, isNear: boolean,
   *   isSought: (reply: string) => boolean}} about */
  constructor({ question, reply, end, most, isNear, isSought }) {
    this.question = question;
    this.reply = reply;
    this.end = end;
    this.most = most;
    this.isNear = isNear;
    this.isSought = isSought;
  }

  /** Whether an event comes before the end, or a move brings it there.
      @param {ScriptEvent} event */
  canMatter({ turn }) {
    return turn - this.most < this.end;
  }

  /** By how many turns an event can be moved.
      @param {ScriptEvent} event @param {Way} way */
  farthest({ turn }, way) {
    if (way === "dropped") return 0;
    return Math.min(this.most, way === "earlier" ? turn : LAST_TURN - turn);
  }

  /** The moves that need a run. By others the event stays after the end, or, moved to the end or
      beyond, is as one that is moved to the end.
      @param {ScriptEvent} event @param {Way} way @returns {Range} */
  runs(event, way) {
    const farthest = this.farthest(event, way), before = this.end - event.turn;
    if (way === "dropped") return { from: 0, stop: 1 };
    if (way === "earlier") return { from: Math.max(1, 1 - before), stop: farthest + 1 };
    return { from: 1, stop: Math.min(farthest, before) + 1 };
  }

  /** How many runs there are for an event, if each is made.
      @param {ScriptEvent} event */
  count(event) {
    return WAYS.reduce((sum, it) => sum + lengthOf(this.runs(event, it)), 0);
  }

  /** The moves of an event in one way, the nearest first.
      @param {ScriptEvent} event @param {Way} way @returns {Task[]} */
  tasks(event, way) {
    const { from: begin, stop } = this.runs(event, way), last = this.farthest(event, way) + 1;
    const tasks = [];
    let size = this.isNear ? Math.max(1, stop - begin) : FIRST_BLOCK;
    for (let at = begin, from = way === "dropped" ? 0 : 1; from < last;) {
      const runs = { from: at, stop: Math.max(at, Math.min(stop, at + size)) };
      const shifts = { from, stop: runs.stop < stop ? runs.stop : last };
      tasks.push({ event, way, shifts, runs });
      [at, from, size] = [runs.stop, shifts.stop, Math.min(2 * size, LARGEST_BLOCK)];
    }
    return tasks;
  }

  /** The turn that a move puts an event in. A dropped one comes after all that can be asked about:
      so it keeps its number.
      @param {Task} task @param {number} shift */
  turn({ event, way }, shift) {
    if (way === "dropped") return LAST_TURN;
    return event.turn + (way === "later" ? shift : -shift);
  }

  /** The move of a task by the fewest turns that is looked for, or null. `ask` gives the replies of
      a machine of its own to lines.
      @param {Ask} ask @param {Task} task @returns {Promise<Change | null>} */
  async change(ask, task) {
    const { from, stop } = task.runs;
    if (stop <= from) return null;
    if (this.isNear) return this.near(ask, task);
    const shifts = Array.from({ length: stop - from }, (_, at) => from + at);
    return (await this.changed(ask, task, shifts))[0] ?? null;
  }

  /** Tries moves that double until one changes the reply, and then those halfway to it.
      @param {Ask} ask @param {Task} task */
  async near(ask, task) {
    const { from, stop } = task.runs;
    let same = from - 1;
    /** @type {Change | null} */
    let found = null;
    for (let step = 1; !found && same < stop - 1; step *= 2) {
      const shift = Math.min(from + step - 1, stop - 1);
      [found = null] = await this.changed(ask, task, [shift]);
      if (!found) same = shift;
    }
    if (found) await firstOf(same, found.shift, async shift => {
      const [nearer] = await this.changed(ask, task, [shift]);
      found = nearer ?? found;
      return nearer !== undefined;
    });
    return found;
  }

  /** Those of these moves that are looked for, each of which is taken back then. In the order of
      their turns each costs least.
      @param {Ask} ask @param {Task} task @param {number[]} shifts @returns {Promise<Change[]>} */
  async changed(ask, task, shifts) {
    const { event, way } = task, ordered = way === "earlier" ? [...shifts].reverse() : shifts;
    const lines = ordered.flatMap(shift => [
      `alter ${event.number} ${this.turn(task, shift)} ${event.text}`, this.question, "undo"]);
    const replies = (await ask(lines)).map(mustBeTaken);
    const found = ordered.map((shift, at) => ({ shift, reply: inOneLine(replies[3 * at + 1]) }));
    return found.filter(it => this.isSought(it.reply)).sort((a, b) => a.shift - b.shift);
  }
}

/** @param {string} reply */
export const inOneLine = reply => reply.trimEnd().replaceAll("\n", " / ");

/**
 * What is left to try of an event in one way, the nearest first; the first of it may be under way.
 * @typedef {{tasks: Task[], isTaken: boolean}} Left
 */

/** What is known of the moves of events, and what isn't yet. */
export class Results {
  /** @param {Moves} moves @param {ScriptEvent[]} events */
  constructor(moves, events) {
    this.moves = moves;
    this.events = events;
    /** @type {Map<string, Tried>} */
    this.tried = new Map();
    /** @type {Left[]} */
    this.left = events.flatMap(it => WAYS.map(way => (
      { tasks: moves.tasks(it, way), isTaken: false }))).filter(it => it.tasks.length);
    /** How many ways of moving an event there are to try. */
    this.ways = this.left.length;
  }

  /** @param {ScriptEvent} event @param {Way} way @returns {Tried} */
  of(event, way) {
    return this.tried.get(`${event.number} ${way}`) ?? { known: -1, change: null };
  }

  /** What is tried next: the nearest moves of all events come first. Undefined if nothing is left
      that isn't under way. */
  next() {
    const left = this.left.find(it => !it.isTaken);
    if (left) left.isTaken = true;
    return left;
  }

  /** How many of these ways are tried as far as they are to be. */
  get done() {
    return this.ways - this.left.length;
  }

  /** Takes in what came of the first task of what was left. No move is tried that is farther than
      one that changes the reply.
      @param {Left} left @param {Change | null} change */
  add(left, change) {
    const [{ event, way, shifts }, ...tasks] = left.tasks;
    const known = change ? change.shift : shifts.stop - 1;
    this.tried.set(`${event.number} ${way}`, { known, change });
    this.left = this.left.filter(it => it !== left);
    if (!change && tasks.length) this.left.push({ tasks, isTaken: false });
  }
}
