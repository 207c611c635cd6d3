// A machine with its past: questions in parts that can be stopped, edits with undo.

import { Ledger } from "./ledger.js";
import { Machine, Stopped } from "./machine.js";
import { isEdit, isStep, runsNothing, wordOfLine } from "./past.js";
import {
  askedAtOnce, byteAsked, earlyQuestion, isSearch, searchOf, turnsAsked,
} from "./questions.js";
import { Reached } from "./reached.js";
import { LAST_TURN, eventOf, isRefused, mustBeTaken } from "./replies.js";

// A part is what is asked at once. It runs about so many turns: fewer if parts take long.
const [FEWEST_TURNS, FIRST_TURNS, MOST_TURNS] = [100_000, 1_000_000, 4_000_000];
const [QUICK, SLOW] = [25, 80];
// What a line takes beside its turns, as turns.
const TURNS_OF_A_LINE = 10_000;
const [MOST_LINES, MOST_EDITS] = [512, 4_096];
// So many turns a function of the disk may have begun before it ended, at first.
const FIRST_BACK = 64;

/** Of several questions the one with the lowest number goes first. */
export const Priority = { EDIT: 0, CURSOR: 1, QUESTION: 2, PICTURE: 3, TEXT: 4, COMPARISON: 5 };

/**
 * What a machine is made of: the words of the program's command line, and the files that they name.
 * @typedef {{arguments: string[], files: Object<string, Uint8Array>}} Setup
 */

/**
 * Lines that are asked, the replies so far, and the search that the next line is. `tried` is how
 * many lines had replies when the next one was asked about early turns.
 * @typedef {{lines: string[], priority: number, token: Token | null, replies: string[],
 *   search: Search | null, tried: number,
 *   resolve: (replies: string[]) => void, reject: (reason: any) => void}} Job
 * @typedef {import("./tasks.js").Token} Token
 * @typedef {import("./questions.js").Search} Search
 * @typedef {import("./ledger.js").Edit} Edit
 * @typedef {import("./work.js").Work} Work
 */

export class Run {
  /** @param {Setup} setup @param {(work: Work | null) => void} onProgress */
  constructor(setup, onProgress = () => {}) {
    this.setup = setup;
    this.onProgress = onProgress;
    this.ledger = new Ledger();
    /** @type {Job[]} */
    this.jobs = [];
    this.turnsAtOnce = FIRST_TURNS;
    this.isAtWork = false;
    this.reached = new Reached();
    this.machine = this.newMachine();
  }

  /** The past as the program told it last. */
  get past() {
    return this.ledger.past;
  }

  /** A machine that has taken nothing. */
  newMachine() {
    const { arguments: words, files } = this.setup, { taken } = this.ledger;
    return new Machine({ program: "search", arguments: words, files, taken });
  }

  /** The replies to lines, in their order. `token.isStopped` gives them up, also if there are none
      to wait for: what is asked by then is of another state.
      @param {string[]} lines @param {Token | null} token @returns {Promise<string[]>} */
  async ask(lines, priority = Priority.CURSOR, token = null) {
    const replies = lines.length ? await this.repliesTo(lines, priority, token) : [];
    if (token?.isStopped) throw new Stopped();
    return replies;
  }

  /** @param {string[]} lines @param {number} priority @param {Token | null} token
      @returns {Promise<string[]>} */
  repliesTo(lines, priority, token) {
    return new Promise((resolve, reject) => {
      const job = { lines, priority, token, replies: [], search: null, tried: -1, resolve, reject };
      this.jobs.push(job);
      this.work();
    });
  }

  /** @param {string[]} lines */
  askEdits(lines) {
    return this.ask(lines, Priority.EDIT);
  }

  /** @param {string} line @param {number} [priority] @param {Token | null} [token] */
  async askOne(line, priority, token) {
    return (await this.ask([line], priority, token))[0];
  }

  /** Why the program refuses a question, whatever its turn is, or null.
      @param {string} line */
  async refusalOf(line) {
    const reply = await this.askOne(earlyQuestion(line), Priority.QUESTION);
    return isRefused(reply) ? reply : null;
  }

  async work() {
    if (this.isAtWork) return;
    this.isAtWork = true;
    while (this.jobs.length) {
      const job = this.jobs.reduce((best, it) => it.priority < best.priority ? it : best);
      try {
        if (job.token?.isStopped) throw new Stopped();
        await this.askPart(job);
        this.endIfDone(job);
      } catch (error) {
        // the machine was stopped and goes on: what runs nothing is sent again
        const isGivenUp = job.token?.isStopped || this.machine.closed;
        if (error instanceof Stopped && !isGivenUp && this.goesOn(job)) continue;
        this.remove(job);
        job.reject(error);
      }
    }
    this.isAtWork = false;
    this.onProgress(null);
  }

  /** @param {Job} job */
  endIfDone(job) {
    if (job.replies.length < job.lines.length) return;
    this.remove(job);
    job.resolve(job.replies);
  }

  /** Whether a job goes on though the machine is stopped: what it is at runs nothing.
      @param {Job} job */
  goesOn(job) {
    return runsNothing(job.lines[job.replies.length]);
  }

  /** @param {Job} job */
  remove(job) {
    this.jobs = this.jobs.filter(it => it !== job);
  }

  // Parts

  /** Asks some of the job's lines, or goes on towards the turns that the next one is about.
      @param {Job} job */
  async askPart(job) {
    if (this.goesOn(job)) return this.sendEdits(job);
    const line = job.lines[job.replies.length];
    const search = job.search ??= searchOf(line), byte = byteAsked(line);
    const turn = search ? this.turnBefore(search) : turnsAsked(line)[0];
    const left = this.reached.turnsToRun(this.reached.at, turn) - this.turnsAtOnce;
    if (left > 0) await this.goOn(job, line, turn - left);
    else if (byte !== null && byte >= this.reached.printed) await this.goOnToByte(job, byte);
    else if (search) await this.searchOn(job, line);
    else await this.askLines(job);
    return undefined;
  }

  /** Sends the job's next edits, and lines that tell the past. They run nothing.
      @param {Job} job */
  async sendEdits(job) {
    const next = job.lines.slice(job.replies.length, job.replies.length + MOST_EDITS);
    const count = next.findIndex(it => !runsNothing(it));
    this.onProgress({ done: job.replies.length, all: job.lines.length, what: "edits" });
    for (const it of await this.send(count < 0 ? next : next.slice(0, count))) job.replies.push(it);
  }

  /** Runs up to a turn, on the way to that of a line. The line may be refused at any turn: then it
      is at once.
      @param {Job} job @param {string} line @param {number} turn */
  async goOn(job, line, turn) {
    const isTried = job.tried === job.replies.length;
    job.tried = job.replies.length;
    this.showTurns(line, job.search, turn - this.turnsAtOnce);
    if (isTried) {
      const [reply] = await this.timed([`regs ${turn}`], this.turnsAtOnce);
      mustBeTaken(reply);
      return;
    }
    const [reply] = await this.send([earlyQuestion(line)]);
    if (isRefused(reply)) this.endLine(job, reply);
  }

  /** Takes the reply to the job's next line.
      @param {Job} job @param {string} reply */
  endLine(job, reply) {
    job.search = null;
    job.replies.push(reply);
  }

  /** Says how far a line is: at which turn the machine is, or how many turns were searched back.
      @param {string} line @param {Search | null} search @param {number} turn */
  showTurns(line, search, turn) {
    const [begin, end] = turnsAsked(line);
    const goesBack = search?.isBackwards && end <= this.reached.known;
    const [done, all] = goesBack ? [end - search.end, end - begin] : [turn, end];
    this.onProgress({ done, all, what: "turns" });
  }

  /** Runs on until the byte is printed that is asked about.
      @param {Job} job @param {number} byte */
  async goOnToByte(job, byte) {
    const { reached } = this, turn = Math.min(LAST_TURN, reached.known + this.turnsAtOnce);
    this.onProgress({ done: reached.known, all: LAST_TURN, what: "turns" });
    const [reply] = await this.timed([`text ${turn} from ${byte}`], this.turnsAtOnce);
    if (reply !== "text 0:" || turn === LAST_TURN) reached.printed = byte + 1;
  }

  /** The turn that the machine goes to before it searches on. A search backwards begins when the
      turns before its end are known.
      @param {Search} search */
  turnBefore(search) {
    const { end, isBackwards } = search;
    return isBackwards && end > this.reached.known ? end : this.partOf(search)[0];
  }

  /** The turns that are searched next. A part backwards begins at a checkpoint, if it has one: the
      program goes on from there.
      @param {Search} search @returns {[number, number]} */
  partOf({ from, end, isBackwards }) {
    if (!isBackwards) return [from, Math.min(end, from + this.turnsAtOnce)];
    const turn = end - this.turnsAtOnce;
    const checkpoint = this.reached.checkpointFrom(turn);
    return [Math.max(from, checkpoint < end ? checkpoint : turn), end];
  }

  /** The reply about a part. The first function of the disk in it may have begun before the part:
      it gets the turn in which it did.
      @param {string} reply @param {Search} search */
  async withBegin(reply, { begin, from }) {
    const [, turn] = /^transfers .*\n(\d+) before /.exec(reply) ?? [], end = Number(turn) + 1;
    for (let first = from, back = FIRST_BACK; turn && first > begin; back *= 2) {
      first = Math.max(begin, end - back);
      const [longer] = await this.send([`transfers ${first} ${end}`]);
      const [found] = new RegExp(`^${turn} \\d.*`, "m").exec(longer) ?? [];
      if (found) return reply.replace(/(?<=\n).*/, found);
    }
    return reply;
  }

  /** Searches some turns more.
      @param {Job} job @param {string} line */
  async searchOn(job, line) {
    const { search } = job;
    if (!search) return;
    const [from, to] = this.partOf(search);
    this.showTurns(line, search, from);
    const [asked] = await this.timed([search.line(from, to)], to - from);
    const reply = await this.withBegin(asked, search);
    if (search.isBackwards) search.end = from;
    else search.from = to;
    const whole = search.add(reply, search.from === search.end);
    if (whole !== null) this.endLine(job, whole);
  }

  /** @param {Job} job */
  async askLines(job) {
    const { lines, cost } = this.nextLines(job);
    this.onProgress({ done: job.replies.length, all: job.lines.length, what: "questions" });
    job.replies.push(...await this.timed(lines, cost));
  }

  /** The job's next questions, as far as they take no longer than a part.
      @param {Job} job */
  nextLines({ lines, replies }) {
    const { reached } = this, begin = replies.length;
    let { at } = reached, cost = 0, end = begin;
    while (end < lines.length && end - begin < MOST_LINES && !runsNothing(lines[end])) {
      const [turn] = turnsAsked(lines[end]);
      const more = TURNS_OF_A_LINE + reached.turnsToRun(at, turn);
      if (end > begin && (cost + more > this.turnsAtOnce || !this.isPlain(lines[end]))) break;
      cost += more;
      at = turn;
      end += 1;
    }
    return { lines: lines.slice(begin, end), cost };
  }

  /** Whether a line is asked beside others, and not in parts of its own.
      @param {string} line */
  isPlain(line) {
    const byte = byteAsked(line);
    return byte === null ? !isSearch(line) : byte < this.reached.printed;
  }

  /** Sends a part. The next one is shorter if it takes long, so that others don't wait.
      @param {string[]} lines @param {number} cost */
  async timed(lines, cost) {
    const began = performance.now();
    const replies = await this.send(lines);
    const time = performance.now() - began;
    if (time > SLOW) this.turnsAtOnce = Math.max(FEWEST_TURNS, this.turnsAtOnce >> 1);
    else if (time < QUICK && 2 * cost > this.turnsAtOnce) {
      this.turnsAtOnce = Math.min(MOST_TURNS, this.turnsAtOnce << 1);
    }
    return replies;
  }

  /** The machine's replies, without the line feed at their ends.
      @param {string[]} lines */
  async send(lines) {
    const ended = await this.machine.ask(lines);
    const replies = ended.map(it => it.endsWith("\n") ? it.slice(0, -1) : it);
    lines.forEach((line, at) => {
      if (isRefused(replies[at])) return;
      if (isEdit(line) || isStep(line)) this.take(line, ended[at]);
      else this.reached.learn(line, replies[at]);
    });
    return replies;
  }

  /** Whether a question about a turn takes no time, also after an edit of an earlier one.
      @param {number} turn */
  isNear(turn, edited = turn) {
    return turn - Math.min(this.reached.known, edited) <= MOST_TURNS;
  }

  // Edits

  /**
   * Takes up the edits of a session. Returns its lines that are refused, with their numbers and
   * replies. In the place of a question one is asked that runs nothing.
   * @param {string[]} lines
   */
  async load(lines) {
    const replies = await this.ask(lines.map(askedAtOnce), Priority.EDIT);
    await this.askPast();
    const found = lines.map((line, at) => ({ number: at + 1, line, reply: replies[at] }));
    return found.filter(it => isRefused(it.reply));
  }

  /** Takes up edits that a machine took before.
      @param {string[]} lines */
  async takeUp(lines) {
    (await this.ask(lines, Priority.EDIT)).forEach(mustBeTaken);
    await this.askPast();
  }

  /** The past, asked as far as edits have changed it. */
  async askPast() {
    const lines = [...this.ledger.untold];
    if (lines.length) {
      const replies = await this.ask(lines, Priority.EDIT);
      this.ledger.tell(lines, replies.map(mustBeTaken));
    }
    return this.past;
  }

  /** An edit was taken, or taken back: what is known of the turns that it may change no longer
      holds.
      @param {string} line @param {string} reply */
  take(line, reply) {
    // lines about a drive have another form from now on
    if (wordOfLine(line) === "version") this.giveUp();
    this.reached.forgetFrom(this.ledger.note(line, reply));
  }

  /**
   * Tries an edit in the place of what was tried before. It is nothing that the user did until
   * `commit` makes it. Returns the replies to the lines that are asked of the past with it.
   * @param {string} line @param {string[]} asked
   */
  async preview(line, asked = []) {
    await this.putBack();
    const { reply, edit } = await this.make(line);
    mustBeTaken(reply);
    this.ledger.tried = edit;
    return this.ask(asked, Priority.EDIT);
  }

  /** Takes back what was tried. */
  async putBack() {
    const { tried } = this.ledger;
    if (!tried) return;
    await this.takeBackTo(tried.before);
    this.ledger.tried = null;
  }

  /**
   * Makes an edit of the user, after what was tried is put back. One that joins is undone with the
   * one before it. Returns the reply.
   * @param {string} line
   */
  async commit(line, joins = false) {
    await this.putBack();
    const { reply, edit } = await this.make(line);
    if (edit) this.ledger.add(edit, joins);
    return reply;
  }

  /** Makes edits that one undo takes back. Returns how many.
      @param {string[]} lines */
  async commitAll(lines) {
    await this.putBack();
    const { edits, replies } = await this.makeAll(lines);
    this.ledger.addAll(edits);
    replies.forEach(mustBeTaken);
    return edits.length;
  }

  /** Makes an edit. Returns its reply, and the edit if it was taken.
      @param {string} line */
  async make(line) {
    const { edits: [edit = null], replies: [reply] } = await this.makeAll([line]);
    return { reply, edit };
  }

  /** Makes edits together. Returns the replies, and the edits that were taken.
      @param {string[]} lines */
  async makeAll(lines) {
    let before = this.ledger.taken.length;
    const replies = await this.askEdits(lines);
    /** @type {Edit[]} */
    const edits = lines.flatMap((line, at) => {
      if (isRefused(replies[at])) return [];
      const event = wordOfLine(line) === "at" ? String(eventOf(replies[at])) : undefined;
      return [{ line, event, before: before++ }];
    });
    return { edits, replies };
  }

  /** Takes back the edits that were taken last, down to so many. If the program has no past before
      them, as before another version, the machine begins anew with the edits that are left.
      @param {number} count */
  async takeBackTo(count) {
    const { taken } = this.ledger;
    const replies = await this.askEdits(taken.slice(count).map(() => "undo"));
    if (!replies.some(isRefused)) return;
    taken.length = count;
    await this.startAgain();
  }

  /** Takes back what the user did, from a place on: if none is given, what was done last.
      @param {number} [place] */
  async undo(place = Math.max(0, this.ledger.changes.length - 1)) {
    await this.putBack();
    const { changes, undone } = this.ledger, [first] = changes.slice(place).flat();
    if (first) await this.takeBackTo(first.before);
    undone.push(...changes.splice(place).reverse());
  }

  /** Does again what was undone last. If this is stopped, the rest of it stays undone. Returns the
      edits of it that are refused. */
  async redo() {
    await this.putBack();
    const { changes, undone } = this.ledger, wanted = undone.at(-1) ?? [];
    /** @type {Edit[]} */
    const change = [];
    /** @type {Edit[]} */
    const refused = [];
    changes.push(change);
    while (wanted.length) {
      // what comes after an event that is made may name it by another number
      const made = wanted.findIndex(it => it.event), count = made < 0 ? wanted.length : made + 1;
      const part = wanted.slice(0, Math.min(count, MOST_EDITS));
      const { edits, replies } = await this.makeAll(part.map(it => it.line));
      const event = part[part.length - 1].event, given = edits.at(-1)?.event;
      if (event && given && event !== given) {
        this.ledger.give(given);
        this.ledger.renumber(event, given);
      }
      wanted.splice(0, part.length);
      change.push(...edits);
      refused.push(...part.filter((_, at) => isRefused(replies[at])));
    }
    undone.pop();
    if (!change.length) changes.pop();
    return refused;
  }

  /** Gives up what is asked. Edits go on: they run nothing. */
  giveUp() {
    for (const job of this.jobs) {
      if (this.goesOn(job)) continue;
      this.remove(job);
      job.reject(new Stopped());
    }
  }

  /** Ends the questions that the machine is at. */
  stop() {
    this.giveUp();
    this.reached = new Reached();
    this.machine.stop();
  }

  /** Makes the machine and its past anew of the edits that were taken. */
  async startAgain() {
    this.end();
    const lines = this.ledger.restart();
    this.reached = new Reached();
    this.machine = this.newMachine();
    await this.takeUp(lines);
  }

  end() {
    for (const job of this.jobs.splice(0)) job.reject(new Stopped());
    this.machine.close();
  }
}
