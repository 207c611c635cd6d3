// What a value is made of, backwards over the turns: each cell comes from one write, and that is
// made of cells before it, down to events and to what is there since power-up. The rules are those
// of src/nezdrab/analysis/origins.py.

import {
  INPUTS, KEPT_ON_THE_BUS, POINT, PRB, SWITCHES, TKB, driveCell, firstOf, isCore, isOfDrive,
  isOnBus, wordCells, wordOf,
} from "./cells.js";
import { NotFollowed } from "./space.js";
import { copiedBy, hasWritten } from "./transfers.js";
import { Flows } from "./turn-flow.js";

const [BLOCK, WINDOW_DELAYS, WINDOW_TURNS] = [64, 32, 1_000];
/** How far back one write is looked for: in turns that are decoded, and in looks at the disk. */
export const MOST_TURNS_BACK = 20_000;
export const MOST_LOOKS = 20_000;
/** @type {Object<string, number[]>} the cells of the events that bring data */
const CELLS_OF_EVENTS = { key: [TKB], switches: wordCells(SWITCHES) };

/** A write by the act of a turn or by the disk; or where the way back ends: at an event, at what is
    there since power-up, at the tape, at what a device showed, at where the program stands, or
    where it was looked for as far back as it is. */
export const Kind =
  { MADE: 0, MOVED: 1, EVENT: 2, START: 3, TAPE: 4, DEVICE: 5, POINT: 6, TOO_FAR: 7 };

/**
 * A write or an end: `at` is the number of the move in its turn, of the cell, or of the event.
 * There is one of each. A cell that a value is made of, and where it comes from.
 * @typedef {{kind: number, turn: number, at: number}} Origin
 * @typedef {{cell: number, origin: Origin}} Input
 * @typedef {import("./turn-flow.js").Flow} Flow
 * @typedef {import("./facts.js").Transfer} Transfer
 */

/**
 * The writes that roots come from, each with its inputs, and those not followed: `stopped` says by
 * what, if by anything but the limit.
 * @typedef {{roots: Origin[], inputs: Map<Origin, Input[]>, left: Set<Origin>,
 *   stopped: string}} Graph
 */

/** @param {{kind: number}} origin */
export const isWrite = ({ kind }) => kind <= Kind.MOVED;

/** Whether all that a graph comes from was found.
    @param {Graph} graph */
export const isWhole = ({ inputs, left }) =>
  !left.size && ![...inputs.keys()].some(it => it.kind === Kind.TOO_FAR);

/** The numbers of the events that a graph comes from.
    @param {Graph} graph */
export const eventsOfGraph = ({ inputs }) =>
  [...inputs.keys()].filter(it => it.kind === Kind.EVENT).map(it => it.at).sort((a, b) => a - b);

/** The events that bring data, in the order in which they happen.
    @param {import("./past.js").Past} past */
export const eventsWithData = past => past.script.flatMap(({ number, turn, text }) => {
  const cells = CELLS_OF_EVENTS[text.split(" ")[0]];
  return cells ? [{ number, turn, cells }] : [];
});

export class Origins {
  /** `end` is the turn before which is asked.
      @param {import("./facts.js").Facts} facts @param {number} end */
  constructor(facts, end) {
    this.facts = facts;
    this.end = end;
    /** @type {Map<string, Origin>} */
    this.known = new Map();
    /** @type {Map<number, Flow>} */
    this.flows = new Map();
    /** @type {Map<number, Map<number, [number, number][]>>} by the first turn of a block, and by
        cell, the turns and numbers of the moves that wrote it */
    this.written = new Map();
    /** @type {Map<number, Transfer[]>} by the number of a window the disk's writes, the last
        first */
    this.windows = new Map();
    this.window = Math.max(WINDOW_TURNS, WINDOW_DELAYS * facts.past.delays.disk);
    this.events = eventsWithData(facts.past);
  }

  /** @param {number} kind @param {number} turn @param {number} at @returns {Origin} */
  origin(kind, turn, at) {
    const key = `${kind} ${turn} ${at}`, found = this.known.get(key) ?? { kind, turn, at };
    this.known.set(key, found);
    return found;
  }

  // Turns

  /** @param {number} turn @returns {Promise<Flow>} */
  async flow(turn) {
    if (!this.flows.has(turn)) await this.decode(turn, turn + 1);
    return this.flowOf(turn);
  }

  /** The flow of a turn that was decoded.
      @param {number} turn @returns {Flow} */
  flowOf(turn) {
    const found = this.flows.get(turn);
    if (!found) throw new Error(`turn ${turn} wasn't decoded`);
    return found;
  }

  /** Decodes the turns from `first` to the one before `end`, at most 64.
      @param {number} first @param {number} end */
  async decode(first, end) {
    const found = first < end ? await new Flows(this.facts).of(first, end) : [];
    for (const flow of found) this.flows.set(flow.turn, flow);
    return found;
  }

  /** By the cells outside core, the turns and numbers of the moves of a block that wrote them.
      @param {number} first the first turn of the block
      @returns {Promise<Map<number, [number, number][]>>} */
  async writtenFrom(first) {
    const known = this.written.get(first);
    if (known) return known;
    /** @type {Map<number, [number, number][]>} */
    const written = new Map();
    for (const { turn, moves } of await this.decode(first, Math.min(first + BLOCK, this.end))) {
      for (const [number, { cell }] of moves.entries()) {
        if (isCore(cell)) continue;
        const writes = written.get(cell) ?? [];
        writes.push([turn, number]);
        written.set(cell, writes);
      }
    }
    this.written.set(first, written);
    return written;
  }

  // Origins

  /** The origin of a cell before a turn.
      @param {number} cell @param {number} turn */
  before(cell, turn) {
    return this.outside(cell, turn, turn - 1);
  }

  /** The origin of a cell that a move of a turn reads: what was before its instant.
      @param {number} cell @param {number} turn @param {number} number */
  async ofInput(cell, turn, number) {
    const { moves } = await this.flow(turn);
    let begin = number;
    while (begin && moves[begin - 1].instant === moves[number].instant) begin -= 1;
    return await this.writtenIn(turn, cell, begin) ?? this.outside(cell, turn, turn);
  }

  /** The last write of a cell by the moves of a turn before number `end`, or null.
      @param {number} turn @param {number} cell @param {number} end */
  async writtenIn(turn, cell, end) {
    const { moves } = await this.flow(turn);
    for (let number = Math.min(end, moves.length) - 1; number >= 0; number--) {
      if (moves[number].cell === cell) return this.origin(Kind.MADE, turn, number);
    }
    return null;
  }

  /** The origin of a cell in a write before a turn, or in the beginning of turn `begun`.
      @param {number} cell @param {number} turn @param {number} begun
      @returns {Promise<Origin>} */
  async outside(cell, turn, begun) {
    if (cell === POINT) return this.origin(Kind.POINT, turn, 0);
    if (isCore(cell)) return this.inCore(cell, turn, begun);
    if (isOfDrive(cell)) return this.onDrive(cell, begun);
    if (isOnBus(cell) && !KEPT_ON_THE_BUS.has(cell & ~1)) return this.ofDevice(cell, turn, begun);
    return this.inRegister(cell, turn);
  }

  /** @param {number} cell @param {number} turn @param {number} begun @returns {Promise<Origin>} */
  async inCore(cell, turn, begun) {
    const moved = begun === turn ? (await this.flow(turn)).transfer : null;
    if (moved && hasWritten(moved, wordOf(cell))) {
      return this.origin(Kind.MOVED, turn, cell);
    }
    // a write of the other byte alone isn't one of this
    for (let before = turn; ;) {
      const last = await this.facts.last(before, cell & ~1);
      if (!last) return this.origin(Kind.START, 0, firstOf(cell));
      if (last.writer === "disk") return this.origin(Kind.MOVED, last.turn, cell);
      const found = await this.writtenIn(last.turn, cell, Infinity);
      if (found) return found;
      before = last.turn;
    }
  }

  /** @param {number} cell @param {number} turn @param {number} begun @returns {Origin} */
  ofDevice(cell, turn, begun) {
    const register = cell & ~1;
    if (!INPUTS.has(register)) return this.origin(Kind.DEVICE, turn, register);
    if (register === PRB) return this.origin(Kind.TAPE, turn, PRB);
    for (let at = this.events.length - 1; at >= 0; at--) {
      const { turn: brought, number, cells } = this.events[at];
      if (brought <= begun && cells.includes(cell)) return this.origin(Kind.EVENT, brought, number);
    }
    return this.origin(Kind.START, 0, register);
  }

  /** @param {number} cell @param {number} turn */
  async inRegister(cell, turn) {
    let first = turn - turn % BLOCK;
    for (; first >= 0 && turn - first < MOST_TURNS_BACK; first -= BLOCK) {
      const writes = (await this.writtenFrom(first)).get(cell) ?? [];
      const write = writes.filter(it => it[0] < turn).at(-1);
      if (write) return this.origin(Kind.MADE, ...write);
    }
    return first < 0 ? this.origin(Kind.START, 0, firstOf(cell))
      : this.origin(Kind.TOO_FAR, turn, firstOf(cell));
  }

  /** The last write of the disk to a byte of a drive, up to the beginning of a turn.
      @param {number} cell @param {number} begun */
  async onDrive(cell, begun) {
    const word = wordOf(cell), delay = this.facts.past.delays.disk || this.window;
    for (let number = Math.floor(begun / this.window); number >= 0; number--) {
      for (const it of await this.diskWrites(number)) {
        if (it.turn <= begun && hasWritten(it, word)) {
          return this.origin(Kind.MOVED, it.turn, cell);
        }
      }
      if (Math.floor((begun - number * this.window) / delay) > MOST_LOOKS) {
        return this.origin(Kind.TOO_FAR, begun, firstOf(cell));
      }
    }
    return this.origin(Kind.START, 0, firstOf(cell));
  }

  /** The writes of the disk that ended in a window of turns, the last first.
      @param {number} number */
  async diskWrites(number) {
    const known = this.windows.get(number);
    if (known) return known;
    const first = number * this.window, end = Math.min(first + this.window, this.end);
    const found = await this.facts.moving(await this.facts.ended(first, end));
    const writes = found.filter(it => it.name === "write").reverse();
    this.windows.set(number, writes);
    return writes;
  }

  // The way back

  /** What a write is made of.
      @param {Origin} origin @returns {Promise<Input[]>} */
  async inputs(origin) {
    if (origin.kind === Kind.MOVED) return this.moved(origin);
    const { turn, at } = origin, found = [];
    const cells = new Set((await this.flow(turn)).moves[at].values);
    for (const cell of cells) found.push({ cell, origin: await this.ofInput(cell, turn, at) });
    return found;
  }

  /** What a cell that the disk has written comes from.
      @param {Origin} origin @returns {Promise<Input[]>} */
  async moved({ turn, at: cell }) {
    const [transfer] = await this.facts.moving(await this.facts.ended(turn, turn + 1));
    if (!transfer) {
      throw new NotFollowed(`turn ${turn}: the rules don't explain what the disk moves`);
    }
    const copied = copiedBy(transfer, wordOf(cell)), half = cell & 1;
    if (!copied) return [];
    const source = copied.kind === "core" ? copied.at + half
      : driveCell(copied.drive, copied.at, half);
    return [{ cell: source, origin: await this.outside(source, turn, turn - 1) }];
  }

  /** The latest turns first. After this number of writes, or a turn that isn't explained, the
      others aren't followed.
      @param {Origin[]} roots @param {number} most @returns {Promise<Graph>} */
  async graph(roots, most) {
    /** @type {Map<Origin, Input[]>} */
    const inputs = new Map(roots.filter(it => !isWrite(it)).map(it => [it, []]));
    const todo = new Latest(roots.filter(isWrite));
    let stopped = "";
    try {
      for (let count = 0; todo.length && count < most;) {
        const origin = todo.take();
        if (inputs.has(origin)) continue;
        const found = await this.inputs(origin).catch(error => {
          todo.add(origin);
          throw error;
        });
        inputs.set(origin, found);
        count += 1;
        for (const { origin: it } of found) {
          if (!isWrite(it)) inputs.set(it, []);
          else if (!inputs.has(it)) todo.add(it);
        }
      }
    } catch (error) {
      if (!(error instanceof NotFollowed)) throw error;
      stopped = error.message;
    }
    const left = new Set(todo.items.filter(it => !inputs.has(it)));
    for (const it of left) inputs.set(it, []);
    return { roots, inputs, left, stopped };
  }
}

/** Origins of which the latest is taken first; a heap. */
class Latest {
  /** @param {Origin[]} items */
  constructor(items) {
    /** @type {Origin[]} */
    this.items = [];
    for (const it of items) this.add(it);
  }

  get length() {
    return this.items.length;
  }

  /** @param {number} one @param {number} other */
  isBefore(one, other) {
    const [a, b] = [this.items[one], this.items[other]];
    return (b.turn - a.turn || a.kind - b.kind || a.at - b.at) < 0;
  }

  /** @param {number} one @param {number} other */
  swap(one, other) {
    [this.items[one], this.items[other]] = [this.items[other], this.items[one]];
  }

  /** @param {Origin} origin */
  add(origin) {
    let at = this.items.push(origin) - 1;
    for (let above = at - 1 >> 1; at && this.isBefore(at, above); above = at - 1 >> 1) {
      this.swap(at, above);
      at = above;
    }
  }

  take() {
    this.swap(0, this.items.length - 1);
    const found = /** @type {Origin} */ (this.items.pop());
    for (let at = 0, least = 0; ; at = least) {
      for (const below of [2 * at + 1, 2 * at + 2]) {
        if (below < this.items.length && this.isBefore(below, least)) least = below;
      }
      if (least === at) return found;
      this.swap(at, least);
    }
  }
}
