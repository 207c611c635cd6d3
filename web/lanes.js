// Draws the timeline on a canvas: lane below lane, with an axis of turns, the events, a sweep, and
// where an event is to be dropped. What the machine did is drawn by Traces.

import { Brush, CHARACTER } from "./brush.js";
import { SWEEP_COLOURS, letterOf } from "./sweep.js";
import { Traces } from "./traces.js";

const HEIGHTS = { axis: 24, events: 62, counter: 54, row: 30, rows: 42, steps: 40, sweep: 24,
  matters: 54 };

/**
 * A lane: of a PC with its mode, of a word with what that is called, or an empty text.
 * @typedef {keyof typeof HEIGHTS} Kind
 * @typedef {{name: string, kind: Kind, mode?: string, label?: string,
 *   top: number, height: number}} Lane
 */

/**
 * What is drawn: `ghost` is the picture of the old past, or null; it is drawn up to turn `same`, if
 * that isn't null. `target` is where an event is to be dropped, or null; `tick` is the turn of the
 * tick that it is to pass, or null.
 * @typedef {{view: View, lanes: Lane[], height: number, width: number,
 *   picture: Picture | null, ghost: Picture | null, symbols: Partial<Symbols>,
 *   events: {turn: number}[], part: Part | null, same: number | null, sweep: SweepRuns | null,
 *   matters?: Nearest[] | null, target?: Target | null, tick?: number | null}} Drawing
 * @typedef {import("./picture.js").Picture} Picture
 * @typedef {import("./session.js").Symbols} Symbols
 * @typedef {{turn: number, isExact: boolean}} Part where the old past and the new one part
 * @typedef {{event: {turn: number}, turn: number}} Nearest an event, and where a move puts it
 * @typedef {{runs: import("./sweep.js").Stretch[], isWhole: boolean}} SweepRuns
 * @typedef {{from: number, to: number}} Target
 */

/** The turns that are in sight: `first` and `span` may be fractions of turns. */
export class View {
  /** @param {number} first @param {number} span */
  constructor(first, span) {
    this.first = first;
    this.span = span;
    this.left = 0;
    this.width = 1;
  }

  /** @param {number} turn */
  x(turn) {
    return this.left + (turn - this.first) / this.span * this.width;
  }

  /** @param {number} x */
  turn(x) {
    return this.first + (x - this.left) / this.width * this.span;
  }

  get end() {
    return this.first + this.span;
  }
}

/** Round turns for an axis, at most `most`.
    @param {View} view @param {number} most */
export function ticksOf(view, most) {
  let step = 1;
  for (let power = 1; view.span / step > most; power *= 10) {
    step = [1, 2, 5, 10].map(it => it * power).find(it => view.span / it <= most) ?? step;
  }
  const ticks = [];
  for (let turn = Math.ceil(view.first / step) * step; turn <= view.end; turn += step) {
    ticks.push(turn);
  }
  return ticks;
}

/**
 * The lanes of a picture, from the top down, with their heights.
 * @param {{name: string, label?: string}[]} words those that are drawn, and what they are called
 * @param {("sweep" | "matters")[]} tried the lanes of what was tried
 */
export function lanesOf(words, tried = []) {
  /** @type {Omit<Lane, "top" | "height">[]} */
  const named = [
    { name: "turn", kind: "axis" }, { name: "events", kind: "events" },
    ...tried.map(kind => ({ name: kind, kind })),
    { name: "kernel PC", kind: "counter", mode: "kernel" },
    { name: "user PC", kind: "counter", mode: "user" },
    { name: "disk", kind: "row" }, { name: "interrupts", kind: "rows" },
    { name: "console", kind: "row" },
    ...words.map(({ name, label }) => (
      { name, label, kind: /** @type {const} */ ("steps") })),
  ];
  let top = 0;
  const lanes = named.map(it => {
    const lane = { ...it, top, height: HEIGHTS[it.kind] };
    top += lane.height;
    return lane;
  });
  return { lanes, height: top };
}

export class LanesDrawing {
  /** @param {HTMLCanvasElement} canvas */
  constructor(canvas) {
    this.canvas = canvas;
    this.pen = /** @type {CanvasRenderingContext2D} */ (canvas.getContext("2d"));
  }

  /** Draws it all.
      @param {Drawing} drawing */
  draw(drawing) {
    new Frame(new Brush(this.canvas, this.pen, drawing), drawing).draw();
  }
}

/** One drawing of the lanes. */
class Frame {
  /** @param {Brush} brush @param {Drawing} drawing */
  constructor(brush, drawing) {
    this.brush = brush;
    this.drawing = drawing;
    this.traces = new Traces(brush, drawing);
  }

  draw() {
    const { brush, drawing: { lanes, height, part, sweep, target = null, tick = null } } = this;
    for (const lane of lanes) this.drawFrame(lane);
    // below all that has a label: no line goes through these
    if (target !== null) this.drawTarget(target, lanes[1], height);
    if (tick !== null) brush.upright(tick, "interrupt", lanes[1].top, height);
    if (part !== null) brush.upright(part.turn, "accent", lanes[1].top, height);
    const strip = lanes.find(it => it.kind === "sweep");
    if (strip && sweep) brush.clipped(strip, () => this.drawSweep(strip, sweep));
    for (const lane of lanes) this.drawLane(lane);
    if (part !== null) this.labelPart(part, lanes[1]);
    this.labelTarget(target, tick, lanes[1]);
  }

  /** @param {Lane} lane */
  drawFrame(lane) {
    const { brush } = this, { pen, view, colours } = brush;
    pen.fillStyle = colours.grid;
    pen.fillRect(view.left, lane.top, view.width, 1);
    const most = view.left - 10;
    brush.text(6, lane.top + 15, lane.label || lane.name, lane.label ? "ink" : "faint", most);
    if (lane.label) brush.text(6, lane.top + 29, lane.name, "faint", most);
  }

  /** @param {Lane} lane */
  drawLane(lane) {
    if (lane.kind === "axis") this.drawAxis(lane);
    else if (lane.kind === "events") this.drawStems(lane);
    else if (lane.kind === "matters") this.drawNearest(lane);
    else if (lane.kind !== "sweep") this.traces.draw(lane);
  }

  /** @param {Lane} lane */
  drawAxis(lane) {
    const { pen, view, colours, width } = this.brush;
    const widest = CHARACTER * (String(Math.round(view.end)).length + 3);
    for (const turn of ticksOf(view, Math.max(2, Math.floor(view.width / widest)))) {
      const x = view.x(turn);
      pen.fillStyle = colours.grid;
      pen.fillRect(x, lane.top + 18, 1, 6);
      pen.fillStyle = colours.faint;
      pen.textAlign = "center";
      const room = CHARACTER * String(turn).length / 2;
      const hasRoom = x + room < width && x - room > view.left - 12;
      if (hasRoom) pen.fillText(String(turn), x, lane.top + 14);
    }
  }

  /** @param {Lane} lane */
  drawStems(lane) {
    const { pen, view, colours } = this.brush;
    pen.fillStyle = colours.faint;
    let free = view.left;
    for (const event of this.drawing.events) {
      const x = view.x(event.turn);
      if (x < free) continue;
      pen.fillRect(x - 0.5, lane.top + lane.height - 8, 1, 8);
      free = x + 1;
    }
  }

  /** Where an event is to be dropped: from a turn on, after the tick before it.
      @param {Target} target @param {Lane} lane @param {number} height */
  drawTarget({ from, to }, lane, height) {
    const { brush } = this, { pen, view, colours } = brush;
    brush.clipped({ top: lane.top, height: height - lane.top }, () => {
      pen.fillStyle = colours.good;
      pen.globalAlpha = 0.16;
      pen.fillRect(view.x(from), lane.top, view.x(to + 1) - view.x(from), height);
      pen.globalAlpha = 1;
      pen.fillRect(view.x(from), lane.top, 2, lane.height);
    });
  }

  /** Where an event is to be dropped is labelled after the place, the tick before it.
      @param {Target | null} target @param {number | null} tick @param {Lane} lane */
  labelTarget(target, tick, lane) {
    const { brush } = this, { pen, view } = brush;
    const y = lane.top + lane.height - 17, here = "the tick is here";
    if (target) brush.label(view.x(target.from) + 6, y, "drop it here, after the tick", "good");
    if (tick === null) return;
    brush.label(view.x(tick) - pen.measureText(here).width - 5, y, here, "interrupt");
  }

  /** Says where the old past and the new one part, or differ if turns before weren't compared.
      @param {Part} part @param {Lane} lane */
  labelPart({ turn, isExact }, lane) {
    const { brush } = this, { pen, view } = brush, x = view.x(turn);
    if (x < view.left || x > view.left + view.width) return;
    const said = isExact ? "they part" : "they differ";
    const wide = pen.measureText(said).width + 8;
    const left = x + wide < view.left + view.width ? x + 4 : x - wide;
    brush.text(left, lane.top + lane.height - 3, said, "accent");
  }

  /** How near moves change the answer: a line from each event to where such a move puts it.
      @param {Lane} lane */
  drawNearest(lane) {
    const { brush } = this, { pen, view } = brush;
    pen.fillStyle = brush.colours.bad;
    brush.clipped(lane, () => {
      for (const { event, turn } of this.drawing.matters ?? []) {
        const [x, end] = [event.turn, turn].map(it => view.x(it)).sort((a, b) => a - b);
        pen.fillRect(x, lane.top + 13, Math.max(1, end - x), 2);
        pen.fillRect(view.x(turn) - 1, lane.top + 4, 2, lane.height - 8);
      }
    });
  }

  /** Turns with equal outcomes, with a letter each. What wasn't tried yet has no colour.
      @param {Lane} lane @param {SweepRuns} sweep */
  drawSweep(lane, { runs, isWhole }) {
    const { brush } = this, { pen, view } = brush;
    for (const { from, to, outcome } of runs) {
      const [x, end] = [view.x(from), view.x(to + 1)];
      pen.fillStyle = brush.colourOf(`outcome-${outcome % SWEEP_COLOURS}`);
      pen.fillRect(x, lane.top + 5, Math.max(1, end - x), isWhole ? 14 : 7);
      const middle = (Math.max(x, view.left) + Math.min(end, view.left + view.width)) / 2;
      const letter = letterOf(outcome), wide = CHARACTER * letter.length;
      if (end - x > wide + 3) brush.text(middle - wide / 2, lane.top + 16, letter, "ground");
    }
  }
}
