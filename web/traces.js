// Draws what the machine did, in lanes: PC of a mode, the disk, interrupts, the console's text, and
// words. The old past lies in grey below the new one, each as far as it is known.

import { CHARACTER } from "./brush.js";
import { LAST_TURN, octal, shownByte, vectorName, visibleName } from "./replies.js";
import { symbolsOfMode } from "./session.js";

const MOST_NAME = 8;
// Bytes that aren't drawn: CR, LF and space.
const UNSEEN = [0o15, 0o12, 0o40];

/**
 * @typedef {import("./brush.js").Brush} Brush
 * @typedef {import("./lanes.js").Lane} Lane
 * @typedef {import("./lanes.js").Drawing} Drawing
 * @typedef {import("./picture.js").Picture} Picture
 * @typedef {import("./picture.js").Look} Look
 * @typedef {import("./picture.js").Bar} Bar
 * @typedef {import("./picture.js").Interrupt} Interrupt
 * @typedef {import("./lanes.js").View} View
 * @typedef {import("./picture.js").Value} Value
 * @typedef {import("./picture.js").Printed} Printed
 * @typedef {(value: number) => number} Height of a value in a lane
 */

export class Traces {
  /** @param {Brush} brush @param {Drawing} drawing */
  constructor(brush, { picture, ghost, same, symbols }) {
    this.brush = brush;
    this.picture = picture;
    this.ghost = ghost;
    this.same = same;
    this.symbols = symbols;
  }

  /** @param {Lane} lane */
  draw(lane) {
    this.drawUnknown(lane);
    if (lane.kind === "counter") this.drawCounter(lane);
    else if (lane.name === "disk") this.drawDisk(lane);
    else if (lane.name === "interrupts") this.drawInterrupts(lane);
    else if (lane.name === "console") this.drawText(lane);
    else this.drawWord(lane);
  }

  /** The old past in grey and then the new one, each as far as it is known.
      @param {Lane} lane @param {(picture: Picture, isGhost: boolean) => void} draw */
  drawBoth(lane, draw) {
    const { ghost, picture, same } = this;
    for (const isGhost of [true, false]) {
      const it = isGhost ? ghost : picture;
      if (!it) continue;
      const { from, to } = knownTurns(lane, it);
      const end = isGhost ? Math.min(to, same ?? to) : to;
      this.brush.clipped(lane, () => draw(it, isGhost), { from, to: end });
    }
  }

  /** Hatches the turns in sight that the machine wasn't asked about.
      @param {Lane} lane */
  drawUnknown(lane) {
    const { brush } = this, { view } = brush, { from, to } = knownTurns(lane, this.picture);
    const last = Math.min(view.end, LAST_TURN + 1);
    const before = { from: view.first, to: Math.min(from, last) };
    for (const turns of [before, { from: Math.max(to, before.to), to: last }]) {
      brush.hatch(lane, turns);
    }
  }

  // PC of one mode

  /** The looks of a picture that are in sight, in the mode of a lane.
      @param {Lane} lane @param {Picture | null} picture @returns {Look[]} */
  looksOf({ mode }, picture) {
    const { view } = this.brush;
    return picture?.looks.filter(it => it.mode === mode
      && it.turn + picture.step > view.first && it.turn < view.end) ?? [];
  }

  /** @param {Lane} lane */
  drawCounter(lane) {
    const { brush, picture, ghost } = this, known = knownTurns(lane, picture);
    const seen = this.looksOf(lane, picture);
    /** @param {Look} it */
    const isRun = it => it.state === "run";
    const looks = seen.filter(isRun), idle = seen.filter(it => !isRun(it));
    brush.clipped(lane, () => this.drawIdle(lane, idle, picture?.step ?? 1), known);
    if (picture?.looks.length && !seen.length) this.labelNotSeen(lane, picture);
    const olds = this.looksOf(lane, ghost).filter(isRun);
    const counters = [...looks, ...olds].map(it => it.pc);
    if (!counters.length) return;
    const [least, most] = [Math.min(...counters), Math.max(...counters)];
    const [top, high] = [lane.top + 6, lane.height - 12];
    /** @type {Height} */
    const y = pc => top + high - (most > least ? (pc - least) / (most - least) : 0.5) * high;
    this.drawSymbols(lane, y, least, most);
    this.drawBoth(lane, (it, isGhost) =>
      this.drawLooks(isGhost ? olds : looks, it.step, y, isGhost ? "ghost" : "counter"));
  }

  /** Says that the processor doesn't run in the mode of a lane.
      @param {Lane} lane
      @param {Picture} picture */
  labelNotSeen(lane, picture) {
    const { brush } = this, { view } = brush;
    const how = picture.isMade && picture.step === 1 ? "doesn't run" : "not seen to run";
    const x = Math.max(view.left, view.x(picture.first)) + 6;
    const label = () => brush.label(x, lane.top + 18, `${how} in ${lane.mode} mode`, "faint");
    brush.clipped(lane, label, knownTurns(lane, picture));
  }

  /** The turns in which the processor is halted or waits, each stretch of them with its name.
      @param {Lane} lane @param {Look[]} looks @param {number} step */
  drawIdle(lane, looks, step) {
    const { brush } = this, { pen, view, colours } = brush;
    for (const { state, begin, end } of stretchesOf(looks, step)) {
      const x = Math.max(view.left, view.x(begin));
      const colour = state === "halted" ? "bad" : "faint";
      pen.fillStyle = colours[colour];
      pen.globalAlpha = 0.2;
      pen.fillRect(x, lane.top + 3, Math.max(1, view.x(end) - x), lane.height - 5);
      pen.globalAlpha = 1;
      const name = state === "halted" ? "halted" : "waits";
      if (view.x(end) - x > CHARACTER * (name.length + 1)) {
        brush.label(x + 4, lane.top + lane.height / 2 + 4, name, colour);
      }
    }
  }

  /** @param {Look[]} looks @param {number} step @param {Height} y @param {string} colour */
  drawLooks(looks, step, y, colour) {
    const { pen, view, colours } = this.brush;
    const wide = Math.max(1.2, view.width * step / view.span);
    const high = Math.max(1.6, Math.min(3, wide));
    for (const look of looks) {
      const x = view.x(look.turn);
      pen.fillStyle = colours[colour];
      pen.fillRect(x, y(look.pc) - high / 2, wide, high);
    }
  }

  /** Names of addresses at the left of their heights, as far as they have room.
      @param {Lane} lane @param {Height} y @param {number} least @param {number} most */
  drawSymbols(lane, y, least, most) {
    const { pen, view, colours } = this.brush;
    const names = symbolsOfMode(this.symbols, lane.mode ?? "");
    if (view.left < 100) return;
    pen.textAlign = "right";
    let seen = Infinity;
    for (const { value, name } of names) {
      const at = y(value);
      if (value < least || value > most || seen - at < 11 || at < lane.top + 22) continue;
      seen = at;
      pen.fillStyle = colours.faint;
      pen.fillText(shortName(visibleName(name)), view.left - 8, at + 4, 58);
      pen.fillRect(view.left - 5, at, 5, 1);
    }
  }

  // Disk, interrupts, console

  /** @param {Lane} lane */
  drawDisk(lane) {
    const { pen, view, colours } = this.brush;
    this.drawBoth(lane, ({ disk }, isGhost) => {
      if (isGhost) this.drawBars(lane, disk.bars, lane.top + 3, 4, "ghost", false);
      else this.drawBars(lane, disk.bars, lane.top + 9, 7, "disk", true);
      const top = lane.top + (isGhost ? 2 : 10);
      pen.fillStyle = colours[isGhost ? "ghost" : "disk"];
      for (const look of disk.busy) pen.fillRect(view.x(look.turn), top, 1.5, 6);
    });
  }

  /** @param {Lane} lane @param {Bar[]} bars @param {number} top @param {number} high
      @param {string} colour @param {boolean} hasLabels */
  drawBars(lane, bars, top, high, colour, hasLabels) {
    const { brush } = this, { pen, view, colours } = brush;
    let free = -Infinity;
    for (const bar of bars) {
      const x = Math.max(view.left, view.x(bar.begin ?? view.first));
      const end = Math.min(view.left + view.width, view.x(bar.end ?? view.end));
      pen.fillStyle = colours[colour];
      pen.fillRect(x, top, Math.max(1, end - x), high);
      if (hasLabels && x >= free) {
        brush.label(x, lane.top + 27, bar.name, colour);
        free = x + CHARACTER * (bar.name.length + 1);
      }
    }
  }

  /** @param {Lane} lane */
  drawInterrupts(lane) {
    const { brush } = this, { pen, view, colours } = brush;
    this.drawBoth(lane, ({ interrupts, sampledVectors }, isGhost) => {
      pen.fillStyle = colours[isGhost ? "ghost" : "interrupt"];
      for (const { turn } of interrupts) {
        if (isGhost) pen.fillRect(view.x(turn), lane.top + 3, 1.5, 6);
        else pen.fillRect(view.x(turn) - 0.75, lane.top + 6, 1.5, 10);
      }
      if (isGhost) return;
      for (const { x, text, row } of labelsOf(interrupts, view, sampledVectors.length > 0)) {
        brush.label(x, lane.top + 27 + 12 * row, text, "interrupt");
      }
    });
  }

  /** @param {Lane} lane */
  drawText(lane) {
    const { brush } = this;
    let hasStrokes = false;
    this.drawBoth(lane, ({ text }, isGhost) => {
      const isCut = this.drawBytes(text, lane.top + (isGhost ? 27 : 13), isGhost ? "ghost" : "ink");
      hasStrokes = hasStrokes || isCut;
    });
    if (!hasStrokes) return;
    brush.text(6, lane.top + 27, "stroke: a byte", "faint", brush.view.left - 10);
  }

  /** Each byte at its turn: as a letter if those beside it leave it room, otherwise as a stroke,
      so that letters that stand side by side are what was printed. Returns whether one is.
      @param {Printed} printed @param {number} y @param {string} colour */
  drawBytes({ bytes, each }, y, colour) {
    const { brush } = this, { pen, view, colours } = brush;
    const seen = bytes.filter(it => !UNSEEN.includes(it.byte));
    const places = seen.map(it => view.x(it.turn));
    let hasStrokes = false;
    seen.forEach(({ byte }, at) => {
      const x = places[at];
      if (x < view.left || x > view.left + view.width) return;
      const room = Math.min(x - (places[at - 1] ?? -Infinity), (places[at + 1] ?? Infinity) - x);
      if (each === 1 && room >= CHARACTER) {
        brush.label(x, y, shownByte(byte), colour);
        return;
      }
      hasStrokes = true;
      pen.fillStyle = colours[colour];
      pen.fillRect(x, y - 5, 1, 6);
    });
    return hasStrokes;
  }

  // Words

  /** @param {Lane} lane */
  drawWord(lane) {
    const { brush, picture, ghost } = this;
    /** @param {Picture | null} it */
    const wordOf = it => it?.words.find(word => word.name === lane.name);
    const why = wordOf(picture)?.why;
    if (why) brush.text(brush.view.left + 6, lane.top + 18, why, "faint", brush.view.width - 12);
    /** @param {Picture | null} it */
    const valuesOf = it => wordOf(it)?.values ?? [];
    const heights = heightsOf([...valuesOf(picture), ...valuesOf(ghost)]);
    const [top, high] = [lane.top + 8, lane.height - 22];
    /** @type {Height} */
    const y = value => top + high - high * heights(value);
    this.drawBoth(lane, (it, isGhost) => {
      const values = valuesOf(it), isWhole = Boolean(wordOf(it)?.isWhole);
      if (!values.length) return;
      const dashes = isGhost ? [3, 3] : isWhole ? [] : [1, 2];
      this.drawSteps(values, y, isGhost ? "ghost" : "faint", dashes);
      if (!isGhost) this.drawWriters(lane, values, y);
    });
  }

  /** @param {Value[]} values @param {Height} y @param {string} colour @param {number[]} dashes */
  drawSteps(values, y, colour, dashes) {
    const { pen, view, colours } = this.brush;
    pen.strokeStyle = colours[colour];
    pen.lineWidth = 1.4;
    pen.setLineDash(dashes);
    pen.beginPath();
    values.forEach((value, at) => {
      const x = Math.max(view.left - 5, view.x(value.turn));
      if (!at) pen.moveTo(x, y(value.word));
      else {
        pen.lineTo(x, y(values[at - 1].word));
        pen.lineTo(x, y(value.word));
      }
    });
    pen.lineTo(view.left + view.width, y(values[values.length - 1].word));
    pen.stroke();
    pen.setLineDash([]);
  }

  /** A circle is a write of the processor, a square one of the disk; the value stands below.
      @param {Lane} lane @param {Value[]} values @param {Height} y */
  drawWriters(lane, values, y) {
    const { brush } = this, { pen, view, colours } = brush;
    let free = -Infinity;
    values.forEach(({ turn, word, writer }, place) => {
      const x = Math.max(view.left + 1, view.x(turn)), at = y(word);
      pen.fillStyle = colours[writer || "faint"];
      if (writer === "cpu") {
        pen.beginPath();
        pen.arc(x, at, 3, 0, 2 * Math.PI);
        pen.fill();
      } else if (writer === "disk") pen.fillRect(x - 3, at - 3, 6, 6);
      const isSame = word === values[place - 1]?.word && !writer;
      const label = `${word.toString(8)} ${writer}`.trim();
      if (x < free || isSame) return;
      brush.label(x, lane.top + lane.height - 3, label, writer || "faint");
      free = x + CHARACTER * (label.length + 1);
    });
  }
}

/** The turns of a lane that a picture, which grows, has so far.
    @param {Lane} lane @param {Picture | null} picture */
function knownTurns(lane, picture) {
  const hasWord = lane.kind !== "steps" || picture?.words.some(it => it.name === lane.name);
  if (!picture || !hasWord) return { from: Infinity, to: -Infinity };
  const isLooks = lane.kind === "counter"
    || lane.name === "interrupts" && picture.sampledVectors.length > 0;
  const to = picture.isMade ? picture.end : isLooks ? picture.reached : picture.first;
  return { from: picture.first, to };
}

/** What stands below the interrupts in sight, in two rows: the name of each, or its vector if the
    name has no room. Those that have no room for that either have one label together, with how many
    they are, or if they are sampled how many at least.
    @param {Interrupt[]} interrupts @param {View} view */
export function labelsOf(interrupts, view, isSampled = false) {
  const seen = interrupts.filter(it => it.turn >= view.first && it.turn < view.end);
  const places = seen.map(it => view.x(it.turn)), right = view.left + view.width;
  /** @type {{x: number, text: string, row: number}[]} */
  const labels = [];
  const ends = [0, 0];
  for (let at = 0, next = 1, areSame = true; at < seen.length; next++) {
    const { vector } = seen[at], name = vectorName(vector), x = places[at];
    const count = `${isSampled ? "\u2265" : "\u00d7"}${next - at}`;
    areSame &&= seen[next - 1].vector === vector;
    const several = areSame ? [`${name} ${count}`, count] : [count];
    // the next one stands in the other row, if that is free
    const row = ends[0] <= x ? 0 : 1, isFree = ends[1 - row] <= places[next];
    const room = (places[isFree ? next + 1 : next] ?? right) - x;
    const text = (next === at + 1 ? [name, octal(vector, 3)] : several)
      .find(it => CHARACTER * (it.length + 1) <= room);
    if (text === undefined && next < seen.length) continue;
    if (text !== undefined) labels.push({ x, text, row });
    ends[row] = x + CHARACTER * ((text ?? "").length + 1);
    [at, areSame] = [next, true];
  }
  return labels;
}

/** Looks that follow one another and have the same state.
    @param {Look[]} looks @param {number} step */
function stretchesOf(looks, step) {
  /** @type {{state: string, begin: number, end: number}[]} */
  const stretches = [];
  for (const { turn, state } of looks) {
    const last = stretches.at(-1);
    if (last && last.state === state && last.end >= turn) last.end = turn + step;
    else stretches.push({ state, begin: turn, end: turn + step });
  }
  return stretches;
}

/** @param {string} name */
const shortName = name => name.length > MOST_NAME ? `${name.slice(0, MOST_NAME - 1)}\u2026` : name;

/** How high each value is drawn, 0 to 1: in equal steps if there are few, otherwise to scale.
    @param {Value[]} values @returns {Height} */
function heightsOf(values) {
  const words = [...new Set(values.map(it => it.word))].sort((a, b) => a - b);
  if (words.length <= 6) {
    const levels = new Map(words.map((it, at) => [it, at / Math.max(1, words.length - 1)]));
    return word => levels.get(word) ?? 0;
  }
  return word => (word - words[0]) / (words[words.length - 1] - words[0]);
}
