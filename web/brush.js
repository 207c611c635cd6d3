// What all lanes are drawn with: texts round which the ground is free, and drawings that are cut at
// the edges of a lane and of the turns that are known.

export const CHARACTER = 6.7;
const FONT = "11px ui-monospace, Menlo, Consolas, monospace";
const HATCH = 8;
const COLOURS = ["ink", "faint", "grid", "counter", "cpu", "disk", "interrupt", "ghost",
  "accent", "ground", "good", "bad", "key"];

/**
 * @typedef {import("./lanes.js").View} View
 * @typedef {{top: number, height: number}} Strip of the canvas, from its top down
 * @typedef {{from: number, to: number}} Turns
 */

export class Brush {
  /**
   * Begins a drawing: the canvas gets this size, and is empty.
   * @param {HTMLCanvasElement} canvas
   * @param {CanvasRenderingContext2D} pen
   * @param {{view: View, width: number, height: number}} size
   */
  constructor(canvas, pen, { view, width, height }) {
    const ratio = window.devicePixelRatio || 1;
    canvas.width = Math.round(width * ratio);
    canvas.height = Math.round(height * ratio);
    canvas.style.height = `${height}px`;
    pen.setTransform(ratio, 0, 0, ratio, 0, 0);
    pen.font = FONT;
    this.pen = pen;
    this.view = view;
    this.width = width;
    this.style = getComputedStyle(canvas);
    /** @type {Object<string, string>} by their names */
    this.colours = Object.fromEntries(COLOURS.map(it => [it, this.colourOf(it)]));
  }

  /** A colour of the page's style.
      @param {string} name */
  colourOf(name) {
    return this.style.getPropertyValue(`--${name}`).trim();
  }

  /** A text, round which the ground is free: no line goes through it.
      @param {number} x @param {number} y @param {string} text */
  text(x, y, text, colour = "ink", most = Infinity) {
    const { pen } = this, widest = most === Infinity ? undefined : most;
    pen.textAlign = "left";
    if (this.colours.ground && colour !== "ground") {
      pen.strokeStyle = this.colours.ground;
      pen.lineWidth = 4;
      pen.lineJoin = "round";
      pen.strokeText(text, x, y, widest);
    }
    pen.fillStyle = this.colours[colour];
    pen.fillText(text, x, y, widest);
  }

  /** A text that would be cut at the edge isn't drawn: a part of a number is another number.
      @param {number} x @param {number} y @param {string} text @param {string} colour */
  label(x, y, text, colour) {
    const { pen, view } = this;
    const fits = x + pen.measureText(text).width <= view.left + view.width;
    if (fits && x >= view.left) this.text(x, y, text, colour);
  }

  /** Only what is inside the lanes' edges is drawn, and of these turns.
      @param {Strip} strip @param {() => void} draw @param {Turns} turns */
  clipped(strip, draw, { from, to } = { from: this.view.first, to: this.view.end }) {
    const { pen, view } = this;
    const left = view.x(Math.max(view.first, from)), right = view.x(Math.min(view.end, to));
    if (right <= left) return;
    pen.save();
    pen.beginPath();
    pen.rect(left, strip.top, right - left, strip.height);
    pen.clip();
    draw();
    pen.restore();
  }

  /** Hatches turns of a strip.
      @param {Strip} strip @param {Turns} turns */
  hatch(strip, turns) {
    const { pen, view } = this;
    this.clipped(strip, () => {
      pen.strokeStyle = this.colours.grid;
      pen.lineWidth = 1;
      pen.beginPath();
      for (let x = view.left - strip.height; x < view.left + view.width; x += HATCH) {
        pen.moveTo(x, strip.top + strip.height);
        pen.lineTo(x + strip.height, strip.top);
      }
      pen.stroke();
    }, turns);
  }

  /** A dashed line at a turn.
      @param {number} turn @param {string} colour @param {number} top @param {number} bottom */
  upright(turn, colour, top, bottom) {
    const { pen, view } = this, x = view.x(turn);
    if (x < view.left || x > view.left + view.width) return;
    pen.strokeStyle = this.colours[colour];
    pen.lineWidth = 1.4;
    pen.setLineDash([5, 4]);
    pen.beginPath();
    pen.moveTo(x, top);
    pen.lineTo(x, bottom);
    pen.stroke();
    pen.setLineDash([]);
  }
}
