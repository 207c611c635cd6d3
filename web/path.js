// Draws the steps of a path over the timeline: a line from one to the next, by their turns.

/**
 * A step of a path: its turn, and the name of its lane. It is drawn to the step with the number
 * `above`; without that to the one before it.
 * @typedef {{turn: number | null, lane: string, above?: number}} PathStep
 * @typedef {import("./lanes.js").Lane} Lane
 * @typedef {{x: number, y: number}} Point
 */

/** Where a step is drawn: in the middle of its lane; null if the lane isn't there.
    @param {Lane[]} lanes @param {string} name */
function heightIn(lanes, name) {
  const lane = lanes.find(it => it.name === name);
  return lane ? lane.top + lane.height / 2 : null;
}

/** The points of steps that have a turn and a lane; null of the others.
    @param {PathStep[]} steps @param {Lane[]} lanes
    @param {import("./lanes.js").View} view @returns {(Point | null)[]} */
export function pointsOf(steps, lanes, view) {
  return steps.map(({ turn, lane }) => {
    const y = heightIn(lanes, lane);
    return turn === null || y === null ? null : { x: view.x(turn) - view.left, y };
  });
}

/** The lines between the points of steps: of a chain one through all that have points, otherwise
    one from each to the one above it.
    @param {PathStep[]} steps @param {(Point | null)[]} points @returns {Point[][]} */
export function linesBetween(steps, points) {
  if (steps.every(it => it.above === undefined)) return [points.flatMap(it => it ?? [])];
  return steps.flatMap(({ above = -1 }, at) => {
    const [from, to] = [points[above], points[at]];
    return from && to ? [[from, to]] : [];
  });
}

export class Path {
  /** @param {import("./timeline.js").Timeline} timeline */
  constructor(timeline) {
    this.timeline = timeline;
    /** @type {PathStep[]} */
    this.steps = [];
    /** @type {object | null} the part of the page whose path it is */
    this.owner = null;
    this.drawing = /** @type {SVGElement} */ (timeline.element.querySelector(".path"));
  }

  /** @param {string} name @param {Object<string, string | number>} attributes */
  shape(name, attributes) {
    const made = document.createElementNS(this.drawing.namespaceURI, name);
    for (const [key, value] of Object.entries(attributes)) made.setAttribute(key, String(value));
    return made;
  }

  /** Draws steps in the place of those before. A part of the page takes away none but its own.
      @param {PathStep[]} steps @param {object} owner */
  show(steps, owner) {
    if (!steps.length && owner !== this.owner) return;
    this.owner = owner;
    this.steps = steps;
    this.draw();
  }

  draw() {
    const { drawing, steps, timeline: { lanes, view, width } } = this;
    if (!lanes.length || !width) return;
    const { top, height } = lanes[lanes.length - 1];
    drawing.style.left = `${view.left}px`;
    drawing.setAttribute("width", String(view.width));
    drawing.setAttribute("height", String(top + height));
    const points = pointsOf(steps, lanes, view);
    const drawn = linesBetween(steps, points).map(line => this.shape("polyline",
      { points: line.map(({ x, y }) => `${clamped(x)},${y}`).join(" ") }));
    const circles = points.flatMap(it => it ?? []).filter(({ x }) => x >= 0 && x <= view.width)
      .map(({ x, y }) => this.shape("circle", { cx: x, cy: y, r: 5 }));
    drawing.replaceChildren(...drawn, ...circles);
  }
}

/** Far outside is drawn as just outside: larger numbers aren't exact in a drawing.
    @param {number} x */
const clamped = x => Math.max(-10_000, Math.min(10_000, x));
