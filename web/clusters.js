// Which events have a mark of their own: if there are too many of them, those near one another have
// one together, with their count; and so have those of one turn that have no room there.

const MOST_MARKS = 300;
const PIXELS = 48;
/** So many marks have room in one turn. */
export const MARK_ROWS = 2;

/**
 * Events that follow one another on the timeline.
 * @typedef {{event: ScriptEvent, last: ScriptEvent, count: number}} Cluster
 *   the first, the last, how many
 * @typedef {import("./past.js").ScriptEvent} ScriptEvent
 * @typedef {import("./lanes.js").View} View
 */

/** The clusters of events in sight. They lie the same when the turns in sight move.
    @param {ScriptEvent[]} events @param {View} view */
export function clustersOf(events, view) {
  const isMany = events.length > MOST_MARKS;
  const turns = isMany ? Math.max(1, view.span / view.width * PIXELS) : 1;
  /** @type {Map<number, ScriptEvent[]>} */
  const groups = new Map();
  for (const event of events) {
    const place = Math.floor(event.turn / turns), group = groups.get(place);
    if (group) group.push(event);
    else groups.set(place, [event]);
  }
  return [...groups.values()].flatMap(it =>
    isMany || it.length > MARK_ROWS ? [clusterOf(it)] : it.map(one => clusterOf([one])));
}

/** @param {ScriptEvent[]} events @returns {Cluster} */
const clusterOf = events =>
  ({ event: events[0], last: events[events.length - 1], count: events.length });

/** A cluster in words, such as `1000 events in the turns 5 to 900`.
    @param {Cluster} cluster */
export function clusterInWords({ event, last, count }) {
  const turns = event.turn === last.turn ? `turn ${event.turn}`
    : `the turns ${event.turn} to ${last.turn}`;
  return `${count} events in ${turns}`;
}
