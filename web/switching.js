// Edits that are switched off, and on again: those after one are taken back, and made again without
// it or with it.

/**
 * What the user did at once, and whether it is in the past. `place` is how many of those that are
 * on come before it.
 * @template [Kind=Edit]
 * @typedef {{change: Kind[], isOn: boolean, place: number}} Item
 */

/**
 * @typedef {import("./run.js").Run} Run
 * @typedef {import("./ledger.js").Ledger} Ledger
 * @typedef {import("./ledger.js").Edit} Edit
 * @typedef {import("./ledger.js").Off} Off
 */

/** All that the user did, in order: what is on, and what is off.
    @template Kind
    @param {{changes: Kind[][], off: {change: Kind[], place: number}[]}} ledger
    @returns {Item<Kind>[]} */
export function itemsOf({ changes, off }) {
  /** @param {number} place */
  const offAt = place => off.filter(it => Math.min(it.place, changes.length) === place)
    .map(({ change }) => ({ change, isOn: false, place }));
  const items = changes.flatMap((change, place) => [
    ...offAt(place), { change, isOn: true, place }]);
  return [...items, ...offAt(changes.length)];
}

/**
 * Switches what the user did off, or on: the item of `itemsOf` with this index. Returns the lines
 * that can't be made any longer: they name an event that isn't there then. They are switched off
 * too.
 * @param {Run} run @param {number} index
 */
export async function switchItem(run, index) {
  const { ledger } = run, items = itemsOf(ledger), switched = items[index];
  /** @type {string[]} */
  const refused = [];
  ledger.undone = [];
  await run.undo(switched.place);
  // events get new numbers below: what is off is named by these too
  /** @type {Off[]} */
  const others = items.filter(it => !it.isOn && it !== switched);
  ledger.off = others;
  /** @type {Off[]} */
  const ordered = items.slice(0, index).filter(it => !it.isOn);
  for (const it of items.slice(index)) {
    const place = ledger.changes.length, isOff = (it === switched) === it.isOn;
    if (isOff) {
      const off = { change: it.isOn ? ledger.undone.pop() ?? [] : it.change, place };
      ledger.off.push(off);
      ordered.push(off);
    } else {
      if (!it.isOn) ledger.undone.push(it.change);
      ordered.push(...await makeAgain(run, refused));
    }
  }
  ledger.off = ordered;
  return refused;
}

/** Makes again what was undone last. Returns what of it is off: that which is refused.
    @param {Run} run @param {string[]} refused @returns {Promise<Off[]>} */
async function makeAgain(run, refused) {
  const change = await run.redo();
  if (!change.length) return [];
  refused.push(...change.map(it => it.line));
  const off = { change, place: run.ledger.changes.length };
  run.ledger.off.push(off);
  return [off];
}
