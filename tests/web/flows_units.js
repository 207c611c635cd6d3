// What the page's rules of data say of turns: test_flows.py compares it with what explore's say.

import { Facts } from "/facts.js";
import { NotFollowed } from "/space.js";
import { Flows } from "/turn-flow.js";

const ask = async lines =>
  (await fetch("/ask", { method: "POST", body: JSON.stringify(lines) })).json();

/** The moves of the turns from `first` to the one before `end`, at most 64, or up to one that isn't
    followed: the cell, what it is made of, and how. */
export async function movesIn(first, end, core) {
  const found = [], flows = new Flows(new Facts(ask, { version: 1, core }));
  try {
    await flows.walk(first, end, ({ moves }) =>
      found.push(moves.map(({ cell, values, how }) => [cell, values, how])));
  } catch (error) {
    if (!(error instanceof NotFollowed)) throw error;
  }
  return found;
}
