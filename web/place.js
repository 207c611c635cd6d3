// A place in a run as the fragment of the page's address: back and forward go from place to place.

/**
 * @typedef {{turn: number, first: number, span: number, core: number, tab?: string}} Place
 */

// What is in sight is kept to a thousandth of a turn, which is less than a pixel.
/** @param {number} turns */
const rounded = turns => Math.round(turns * 1000) / 1000;

/** @param {Place} place */
export function fragmentOf({ turn, first, span, core, tab }) {
  const turns = `#turn=${turn}&from=${rounded(first)}&turns=${rounded(span)}`;
  return `${turns}&core=${core.toString(8)}${tab ? `&tab=${tab}` : ""}`;
}

/** The place that a fragment names, as far as it does.
    @param {string} fragment
    @returns {Partial<Place>} */
export function placeOf(fragment) {
  const words = new URLSearchParams(fragment.replace(/^#/, ""));
  /** @param {string} name @param {RegExp} form @param {(text: string) => number} valueOf */
  const number = (name, form, valueOf = Number) => {
    const text = words.get(name) ?? "";
    return form.test(text) ? valueOf(text) : undefined;
  };
  const turns = /^\d{1,10}(\.\d{1,3})?$/;
  return {
    turn: number("turn", /^\d{1,10}$/), first: number("from", turns), span: number("turns", turns),
    core: number("core", /^[0-7]{1,6}$/, it => parseInt(it, 8)),
    tab: words.get("tab") ?? undefined,
  };
}

/** Puts a place into the address: as a new one to go back from, or in the place of the last.
    @param {Place} place @param {boolean} isNew */
export function keepPlace(place, isNew) {
  const fragment = fragmentOf(place);
  if (fragment === location.hash) return;
  if (isNew) history.pushState(null, "", fragment);
  else history.replaceState(null, "", fragment);
}
