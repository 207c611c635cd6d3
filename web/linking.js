// Makes a link that holds the edits, and opens one. Edits of one's own are never lost to a link:
// they stay in the list, switched off.

import { isSameSession } from "./examples.js";
import { firstSession, isOwn, keptEdits, sumOfSession } from "./kept.js";
import { renumbered } from "./ledger.js";
import {
  LinkError, editsOfLink, hasEdits, moreOfLink, wordsOfLink, wordsOfMore,
} from "./links.js";
import { element, make } from "./page.js";
import { fragmentOf, placeOf } from "./place.js";
import { counted } from "./replies.js";
import { storePasts, storedPasts } from "./stored.js";

/**
 * The example that a link is about, its edits, and what it shows besides them.
 * @typedef {{session: import("./session.js").Session, done: Done, more: MoreShown}} Linked
 * @typedef {import("./links.js").MoreShown} MoreShown
 * @typedef {import("./stored.js").Changes} Changes
 * @typedef {import("./links.js").Done} Done
 * @typedef {import("./notes.js").Note} Note
 * @typedef {Partial<import("./place.js").Place>} Place
 * @typedef {import("./kept.js").KeptEdits} KeptEdits
 */

// The numbers of events that edits of one's own made: no line of a link names them.
const FIRST_FREE = 2 ** 41;

/** @param {Changes} changes */
const countOf = changes => changes.flat().length;

/** How many edits there are, on and off, in words.
    @param {Done} done */
function doneInWords({ changes, off }) {
  const left = countOf(off.map(it => it.change));
  return `${counted(countOf(changes), "edit")}${left ? `, and ${left} switched off` : ""}`;
}

/** What was switched off, with other numbers for the events that it makes: those of a link may be
    the same.
    @param {Done["off"]} off @returns {Done["off"]} */
function renumberedOff(off) {
  const made = off.flatMap(it => it.change).flatMap(it => it.event ?? []);
  const given = new Map(made.map((it, at) => [it, String(FIRST_FREE + at)]));
  /** @param {import("./kept.js").KeptEdit} edit */
  const other = ({ line, event }) => {
    const number = /^(?:alter|drop) (\d+)/.exec(line)?.[1] ?? "";
    return { line: renumbered(line, number, given.get(number) ?? number),
      event: event && given.get(event) };
  };
  return off.map(({ change, place }) => ({ change: change.map(other), place }));
}

/** @param {Changes} changes */
const linesOf = changes => JSON.stringify(changes.map(it => it.map(({ line }) => line)));

/** Keeps the past with which a link compares, and returns its name: another one if a past of one's
    own has it.
    @param {import("./session.js").Session} session
    @param {import("./stored.js").StoredPast | undefined} past */
function keepLinked(session, past) {
  if (!past) return undefined;
  const own = storedPasts(session), same = own.find(it => it.name === past.name);
  const isSame = same && same.lines.join() === past.lines.join();
  const name = same && !isSame ? `${past.name.slice(0, 28)} of the link` : past.name;
  if (!isSame) storePasts(session, [...own.filter(it => it.name !== name), { ...past, name }]);
  return name;
}

/** One's own notes and those of a link, if there are any.
    @param {Note[] | undefined} own @param {Note[] | undefined} linked */
function joined(own, linked) {
  const all = [...own ?? [], ...linked ?? []].map(it => JSON.stringify(it));
  return own || linked ? [...new Set(all)].map(it => JSON.parse(it)) : undefined;
}

/** Whether a change that makes no event is one of those of a link.
    @param {Changes[0]} change @param {Changes} changes */
const isAmong = (change, changes) => change.every(it => it.event === undefined)
  && changes.some(it => linesOf([it]) === linesOf([change]));

export class Linking {
  /** @param {import("./app.js").App} app */
  constructor(app) {
    this.app = app;
    element("copy-link").addEventListener("click", () => this.copy());
  }

  /** What is said of a link was of the session before. */
  sessionBegins() {
    element("linked").hidden = true;
  }

  /** A link that was made has other edits than there are now. */
  pastChanged() {
    element("link").replaceChildren();
  }

  /** Says something of a link that is opened.
      @param {import("./page.js").Inside[]} inside */
  show(...inside) {
    const place = element("linked");
    place.hidden = false;
    place.replaceChildren();
    place.append(...inside.map(it => typeof it === "number" ? String(it) : it));
  }

  // Making one

  copy() {
    const { app } = this;
    return app.attempt(async () => {
      const { contents } = app.session, key = await app.examples.keyOf(contents);
      if (key === null) throw new LinkError("the session is none of the page's examples");
      const { changes, off = [] } = app.edits.kept(), done = { changes, off };
      const words = await wordsOfLink(key, sumOfSession(contents), done);
      const place = fragmentOf(app.view.place()).slice(1);
      const past = app.pasts.comparedPast, notes = app.notes.kept();
      const more = await wordsOfMore({ ...app.watched.kept(), ...notes ? { notes } : {},
        ...past ? { past } : {} });
      this.offer(`${location.href.replace(/#.*$/s, "")}#${words}&${place}${more}`, done);
    }, error => this.offerPage(error));
  }

  /** Shows the link, and copies it if the browser allows that.
      @param {string} address @param {Done} done */
  offer(address, done) {
    const link = make("input", { readonly: true, "aria-label": "Link", value: address });
    const what = doneInWords(done), length = address.split("#")[1].length;
    const elsewhere = location.protocol === "file:"
      ? " Another copy of this page takes all from # on." : "";
    const said = make("span", {}, "Copy this link");
    element("link").replaceChildren(
      said, ` with ${what}: ${length} bytes after #.${elsewhere} `, link);
    link.focus();
    /** @type {HTMLInputElement} */ (link).select();
    navigator.clipboard?.writeText(address).then(() => { said.textContent = "Copied: a link"; },
      () => {});
  }

  /** No link holds the edits: the page can be saved. Returns whether that is so.
      @param {unknown} error */
  offerPage(error) {
    if (!(error instanceof LinkError)) return false;
    element("link").replaceChildren(
      `No link can hold this: ${error.message}. A saved page has it all. `,
      make("button", { type: "button", onclick: () => this.app.opening.savePage() },
        "Save as a page"));
    return true;
  }

  // Opening one

  /** Opens the session that the address is about, or the one to begin with.
      @param {string} fragment */
  async openFirst(fragment) {
    const { app } = this, first = await firstSession(), place = placeOf(fragment);
    const { linked, why } = await this.read(fragment);
    const isHere = linked && (isOwn(first) || isSameSession(linked.session, first));
    if (linked && isHere) return this.open(linked, place);
    await app.opening.open(first, place);
    if (linked) this.ask(linked, place);
    if (why) this.show(why);
  }

  /** The address has changed: the page goes to its place, and makes the edits that it holds.
      @param {string} fragment */
  async follow(fragment) {
    const { app } = this, place = placeOf(fragment);
    if (!hasEdits(fragment)) return app.view.goToPlace(place);
    history.replaceState(null, "", fragmentOf(app.view.place()));
    return app.attempt(async () => {
      const { linked, why } = await this.read(fragment);
      if (why) this.show(why);
      if (!linked) return;
      if (isSameSession(linked.session, app.session.contents)) await this.open(linked, place);
      else this.ask(linked, place);
    });
  }

  /** What a fragment holds, if anything; or why it can't be opened.
      @param {string} fragment @returns {Promise<{linked: Linked | null, why: string}>} */
  async read(fragment) {
    try {
      const found = await editsOfLink(fragment);
      if (!found) return { linked: null, why: "" };
      const { key, isOf, done } = found, session = await this.app.examples.opened(key);
      if (!session) throw new LinkError("it is about a session that this page doesn't have");
      if (!isOf(sumOfSession(session))) {
        throw new LinkError("it is about another version of an example than this page has");
      }
      return { linked: { session, done, more: await moreOfLink(fragment) }, why: "" };
    } catch (error) {
      if (!(error instanceof LinkError)) throw error;
      const why = `The link can't be opened: ${error.message}. Nothing was changed.`;
      return { linked: null, why };
    }
  }

  /** Another session is open: the user is asked first.
      @param {Linked} found @param {Place} place */
  ask(found, place) {
    const { name } = found.session, what = doneInWords(found.done);
    const open = () => this.app.attempt(() => this.open(found, place));
    this.show(`The link has ${what} of ${name}, and another session is open. `,
      make("button", { type: "button", onclick: open }, `Open ${name}`));
  }

  /** Makes the edits of a link. Those of one's own are switched off.
      @param {Linked} found @param {Place} place */
  async open({ session, done, more }, place) {
    const { app } = this, { changes } = done;
    const isOpen = app.opened && isSameSession(session, app.opened.contents);
    const kept = isOpen ? app.edits.kept() : keptEdits(session);
    /** @type {KeptEdits} */
    const before = kept ?? { changes: [], off: [], end: 0, saved: null };
    const isThere = linesOf(before.changes) === linesOf(changes);
    const own = isThere ? [] : before.changes.filter(it => !isAmong(it, changes))
      .map(change => ({ change, place: 0 }));
    const linked = done.off.map(it => it.change);
    /** @param {Changes[0]} change */
    const isInLink = change => isThere ? linked.some(it => linesOf([it]) === linesOf([change]))
      : isAmong(change, linked);
    const left = [...own, ...(before.off ?? []).filter(it => !isInLink(it.change))];
    const mine = renumberedOff(left.map(it => ({ ...it, place: 0 })));
    const off = [...mine, ...structuredClone(done.off)];
    const compared = keepLinked(session, more.past);
    await app.examples.begin(session, place, { changes: structuredClone(changes), off,
      end: before.end, saved: null, compared, notes: joined(before.notes, more.notes) });
    app.watched.take(more);
    if (!mine.length) app.edits.noteSaved();
    this.tell(done, own.map(it => it.change));
  }

  /** Says what was made of the edits of a link, and which of one's own are switched off.
      @param {Done} done @param {Changes} own */
  tell({ changes, off }, own) {
    const made = this.app.session.run.ledger.changes.flat().length, all = countOf(changes);
    const refused = made < all ? ` ${all - made} of the link's edits were refused.` : "";
    const left = countOf(off.map(it => it.change));
    const others = left ? ` ${left} more ${left === 1 ? "is" : "are"} switched off in it.` : "";
    const count = countOf(own);
    const which = count === 1 ? "Your own edit from before is" : `Your own ${count} edits are`;
    const mine = count ? ` ${which} in the list, switched off.` : "";
    const were = made === 1 ? "The link's edit was" : `The link's ${made} edits were`;
    this.show(`${were} made: Undo takes back what was done at once.${others}${refused}${mine}`);
  }
}
