// The sessions that the page has besides the one that it begins with, and a disk or a program of
// the user on a machine of its own.

import { sessionOfFiles, takeChosen, takeDrops } from "./files.js";
import { kindOf, readFiles } from "./given.js";
import { firstSession, forgetSession, keepSession, sumOfSession } from "./kept.js";
import { EXAMPLES, packedSession } from "./packed.js";
import { element, field, make, part } from "./page.js";
import { fragmentOf } from "./place.js";
import { octal, visibleName } from "./replies.js";
import { withFile } from "./session.js";

// The example whose disk another one takes the place of, and up to which turn that one is run.
const [BOOT, BOOTED] = ["boot", 1_000_000];
// Up to which turn a program is run.
const PROGRAM_TURNS = 1_000;
const SESSIONS = /\.(session|txt)$/i;

/**
 * @typedef {import("./session.js").Session} Session
 * @typedef {import("./kept.js").KeptEdits} KeptEdits
 */

/** Whether two sessions have the same in them.
    @param {Session} one @param {Session} other */
export const isSameSession = (one, other) => sumOfSession(one) === sumOfSession(other);

/** The session that boots an image: the example's bootstrap and its start, with this disk.
    @param {Session} example @param {string} name @param {Uint8Array} bytes @returns {Session} */
export function bootOf(example, name, bytes) {
  const lines = example.lines.filter(it => !/^(text|regs) /.test(it));
  const session = { ...example, name, lines: [...lines, `text ${BOOTED}`] };
  return withFile(session, "disk", name, bytes);
}

/** The session of a program alone, with its start, and with the symbols among these files.
    @param {import("./given.js").Given[]} files */
export function sessionOfProgram(files) {
  const { name } = files.find(it => kindOf(it) === "program") ?? files[0];
  const { session, programs, notes } = sessionOfFiles(
    { name, arguments: [], files: {}, lines: [] }, files);
  const bytes = new Map(programs.flatMap(it => [...it.bytes]));
  /** @param {number} at */
  const wordAt = at => (bytes.get(at) ?? 0) | (bytes.get(at + 1) ?? 0) << 8;
  const places = [...new Set([...bytes.keys()].map(it => it & ~1))].filter(wordAt);
  const patches = places.sort((one, other) => one - other)
    .map(at => `core ${at.toString(8)} ${octal(wordAt(at))}`);
  const lines = [...patches, `text ${PROGRAM_TURNS}`];
  return { session: { ...session, lines }, programs, notes };
}

export class Examples {
  /** @param {import("./app.js").App} app */
  constructor(app) {
    this.app = app;
    this.menu = /** @type {HTMLDetailsElement} */ (element("examples-menu"));
    element("example-list").append(...EXAMPLES.map(it => make("li", {}, make("button", {
      type: "button", class: "link", "data-example": it.key, onclick: () => this.open(it),
    }, it.title))));
    this.menu.hidden = !EXAMPLES.length;
    this.listenForDisks();
    this.menu.addEventListener("keydown", event => {
      if (event.key !== "Escape") return;
      this.close();
      part(this.menu, "summary").focus();
    });
    document.addEventListener("pointerdown", event => {
      if (!this.menu.contains(/** @type {Node} */ (event.target))) this.close();
    });
  }

  close() {
    this.menu.open = false;
  }

  /** An image of a disk is chosen, or dropped on the button. */
  listenForDisks() {
    const chooser = field("boot-file"), button = element("boot");
    button.addEventListener("click", () => chooser.click());
    takeChosen(chooser, files => this.boot(files));
    takeDrops(button, files => this.boot(files));
  }

  /** The example with this key, if the page has it.
      @param {string} key @returns {Promise<Session> | undefined} */
  opened(key) {
    return EXAMPLES.find(it => it.key === key)?.open();
  }

  /** What a session is called as an example, or null if it is none.
      @param {Session} session */
  async keyOf(session) {
    for (const { key, open } of EXAMPLES) {
      if (isSameSession(await open(), session)) return key;
    }
    return null;
  }

  /** Opens an example.
      @param {import("./packed.js").Example} example */
  open({ open, title }) {
    this.close();
    return this.app.attempt(async () => {
      await this.begin(await open());
      const said = element("reply").textContent;
      this.app.say([`Opened: ${title}.`, said].filter(Boolean).join(" "));
    });
  }

  /** Opens a session in the place of the one that is open. That of the page is kept anyway.
      @param {Session} session @param {Partial<import("./place.js").Place>} [place]
      @param {KeptEdits} [edits] those that are made, in place of those that were kept
      @param {import("./loading.js").Loaded[]} [programs] for which it must have room */
  async begin(session, place = {}, edits, programs) {
    const { app } = this, isOwn = isSameSession(session, await packedSession());
    if (isOwn) forgetSession();
    await app.opening.open(isOwn ? await firstSession() : session, place, edits, programs);
    history.replaceState(null, "", fragmentOf(app.view.place()));
    if (!isOwn) app.attempt(async () => {
      element("session-kept").hidden = await keepSession(session);
    });
  }

  /** Begins on a machine of its own: an image of a disk is booted, or a program loaded, which may
      have its symbols beside it.
      @param {File[]} files */
  boot(files) {
    this.close();
    const { app } = this;
    return app.attempt(async () => {
      const given = await readFiles(files), kinds = new Set(given.map(kindOf));
      const names = given.map(it => visibleName(it.name)).join(", ");
      if (kinds.delete("program")) kinds.delete("symbols");
      else if (given.length === 1 && !SESSIONS.test(given[0].name)) return this.bootDisk(given[0]);
      else kinds.add("session");
      if (kinds.size) {
        app.say(`${names}: what begins here is one image of a disk, or a program with its symbols. `
          + "Open other files as files.");
        return;
      }
      const { session, programs, notes } = sessionOfProgram(given);
      await this.begin(session, {}, undefined, programs);
      app.say([`Loaded: ${names}. The text is that of its first ${PROGRAM_TURNS} turns.`, ...notes]
        .join(" "));
    });
  }

  /** Boots an image of a disk.
      @param {import("./given.js").Given} image */
  async bootDisk({ name, bytes }) {
    const { app } = this, example = await this.opened(BOOT);
    if (!example) return app.say("This page has no bootstrap.");
    await this.begin(bootOf(example, name, bytes));
    app.say(`Booted: ${visibleName(name)}. The text is that of its first ${BOOTED} turns.`);
  }
}
