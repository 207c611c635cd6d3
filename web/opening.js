// Opens sessions and files, and saves what is open.

import {
  filesTogether, saveFile, savedName, sessionOfFiles, startOf, textOfPast,
} from "./files.js";
import { checkImages, readFiles } from "./given.js";
import {
  firstSession, forgetSession, isOwn, keepSession, keptEdits, shownOf, sumOfSession,
} from "./kept.js";
import { checkPlace, loadedInWords } from "./loading.js";
import { OpenSession, newRun } from "./opened.js";
import { pageWith } from "./packed.js";
import { element } from "./page.js";
import { showRefused } from "./refused.js";
import { visibleName } from "./replies.js";
import { storedPasts } from "./stored.js";

/**
 * @typedef {import("./session.js").Session} Session
 * @typedef {import("./place.js").Place} Place
 * @typedef {import("./kept.js").KeptEdits} KeptEdits
 * @typedef {import("./loading.js").Loaded} Loaded
 */

export class Opening {
  /** @param {import("./app.js").App} app */
  constructor(app) {
    this.app = app;
    /** @type {{files: import("./given.js").Given[], missing: string[]}} that wait for others */
    this.waiting = { files: [], missing: [] };
    /** @type {import("./run.js").Run | null} the machine of a session that is being opened */
    this.run = null;
  }

  /**
   * @param {Session} contents
   * @param {Partial<Place>} place where it is shown, unless it has no turn and the page has one
   * @param {KeptEdits | null} edits those that are made again
   * @param {Loaded[]} programs for which its core must have room
   */
  async open(contents, place, edits = keptEdits(contents), programs = []) {
    const { app } = this, { run, refused } = await this.loaded(contents, programs);
    if (place.turn === undefined) place = shownOf(contents)?.place ?? place;
    const numbers = new Set(refused.map(it => it.number));
    app.begin(new OpenSession(contents, run, numbers, app.bar));
    const said = showRefused(element("refused"), refused, contents.lines);
    element("session-name").textContent = visibleName(contents.name);
    element("own").hidden = isOwn(contents);
    element("session-kept").hidden = true;
    const restored = await app.edits.restore(edits);
    const wrong = app.session.wrong.map(it => `This line of the story can't be read: ${it}.`);
    app.say([said, ...wrong.slice(0, 1), restored].filter(Boolean).join(" "));
    app.view.showBeginning();
    app.sweep.offer();
    await app.changed();
    await app.pasts.restore(edits?.compared);
    app.view.goToPlace(place);
    if (place.span === undefined && place.turn === undefined) app.view.showRunning();
  }

  /** A run with the session's lines, and those that were refused. What is open stays so far.
      @param {Session} contents @param {Loaded[]} programs for which it has room */
  async loaded(contents, programs) {
    checkImages(contents);
    this.stop();
    const run = newRun(contents, this.app.bar);
    this.run = run;
    try {
      const refused = await run.load(contents.lines);
      for (const it of programs) checkPlace(it, run.past.core);
      return { run, refused };
    } catch (error) {
      run.end();
      throw error;
    } finally {
      if (this.run === run) this.run = null;
    }
  }

  /** What is being opened isn't any longer. */
  stop() {
    this.run?.end();
  }

  /**
   * Opens files: a session begins anew; images, programs and symbols are added to what is open. A
   * session that names files which aren't here waits for them.
   * @param {File[]} given
   */
  openFiles(given) {
    const { app } = this;
    return app.attempt(async () => {
      const files = filesTogether(this.waiting, await readFiles(given));
      const found = sessionOfFiles(app.session.contents, files), { session, missing } = found;
      this.waiting = missing.length ? { files, missing } : { files: [], missing: [] };
      if (missing.length) {
        const names = missing.map(visibleName).join(", ");
        app.say(`${visibleName(session.name)} isn't open yet: its options name ${names}. `
          + "Open what is missing too.");
        return;
      }
      const said = await this.add(found);
      const names = files.map(it => visibleName(it.name)).join(", ");
      app.say([`Opened: ${names}.`, ...found.notes, ...said].filter(Boolean).join(" "));
    });
  }

  /** Opens what files made of a session, and loads its programs. Files that are added to what is
      open leave its edits. Returns what is said of it.
      @param {{session: Session, programs: Loaded[]}} found */
  async add({ session, programs }, isAdded = session.lines === this.app.session.contents.lines) {
    const { app } = this, { contents } = app.session;
    const isOther = !isAdded || sumOfSession(session) !== sumOfSession(contents);
    if (isOther) {
      await this.open(session, {}, isAdded ? app.edits.kept() : undefined, programs);
      app.attempt(async () => {
        element("session-kept").hidden = await keepSession(session);
      });
      history.replaceState(null, "", "#");
    }
    const said = [isOther ? element("reply").textContent ?? "" : ""];
    const start = startOf(session), isMoved = start !== startOf(contents);
    for (const it of programs) {
      const patches = await app.edits.load(it);
      said.push(loadedInWords(it, patches, start, isAdded && isMoved));
    }
    return said;
  }

  /** Opens the page's own session again. */
  openOwn() {
    return this.app.attempt(async () => {
      forgetSession();
      await this.open(await firstSession(), {});
      history.replaceState(null, "", "#");
    });
  }

  saveSession() {
    const { app } = this;
    return app.attempt(async () => {
      const { contents, run, end } = app.session, past = await run.askPast();
      const text = textOfPast(contents, past, end, app.notes.lines());
      saveFile(savedName(contents, ".session"), text, "text/plain");
      app.edits.noteSaved();
      const files = Object.keys(contents.files).map(visibleName).join(", ");
      app.say(files ? `Saved. It is opened with its files: ${files}` : "Saved.");
    });
  }

  savePage() {
    const { app } = this;
    return app.attempt(async () => {
      const { contents, run } = app.session;
      await run.askPast();
      const page = await pageWith(contents, { sum: sumOfSession(contents),
        edits: { ...app.edits.kept(), saved: app.edits.sum() }, place: app.view.place(),
        words: app.watched.words, registers: app.watched.registers,
        pasts: storedPasts(contents) });
      saveFile(savedName(contents, ".html"), page, "text/html");
      app.edits.noteSaved();
      app.say("Saved: one file with all in it.");
    });
  }
}
