// The images of drives 0 to 7: a line for each drive, with which an image is chosen, dropped or
// taken away.

import { takeChosen, takeDrops } from "./files.js";
import { BYTES_OF_A_DRIVE, checkSize, readFiles } from "./given.js";
import { foreignOf } from "./kinds.js";
import { DRIVES } from "./memory.js";
import { FileError, optionOfDrive, optionsOf } from "./options.js";
import { element, field, make, part } from "./page.js";
import { wordsOfLine } from "./past.js";
import { counted, visibleName } from "./replies.js";
import { withFile, withoutFile } from "./session.js";

/**
 * @typedef {import("./session.js").Session} Session
 * @typedef {import("./kept.js").KeptEdits} KeptEdits
 */

const STAYS = "Nothing was changed.";
// What the page adds to a session's lines with the first image of a drive but 0.
const VERSION_2 = ["# An image of another drive than 0 was chosen on the page.", "version 2"];

/** The file that is the image of a drive, or undefined.
    @param {Session} session @param {number} drive */
const imageOf = (session, drive) =>
  optionsOf(session.arguments, session.name).get(optionOfDrive(drive));

/** The image in a file. A FileError says why it can't be one.
    @param {File} file */
async function imageIn(file) {
  checkSize(file.name, "disk", file.size);
  const [image] = await readFiles([file]);
  const isWhole = image.bytes.length === BYTES_OF_A_DRIVE;
  const foreign = isWhole ? null : foreignOf(image.bytes);
  if (foreign) throw new FileError(`${visibleName(file.name)} is ${foreign}. ${STAYS}`);
  return image;
}

/** Whether an edit is taken by version 1 alone: a patch of a drive that names none.
    @param {string[]} words */
const isOfVersion1 = ([first, ...rest]) => first === "disk" && rest.length === 2;

/** Whether an edit is one of version 2: a patch that names the drive, or the version itself.
    @param {string[]} words */
const isOfVersion2 = ([first, ...rest]) =>
  first === "version" || first === "disk" && rest.length === 3;

/** The first of the user's edits, on or off, of a kind.
    @param {KeptEdits} edits @param {(words: string[]) => boolean} isOfKind */
function firstEdit({ changes, off = [] }, isOfKind) {
  const lines = [...changes, ...off.map(it => it.change)].flat().map(it => it.line);
  return lines.find(it => isOfKind(wordsOfLine(it)));
}

export class Drives {
  /** @param {import("./app.js").App} app */
  constructor(app) {
    this.app = app;
    /** The drive for which a file is chosen. */
    this.chosen = 0;
    /** @type {Promise<void>} */
    this.last = Promise.resolve();
    this.rows = [...Array(DRIVES).keys()].map(drive => this.row(drive));
    element("drive-list").append(...this.rows);
    takeChosen(field("drive-file"), files => this.give(this.chosen, files));
  }

  sessionBegins() {
    this.say("");
  }

  pastChanged() {
    const { contents, run } = this.app.session;
    const given = this.rows.filter((_, drive) => imageOf(contents, drive) !== undefined);
    this.rows.forEach((row, drive) => this.showRow(row, drive));
    const { length } = given;
    element("drives-count").textContent = length ? counted(length, "image") : "no image";
    element("drives-version").hidden = run.past.version !== 1;
  }

  /** The line of a drive.
      @param {number} drive */
  row(drive) {
    const choose = () => {
      this.chosen = drive;
      field("drive-file").click();
    };
    const row = make("li", { "data-drive": drive }, make("span"),
      make("button", { type: "button", class: "choose", onclick: choose,
        "aria-label": `Choose the image of drive ${drive}` }, "Choose"),
      make("button", { type: "button", class: "take", onclick: () => this.takeAway(drive),
        "aria-label": `Take away the image of drive ${drive}` }, "Take away"));
    takeDrops(row, files => this.give(drive, files));
    return row;
  }

  /** @param {HTMLElement} row @param {number} drive */
  showRow(row, drive) {
    const { contents } = this.app.session, name = imageOf(contents, drive);
    const text = name === undefined ? "no image"
      : `${visibleName(name)}, ${counted(contents.files[name].length, "byte")}`;
    part(row, "span").textContent = `Drive ${drive}: ${text}`;
    part(row, ".take").toggleAttribute("disabled", name === undefined);
  }

  /** Puts a file into a drive as its image.
      @param {number} drive @param {File[]} files */
  give(drive, files) {
    const { app } = this;
    return this.attempt(async () => {
      if (files.length > 1) throw new FileError(`A drive takes one image. ${STAYS}`);
      const { name, bytes } = await imageIn(files[0]), { contents, run } = app.session;
      const becomes2 = drive > 0 && run.past.version === 1;
      if (becomes2) this.refuseVersion1();
      const option = optionOfDrive(drive), session = withFile(contents, option, name, bytes);
      const held = imageOf(session, drive) ?? name;
      const said = [`Drive ${drive} has ${visibleName(name)}.`];
      if (held !== name) {
        said.push(`It is called ${visibleName(held)} here, since another file has its name.`);
      }
      if (becomes2) {
        said.push("The session is of version 2 now, from its last line on: a line about a drive "
          + `names it, as dsk 0 ${drive} 0 1.`);
      }
      await this.open(becomes2 ? ofVersion2(session) : session, said);
    });
  }

  /** A FileError if the session can't become one of version 2, since an edit would be refused. */
  refuseVersion1() {
    const edit = firstEdit(this.app.edits.kept(), isOfVersion1);
    if (edit === undefined) return;
    const [, word, value] = wordsOfLine(edit);
    throw new FileError("This session is of version 1, which has drive 0 alone, and version 2 "
      + `would refuse your edit ${edit}. Undo it, choose the image again, and make the edit anew `
      + `as disk 0 ${word} ${value}. ${STAYS}`);
  }

  /** Takes the image of a drive away. With the last one of drives 1 to 7 goes the line that the
      page added for the first one, unless an edit needs it.
      @param {number} drive */
  takeAway(drive) {
    return this.attempt(async () => {
      const { contents } = this.app.session, said = [`Drive ${drive} has no image.`];
      let session = withoutFile(contents, optionOfDrive(drive));
      if (isMadeVersion2(session)) {
        const edit = firstEdit(this.app.edits.kept(), isOfVersion2);
        if (edit === undefined) session = ofVersion1(session);
        said.push(edit === undefined ? "The session is of version 1 again."
          : `The session stays one of version 2 by your edit ${edit}.`);
      }
      await this.open(session, said);
      part(this.rows[drive], ".choose").focus();
    });
  }

  /** Opens a session with the edits of the one that is open.
      @param {Session} session @param {string[]} said */
  async open(session, said) {
    const more = await this.app.opening.add({ session, programs: [] }, true);
    this.say([...said, ...more].filter(Boolean).join(" "));
  }

  /** Does work after all that was begun before it: each image and each edit is in what is opened
      next. Says beside the drives why a file was refused.
      @param {() => Promise<void>} work */
  attempt(work) {
    const { app } = this;
    this.say("");
    this.last = this.last.then(() => app.attempt(async () => {
      await app.edits.last;
      if (app.opening.run) throw new FileError(`Another session is being opened. ${STAYS}`);
      await work();
    }, error => {
      if (error instanceof FileError) this.say(error.message);
      return error instanceof FileError;
    }));
    return this.last;
  }

  /** @param {string} text */
  say(text) {
    element("drives-said").textContent = text;
  }
}

/** The session as one of version 2, which begins with its last line: the lines before it keep what
    they mean.
    @param {Session} session @returns {Session} */
const ofVersion2 = session => ({ ...session, lines: [...session.lines, ...VERSION_2] });

/** Whether a session is of version 2 only since the page made it so, and has no image of drives 1
    to 7.
    @param {Session} session */
function isMadeVersion2(session) {
  const last = session.lines.slice(-VERSION_2.length);
  const hasImage = [...Array(DRIVES).keys()].some(it => it > 0 && imageOf(session, it));
  return !hasImage && VERSION_2.every((line, at) => line === last[at]);
}

/** @param {Session} session @returns {Session} */
const ofVersion1 = session => ({ ...session, lines: session.lines.slice(0, -VERSION_2.length) });
