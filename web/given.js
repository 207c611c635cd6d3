// Files that the user gives the page, by the dialog or a drop, and what each one is: by its name,
// or if that doesn't say it, by its first bytes.

import { beginsAsAout, beginsAsTape, foreignOf } from "./kinds.js";
import { SECTORS, SECTOR_WORDS, CYLINDERS, SURFACES } from "./hardware.js";
import { FileError, UNITS, namesFile, optionsOf } from "./options.js";
import { counted, visibleName } from "./replies.js";
import { kindOfFile } from "./session.js";
import { isListingOrMap } from "./symbol-files.js";

export const BYTES_OF_A_DRIVE = 2 * CYLINDERS * SURFACES * SECTORS * SECTOR_WORDS;
const [BYTES_OF_A_TAPE, BYTES_OF_A_UNIT] = [1_048_576, 8_192];
// Names of images of core, and of tapes of the absolute loader.
const MANY_THINGS = /\.bin$/i;
const SURELY_SESSION = /\.(session|txt)$/i;

/**
 * @typedef {{name: string, bytes: Uint8Array}} Given
 */

/** The files with their bytes.
    @param {File[]} files @returns {Promise<Given[]>} */
export const readFiles = files => Promise.all(files.map(async it => (
  { name: it.name, bytes: new Uint8Array(await it.arrayBuffer()) })));

/** What a file is: disk, core, tape, program, symbols, arguments, session, or other, if the page
    can't use it.
    @param {Given} given */
export function kindOf({ name, bytes }) {
  const byName = kindOfFile(name), isProgram = beginsAsTape(bytes) || beginsAsAout(bytes);
  if (MANY_THINGS.test(name) && isProgram) return "program";
  if (byName !== "session" || SURELY_SESSION.test(name)) return byName;
  // an image may begin with the word that an a.out begins with: it is a branch too
  if (bytes.length === BYTES_OF_A_DRIVE && bytes.includes(0)) return "disk";
  if (isProgram) return "program";
  if (foreignOf(bytes)) return "other";
  if (bytes.includes(0)) return "other";
  return isListingOrMap(new TextDecoder().decode(bytes)) ? "symbols" : "session";
}

/** A FileError if a file of this size can't be what an option names.
    @param {string} name @param {string} option @param {number} size */
export function checkSize(name, option, size, units = UNITS) {
  const isTape = option === "tape", [what, most] = isTape ? ["a tape", BYTES_OF_A_TAPE]
    : option === "core" ? ["core", units * BYTES_OF_A_UNIT] : ["a drive", BYTES_OF_A_DRIVE];
  const why = size > most ? `${what} has ${most}`
    : size % 2 && !isTape ? "an image has an even number of them" : "";
  if (!why) return;
  const said = `${visibleName(name)} has ${counted(size, "byte")}, and ${why}.`;
  throw new FileError(`${said} Nothing was changed.`);
}

/** A FileError if a session has a file that can't be what its option names.
    @param {import("./session.js").Session} session */
export function checkImages({ name, arguments: words, files }) {
  const options = optionsOf(words, name), units = Number(options.get("units") ?? UNITS);
  for (const [option, file] of options) {
    if (namesFile(option)) checkSize(file, option, files[file]?.length ?? 0, units);
  }
}

/** Why the page can't use a file.
    @param {Given} given */
export function whyNot({ name, bytes }) {
  const foreign = foreignOf(bytes), shown = visibleName(name);
  if (foreign) return new FileError(`${shown} is ${foreign}. Nothing was opened.`);
  return new FileError(`${shown} is no session, no tape of the absolute loader and no a.out. An `
    + "image has a name that ends in .disk, .core or .tape. Nothing was opened.");
}
