// Opening files, by dialog or drop, and saving.

import { linesOfNames } from "./names.js";
import {
  FileError, namesFile, optionLines, optionText, optionsOf, shellWords, wordsOfOptions,
} from "./options.js";
import { kindOf, whyNot } from "./given.js";
import { beginsAsTape } from "./kinds.js";
import { loadedOf } from "./loading.js";
import { visibleName } from "./replies.js";
import { latin1, linesOf, readableLine, withFile } from "./session.js";
import { linesOfStory } from "./story.js";
import { fileInWords } from "./symbol-files.js";
import { modesOfSymbols, namesOf } from "./symbols.js";

/**
 * @typedef {import("./session.js").Session} Session
 * @typedef {import("./past.js").Past} Past
 * @typedef {import("./given.js").Given} Given
 * @typedef {import("./loading.js").Loaded} Loaded
 */

/**
 * What files make of a session: itself, what is loaded into its core, what is said of them, and the
 * names of files that its options name and that aren't here.
 * @typedef {{session: Session, programs: Loaded[], notes: string[], missing: string[]}} Together
 */

// Where the machine begins if no option says it.
const START = "1000";

/** Gives the user a file.
    @param {string} name @param {string} contents @param {string} type */
export function saveFile(name, contents, type) {
  const address = URL.createObjectURL(new Blob([contents], { type }));
  const made = document.createElement("a");
  Object.assign(made, { href: address, download: name });
  made.click();
  setTimeout(() => URL.revokeObjectURL(address), 10_000);
}

/** The name of a file that was saved, by the session's name.
    @param {Session} session @param {string} end */
export function savedName(session, end) {
  const name = session.name.replace(/\.session$/, "") || "my";
  return `${visibleName(name).replace(/[^\w.-]+/g, "-")}${end}`;
}

/** The past as a session, with its options, its names and story, and these lines of notes. What the
    options name isn't in it.
    @param {Session} session @param {Past} past @param {number} end @param {string[]} notes */
export function textOfPast(session, past, end, notes = []) {
  // a comment has at most 200 bytes too
  const head = `# ${visibleName(session.name).slice(0, 40)}, saved by the page.`;
  const asked = [`regs ${end}`, `text ${end}`];
  const told = [...linesOfNames(session), ...linesOfStory(session)].map(readableLine);
  const lines = [head, ...optionLines(session.arguments), ...told, ...notes];
  return `${[...lines, ...past.lines(), ...asked].join("\n")}\n`;
}

/** The files that were opened before and wait for others, and those that are opened now, unless
    these begin another session.
    @param {{files: Given[], missing: string[]}} waiting @param {Given[]} given */
export function filesTogether({ files, missing }, given) {
  /** @param {Given} it */
  const isOther = it => kindOf(it) === "session" && !missing.includes(it.name);
  return given.some(isOther) ? given : [...files, ...given];
}

/**
 * The session that these files make: a session file begins a new one with the files that its
 * options name; images, programs and symbols are added to it, or to the one that is open.
 * @param {Session} open
 * @param {Given[]} files
 * @returns {Together}
 */
export function sessionOfFiles(open, files) {
  const left = new Map(files.map(it => [it.name, it.bytes]));
  /** @type {Together} */
  const found = { session: begun(open, left), programs: [], notes: [], missing: [] };
  for (const [name, bytes] of left) addFile(found, { name, bytes });
  const { arguments: words, name, files: all } = found.session;
  found.missing = [...optionsOf(words, name)]
    .filter(([option, it]) => namesFile(option) && !Object.hasOwn(all, it)).map(([, it]) => it);
  return found;
}

/** Adds a file to a session: an image, a program with its start and its symbols, or symbols.
    @param {Together} found @param {Given} file */
function addFile(found, file) {
  const { name, bytes } = file, kind = kindOf(file), shown = visibleName(name);
  switch (kind) {
    case "session":
      found.notes.push(`${shown} is a second session, left out.`);
      break;
    case "arguments":
      found.notes.push(`${shown} isn't used: see its session.`);
      break;
    case "program":
      addProgram(found, file);
      break;
    case "symbols":
      addSymbols(found, file);
      break;
    case "other": throw whyNot(file);
    default:
      found.session = withFile(found.session, kind, name, bytes);
      if (kind === "tape" && beginsAsTape(bytes)) {
        found.notes.push(`${shown} is in the reader: named .lda, it would be loaded into core.`);
      }
  }
}

/** @param {Together} found @param {Given} file */
function addProgram(found, file) {
  const program = loadedOf(file.name, file.bytes), { start } = program;
  found.programs.push(program);
  if (start !== null) found.session = startedAt(found.session, start);
  if (program.symbols.length) found.session = withSymbols(found.session, file);
}

/** @param {Together} found @param {Given} file */
function addSymbols(found, file) {
  const shown = visibleName(file.name);
  try {
    const names = namesOf(file.bytes), modes = modesOfSymbols(file.name);
    const where = modes.length > 1 ? "" : ` for ${modes[0]} mode`;
    const moved = names.symbols.filter(it => it.isRelocatable).length;
    const more = moved ? ` ${moved} are relocatable, and count from 0.` : "";
    found.notes.push(`${shown}: ${fileInWords(names)}${where}.${more}`);
  } catch (error) {
    if (!(error instanceof FileError)) throw error;
    throw new FileError(`${shown}: ${error.message}. Nothing was opened.`);
  }
  found.session = withSymbols(found.session, file);
}

/** The session that begins at an address.
    @param {Session} session @param {number} start @returns {Session} */
function startedAt(session, start) {
  if (startOf(session) === start) return session;
  const options = optionsOf(session.arguments, session.name);
  return { ...session, arguments: wordsOfOptions(options.set("start", start.toString(8))) };
}

/** The address at which a session's machine begins.
    @param {Session} session */
export const startOf = session =>
  parseInt(optionsOf(session.arguments, session.name).get("start") ?? START, 8);

/** The session with a file of symbols, which takes the place of those there were of its modes.
    @param {Session} session @param {Given} file @returns {Session} */
function withSymbols(session, { name, bytes }) {
  const { [name]: _, ...files } = session.files;
  return { ...session, files: { ...files, [name]: bytes } };
}

/** The session that a session file among these begins, or the one that is open, with the options
    that stand in it or in a file of options, and the files that they name. What is used of the
    files is taken out of them.
    @param {Session} open @param {Map<string, Uint8Array>} left */
function begun(open, left) {
  const names = [...left.keys()];
  /** @param {string} kind */
  const first = kind => names.find(name =>
    kindOf({ name, bytes: left.get(name) ?? new Uint8Array() }) === kind);
  const name = names.find(it => it.endsWith(".session")) ?? first("session");
  const beside = first("arguments");
  /** @param {string} it */
  const take = it => {
    const bytes = left.get(it) ?? new Uint8Array();
    left.delete(it);
    return bytes;
  };
  const base = name === undefined ? open
    : { name, arguments: [], files: {}, lines: linesOf(latin1(take(name))) };
  const text = base === open ? null : optionText(base.lines);
  if (text !== null) {
    return withOptions(base, shellWords(readableLine(text), visibleName(base.name)), left, take);
  }
  if (beside === undefined) return base;
  const words = linesOf(new TextDecoder().decode(take(beside)));
  return withOptions(base, words, left, take);
}

/** The session with these options in the place of its own of the same names. A file is known by its
    name without its folders.
    @param {Session} session @param {string[]} words @param {Map<string, Uint8Array>} left
    @param {(name: string) => Uint8Array} take @returns {Session} */
function withOptions(session, words, left, take) {
  const where = visibleName(session.name);
  const options = optionsOf(words, where), paths = new Map();
  let { files } = session;
  for (const [option, path] of options) {
    if (!namesFile(option)) continue;
    const name = path.slice(path.lastIndexOf("/") + 1);
    if (paths.has(name) && paths.get(name) !== path) {
      throw new FileError(`${where}: two of its files are called ${visibleName(name)}.`);
    }
    paths.set(name, path);
    options.set(option, name);
    if (left.has(name)) files = { ...files, [name]: take(name) };
  }
  const all = new Map([...optionsOf(session.arguments, where), ...options]);
  return { ...session, files, arguments: wordsOfOptions(all) };
}

/** Takes files that are chosen by a field.
    @param {HTMLInputElement} chooser @param {(files: File[]) => void} onFiles */
export function takeChosen(chooser, onFiles) {
  chooser.addEventListener("change", () => {
    const files = [...chooser.files ?? []];
    chooser.value = "";
    if (files.length) onFiles(files);
  });
}

/** Takes files that are dropped on a place. What is around it doesn't get them.
    @param {HTMLElement} place @param {(files: File[]) => void} onFiles */
export function takeDrops(place, onFiles) {
  place.addEventListener("dragover", event => {
    event.preventDefault();
    event.stopPropagation();
    place.classList.add("over");
  });
  place.addEventListener("dragleave", () => place.classList.remove("over"));
  place.addEventListener("drop", event => {
    event.preventDefault();
    event.stopPropagation();
    place.classList.remove("over");
    const files = [...event.dataTransfer?.files ?? []];
    if (files.length) onFiles(files);
  });
}
