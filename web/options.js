// The options of the program, as words of its command line, and as they stand in a session: in
// comment lines `#! OPTIONS`, which the program passes over and explore reads too.

const FILES = /^(?:core|disk[1-7]?|tape)$/, MARK = "#!";
// A line of a session has 200 bytes at most, comments too.
const LONGEST_PART = 190;
export const UNITS = 31;
// The options that are numbers: their digits, the least and the most, and how these are told.
const DECIMAL = /^[0-9]{1,10}$/, EVEN = /^[0-7]{0,9}[0246]$/;
const NUMBERS = new Map([
  ["units", { form: DECIMAL, base: 10, least: 1, most: UNITS,
    told: `1 to ${UNITS}, units of 4096 words of core` }],
  ["start", { form: EVEN, base: 8, least: 0, most: 0o177776,
    told: "an address, octal and even, up to 177776" }],
  ["stride", { form: DECIMAL, base: 10, least: 1, most: 2_000_000_000,
    told: "1 to 2000000000, turns between kept states" }],
]);

/** Why files make no session, for the user to read. */
export class FileError extends Error {}

/** @param {string} option */
export const namesFile = option => FILES.test(option);

/** The option that names the image of a drive.
    @param {number} drive */
export const optionOfDrive = drive => drive ? `disk${drive}` : "disk";

/** The options in these words, each value by its option's name.
    @param {string[]} words @param {string} where
    @returns {Map<string, string>} */
export function optionsOf(words, where) {
  const left = words.flatMap(it => it.startsWith("--") ? it.split(/=(.*)/s, 2) : [it]);
  const found = new Map();
  for (let at = 0; at < left.length; at += 2) {
    const [option, value] = [left[at], left[at + 1]], name = option.slice(2);
    const isKnown = option.startsWith("--") && (FILES.test(name) || NUMBERS.has(name));
    if (!isKnown) throw new FileError(`${where}: '${option}' is no option of pdp11 with a value.`);
    if (value === undefined) throw new FileError(`${where}: ${option} has no value.`);
    if (found.has(name)) throw new FileError(`${where}: ${option} stands there twice.`);
    if (!isRight(name, value)) {
      throw new FileError(`${where}: ${option} is ${NUMBERS.get(name)?.told}.`);
    }
    found.set(name, value);
  }
  return found;
}

/** Whether an option's value is in its range, if it is a number.
    @param {string} name @param {string} value */
function isRight(name, value) {
  const wanted = NUMBERS.get(name);
  if (!wanted) return true;
  const { form, base, least, most } = wanted, number = parseInt(value, base);
  return form.test(value) && number >= least && number <= most;
}

/** @param {Map<string, string>} options */
export const wordsOfOptions = options => [...options].flatMap(([name, it]) => [`--${name}`, it]);

/** What the comment lines of options say, or null if there are none. They stand before the first
    line that is no comment.
    @param {string[]} lines */
export function optionText(lines) {
  const first = lines.findIndex(it => !it.startsWith("#") && it.trim());
  let [text, goesOn, isThere] = ["", false, false];
  for (const line of first < 0 ? lines : lines.slice(0, first)) {
    const found = (goesOn ? /^#! (.*)$/s : /^#!( -.*|)$/s).exec(line);
    if (!found) continue;
    isThere = true;
    const part = goesOn ? found[1] : found[1].replace(/^ +/, "");
    goesOn = part.endsWith("\\");
    text += goesOn ? part.slice(0, -1) : `${part} `;
  }
  return isThere ? text : null;
}

/** The words of a line with quotes, as a shell reads them.
    @param {string} text @param {string} where */
export function shellWords(text, where) {
  /** @type {string[]} */
  const words = [];
  const piece = /'([^']*)'|"((?:[^"\\]|\\.)*)"|\\(.)|([^\s'"\\]+)|(\s+)/sy;
  /** @type {string | null} */
  let word = null;
  for (let at = 0; at < text.length || word !== null; at = piece.lastIndex) {
    piece.lastIndex = at;
    const found = piece.exec(text);
    if (!found && at < text.length) {
      throw new FileError(`${where}: a quote in its options doesn't end.`);
    }
    const [, single, double, escaped, plain] = found ?? [];
    const more = single ?? double?.replace(/\\(["\\])/g, "$1") ?? escaped ?? plain;
    if (more !== undefined) word = (word ?? "") + more;
    else if (word !== null) {
      words.push(word);
      word = null;
    }
    if (!found) break;
  }
  return words;
}

/** @param {string} word */
const quoted = word =>
  /^[\w@%+=:,./-]+$/.test(word) ? word : `'${word.replaceAll("'", "'\"'\"'")}'`;

/** The options as comment lines. One that is too long goes on in the next line.
    @param {string[]} words */
export function optionLines(words) {
  if (!words.length) return [];
  if (words.join("").includes("\n")) {
    throw new FileError("A file whose name has a line feed can't be named in a session.");
  }
  const parts = [""], encoder = new TextEncoder();
  for (const character of words.map(quoted).join(" ")) {
    const longer = parts.at(-1) + character;
    if (encoder.encode(longer).length > LONGEST_PART) parts.push(character);
    else parts[parts.length - 1] = longer;
  }
  return parts.map((it, at) => `${MARK} ${it}${at < parts.length - 1 ? "\\" : ""}`);
}
