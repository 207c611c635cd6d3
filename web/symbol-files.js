// Names of addresses in files of text: lists, what nm writes, listings of MACRO-11, and the maps of
// the linkers of RT-11 and RSX-11. These are the rules of explore's `symbols`.

import { counted } from "./replies.js";

const LARGEST = 0o177777;
const NAME = String.raw`[A-Za-z_.$~%?@][^\s=:;,()\[\]<>]*`;
const NAME_OF_DEC = String.raw`[A-Za-z$.][A-Za-z0-9$._]*`;

/**
 * A name with its value. A constant, such as the address of a device's register or an offset, names
 * no place of the program. A relocatable one counts from the begin of its section.
 * @typedef {{name: string, value: number, isConstant: boolean, isRelocatable: boolean}} Symbol
 */

/**
 * The symbols of a file, what it is, how many of its lines have no symbol, and what else there is
 * to say.
 * @typedef {{kind: string, symbols: Symbol[], skipped: number, remark: string}} SymbolFile
 */

/** What matches a whole text.
    @param {string} text */
const whole = (text, flags = "") => new RegExp(`^(?:${text})$`, flags);

/** @param {string} name @param {number} value @returns {Symbol} */
const symbol = (name, value, isConstant = false, isRelocatable = false) =>
  ({ name, value, isConstant, isRelocatable });

/** What a pattern finds in a text, by the names of its groups; or null.
    @param {RegExp} pattern @param {string} text */
const groups = (pattern, text) => pattern.exec(text)?.groups ?? null;

/** How many symbols a file has, in words.
    @param {SymbolFile} file */
export function fileInWords({ kind, symbols, skipped }) {
  const ofKind = kind ? ` of ${kind}` : "";
  const left = skipped ? `, ${counted(skipped, "line")} skipped` : "";
  return `${counted(symbols.length, "symbol")}${ofKind}${left}`;
}

// Lists: a line is a symbol, or it is none.

const LISTED = [
  whole(String.raw`(?<name>${NAME})\s+(?<value>[0-7]{1,6})`),
  whole(String.raw`(?<value>[0-7]{1,6})\s+(?<name>${NAME})`),
  whole(String.raw`(?<name>${NAME})\s*==?:?\s*(?<value>[0-7]{1,6})`),
];
const OF_NM = whole(String.raw`(?<value>[0-9a-fA-F]+)\s*(?<kind>[A-Za-z?])\s+(?<name>\S+)`);
const OF_NM_P = whole(
  String.raw`(?<name>\S+)\s+(?<kind>[A-Za-z?])\s+(?<value>[0-9a-fA-F]+)(\s+[0-9a-fA-F]+)?`);
const UNDEFINED_OF_NM = whole(String.raw`[Uu]\s+\S+|\S+\s+[Uu]`);
/** Linkers put the name of each file at the begin of its text, as a local symbol. */
export const NAME_OF_FILE = whole(String.raw`.*/.*|.+\.[oa]`);

/** The symbol of a line of a list, or null. The name of a file is no label.
    @param {string} line @returns {Symbol | null} */
function symbolOf(line) {
  const listed = LISTED.map(it => groups(it, line)).find(it => it);
  if (listed) {
    const { name, value } = listed;
    return name.includes("/") ? null : symbol(name, parseInt(value, 8));
  }
  // six digits of an old Unix's nm and eleven of nm -t o are octal, eight of nm hexadecimal, and
  // so are those of nm -P
  const nm = groups(OF_NM, line), other = nm ? null : groups(OF_NM_P, line);
  if (nm) return symbolOfNm(nm, [4, 8, 16].includes(nm.value.length));
  return other ? symbolOfNm(other, other.value.length !== 11) : null;
}

/** @param {{[name: string]: string}} found @param {boolean} isHexadecimal */
function symbolOfNm({ name, kind, value }, isHexadecimal) {
  const namesFile = "Ff".includes(kind) || kind === "t" && NAME_OF_FILE.test(name);
  if (namesFile || !isHexadecimal && /[^0-7]/.test(value)) return null;
  return symbol(name, parseInt(value, isHexadecimal ? 16 : 8));
}

/** @param {string[]} lines @returns {SymbolFile} */
function ofList(lines) {
  const meant = lines.map(it => it.replace(/[#;].*/s, "").trim())
    .filter(it => it && !UNDEFINED_OF_NM.test(it));
  const symbols = meant.flatMap(it => symbolOf(it) ?? []).filter(it => it.value <= LARGEST);
  return { kind: "", symbols, skipped: meant.length - symbols.length, remark: "" };
}

// Listings of MACRO-11. On the left are the line's number, which may be missing, the address, and
// the words or bytes of the line, with ' or G behind those that the linker changes. Then comes the
// source.

const LINE_NUMBER = String.raw`([0-9]{1,5}\s+)?`;
const SOURCE = whole(String.raw`\f?\s*${LINE_NUMBER}(?<address>[0-7]{6})`
  + String.raw`(?<words>(\s+([0-7]{6}|[0-7]{3})['GC]{0,2}(?!\S))*)(\s+(?<source>.*))?`);
const COMMENT = whole(String.raw`\s*([0-9]{1,5}\s*)?(;.*)?`);
const LABEL = new RegExp(String.raw`^(?<name>${NAME_OF_DEC})::?\s*`);
// A line that is labels alone may lack the address: it is the one after the words of the last line
// with an address, or, if that has no words, the address of the next line that has one.
const LABELS_ALONE = whole(String.raw`\f?\s*${LINE_NUMBER}(?<source>${NAME_OF_DEC}::?(\s.*)?)`);
const IN_SOURCE = whole(
  String.raw`\f?\s*${LINE_NUMBER}([0-7]{6}['GC]?\s+)?(?<name>${NAME_OF_DEC})\s*==?:?\s*`
  + String.raw`(?<value>[0-7]{1,6})\s*(;.*)?`);
const TABLE = whole(String.raw`\f?\s*symbol table\s*`, "i");
const END_OF_TABLE = /^\s*(\. ABS\.|\*\*\*|errors detected)/i;
const IN_TABLE = new RegExp(String.raw`(?<!\S)(?<name>${NAME_OF_DEC}?)\s*(?<mark>=?)\s*`
  + String.raw`(?<register>%?)(?<![0-7])(?<value>[0-7]{6}|\*{6})\s?`
  + String.raw`(?<flags>R?( ?[GXLCW]{1,2})?)(\s+[0-9]{3})?(?=\s|$)`, "g");

/** The address, the words and the source of a line of a listing; null of another line.
    @param {string} line */
export const columnsOf = line => groups(SOURCE, line);

/** The labels that a line of source begins with.
    @param {string} source */
function labelsOf(source) {
  /** @type {string[]} */
  const found = [];
  for (let left = source, it = LABEL.exec(left); it; it = LABEL.exec(left)) {
    found.push(it[1]);
    left = left.slice(it[0].length);
  }
  return found;
}

/** The labels of a line of a listing, or its assignment of a number.
    @param {string} line */
function ofColumns(line) {
  const assigned = groups(IN_SOURCE, line);
  if (assigned && assigned.name !== ".") {
    return [symbol(assigned.name, parseInt(assigned.value, 8), true)];
  }
  const found = columnsOf(line);
  if (!found) return [];
  return labelsOf(found.source ?? "").map(it => symbol(it, parseInt(found.address, 8)));
}

/** The address after the words and bytes of a line, or null if it has none.
    @param {{[name: string]: string}} source */
function endOf({ address, words }) {
  const found = words.match(/[0-7]+/g);
  return found && found.reduce((at, it) => at + Math.floor(it.length / 3), parseInt(address, 8));
}

/** The symbols of a line of the table at the end of a listing, except registers and those that are
    defined elsewhere.
    @param {string} line */
const ofTable = line => [...line.matchAll(IN_TABLE)].flatMap(({ groups: it }) =>
  it && !it.register && it.value[0] !== "*" && it.name !== "."
    ? [symbol(it.name, parseInt(it.value, 8), it.mark === "=", it.flags[0] === "R")] : []);

/** A listing has a table of symbols, or labels beside addresses and words.
    @param {string[]} lines */
const isListing = lines => lines.some(it => {
  const { words, source } = groups(SOURCE, it) ?? {};
  return TABLE.test(it) || Boolean(words) && LABEL.test(source ?? "");
});

/** What the lines of a listing have: labels and the table, by their names; the labels that wait for
    an address, and where the words of the last line end. */
class Listing {
  constructor() {
    /** @type {Map<string, Symbol>} */
    this.labels = new Map();
    /** @type {Map<string, Symbol>} */
    this.table = new Map();
    /** @type {string[]} */
    this.waiting = [];
    /** @type {number | null} */
    this.at = null;
    this.isInTable = false;
    this.skipped = 0;
  }

  /** @param {string} line */
  add(line) {
    if (COMMENT.test(line)) return;
    this.isInTable = TABLE.test(line) || this.isInTable && !END_OF_TABLE.test(line);
    const found = this.isInTable ? ofTable(line) : ofColumns(line);
    const source = this.isInTable ? null : groups(SOURCE, line);
    if (!this.isInTable && !source && !found.length) {
      this.waiting.push(...labelsOf(groups(LABELS_ALONE, line)?.source ?? ""));
    }
    if (source || this.at !== null) {
      const address = source ? parseInt(source.address, 8) : this.at ?? 0;
      found.push(...this.waiting.splice(0).map(it => symbol(it, address)));
    }
    if (source) this.at = endOf(source);
    for (const it of found) (this.isInTable ? this.table : this.labels).set(it.name, it);
    if (!found.length && !this.waiting.length) this.skipped += 1;
  }
}

/** The table has each symbol; labels on the left tell which name a place, and in which order.
    Without a table the left columns have them all.
    @param {string[]} lines @returns {SymbolFile} */
function ofListing(lines) {
  const listing = new Listing();
  for (const it of lines) listing.add(it);
  const { skipped } = listing, labels = [...listing.labels.values()];
  const places = labels.filter(it => !it.isConstant).map(it => it.name.toUpperCase());
  const order = new Map(places.map((name, at) => [name, at + 1]));
  /** @param {Symbol} it */
  const placeOf = it => order.get(it.name.toUpperCase()) ?? 0;
  const named = [...listing.table.values()]
    .map(it => ({ ...it, isConstant: it.isConstant && !placeOf(it) }))
    .sort((one, other) => placeOf(one) - placeOf(other));
  const symbols = named.length ? named : labels;
  return { kind: "a MACRO-11 listing", symbols, skipped, remark: "" };
}

// Maps: lines that are pairs of a name and a value, and nothing else.

const PAIR = String.raw`(?<name>${NAME_OF_DEC})\s+(@\s*)?(?<value>[0-7]{6})(?<mark>-R)?(?=\s|$)`;
const PAIRS = whole(String.raw`\s*(${PAIR.replace(/\?<[a-z]+>/g, "")}\s*)+`);
const MAP_OF_RT11 = whole(String.raw`\f?\s*RT-11 LINK\b.*`, "i");
const GLOBALS_OF_RSX = whole(String.raw`\f?\s*global symbols:\s*`, "i");
const SECTION_OF_RT11 = whole(
  String.raw`\s*(?<name>${NAME_OF_DEC}|\. ABS\.)?\s*[0-7]{6}\s+[0-7]{6}\b.*`);

/** The pairs of a line. `mark` says that a value is one that was moved.
    @param {string} line */
const pairsOf = line => PAIRS.test(line)
  ? [...line.matchAll(new RegExp(PAIR, "g"))].map(it => it.groups ?? {}) : [];

/** The globals of each section. Those of `. ABS.` are constants.
    @param {string[]} lines @returns {SymbolFile} */
function ofMapOfRt11(lines) {
  /** @type {Symbol[]} */
  const symbols = [];
  let [isAbsolute, skipped] = [false, 0];
  for (const line of lines.filter(it => it.trim())) {
    const found = pairsOf(line).map(it => symbol(it.name, parseInt(it.value, 8), isAbsolute));
    if (!found.length && SECTION_OF_RT11.test(line)) isAbsolute = line.trim().startsWith(". ABS.");
    symbols.push(...found);
    if (!found.length) skipped += 1;
  }
  return { kind: "a map of RT-11's linker", symbols, skipped, remark: "" };
}

/** What stands after `Global symbols:`. The mark -R says that a value is an address.
    @param {string[]} lines @returns {SymbolFile} */
function ofMapOfRsx(lines) {
  /** @type {Symbol[]} */
  const symbols = [];
  let [isInGlobals, skipped] = [false, 0];
  for (const line of lines.filter(it => it.trim())) {
    isInGlobals = GLOBALS_OF_RSX.test(line) || isInGlobals && !line.trimStart().startsWith("***");
    const found = isInGlobals ? pairsOf(line) : [];
    symbols.push(...found.map(it => symbol(it.name, parseInt(it.value, 8), !it.mark)));
    if (!found.length) skipped += 1;
  }
  return { kind: "a map of the Task Builder", symbols, skipped, remark: "" };
}

/** The lines of a text, whose ends are those of any system.
    @param {string} text */
function linesIn(text) {
  const lines = text.split(/\r\n|[\n\r\v\f\x1c-\x1e\x85\u2028\u2029]/);
  return lines.at(-1) === "" ? lines.slice(0, -1) : lines;
}

/** How the file may be read if it is no list, the likeliest way first.
    @param {string[]} lines */
function readersOf(lines) {
  /** @type {((lines: string[]) => SymbolFile)[]} */
  const found = [];
  if (lines.some(it => GLOBALS_OF_RSX.test(it))) found.push(ofMapOfRsx);
  if (lines.some(it => MAP_OF_RT11.test(it))) found.push(ofMapOfRt11);
  if (isListing(lines)) found.push(ofListing);
  return found;
}

/** Whether a text is a listing or a map.
    @param {string} text */
export const isListingOrMap = text => readersOf(linesIn(text)).length > 0;

/** The symbols of a file. If all are constants, they count as places.
    @param {string} text @returns {SymbolFile} */
export function symbolFile(text) {
  const lines = linesIn(text), files = [...readersOf(lines), ofList].map(it => it(lines));
  const found = files.find(it => it.symbols.length) ?? files[0];
  if (!found.symbols.every(it => it.isConstant)) return found;
  return { ...found, symbols: found.symbols.map(it => ({ ...it, isConstant: false })) };
}
