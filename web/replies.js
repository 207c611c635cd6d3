// The replies of the session language as values with names. A reply that isn't of the form that was
// asked for, such as a refusal, is an error: no part of it becomes a value.

import { CYLINDERS, INTERRUPTS, SECTORS, SURFACES } from "./hardware.js";

export const LAST_TURN = 1_000_000_000;
export const WORDS_AT_ONCE = 256;
export const TURNS_OF_A_TRAIL = 64;

const BYTES_OF_A_UNIT = 0o20000;
/** The modes, by the bits of PS. */
export const MODES = ["kernel", "mode 01", "mode 10", "user"];
const VECTORS = new Map([
  ...INTERRUPTS, [0o4, "bus error"], [0o10, "reserved"], [0o14, "trace"], [0o20, "IOT"],
  [0o30, "EMT"], [0o34, "TRAP"], [0o250, "page fault"],
]);
/** The vectors by which devices interrupt. */
export const DEVICE_VECTORS = [...INTERRUPTS.keys()];
const FUNCTIONS = [
  "control reset", "write", "read", "write check", "seek", "read check", "drive reset",
  "write lock",
];

/**
 * What devices and pages are before a turn.
 * @typedef {{diskFunction: string, wordCount: number, sector: number | null, drive: number,
 *   busAddress: number}} Devices
 * @typedef {ReturnType<typeof pagesOf>} Pages
 */

/** A number in octal digits, as the session language writes words.
    @param {number} word */
export const octal = (word, digits = 6) => word.toString(8).padStart(digits, "0");

/** A count with its noun, such as `1 word` or `2 words`.
    @param {number} count @param {string} noun */
export const counted = (count, noun) => `${count} ${noun}${count === 1 ? "" : "s"}`;

/** How many of a total, with the verb: `3 of 5 keys are`, `0 of 1 key is`.
    @param {number} count @param {number} total @param {string} noun */
export const someAre = (count, total, noun) =>
  `${count} of ${counted(total, noun)} ${total === 1 ? "is" : "are"}`;

const REFUSALS = new Map([
  [1, "the memory that this needs was refused"], [2, "the address isn't in core"],
  [3, "the address is odd"], [4, "the number is past the end of a drive"],
  [5, "no event has this number"], [6, "the script is full"],
  [7, `the turn or the delay is above ${LAST_TURN}`], [8, "the count is out of range"],
  [9, "this core word has no patch"], [10, "it isn't a line of the session language"],
  [11, "the line has more than 200 bytes"],
  [16, "the drive's number is above 7"],
  [17, "there is no edit to take back, or to make again"],
]);

/** @param {string} reply */
export const isRefused = reply => reply.startsWith("refused ");

/** Why the program refused a line, as a part of a sentence.
    @param {string} reply */
export function refusalInWords(reply) {
  const [, number] = reply.split(" ");
  return REFUSALS.get(Number(number)) ?? reply;
}

/** What is wrong with what the user asked, as a part of a sentence. */
export class AskError extends Error {}

/** A reply that isn't what was asked for. */
export class WrongReply extends AskError {
  /** @param {string} reply */
  constructor(reply) {
    super(isRefused(reply) ? `${refusalInWords(reply)} (${reply})`
      : `the program's reply can't be read: ${visibleName(reply.slice(0, 80))}`);
    this.reply = reply;
  }
}

/** The reply to a line, which the program must have taken.
    @param {string} reply */
export function mustBeTaken(reply) {
  if (isRefused(reply)) throw new WrongReply(reply);
  return reply;
}

/** What a pattern finds in a reply, which must have its form.
    @param {RegExp} pattern @param {string} reply */
function read(pattern, reply) {
  const found = pattern.exec(reply);
  if (!found) throw new WrongReply(reply);
  return found;
}

/** The fields after the first word of a reply, which must be one of `heads`.
    @param {string} reply @param {string[]} heads */
function fieldsOf(reply, ...heads) {
  const [head, ...fields] = reply.split(" ");
  if (!heads.includes(head)) throw new WrongReply(reply);
  return fields;
}

/** @param {string[]} fields names and words, one after the other */
function namedWords(fields, base = 8) {
  /** @type {Object<string, number>} */
  const words = {};
  for (let at = 0; at + 1 < fields.length; at += 2) {
    words[fields[at]] = parseInt(fields[at + 1], base);
  }
  return words;
}

/** The name of the device or trap of a vector, or the vector.
    @param {number} vector */
export const vectorName = vector => VECTORS.get(vector) ?? octal(vector, 3);

/** The vector of a device or trap with a name, or null.
    @param {string} name */
export function vectorNamed(name) {
  const wanted = name.toLowerCase();
  return [...VECTORS].find(([, it]) => it.toLowerCase() === wanted)?.[0] ?? null;
}

/** The reply of `regs`.
    @param {string} reply */
export function registersOf(reply) {
  const fields = ["R0", ...fieldsOf(reply, "R0")];
  const words = namedWords(fields);
  const ps = words.PS;
  return {
    words, state: fields[fields.length - 1], pc: words.PC, ps,
    mode: MODES[ps >> 14 & 3], priority: ps >> 5 & 7,
  };
}

/** PS in words, such as `user, previous kernel, priority 4, N..C`.
    @param {number} ps */
export function statusInWords(ps) {
  const codes = [..."NZVC"].map((name, at) => ps >> 3 - at & 1 ? name : ".").join("");
  const trace = ps >> 4 & 1 ? ", trace" : "";
  const [mode, previous] = [MODES[ps >> 14 & 3], MODES[ps >> 12 & 3]];
  return `${mode}, previous ${previous}, priority ${ps >> 5 & 7}${trace}, ${codes}`;
}

/** The reply of `devices`, with what the disk does.
    @param {string} reply */
export function devicesOf(reply) {
  const words = namedWords(fieldsOf(reply, "devices"));
  const address = words.RKDA;
  const [cylinder, place] = [address >> 5 & 0o377, address & 0o17];
  const isThere = cylinder < CYLINDERS && place < SECTORS;
  const track = cylinder * SURFACES + (address >> 4 & 1);
  return {
    words,
    keyWaits: (words.TKS & 0o200) !== 0,
    diskIsReady: (words.RKCS & 0o200) !== 0,
    diskFunction: FUNCTIONS[words.RKCS >> 1 & 7],
    busAddress: (words.RKCS & 0o60) << 12 | words.RKBA & 0o177776,
    wordCount: 0o200000 - words.RKWC,
    drive: address >> 13,
    sector: isThere ? track * SECTORS + place : null,
  };
}

/** What the disk's function does, in words.
    @param {Devices} devices */
export function functionInWords({ diskFunction, wordCount, sector, drive, busAddress }) {
  const name = sector === null ? "a sector that isn't there" : `sector ${sector}`;
  const [core, place] = [`core ${octal(busAddress)}`, `${name} of drive ${drive}`];
  const words = `${diskFunction} of ${counted(wordCount, "word")}`;
  switch (diskFunction) {
    case "write": return `${words} from ${core} to ${place}`;
    case "read": return `${words} from ${place} to ${core}`;
    case "write check": return `${words} of ${place} with ${core}`;
    case "read check": return `${words} from ${place} on`;
    case "seek": return `seek of ${place}`;
    default: return `${diskFunction} of drive ${drive}`;
  }
}

/** The reply of `pages`.
    @param {string} reply */
export function pagesOf(reply) {
  const fields = fieldsOf(reply, "pages");
  /** @param {string} name @param {number} count */
  const words = (name, count) => {
    const at = fields.indexOf(name) + 1;
    return fields.slice(at, at + count).map(it => parseInt(it, 8));
  };
  return {
    sr0: words("SR0", 1)[0], sr2: words("SR2", 1)[0],
    descriptors: { kernel: words("KPDR", 8), user: words("UPDR", 8) },
    addresses: { kernel: words("KPAR", 8), user: words("UPAR", 8) },
  };
}

/** The reply of `translate`: the physical address, or null if memory management aborts the read.
    @param {string} reply */
export function physicalOf(reply) {
  const [, address] = read(/^translate (?:([0-7]{6})|abort .+)$/, reply);
  return address === undefined ? null : parseInt(address, 8);
}

/** The address of the first word that a reply of `virtual` says can't be read; null if all can.
    @param {string} reply */
export function unreadOf(reply) {
  const [, address] = read(/^virtual(?:(?: [0-7]{6})+| [a-z -]+ at ([0-7]{6}))$/, reply);
  return address === undefined ? null : parseInt(address, 8);
}

/** A page in words, such as `core 020000 to 037777, read and write`.
    @param {Pages} pages @param {"kernel" | "user"} mode @param {number} page */
export function pageInWords(pages, mode, page) {
  const descriptor = pages.descriptors[mode][page];
  const access = { 1: "read only", 3: "read and write" }[descriptor >> 1 & 3];
  if (!access) return "not resident";
  const [length, begin] = [descriptor >> 8 & 0o177, pages.addresses[mode][page] << 6];
  const [low, high] = descriptor >> 3 & 1 ? [length, 0o177] : [0, length];
  return `core ${octal(begin + low * 64)} to ${octal(begin + high * 64 + 63)}, ${access}`;
}

/** The lines of the reply of `trail`.
    @param {string} reply */
export function turnsOf(reply) {
  read(/^trail \d+$/m, reply);
  return reply.split("\n").slice(1).map(line => {
    const [turn, pc, act, vector] = line.split(" ");
    return {
      turn: Number(turn), pc: parseInt(pc, 8), act,
      vector: vector === undefined ? null : parseInt(vector, 8),
    };
  });
}

/** The interrupts of the reply of `trail`.
    @param {string} reply */
export function interruptsOf(reply) {
  read(/^trail \d+$/m, reply);
  const found = reply.matchAll(/^(\d+) [0-7]{6} irq ([0-7]{3})$/gm);
  return [...found].map(it => ({ turn: Number(it[1]), vector: parseInt(it[2], 8) }));
}

/** The lines of the reply of `writes`: who wrote a word, and whether there are more.
    @param {string} reply */
export function writesOf(reply) {
  const [head, ...lines] = reply.split("\n");
  read(/^writes \d+( or more)?$/, head);
  const writes = lines.map(line => {
    const [turn, writer, word] = line.split(" ");
    return { turn: Number(turn), writer, word: parseInt(word, 8) };
  });
  return { writes, hasMore: head.endsWith("or more") };
}

/** The reply of `last`, or null if the word was never written.
    @param {string} reply */
export function lastOf(reply) {
  const [turn, writer, word] = fieldsOf(reply, "last");
  return turn === "never" ? null : { turn: Number(turn), writer, word: parseInt(word, 8) };
}

/** The words of a reply of `mem`, `dsk` or `virtual`.
    @param {string} reply @returns {number[]} */
export const wordsOf = reply =>
  fieldsOf(reply, "mem", "dsk", "virtual").map(it => parseInt(it, 8));

/** The turn of a reply such as `first 11` or `latest none`, or null.
    @param {string} reply */
export function turnOf(reply) {
  const [turn] = fieldsOf(reply, "first", "latest", "change", "when", "fades");
  return turn === "none" ? null : Number(turn);
}

/** The reply of `setup`: the version, the bytes of core, and the delays of the devices.
    @param {string} reply */
export function setupOf(reply) {
  const { version, units, printer, reader, punch, disk, clock } =
    namedWords(fieldsOf(reply, "setup"), 10);
  const delays = { printer, reader, punch, disk, clock };
  return { version, core: units * BYTES_OF_A_UNIT, delays };
}

/** The lines of a list, without the zeros at the beginnings of its octal numbers.
    @param {string} reply */
const plain = reply => reply.replace(/ 0+(?=\d)/g, " ");

/** The words of the reply of `patches`, each by its name, such as `core 1000`; all in octal.
    @param {string} reply @returns {Map<string, string>} */
export function patchesOf(reply) {
  read(/^patches \d+$/m, reply);
  const found = plain(reply).matchAll(/^((?:core|disk) .+) (\d+)$/gm);
  return new Map(Array.from(found, ([, name, word]) => [name, word]));
}

/** The events of the reply of `events`, in the order in which they happen.
    @param {string} reply */
export function eventsOf(reply) {
  read(/^events \d+$/m, reply);
  const found = plain(reply).matchAll(/^(\d+) (\d+) (.+)$/gm);
  return Array.from(found, ([, number, turn, text]) => (
    { number: Number(number), turn: Number(turn), text }));
}

/** The number of an event that was made.
    @param {string} reply */
export const eventOf = reply => Number(read(/^event (\d+)$/, reply)[1]);

/** How many bytes a reply of `text` or `punched` has.
    @param {string} reply */
export const lengthOf = reply => Number(read(/^(?:text|punched) (\d+):/, reply)[1]);

/** The bytes of a reply of `text` or `punched`.
    @param {string} reply */
export function bytesOf(reply) {
  const [head] = read(/^(?:text|punched) \d+:/, reply);
  return bytesOfText(reply.slice(head.length));
}

/** The bytes that a text stands for: a backslash and three octal digits are one.
    @param {string} text */
function bytesOfText(text) {
  const [first, ...rest] = text.split("\\");
  const codes = [...first].map(it => it.charCodeAt(0));
  for (const part of rest) {
    codes.push(parseInt(part.slice(0, 3), 8));
    for (const it of part.slice(3)) codes.push(it.charCodeAt(0));
  }
  return Uint8Array.from(codes);
}

/** The bytes of a reply of `text`; of a long one the lines at its end, or of one line its end.
    @param {string} reply @param {number} most */
export function tailOf(reply, most) {
  lengthOf(reply);
  if (reply.length <= most) return { bytes: bytesOf(reply), isCut: false };
  const begin = reply.length - most, end = reply.indexOf("\\012", begin);
  // a byte that is cut through, as \ and three digits, stays whole
  const cut = /\\\d?\d?$/.exec(reply.slice(begin - 3, begin))?.[0].length ?? 0;
  const from = end < 0 ? begin - cut : end + 4;
  return { bytes: bytesOfText(reply.slice(from)), isCut: true };
}

/** A byte as one character; a byte that can't be seen is a dot.
    @param {number} byte */
export const shownByte = byte =>
  byte >= 0o40 && byte < 0o177 ? String.fromCharCode(byte) : "\u00b7";

/** The numbers of the bytes that readable text shows: a CR before or after LF isn't.
    @param {number[] | Uint8Array} bytes @returns {number[]} */
export function shownBytes(bytes) {
  /** @param {number} at */
  const endsLine = at => bytes[at] === 0o15 && [bytes[at - 1], bytes[at + 1]].includes(0o12);
  return Array.from(bytes, (_, at) => at).filter(at => !endsLine(at));
}

/** Console text for reading: lines end at LF, and a CR before or after it isn't shown.
    @param {number[] | Uint8Array} bytes */
export const readableText = bytes =>
  shownBytes(bytes).map(at => bytes[at] === 0o12 ? "\n" : shownByte(bytes[at])).join("");

const KEY_NAMES = new Map(
  [[0o11, "Tab"], [0o12, "LF"], [0o15, "CR"], [0o33, "ESC"], [0o40, "space"], [0o177, "DEL"]]);

/** The name of a key's byte, such as `A`, `CR` or `Ctrl-C`.
    @param {number} byte @returns {string} */
export function keyName(byte) {
  const name = KEY_NAMES.get(byte);
  if (name !== undefined) return name;
  if (byte > 0o177) return octal(byte, 3);
  return byte < 0o40 ? `Ctrl-${String.fromCharCode(byte + 64)}` : String.fromCharCode(byte);
}

/** The byte of a key by its character, its name, such as `Enter` or `Ctrl-C`, or three octal
    digits; null if there is none.
    @param {string} name */
export function byteNamed(name) {
  const code = name.charCodeAt(0);
  if (name.length === 1) return code < 0o200 ? code : null;
  if (/^[0-3][0-7]{2}$/.test(name)) return parseInt(name, 8);
  const wanted = name.trim().toLowerCase();
  if (wanted === "enter") return 0o15;
  const [, letter] = /^ctrl-([@-_a-z])$/.exec(wanted) ?? [];
  if (letter) return letter.toUpperCase().charCodeAt(0) & 0o37;
  return [...KEY_NAMES].find(([, it]) => it.toLowerCase() === wanted)?.[0] ?? null;
}

/** A name from outside with what can't be seen, or turns the direction of text, written out.
    @param {string} name */
export function visibleName(name) {
  return name.replace(/[\p{Cc}\p{Cf}\p{Zl}\p{Zp}]/gu,
    it => `\\u${(it.codePointAt(0) ?? 0).toString(16).padStart(4, "0")}`);
}
