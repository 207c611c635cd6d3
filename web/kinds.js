// What a file is, by its first bytes: what the page loads into core, and what it knows and can't
// use. These are the rules of explore's `load`.

const LEADER = new Set([0, 0o377]);
const MAGIC_OF_AOUT = new Set([0o405, 0o407, 0o410, 0o411, 0o430, 0o431]);
const [LEAST_RECORD, MOST_RECORD, END_OF_MEDIUM, TAPE_MARK] = [2, 0xffffff, 0xffffffff, 0];
const BYTES_OF_TEXT = 512;
/** @type {[number[], string, string][]} first bytes, what the file is, and what to do */
const MAGIC = [
  [[0x1f, 0x8b], "a gzip", "gunzip it first"],
  [[0x1f, 0x9d], "a file of compress", "uncompress it first"],
  [[0x42, 0x5a, 0x68], "a bzip2", "bunzip2 it first"],
  [[0xfd, 0x37, 0x7a, 0x58, 0x5a, 0], "an xz", "unxz it first"],
  [[0x28, 0xb5, 0x2f, 0xfd], "a zstd", "unzstd it first"],
  [[0x50, 0x4b, 3, 4], "a zip", "unzip it first"],
  [[0x7f, 0x45, 0x4c, 0x46], "an ELF file, a program of another system",
    "a PDP-11 program is an a.out or an absolute-loader tape"],
];

/** The word of two bytes, the low one first.
    @param {Uint8Array} bytes @param {number} at */
export const wordAt = (bytes, at) => bytes[at] | bytes[at + 1] << 8;

/** @param {Uint8Array} bytes @param {number[]} first */
const beginsWith = (bytes, first) =>
  first.every((it, at) => bytes[at] === it) && bytes.length >= first.length;

/** The place of the first byte from one on that isn't blank tape, or tape with all holes punched.
    @param {Uint8Array} bytes @param {number} from */
export function afterLeader(bytes, from) {
  let at = from;
  while (at < bytes.length && LEADER.has(bytes[at])) at += 1;
  return at;
}

/** Whether the first byte after the leader begins a block of the absolute loader.
    @param {Uint8Array} bytes */
export function beginsAsTape(bytes) {
  const at = afterLeader(bytes, 0);
  return bytes[at] === 1 && bytes[at + 1] === 0;
}

/** @param {Uint8Array} bytes */
export const beginsAsAout = bytes => bytes.length >= 2 && MAGIC_OF_AOUT.has(wordAt(bytes, 0));

/** @param {number} byte */
const isOfText = byte => byte > 0o37 && byte < 0o177 || [9, 10, 12, 13].includes(byte);

/** @param {Uint8Array} bytes */
export const isText = bytes =>
  bytes.length > 0 && bytes.subarray(0, BYTES_OF_TEXT).every(isOfText);

/** The first line of a SAVE file is a version such as V3.5, the second the simulator's name.
    @param {Uint8Array} bytes */
function isSave(bytes) {
  const text = String.fromCharCode(...bytes.subarray(0, 200));
  return /^V[0-9][^\n]*\nPDP-11/.test(text);
}

/** Each record has its length before and behind it, in four bytes; a tape mark has none. All
    records of the file are so, and there is one at least.
    @param {Uint8Array} bytes */
function isMagneticTape(bytes) {
  const view = new DataView(bytes.buffer, bytes.byteOffset, bytes.byteLength);
  let [at, records] = [0, 0];
  while (at + 4 <= bytes.length) {
    const length = view.getUint32(at, true);
    at += 4;
    if (length === END_OF_MEDIUM) break;
    if (length === TAPE_MARK && records) continue;
    if (length < LEAST_RECORD || length > MOST_RECORD) return false;
    at += length + length % 2;
    if (at + 4 > bytes.length || view.getUint32(at, true) !== length) return false;
    at += 4;
    records += 1;
  }
  return records > 0;
}

/** What a file is and what to do with it, if it is none of what the page reads; or null.
    @param {Uint8Array} bytes */
export function foreignOf(bytes) {
  const found = MAGIC.find(([first]) => beginsWith(bytes, first));
  if (found) return `${found[1]}: ${found[2]}`;
  if (isSave(bytes)) return "a SIMH SAVE file: restore it in SIMH, and attach a drive there";
  if (beginsWith(bytes, Array(16).fill(0xe9))) {
    return "a tape of the bootstrap loader, by its leader of bytes 351: open what it loads";
  }
  return isMagneticTape(bytes)
    ? "a .tap of SIMH, a magnetic tape: there is no such drive here; copy it to a disk in SIMH"
    : null;
}
