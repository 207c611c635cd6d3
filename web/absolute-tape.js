// Paper tapes of the absolute loader. A block is the bytes 001 000, a count, an address, data, and
// a checksum that makes the sum of all bytes of the block 0, modulo 256. Count and address have two
// bytes each, the low one first, and the count is that of all bytes before the checksum. A block
// without data, so with the count 6, ends the tape: its address is where the program begins, or odd
// if the loader is to halt. Between blocks there is leader.

import { afterLeader, wordAt } from "./kinds.js";
import { FileError } from "./options.js";
import { octal } from "./replies.js";

const [HEAD_BYTES, IO_PAGE] = [6, 0o160000];

/**
 * What a tape loads, byte by byte, its transfer address, and the place after the last block.
 * @typedef {{blocks: number, bytes: Map<number, number>, transfer: number, end: number}} Tape
 */

/** The block that begins at a byte of the tape.
    @param {Uint8Array} tape @param {number} at */
function blockAt(tape, at) {
  const head = tape.subarray(at, at + HEAD_BYTES);
  if (head[0] !== 1 || head.length > 1 && head[1] !== 0) {
    const found = [...head.subarray(0, 2)].map(it => octal(it, 3)).join(" ");
    throw new FileError(`byte ${at}: a block begins 001 000, and here is ${found}`);
  }
  const ends = `the tape ends in the block that begins at byte ${at}`;
  if (head.length < HEAD_BYTES) throw new FileError(ends);
  const size = wordAt(head, 2), end = at + size + 1;
  if (size < HEAD_BYTES) {
    throw new FileError(`byte ${at + 2}: the count is ${size}, less than ${HEAD_BYTES}`);
  }
  if (end > tape.length) throw new FileError(`${ends} and has ${size + 1} bytes`);
  checkSum(tape, at, end);
  return { address: wordAt(head, 4), data: tape.subarray(at + HEAD_BYTES, end - 1), end };
}

/** @param {Uint8Array} tape @param {number} at @param {number} end */
function checkSum(tape, at, end) {
  const total = tape.subarray(at, end).reduce((sum, it) => sum + it, 0), last = tape[end - 1];
  if (total % 256 === 0) return;
  throw new FileError(`byte ${end - 1}: the checksum is ${octal(last, 3)}, and `
    + `${octal(last - total & 0o377, 3)} would be right for the block that begins at byte ${at}`);
}

/** What the tape loads; or an error says at which byte it is wrong.
    @param {Uint8Array} tape @returns {Tape} */
export function tapeOf(tape) {
  /** @type {Map<number, number>} */
  const bytes = new Map();
  for (let [at, blocks] = [afterLeader(tape, 0), 1]; ; blocks += 1) {
    if (at === tape.length) {
      throw new FileError(`the tape ends after byte ${at - 1} without a transfer address`);
    }
    const { address, data, end } = blockAt(tape, at), last = address + data.length - 1;
    if (!data.length) return { blocks, bytes, transfer: address, end };
    if (last >= IO_PAGE) {
      throw new FileError(`byte ${at}: the block goes on to address ${octal(last, 0)}, and core `
        + `that a loader can reach ends at ${octal(IO_PAGE - 1, 0)}`);
    }
    data.forEach((it, place) => bytes.set(address + place, it));
    at = afterLeader(tape, end);
  }
}
