// The worker in which a program runs. The page posts
//   {start: {module, program, arguments, files}}  once: the compiled module, its name, the words of
//                                                 its command line, and the files by their names;
//   {id, lines}                                   lines without their ends, bytes as latin-1.
// The worker posts
//   {id, replies}                                 the reply to each line, as latin-1, with its line
//                                                 feeds; empty for a comment;
//   {ended, error}                                the program has ended: with this exit status, and
//                                                 this text on standard error. If the module failed
//                                                 the status is null, and the text says how.
import { Host, readerOf } from "./host.js";

const OUTPUT = 1;

/**
 * What a program is started with, and what it is asked, with the replies so far.
 * @typedef {{module: WebAssembly.Module, program: string, arguments: string[],
 *   files: Object<string, Uint8Array>}} Start
 * @typedef {{id: number, lines: string[], replies: string[]}} Batch
 * @typedef {import("./host.js").Reader} Reader
 */

// The parts are put together first, since a long reply has one for each line. A call takes no more
// than so many arguments, and with `apply` it takes them as they are.
/** @param {Uint8Array[]} parts */
const latin1 = parts => {
  const bytes = new Uint8Array(parts.reduce((sum, it) => sum + it.length, 0));
  let text = "", end = 0;
  for (const part of parts) {
    bytes.set(part, end);
    end += part.length;
  }
  for (let at = 0; at < end; at += 4096) {
    const part = /** @type {any} */ (bytes.subarray(at, at + 4096));
    text += String.fromCharCode.apply(null, part);
  }
  return text;
};

/** The bytes of a line with its end. A character that is no byte becomes a question mark.
    @param {string} line */
const bytesOf = line => Uint8Array.from([...`${line}\n`], it => {
  const code = it.codePointAt(0) ?? 0;
  return code < 256 ? code : 63;
});

// What a program is given and gives: its files, and what it has written since it was last taken.
class Streams {
  /** @param {Start} start */
  constructor({ program, arguments: words, files }) {
    this.args = [program, ...words];
    this.files = files;
    /** @type {Uint8Array[]} */
    this.output = [];
    /** @type {Uint8Array[]} */
    this.errors = [];
  }

  /** Runs the program to its end; resolves with its status, or null if the module fails.
      @param {WebAssembly.Module} module @param {Reader} read
      @returns {Promise<number | null>} */
  async run(module, read) {
    const host = new Host(module, {
      args: this.args,
      read,
      write: (descriptor, bytes) => {
        (descriptor === OUTPUT ? this.output : this.errors).push(bytes);
      },
      open: name => (Object.hasOwn(this.files, name) ? readerOf(this.files[name]) : null),
    });
    try {
      return await host.run();
    } catch (error) {
      this.errors.push(new TextEncoder().encode(`the module failed: ${error}`));
      return null;
    }
  }

  taken() {
    const text = latin1(this.output);
    this.output = [];
    return text;
  }
}

// A program that is kept between lines. It reads on only after it has written the replies to all
// lines that it has, so with one line at a time what it wrote is the reply to that line.
class Conversation {
  /** @param {Start} start */
  constructor(start) {
    this.streams = new Streams(start);
    /** @type {Batch[]} what is asked */
    this.batches = [];
    /** What the program has yet to read of the present line. */
    this.rest = new Uint8Array();
    /** Whether the program is answering a line. */
    this.isAsked = false;
    /** @type {(() => void) | null} what goes on reading, if it waits */
    this.wake = null;
    this.run(start.module);
  }

  /** @param {WebAssembly.Module} module */
  async run(module) {
    const ended = await this.streams.run(module, most => this.read(most));
    postMessage({ ended, error: latin1(this.streams.errors) });
  }

  /** @param {number} id @param {string[]} lines */
  take(id, lines) {
    this.batches.push({ id, lines, replies: [] });
    this.wake?.();
  }

  /** @param {number} most @returns {Uint8Array | Promise<Uint8Array>} */
  read(most) {
    if (this.rest.length === 0) this.nextLine();
    if (this.rest.length > 0) return this.part(most);
    return new Promise(resolve => {
      this.wake = () => {
        this.nextLine();
        if (this.rest.length === 0) return;
        this.wake = null;
        resolve(this.part(most));
      };
    });
  }

  // Keeps the reply to the line that was read, posts what is complete, and goes to the next line.
  nextLine() {
    if (this.isAsked) this.batches[0].replies.push(this.streams.taken());
    this.isAsked = false;
    while (this.batches.length > 0) {
      const { id, lines, replies } = this.batches[0];
      if (replies.length < lines.length) {
        this.rest = bytesOf(lines[replies.length]);
        this.isAsked = true;
        return;
      }
      this.batches.shift();
      postMessage({ id, replies });
    }
  }

  /** @param {number} most */
  part(most) {
    const found = this.rest.subarray(0, most);
    this.rest = this.rest.subarray(most);
    return found;
  }
}

// A program that can't wait for input, and has one line for each: it is run anew for each batch.
class Filter {
  /** @param {Start} start */
  constructor(start) {
    this.start = start;
  }

  /** @param {number} id @param {string[]} lines */
  async take(id, lines) {
    const streams = new Streams(this.start);
    const parts = lines.map(bytesOf);
    /** @type {Reader} */
    const read = most => {
      while (parts.length > 0 && parts[0].length === 0) parts.shift();
      if (parts.length === 0) return new Uint8Array();
      const found = parts[0].subarray(0, most);
      parts[0] = parts[0].subarray(most);
      return found;
    };
    const ended = await streams.run(this.start.module, read);
    if (ended === 0) postMessage({ id, replies: streams.taken().match(/[^\n]*\n/g) ?? [] });
    else postMessage({ ended, error: latin1(streams.errors) });
  }
}

/** @param {WebAssembly.Module} module */
const canWait = module =>
  WebAssembly.Module.exports(module).some(it => it.name === "asyncify_get_state");

/** @type {Conversation | Filter | null} */
let program = null;

self.onmessage = ({ data }) => {
  const { start, id, lines } = data;
  if (start) program = canWait(start.module) ? new Conversation(start) : new Filter(start);
  else program?.take(id, lines);
};
