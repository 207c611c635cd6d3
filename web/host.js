// The host of a program that was compiled to WebAssembly: what Linux and the C library give the
// native program. It has a heap, arguments, files to read, standard input, output and error. No
// proof covers it.
import { Heap } from "./heap.js";

const NO_SUCH_FILE = 2, BAD_FILE = 9;   // of Linux's errno
const INPUT = 0;
// Where the module's stack is kept while it waits for input.
const UNWOUND_BYTES = 1 << 20;
const UNWINDING = 1, REWINDING = 2;     // states of binaryen's asyncify

/**
 * Gives at most this number of bytes, none at the end. It may promise them.
 * @typedef {(most: number) => Uint8Array | Promise<Uint8Array>} Reader
 */

export class Host {
  /**
   * `read(most)` gives at most this number of bytes of standard input, none at its end. The result
   * may be a promise if the module can wait. `write(descriptor, bytes)` takes the bytes that go to
   * standard output (1) or error (2). `open(name)` gives a file's reader, or null if there is no
   * such file. `heap` has the options of the heap.
   * @param {WebAssembly.Module} module
   * @param {{args: string[], read: Reader, write: (descriptor: number, bytes: Uint8Array) => void,
   *   open?: (name: string) => Reader | null, heap?: object}} options
   */
  constructor(module, { args, read, write, open = () => null, heap = {} }) {
    this.module = module;
    this.args = args;
    this.read = read;
    this.write = write;
    this.open = open;
    this.heapOptions = heap;
    /** @type {any} what the module exports, once it is begun */
    this.exports = null;
    /** @type {Heap | null} */
    this.heap = null;
    this.canWait = false;
    /** Where the stack is kept while the module waits. */
    this.unwound = 0;
    this.errno = 0;
    this.files = new Map([[INPUT, read]]);
    this.nextFile = 3;
    /** Where the bytes of a read go, and how many may. */
    this.wanted = { address: 0n, count: 0 };
    /** @type {Promise<Uint8Array>} what `read` promised, while the module waits */
    this.waiting = Promise.resolve(new Uint8Array());
    this.bytesRead = 0;
  }

  // Runs the program to its end. Resolves with its exit status.
  async run() {
    this.begin();
    let status = this.exports.program_main();
    while (this.canWait && this.exports.asyncify_get_state() === UNWINDING) {
      this.exports.asyncify_stop_unwind();
      this.bytesRead = this.put(await this.waiting);
      this.exports.asyncify_start_rewind(this.unwound);
      status = this.exports.program_main();
    }
    return status;
  }

  begin() {
    /** @type {{exports: any}} */
    const { exports } = new WebAssembly.Instance(this.module, { host: this.imports() });
    this.exports = exports;
    const heap = new Heap(exports.memory, Number(exports.__heap_base.value), this.heapOptions);
    this.heap = heap;
    this.canWait = "asyncify_get_state" in exports;
    if (!this.canWait) return;
    // A record of asyncify: where the kept stack ends so far, and where it may end.
    this.unwound = heap.block(UNWOUND_BYTES);
    const bounds = new Uint32Array(exports.memory.buffer, this.unwound, 2);
    bounds.set([this.unwound + 8, this.unwound + UNWOUND_BYTES]);
  }

  /** @param {bigint | number} address @param {bigint | number} count */
  bytes(address, count) {
    return new Uint8Array(this.exports.memory.buffer, Number(address), Number(count));
  }

  /** Addresses and sizes are 64-bit integers at this border, also in a memory of 32 bits.
      @returns {Object<string, (...words: any[]) => any>} */
  imports() {
    return {
      malloc: size => BigInt(this.theHeap.malloc(Number(size))),
      realloc: (address, size) => BigInt(this.theHeap.realloc(Number(address), Number(size))),
      free: address => this.theHeap.free(Number(address)),
      read: (descriptor, address, count) => this.readInto(descriptor, address, count),
      write: (descriptor, address, count) => {
        this.write(descriptor, this.bytes(address, count).slice());
        return count;
      },
      open: address => this.openFile(this.textAt(Number(address))),
      close: descriptor => (this.files.delete(descriptor) ? 0 : this.fails(BAD_FILE)),
      rattle_arg_count: () => BigInt(this.args.length),
      rattle_arg: (at, address, count) => this.argumentInto(Number(at), address, count),
      rattle_errno: () => this.errno,
      rattle_set_errno: number => { this.errno = number; },
      __sysv_signal: () => 0n,
    };
  }

  /** The heap, which is there while the module runs. */
  get theHeap() {
    if (!this.heap) throw new Error("the module isn't begun");
    return this.heap;
  }

  /** @param {number} errno */
  fails(errno) {
    this.errno = errno;
    return -1;
  }

  /** @param {number} address */
  textAt(address) {
    const memory = new Uint8Array(this.exports.memory.buffer);
    return new TextDecoder().decode(memory.subarray(address, memory.indexOf(0, address)));
  }

  /** @param {string} name */
  openFile(name) {
    const reader = this.open(name);
    if (reader === null) return this.fails(NO_SUCH_FILE);
    this.files.set(this.nextFile, reader);
    return this.nextFile++;
  }

  /** @param {number} at @param {bigint} address @param {bigint} count */
  argumentInto(at, address, count) {
    if (at >= this.args.length) return -1n;
    const argument = new TextEncoder().encode(this.args[at]);
    this.bytes(address, count).set(argument.subarray(0, Number(count)));
    return BigInt(argument.length);
  }

  /** @param {number} descriptor @param {bigint} address @param {bigint} count */
  readInto(descriptor, address, count) {
    if (this.canWait && this.exports.asyncify_get_state() === REWINDING) {
      this.exports.asyncify_stop_rewind();
      return BigInt(this.bytesRead);
    }
    const reader = this.files.get(descriptor);
    if (!reader) return BigInt(this.fails(BAD_FILE));
    this.wanted = { address, count: Number(count) };
    const found = reader(Number(count));
    if (!(found instanceof Promise)) return BigInt(this.put(found));
    this.waiting = found;
    this.exports.asyncify_start_unwind(this.unwound);
    return 0n;
  }

  /** Puts bytes to where the module reads; returns how many.
      @param {Uint8Array} found */
  put(found) {
    const { address, count } = this.wanted;
    if (found.length > count) throw new RangeError("a reader gave more than was asked of it");
    this.bytes(address, found.length).set(found);
    return found.length;
  }
}

/** A reader of bytes that are all there.
    @param {Uint8Array} bytes @returns {(most: number) => Uint8Array} */
export function readerOf(bytes) {
  let at = 0;
  return most => {
    const found = bytes.subarray(at, at + most);
    at += found.length;
    return found;
  };
}

/** A reader of a file of zeros without an end.
    @param {number} most */
export const zeros = most => new Uint8Array(most);
