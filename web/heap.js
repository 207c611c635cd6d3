// The heap of a WebAssembly module: malloc, realloc and free over the module's memory, as the C
// library gives them to a program on Linux. Sizes and addresses are numbers.

const PAGE = 65536;
const SMALLEST = 16;
// The memory grows by at least this number of pages, since each growth takes a while.
const GROWTH = 256;

export class Heap {
  /**
   * It refuses requests past `limit` bytes of memory, and the requests whose number, from 1,
   * `isRefused` is true of.
   * @param {WebAssembly.Memory} memory @param {number} base
   * @param {{limit?: number, isRefused?: (number: number) => boolean}} options
   */
  constructor(memory, base, { limit = 2 ** 32 - PAGE, isRefused = () => false } = {}) {
    this.memory = memory;
    this.limit = limit;
    this.isRefused = isRefused;
    // the end of the blocks that were ever given; no block is at 0, which says that it was refused
    this.end = Math.max(Math.ceil(base / PAGE), 1) * PAGE;
    /** @type {Map<number, number>} by address, the sizes of the blocks in use */
    this.sizes = new Map();
    /** @type {Map<number, number[]>} by size, the addresses of blocks given back */
    this.spare = new Map();
    this.requests = 0;
  }

  /** The address of a block of at least `bytes` bytes, or 0 if it is refused.
      @param {number} bytes */
  malloc(bytes) {
    this.requests += 1;
    return this.isRefused(this.requests) ? 0 : this.block(bytes);
  }

  /** @param {number} address @param {number} bytes */
  realloc(address, bytes) {
    if (address === 0) return this.malloc(bytes);
    this.requests += 1;
    if (this.isRefused(this.requests)) return 0;
    const size = this.sizes.get(address) ?? 0;
    if (bytes <= size) return address;
    const moved = this.block(bytes);
    if (moved === 0) return 0;
    new Uint8Array(this.memory.buffer).copyWithin(moved, address, address + size);
    this.free(address);
    return moved;
  }

  /** @param {number} address */
  free(address) {
    const size = this.sizes.get(address);
    if (address === 0 || size === undefined) return;
    this.sizes.delete(address);
    const spare = this.spare.get(size) ?? [];
    this.spare.set(size, spare);
    spare.push(address);
  }

  /** @param {number} bytes */
  block(bytes) {
    const size = sizeOfBlock(bytes);
    const spare = this.spare.get(size);
    let address = spare?.pop();
    if (address === undefined) {
      if (!this.reaches(this.end + size)) return 0;
      address = this.end;
      this.end += size;
    }
    this.sizes.set(address, size);
    return address;
  }

  /** Whether the memory has this number of bytes, after it has grown if it must.
      @param {number} bytes */
  reaches(bytes) {
    if (bytes > this.limit) return false;
    const missing = Math.ceil((bytes - this.memory.buffer.byteLength) / PAGE);
    return missing <= 0 || this.grows(Math.max(missing, GROWTH)) || this.grows(missing);
  }

  /** @param {number} pages */
  grows(pages) {
    try {
      this.memory.grow(pages);
      return true;
    } catch (error) {
      if (error instanceof RangeError) return false;
      throw error;
    }
  }
}

/** A power of two up to a page, and then whole pages: so a block that was given back fits again.
    @param {number} bytes */
function sizeOfBlock(bytes) {
  if (bytes > PAGE) return Math.ceil(bytes / PAGE) * PAGE;
  let size = SMALLEST;
  while (size < bytes) size *= 2;
  return size;
}
