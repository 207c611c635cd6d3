// heap.mjs: what the heap of the page's host gives and refuses. The last line is 'N passed, M
// failed'.
import { Heap } from "../../web/heap.js";
import { Counts } from "./stored.mjs";

const PAGE = 65536;
const counts = new Counts();
const same = (found, wanted, what) => {
  const isSame = JSON.stringify(found) === JSON.stringify(wanted);
  counts.holds(isSame, `${what}: ${found}, not ${wanted}`);
};
const memory = (maximum = 1000) => new WebAssembly.Memory({ initial: 1, maximum });
const inUse = heap => [...heap.sizes].sort(([one], [other]) => one - other);

function blocksLieApart() {
  const heap = new Heap(memory(), 1000);
  const sizes = [1, 16, 17, 4096, PAGE, PAGE + 1, 3 * PAGE];
  for (const size of sizes) heap.malloc(size);
  let end = 1000;
  inUse(heap).forEach(([address, size], at) => {
    counts.holds(address >= end && address % 16 === 0, `a block at ${address} lies in another`);
    counts.holds(size >= sizes[at], `a block of ${size} is too small`);
    end = address + size;
  });
  counts.holds(end <= heap.memory.buffer.byteLength, "the last block lies in the memory");
}

function givenBackBlocksComeAgain() {
  const heap = new Heap(memory(), 0);
  const [first, second] = [heap.malloc(100), heap.malloc(100)];
  heap.free(first);
  same(heap.malloc(128), first, "a block of one size");
  heap.free(0);
  heap.free(second);
  counts.holds(heap.malloc(129) !== second, "a larger block doesn't fit");
}

function movedBlocksKeepTheirBytes() {
  const heap = new Heap(memory(), 0);
  const bytes = (at, count) => new Uint8Array(heap.memory.buffer, at, count);
  const old = heap.malloc(16);
  bytes(old, 16).fill(7);
  same(heap.realloc(old, 10), old, "a smaller block stays");
  const moved = heap.realloc(old, 20 * PAGE);
  same([...bytes(moved, 16)], Array(16).fill(7), "the bytes of a moved block");
  same(heap.malloc(16), old, "the old block is given back");
  counts.holds(heap.realloc(0, 16) > 0, "realloc of no block is malloc");
}

function aLimitRefuses() {
  const heap = new Heap(memory(), 0, { limit: 5 * PAGE });
  const block = heap.malloc(3 * PAGE);
  same(heap.malloc(2 * PAGE), 0, "past the limit");
  same(heap.realloc(block, 5 * PAGE), 0, "moved past the limit");
  same(heap.sizes.get(block), 3 * PAGE, "a block that can't be moved stays");
  counts.holds(heap.malloc(PAGE) > 0, "up to the limit");
}

function aMemoryThatCannotGrowRefuses() {
  const heap = new Heap(memory(3), 0);
  same(heap.malloc(3 * PAGE), 0, "the memory can't grow so far");
  counts.holds(heap.malloc(2 * PAGE) > 0, "by fewer pages than it grows by otherwise");
}

function oneRequestIsRefused() {
  const heap = new Heap(memory(), 0, { isRefused: number => number === 2 });
  const block = heap.malloc(16);
  same(heap.realloc(block, 8), 0, "the second request");
  counts.holds(heap.malloc(16) > 0, "the third request");
  same(heap.requests, 3, "requests");
}

blocksLieApart();
givenBackBlocksComeAgain();
movedBlocksKeepTheirBytes();
aLimitRefuses();
aMemoryThatCannotGrowRefuses();
oneRequestIsRefused();
counts.end();
