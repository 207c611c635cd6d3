// Made of src/nezdrab/core/hardware.py by tools/web --tables: change that file, and make this one
// again.

// A drive: its cylinders, the surfaces of each, the sectors on each of these, and the words of one.
export const CYLINDERS = 203;
export const SURFACES = 2;
export const SECTORS = 12;
export const SECTOR_WORDS = 256;

/** The devices that interrupt, by their vectors.
    @type {Map<number, string>} */
export const INTERRUPTS = new Map([
  [0o60, "keyboard"],
  [0o64, "printer"],
  [0o70, "reader"],
  [0o74, "punch"],
  [0o100, "clock"],
  [0o220, "disk"],
]);

/** How many turns an operation of each device takes, and the period of the clock, at first. */
export const DELAYS = { printer: 1, reader: 4, punch: 4, disk: 10, clock: 0 };
