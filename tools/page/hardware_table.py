"""The numbers and names of the machine that explore and the page both know, as the page's module.
`tools/web --tables` makes web/hardware.js of this. The numbers stand in the package's module
nezdrab.core.hardware."""
from nezdrab.core.hardware import CYLINDERS, DELAYS, INTERRUPTS, SECTORS, SECTOR_WORDS, SURFACES

MODULE = """\
// Made of src/nezdrab/core/hardware.py by tools/web --tables: change that file, and make this one
// again.

// A drive: its cylinders, the surfaces of each, the sectors on each of these, and the words of one.
export const CYLINDERS = {cylinders};
export const SURFACES = {surfaces};
export const SECTORS = {sectors};
export const SECTOR_WORDS = {sector_words};

/** The devices that interrupt, by their vectors.
    @type {{Map<number, string>}} */
export const INTERRUPTS = new Map([
{interrupts}]);

/** How many turns an operation of each device takes, and the period of the clock, at first. */
export const DELAYS = {{ {delays} }};
"""


def as_module() -> str:
    """The text of web/hardware.js."""
    return MODULE.format(
        cylinders=CYLINDERS,
        surfaces=SURFACES,
        sectors=SECTORS,
        sector_words=SECTOR_WORDS,
        interrupts="".join(f'  [0o{at:o}, "{name}"],\n' for at, name in INTERRUPTS.items()),
        delays=", ".join(f"{name}: {turns}" for name, turns in DELAYS.items()),
    )
