"""What the results of instructions are made of, as the page's module. `tools/web --tables` makes
web/made-of.js of this. The rows stand in src/nezdrab/analysis/made_of.py, and the names of
instructions in assembler.py."""
import textwrap

from nezdrab.analysis.assembler import INSTRUCTIONS, OPERATORS, OTHER_NAMES
from nezdrab.analysis.made_of import EXTENDED, LETTERS, MOVED, XOR, MadeRow, Plan, plan_of

WIDEST = 88
OPERATIONS = 0o2000  # the numbers that the upper ten bits of a word can be
MODULE = """\
// Made of made_of.py and assembler.py in src/nezdrab/analysis by tools/web --tables: change these,
// and make this one again.

/**
 * What the results of an instruction are made of: `low` and `high` the bytes that it stores, and
 * `codes` N, Z, V and C. Each letter stands for a part of the operands, by its place in LETTERS; no
 * letter is a constant, and KEPT isn't written. A copy changes no bit.
 * @typedef {{low: string, high: string, codes: string[], isCopy: boolean, isByte: boolean}} Row
 */

export const KEPT = "-";
export const LETTERS = "LETTERS_OF_PARTS";

/** @param {string} low @param {string} high @param {string} codes @returns {Row} */
const row = (low, high, codes, isCopy = false, isByte = false) =>
  ({ low, high, codes: codes.split(","), isCopy, isByte });

export const MOVED = ROW_OF_MOVED;
export const XOR = ROW_OF_XOR;
/** The rows of MUL, DIV, ASH and ASHC, by bits 11 to 9. */
export const EXTENDED = [
ROWS_OF_EXTENDED];

/** The rows of the other instructions with operands: each from one value of the upper ten bits of a
    word to another.
    @type {[number, number, Row][]} */
const ROWS = [
ROWS_OF_OPERANDS];

/** The row of an instruction with one or two operands, except the extended arithmetic, XOR and
    those of the previous mode; for a word of another kind null.
    @param {number} word */
export const rowOf = word =>
  ROWS.find(([first, last]) => word >> 6 >= first && word >> 6 <= last)?.[2] ?? null;

/** The names of instructions, in the syntax of MACRO-11. */
export const MNEMONICS = new Set((""
NAMES_OF_INSTRUCTIONS).split(" "));
"""


def call_of(row: MadeRow, is_byte: bool = False) -> str:
    """A row as a call that makes it."""
    codes = ",".join(row.codes)
    flags = ", true, true" if is_byte and row.is_copy else ", false, true" if is_byte else ""
    flags = flags or (", true" if row.is_copy else "")
    return f'row("{row.low}", "{row.high}", "{codes}"{flags})'


def ranges() -> list[tuple[int, int, Plan]]:
    """The plans, each with the first and the last value of the upper ten bits that has it."""
    found: list[tuple[int, int, Plan]] = []
    for at in range(OPERATIONS):
        plan = plan_of(at << 6)
        if plan is None:
            continue
        if found and found[-1][1:] == (at - 1, plan):
            found[-1] = found[-1][0], at, plan
        else:
            found.append((at, at, plan))
    return found


def names_of_instructions() -> str:
    """The names that the assembler takes, in lines of a page's module."""
    names = " ".join(sorted({*INSTRUCTIONS, *OTHER_NAMES, *OPERATORS}))
    return "\n".join(f'  + "{it} "' for it in textwrap.wrap(names, WIDEST))[:-2] + '"'


def as_module() -> str:
    """The text of web/made-of.js."""
    rows = (
        f"  [0o{first:o}, 0o{last:o}, {call_of(plan.row, plan.is_byte)}], // {plan.name}\n"
        for first, last, plan in ranges()
    )
    extended = (f"  {call_of(row)}, // {name}\n" for name, row in EXTENDED.values())
    parts = {
        "LETTERS_OF_PARTS": LETTERS,
        "ROW_OF_MOVED": call_of(MOVED),
        "ROW_OF_XOR": call_of(XOR),
        "ROWS_OF_EXTENDED": "".join(extended),
        "ROWS_OF_OPERANDS": "".join(rows),
        "NAMES_OF_INSTRUCTIONS": names_of_instructions(),
    }
    text = MODULE
    for name, held in parts.items():
        text = text.replace(name, held)
    return text
