"""What results are made of: a row for each kind of instruction, by docs/MACHINE.md, Instructions.

s and S are the low and the high byte of the source, d and D those of the destination, or of the one
operand; r is the register, or the pair, of the extended arithmetic; C and N are these codes. A part
of a result is made of the letters of its column. `""` is a constant, `-` isn't written."""
import functools
from typing import Optional, Sequence

from ..core.values import dataclass

KEPT = "-"
LETTERS = "sSdDrCN"
PLACES = {letter: at for at, letter in enumerate(LETTERS)}


@dataclass(frozen=True)
class MadeRow:
    """The letters of the low and the high byte of a result, and of the codes N, Z, V and C. A copy
    changes no bit."""

    low: str
    high: str
    n: str
    z: str
    v: str
    c: str
    is_copy: bool = False

    @property
    def codes(self) -> tuple[str, str, str, str]:
        return self.n, self.z, self.v, self.c

    @property
    def is_stored(self) -> bool:
        return self.low != KEPT


BOTH, ADD = "sSdD", "ADD"
TWO_OPERANDS = {  # by bits 14-12
    1: ("MOV", MadeRow("s", "S", "S", "sS", "", "-", True)),
    2: ("CMP", MadeRow("-", "-", BOTH, BOTH, BOTH, BOTH)),
    3: ("BIT", MadeRow("-", "-", "SD", BOTH, "", "-")),
    4: ("BIC", MadeRow("sd", "SD", "SD", BOTH, "", "-")),
    5: ("BIS", MadeRow("sd", "SD", "SD", BOTH, "", "-")),
    6: (ADD, MadeRow("sd", BOTH, BOTH, BOTH, BOTH, BOTH)),  # and SUB
}
XOR = MadeRow("sd", "SD", "SD", BOTH, "", "-")
ONE_OPERAND = {  # by bits 11-6
    0o50: ("CLR", MadeRow("", "", "", "", "", "")),
    0o51: ("COM", MadeRow("d", "D", "D", "dD", "", "")),
    0o52: ("INC", MadeRow("d", "dD", "dD", "dD", "dD", "-")),
    0o53: ("DEC", MadeRow("d", "dD", "dD", "dD", "dD", "-")),
    0o54: ("NEG", MadeRow("d", "dD", "dD", "dD", "dD", "dD")),
    0o55: ("ADC", MadeRow("dC", "dDC", "dDC", "dDC", "dDC", "dDC")),
    0o56: ("SBC", MadeRow("dC", "dDC", "dDC", "dDC", "dDC", "dDC")),
    0o57: ("TST", MadeRow("-", "-", "D", "dD", "", "")),
    0o60: ("ROR", MadeRow("dD", "DC", "C", "dDC", "dC", "d")),
    0o61: ("ROL", MadeRow("dC", "dD", "D", "dDC", "D", "D")),
    0o62: ("ASR", MadeRow("dD", "D", "D", "dD", "dD", "d")),
    0o63: ("ASL", MadeRow("d", "dD", "D", "dD", "D", "D")),
}
SWAB = MadeRow("D", "d", "D", "D", "", "")
SXT = MadeRow("N", "N", "-", "N", "", "-")
# The count of ASH and ASHC is in the low byte of the source. Of DIV the registers may stay.
EXTENDED = {  # by bits 11-9
    0: ("MUL", MadeRow("sSr", "sSr", "sSr", "sSr", "", "sSr")),
    1: ("DIV", MadeRow("sSr", "sSr", "sSr", "sSr", "sSr", "sSr")),
    2: ("ASH", MadeRow("sr", "sr", "sr", "sr", "sr", "sr")),
    3: ("ASHC", MadeRow("sr", "sr", "sr", "sr", "sr", "sr")),
}
# A word that MFPI pushes, or that MTPI pops: codes as those of MOV.
MOVED = TWO_OPERANDS[1][1]


def letters(*parts: str) -> str:
    """These letters, each once, in the order of LETTERS."""
    return "".join(it for it in LETTERS if any(it in part for part in parts))


def of_bytes(words: MadeRow) -> MadeRow:
    """The row of the byte form: what the high byte was made of, the low byte is then. The high byte
    stays, except that MOVB to a register fills it with the sign."""
    low = KEPT if words.low == KEPT else in_low(words.low + words.high)
    n, z, v, c = (it if it == KEPT else in_low(it) for it in words.codes)
    return MadeRow(low, KEPT, n, z, v, c, words.is_copy)


def in_low(part: str) -> str:
    return letters(part.replace("S", "s").replace("D", "d"))


def made_of(part: str, inputs: Sequence[tuple[int, ...]]) -> tuple[int, ...]:
    """The cells of a part, from those that each letter stands for, in the order of LETTERS."""
    found: tuple[int, ...] = ()
    for letter in part:
        found += inputs[PLACES[letter]]
    return found


@dataclass(frozen=True)
class Plan:
    """An instruction with one or two operands, except the extended arithmetic and those of the
    previous mode."""

    name: str
    row: MadeRow
    is_byte: bool


@functools.lru_cache(maxsize=None)
def plan_of(word: int) -> Optional[Plan]:
    """The plan of an instruction word, or None for a word of another kind."""
    is_byte, kind, operation = bool(word & 0o100000), word >> 12 & 7, word >> 6 & 0o77
    if kind in TWO_OPERANDS:
        name, words = TWO_OPERANDS[kind]
        is_byte = is_byte and name != ADD
    elif kind == 0 and operation in ONE_OPERAND:
        name, words = ONE_OPERAND[operation]
    elif word >> 6 == 0o3:
        name, words = "SWAB", SWAB
    elif word >> 6 == 0o67:
        name, words = "SXT", SXT
    else:
        return None
    return Plan(name, of_bytes(words) if is_byte else words, is_byte)
