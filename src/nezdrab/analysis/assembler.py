"""The one-line assembler: an instruction in the syntax of MACRO-11, as the text that the program
disassemble writes for it. Labels, symbols, numbers in sums and comments end here; the program knows
the words of a text."""
import re
from typing import Callable

from ..core.errors import ExploreError
from ..core.language import MOST_DIGITS
from ..core.values import dataclass

WORDS, LARGEST, SMALLEST = 0o200000, 0o177777, -0o100000
REGISTERS = ("R0", "R1", "R2", "R3", "R4", "R5", "SP", "PC")
NAMES_OF_REGISTERS = {
    **{it: it for it in REGISTERS},
    **{f"{letter}{at}": it for letter in "R%" for at, it in enumerate(REGISTERS)},
}
# A number, a label such as 1$, a symbol or `.`, and numbers after + and -.
TERM = r"[0-9]+[.$]?|[A-Za-z_.$~?][A-Za-z0-9_.$~?]*"
NUMBER = re.compile(rf"(-?)({TERM})((?:[+-][0-9]+\.?)*)")
OFFSET = re.compile(r"([+-])([0-9]+\.?)")
MODED = re.compile(r"([^()]*)\(([^()]*)\)(\+?)")
LABEL = re.compile(r"([0-9]{1,5}[$]|[A-Za-z_.$~?][A-Za-z0-9_.$~?]*)::?")
LABEL_OR_NAME = rf"(?:{LABEL.pattern}|[A-Za-z])"  # how an instruction begins
# A character after ', or two after ", with nothing beside them that would be a part of a number; or
# any other character.
PIECE = re.compile(
    r"(?<![\w.$~?%'\"])(?:'(?P<one>[ -~])|\"(?P<two>[ -~]{2}))(?![\w.$~?%'\"])|.", re.DOTALL
)
BLANKS = " \t"
CODES = "NZVC"  # in the order of a text that has several


def value_of(text: str) -> int:
    """An octal number, or with a point at its end a decimal one."""
    digits = text.rstrip(".")
    if len(digits) > MOST_DIGITS:
        raise ExploreError(f"a number has {len(digits)} digits, more than {MOST_DIGITS}")
    if digits != text:
        return int(digits)
    if set(digits) & set("89"):
        raise ExploreError(f"{text} isn't octal; the decimal number is {text}.")
    return int(digits, 8)


def in_numbers(text: str) -> str:
    """The text without a comment, and with an octal number for characters in quotes."""
    pieces = []
    for found in PIECE.finditer(text):
        if found[0] == ";":
            break
        characters = (found["one"] or found["two"] or "").encode()
        number = int.from_bytes(characters, "little")
        pieces.append(f"{number:o}" if characters else found[0])
    return "".join(pieces).strip(BLANKS)


def check_most(text: str, value: int, largest: int) -> None:
    if value > largest:
        octal = "" if text == f"{value:o}" else f"{value:o}, "
        raise ExploreError(f"{text} is {octal}more than {largest:o}")


@dataclass
class Assembly:
    """An instruction in the making: its address, what gives the number of a symbol, its labels, and
    how many words of operands follow its own so far."""

    address: int
    symbol: Callable[[str], int]
    labels: frozenset[str]
    following: int = 0

    @property
    def end(self) -> int:
        """The address after the words so far."""
        return self.address + 2 + 2 * self.following

    # Numbers

    def number(self, text: str) -> int:
        """The word that a number, or a symbol, with numbers after + and - is."""
        match = NUMBER.fullmatch(text)
        if match is None:
            said = f"'{text}' is no number and no symbol" if text else "a number is missing"
            raise ExploreError(said)
        sign, first, offsets = match.groups()
        value = self.term(first) * (-1 if sign else 1)
        for plus, offset in OFFSET.findall(offsets):
            value += value_of(offset) * (-1 if plus == "-" else 1)
        check_most(text, value, LARGEST)
        if value < SMALLEST:
            raise ExploreError(f"{text} is less than {SMALLEST:o}, the smallest word")
        return value % WORDS

    def term(self, text: str) -> int:
        if text == "." or text.upper() in self.labels:
            return self.address
        if text[0].isdigit() and text.endswith("$"):
            raise ExploreError(f"no label {text}: stands before this instruction")
        return value_of(text) if text[0].isdigit() else self.symbol(text)

    def limited(self, text: str, largest: int) -> str:
        value = self.number(text)
        check_most(text, value, largest)
        return f"{value:o}"

    def code(self, text: str) -> str:
        return self.limited(text, 0o377)

    def count(self, text: str) -> str:
        return self.limited(text, 0o77)

    # Targets

    def target(self, text: str, first: int, last: int) -> str:
        """The address of a target, whose distance in words must be in these bounds."""
        target, begin = self.number(text), self.address + 2
        if target % 2:
            raise ExploreError(f"the target {target:o} is odd")
        words = ((target - begin - SMALLEST) % WORDS + SMALLEST) // 2
        if not first <= words <= last:
            ends = [f"{(begin + 2 * it) % WORDS:o}" for it in (first, last)]
            raise ExploreError(
                f"the target {target:o} is too far: from {self.address:o} this instruction reaches"
                f" {' to '.join(ends)}"
            )
        return f"{target:o}"

    def branch(self, text: str) -> str:
        return self.target(text, -0o200, 0o177)

    def loop(self, text: str) -> str:
        return self.target(text, -0o77, 0)

    # Operands with a mode

    def register(self, text: str) -> str:
        name = NAMES_OF_REGISTERS.get(text.strip(BLANKS).upper())
        if name is None:
            raise ExploreError(f"'{text}' is no register: R0 to R7, SP and PC are")
        return name

    def operand(self, text: str) -> str:
        at = text[:1] if text.startswith("@") else ""
        bare = text[len(at) :]
        if bare.startswith("#"):
            return f"{at}#{self.put(self.number(bare[1:])):o}"
        if bare.upper() in NAMES_OF_REGISTERS:
            name = self.register(bare)
            return f"({name})" if at else name
        match = MODED.fullmatch(bare)
        if match:
            return self.moded(text, at, match)
        if not NUMBER.fullmatch(bare):
            raise ExploreError(f"'{text}' is no operand")
        return f"{at}{self.put(self.number(bare)):o}"

    def moded(self, text: str, at: str, match: "re.Match[str]") -> str:
        """What has a register in parentheses."""
        before, inside, plus = match.groups()
        name = self.register(inside)
        if plus and before:
            raise ExploreError(f"'{text}' is no operand")
        if plus and name == "PC":
            raise ExploreError(f"'{text}' takes a word that isn't here: write {at}#N")
        if plus or before == "-" or not (before or at):
            return f"{at}{before}({name}){plus}"
        index = self.put(self.number(before or "0"))
        return f"{at}{(self.end + index) % WORDS:o}" if name == "PC" else f"{at}{index:o}({name})"

    def put(self, number: int) -> int:
        """The number, of which the operand has a word of its own."""
        self.following += 1
        return number


Field = Callable[[Assembly, str], str]


@dataclass(frozen=True)
class Format:
    """Instructions with the same operands: what these are, how each is read, and the names."""

    operands: str
    fields: tuple[Field, ...]
    names: str
    usual: str = ""  # the operands of one that has none

    def text(self, name: str, rest: str, making: Assembly) -> str:
        typed = [it.strip(BLANKS) for it in rest.split(",")] if rest else []
        if len(typed) != len(self.fields) or "" in typed:
            comma = ", with a comma between them" if len(self.fields) > 1 else ""
            raise ExploreError(f"{name} takes {self.operands}{comma}")
        texts = [of(making, operand) for of, operand in zip(self.fields, typed)]
        begin = SHOWN_AS.get(name, f"{name} ")
        return f"{begin}{','.join(texts)}".rstrip()


KINDS = (
    Format("no operand", (), "HALT WAIT RTI BPT IOT RESET RTT RETURN"),
    Format(
        "one operand",
        (Assembly.operand,),
        "JMP CALL SWAB CLR COM INC DEC NEG ADC SBC TST ROR ROL ASR ASL MFPI MTPI SXT"
        " CLRB COMB INCB DECB NEGB ADCB SBCB TSTB RORB ROLB ASRB ASLB",
    ),
    Format(
        "a source and a destination",
        (Assembly.operand, Assembly.operand),
        "MOV CMP BIT BIC BIS ADD MOVB CMPB BITB BICB BISB SUB",
    ),
    Format("a register and a destination", (Assembly.register, Assembly.operand), "JSR XOR"),
    Format("a source and a register", (Assembly.operand, Assembly.register), "MUL DIV ASH ASHC"),
    Format("a register", (Assembly.register,), "RTS"),
    Format(
        "an address",
        (Assembly.branch,),
        "BR BNE BEQ BGE BLT BGT BLE BPL BMI BHI BLOS BVC BVS BCC BCS",
    ),
    Format("a register and an address", (Assembly.register, Assembly.loop), "SOB"),
    Format("a number", (Assembly.code,), "EMT TRAP", usual="0"),
    Format("a number", (Assembly.count,), "MARK"),
)
INSTRUCTIONS = {name: kind for kind in KINDS for name in kind.names.split()}
OTHER_NAMES = {"BHIS": "BCC", "BLO": "BCS"}
SHOWN_AS = {"CALL": "JSR PC,", "RETURN": "RTS PC"}
# The operators of condition codes, and the letters of the codes that each clears or sets.
OPERATORS = {
    **{f"{verb}{code}": code for verb in ("CL", "SE") for code in CODES},
    **{"NOP": "", "CCC": CODES, "SCC": CODES},
}


def is_mnemonic(word: str) -> bool:
    name = word.upper()
    return name in INSTRUCTIONS or name in OTHER_NAMES or name in OPERATORS


def operators_together(names: list[str]) -> str:
    """Operators that clear condition codes, or set them, as one instruction."""
    wrong = next((it for it in names if it not in OPERATORS), None)
    if wrong is not None:
        raise ExploreError(f"{names[0]} takes no operand; '{wrong}' is no operator of codes")
    sets = {it[0] == "S" for it in names}
    if len(sets) > 1:
        raise ExploreError("one instruction clears condition codes or sets them, not both")
    codes = {code for it in names for code in OPERATORS[it]}
    all_of_them, verb = ("SCC", "SE") if True in sets else ("CCC", "CL")
    joined = " ".join(f"{verb}{it}" for it in CODES if it in codes) or "NOP"
    return all_of_them if len(codes) == len(CODES) else joined


def instruction_text(text: str, address: int, symbol: Callable[[str], int]) -> str:
    """The instruction that this text is at this address, as the disassembler writes it. `symbol`
    gives the number of one."""
    if not text.isascii():
        raise ExploreError("an instruction has ASCII characters alone")
    bare, labels = in_numbers(text), set[str]()
    while found := LABEL.match(bare):
        labels.add(found[1].upper())
        bare = bare[found.end() :].lstrip(BLANKS)
    if not bare:
        raise ExploreError("the instruction is missing")
    typed, *more = re.split(rf"[{BLANKS}]+", bare, maxsplit=1)
    names = re.findall(rf"[^{BLANKS}!|]+", bare.upper())
    if names[0] in OPERATORS:
        return operators_together(names)
    name = OTHER_NAMES.get(typed.upper(), typed.upper())
    if name not in INSTRUCTIONS:
        raise ExploreError(f"there is no instruction '{typed}' of the PDP-11/40")
    kind = INSTRUCTIONS[name]
    making = Assembly(address, symbol, frozenset(labels))
    return kind.text(name, "".join(more) or kind.usual, making)
