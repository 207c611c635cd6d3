"""Expressions of gdb, such as `$r0+2`, `*(COUNT+4)` and `17 & 0xf`. Numbers are octal, as all words
here, or hexadecimal; a symbol is the word at its address, as gdb has a variable."""
import re
from typing import Callable, Optional

from ..analysis.explorer import Explorer
from ..core.errors import ExploreError
from ..core.expressions import Before
from ..core.replies import Mode
from .foreign import space_of, word_of

WORD, LONGEST, DEEPEST = 0o177777, 100, 20
TOKEN = re.compile(
    r"\s*(0[xX][0-9a-fA-F]+|[0-7]+(?![\w.])|\$?[A-Za-z_.][\w.$]*|<<|>>|[-+*/%&|^~()])"
)
DECIMAL = re.compile(r"(?<![\w$.])[0-7]*[89][0-9]*(?![\w.])")
LEVELS = (("|",), ("^",), ("&",), ("<<", ">>"), ("+", "-"), ("*", "/", "%"))
BINARY: dict[str, Callable[[int, int], int]] = {
    "|": lambda one, two: one | two,
    "^": lambda one, two: one ^ two,
    "&": lambda one, two: one & two,
    "<<": lambda one, two: one << min(two, 16),
    ">>": lambda one, two: one >> two,
    "+": lambda one, two: one + two,
    "-": lambda one, two: one - two,
    "*": lambda one, two: one * two,
}
# The formats of gdb, as `p/x` names them, of a word.
FORMATS: dict[str, Callable[[int], str]] = {
    "x": lambda word: f"{word:#x}",
    "a": lambda word: f"{word:#x}",
    "z": lambda word: f"0x{word:04x}",
    "d": lambda word: str(word - 0o200000 if word & 0o100000 else word),
    "u": str,
    "o": lambda word: f"0{word:o}" if word else "0",
    "t": lambda word: f"{word:b}",
    "c": lambda word: f"{word & 0o377} {chr(word & 0o377)!r}",
}


class Expression:
    """An expression that is read word by word. `has_names` tells whether it depends on the turn."""

    def __init__(self, explorer: Explorer, text: str):
        self.explorer, self.tokens, self.at, self.has_names = explorer, list[str](), 0, False
        self.before = Before(explorer.machine, explorer.symbols, explorer.turn)
        found = re.fullmatch(rf"({TOKEN.pattern})*\s*", text) if len(text) <= LONGEST else None
        if found is not None and text.count("(") <= DEEPEST:
            self.tokens = TOKEN.findall(text)

    def value(self) -> Optional[int]:
        """Its word; None if it is no expression, or has a name that nothing has."""
        found = self.level(0) if self.tokens else None
        return found & WORD if found is not None and self.at == len(self.tokens) else None

    def taken(self, *wanted: str) -> str:
        """The next token, if it is one of these, which is passed then."""
        is_there = self.at < len(self.tokens) and self.tokens[self.at] in wanted
        self.at += is_there
        return self.tokens[self.at - 1] if is_there else ""

    def level(self, number: int) -> Optional[int]:
        if number == len(LEVELS):
            return self.operand()
        value = self.level(number + 1)
        while value is not None and (sign := self.taken(*LEVELS[number])):
            other = self.level(number + 1)
            value = None if other is None else self.together(sign, value & WORD, other & WORD)
        return value

    def together(self, sign: str, one: int, two: int) -> int:
        if sign not in ("/", "%"):
            return BINARY[sign](one, two)
        if not two:
            raise ExploreError("division by zero")
        return one // two if sign == "/" else one % two

    def operand(self) -> Optional[int]:
        signs = []
        while sign := self.taken("-", "+", "~", "*", "&"):
            signs.append(sign)
        is_address = signs[-1:] == ["&"]
        value = self.address() if is_address else self.primary()
        for sign in reversed(signs[:-1] if is_address else signs):
            if value is None or sign == "&":
                return None
            value = self.with_sign(sign, value & WORD)
        return value

    def with_sign(self, sign: str, value: int) -> int:
        if sign == "*":
            self.has_names = True
            return self.before.word_at(Mode(space_of(self.explorer)), value).word
        return {"-": -value, "~": ~value, "+": value}[sign]

    def address(self) -> Optional[int]:
        """The address of a symbol."""
        self.at += 1
        name = self.tokens[self.at - 1] if self.at <= len(self.tokens) else ""
        symbols = self.explorer.symbols
        return symbols.number(name) if name and symbols.is_named(name) else None

    def primary(self) -> Optional[int]:
        if self.taken("("):
            value = self.level(0)
            return value if self.taken(")") else None
        self.at += 1
        token = self.tokens[self.at - 1] if self.at <= len(self.tokens) else ""
        if re.fullmatch("[0-7]+", token):
            return int(token, 8)
        return int(token, 16) if token[:2] in ("0x", "0X") else self.named(token)

    def named(self, name: str) -> Optional[int]:
        self.has_names = True
        if self.explorer.symbols.is_named(name):
            found = self.before.named(name)
            return None if found is None else found.word
        return word_of(self.explorer, name)


def sentence_about(explorer: Explorer, text: str, how: str) -> str:
    """An expression and its word, in a format of gdb, if any; an empty text if one of them is
    none."""
    if how and how not in FORMATS:
        return ""
    decimal = DECIMAL.search(text)
    if decimal is not None:
        raise ExploreError(f"{decimal[0]} isn't octal, as numbers are here, and 0x10 hexadecimal")
    expression = Expression(explorer, text)
    word = expression.value()
    if word is None:
        return ""
    shown = FORMATS[how](word) if how else f"{word:06o}, decimal {word}"
    where = f", before turn {explorer.turn}" if expression.has_names else ""
    return f"{text} is {shown}{where}"
