"""A source in the syntax of MACRO-11 as words, with its listing. Instructions are those of explore's
assembler. The directives: `.=N`, `NAME = N`, `.WORD`, `.BLKB`, `.END`, labels and local labels such
as 1$, `.INCLUDE "NAME"` of another source beside it, and two that MACRO-11 lacks:

  .TEXT "..."                   a byte with the number of characters, the characters, and a zero byte
                                if the next address would be odd
  .ENTRY LABEL NAME [FLAG]      the header of a Forth word: the address of the header before it, and
                                its name as by .TEXT, with bit 7 of the number set if the flag is
                                IMMEDIATE, bit 6 if it is INNER; then the label"""
import re
from pathlib import Path
from typing import Callable, Iterator, NamedTuple, Optional, Sequence

from nezdrab.analysis.assembler import Assembly, in_numbers, instruction_text
from nezdrab.core.errors import ExploreError

LABEL = re.compile(r"([A-Z][A-Z0-9]*|[0-9]+[$]):\s*")
LOCAL = re.compile(r"(?<![\w$.#'])([0-9]+[$])|(?<=#)([0-9]+[$])")
ASSIGNED = re.compile(r"(\.|[A-Z][A-Z0-9]*)\s*=\s*(\S+)")
DIRECTIVE = re.compile(r"(\.[A-Z]+)\s*(.*)")
ENTRY = re.compile(r"(\S+)\s+(\S+)(?:\s+(IMMEDIATE|INNER))?\s*")
INCLUDE = re.compile(r'\s*\.INCLUDE\s+"([^"/]+)"')
TEXT = re.compile(r'"([^"]*)"\s*')
FLAGS = {None: 0, "IMMEDIATE": 0o200, "INNER": 0o100}
LAST_HEADER = "LINK"


class SourceLine(NamedTuple):
    """A line of a source, and which line of which file it is."""

    place: str
    text: str


class Line(NamedTuple):
    """A line of the source: where it is, what it lays into core, and its text."""

    address: Optional[int]
    data: bytes
    text: str


class Program(NamedTuple):
    """What a source comes to."""

    lines: list[Line]
    constants: dict[str, int]
    labels: dict[str, int]

    def core(self) -> bytes:
        """The bytes from address 0 on."""
        laid = [it for it in self.lines if it.data and it.address is not None]
        held = bytearray(max((it.address or 0) + len(it.data) for it in laid))
        for it in laid:
            held[it.address : (it.address or 0) + len(it.data)] = it.data
        return bytes(held)


def of_words(*words: int) -> bytes:
    return b"".join((it % 0o200000).to_bytes(2, "little") for it in words)


def counted_text(text: str, flags: int = 0) -> bytes:
    held = bytes([len(text) | flags]) + text.encode("ascii")
    return held + bytes(len(held) % 2)


Words = Callable[[int, str], list[int]]  # of an address, and the text of an instruction there


class Pass:
    """One reading of the source. The first one takes an unknown symbol for the address itself, and
    finds where the labels are; the second has them all."""

    def __init__(self, words: Words, known: Optional[dict[str, int]] = None):
        self.words, self.known, self.at, self.scope = words, known, 0, ""
        self.labels: dict[str, int] = {}
        self.constants: dict[str, int] = {LAST_HEADER: 0}
        self.lines: list[Line] = []

    def symbol(self, name: str) -> int:
        for found in (self.labels, self.constants, self.known or {}):
            if name in found:
                return found[name]
        if self.known is not None:
            raise ExploreError(f"there is no symbol {name}")
        return self.at + 2

    def number(self, text: str) -> int:
        return Assembly(self.at, self.symbol, frozenset()).number(in_numbers(text))

    def label(self, name: str) -> None:
        """A label that isn't local begins a scope of local labels."""
        self.scope = self.scope if name.endswith("$") else name
        whole = f"{self.scope}.{name}" if name.endswith("$") else name
        if whole in self.labels or whole in self.constants:
            raise ExploreError(f"{whole} is there already")
        self.labels[whole] = self.at

    def with_scope(self, text: str) -> str:
        return LOCAL.sub(lambda it: f"{self.scope}.{it[1] or it[2]}", text)

    def take(self, line: str) -> None:
        """A line: its labels, and what stands behind them."""
        rest = line.strip()
        while found := LABEL.match(rest):
            self.label(found[1])
            rest = rest[found.end() :]
        is_bare = not rest or rest.startswith(";")
        data = b"" if is_bare else self.laid(rest)
        has_address = bool(data or LABEL.match(line))
        self.lines.append(Line(self.at if has_address else None, data, line))
        self.at += len(data)

    def laid(self, rest: str) -> bytes:
        """What a line lays into core."""
        if found := ASSIGNED.match(rest):
            self.assign(found[1], self.number(self.with_scope(found[2])))
            return b""
        if found := DIRECTIVE.match(rest):
            return self.directive(found[1], found[2])
        text = instruction_text(self.with_scope(rest), self.at, self.symbol)
        return of_words(*self.words(self.at, text))

    def assign(self, name: str, value: int) -> None:
        if name != ".":
            self.constants[name] = value
        elif value < self.at:
            raise ExploreError(f".={value:o} goes back from {self.at:o}")
        else:
            self.at = value

    def directive(self, name: str, rest: str) -> bytes:
        if name == ".ENTRY" and (found := ENTRY.fullmatch(rest)):
            return self.entry(found[1], found[2], FLAGS[found[3]])
        if name == ".TEXT" and (found := TEXT.match(rest)):
            return counted_text(found[1])
        bare = in_numbers(rest)
        if name == ".WORD":
            return of_words(*(self.number(self.with_scope(it)) for it in bare.split(",")))
        if name == ".BLKB":
            return bytes(self.number(bare))
        if name in (".END", ".INCLUDE"):
            return b""
        raise ExploreError(f"there is no {name} {rest}")

    def entry(self, label: str, name: str, flags: int) -> bytes:
        data = of_words(self.constants[LAST_HEADER]) + counted_text(name, flags)
        self.constants[LAST_HEADER] = self.at
        self.at += len(data)
        self.label(label)
        self.at -= len(data)
        return data


def source_lines(folder: Path, name: str, may_include: bool = True) -> Iterator[SourceLine]:
    """The lines of a source, with those of the sources that it includes; these include none."""
    for number, text in enumerate((folder / name).read_text(encoding="ascii").splitlines(), 1):
        place = f"{folder / name}: line {number}"
        found = INCLUDE.match(text)
        if found and not may_include:
            raise ExploreError(f"{place}: a source that is included can't include another")
        yield SourceLine(place, text)
        if found:
            yield from source_lines(folder, found[1], False)


def read_once(
    lines: Sequence[SourceLine], words: Words, known: Optional[dict[str, int]] = None
) -> Pass:
    reading = Pass(words, known)
    for line in lines:
        try:
            reading.take(line.text)
        except ExploreError as error:
            raise ExploreError(f"{line.place}: {error}") from error
    return reading


def program_of(lines: Sequence[SourceLine], words: Words) -> Program:
    """What the source is after two readings. `words` are those that the program disassemble has."""
    first = read_once(lines, words)
    found = read_once(lines, words, {**first.constants, **first.labels})
    constants = {it: at for it, at in found.constants.items() if it != LAST_HEADER}
    labels = {it: at for it, at in found.labels.items() if "." not in it}
    return Program(found.lines, constants, labels)
