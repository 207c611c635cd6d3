"""Programs of Unix V6, V7 and 2BSD: a.out. Eight words stand first: the magic number, the bytes of
text, of data and of bss, those of the symbol table, the entry, a word that isn't used, and whether
there is no relocation. Then come text, data, their relocation, and the symbols: a name of eight
bytes, a type and a value each. 2.11BSD has symbols of eight bytes, with names in a table after
them. A long of the PDP-11 has its high word first."""
import struct
from pathlib import Path
from typing import Iterator

from .errors import ExploreError
from .in_words import counted
from .kinds import check_known, content
from .symbol_files import NAME_OF_FILE, Symbol, SymbolFile, symbol_file
from .values import dataclass

HEAD = struct.Struct("<8H")
ENTRY, ENTRY_OF_211 = struct.Struct("<8sHH"), struct.Struct("<HHBBH")
PLAIN, SHARED = 0o407, 0o410
PAGE_BYTES = 0o20000  # the text of an 0410 fills pages, since it can't be written
REFUSED = {
    0o405: "an overlay, or a program of the first Unix",
    0o411: "it has separate spaces for instructions and data, and a PDP-11/40 has one;"
    " link it without -i",
    0o430: "its text has overlays, which only 2BSD can run",
    0o431: "its text has overlays and a space of its own, and a PDP-11/40 has one space",
}
# 0407 is a branch too, which the boot block of a disk may begin with
AS_WORDS = "if it is no a.out: load words FILE at A"
MAGIC = {PLAIN, SHARED, *REFUSED}
TYPE, ABSOLUTE, TEXT, DATA, BSS = 0o37, 1, 2, 3, 4
MOST_ODD = 5  # names that are none, and are shown


def begins_as_aout(data: bytes) -> bool:
    return len(data) >= 2 and int.from_bytes(data[:2], "little") in MAGIC


@dataclass(frozen=True)
class AOut:
    """An a.out, with the places of its parts as its own addresses have them."""

    magic: int
    text: bytes
    data: bytes
    bss: int
    entry: int
    symbols: list[Symbol]
    odd_names: list[str]  # of symbols that are left out

    @property
    def odd_in_words(self) -> str:
        """That symbols are left out, if there are any."""
        if not self.odd_names:
            return ""
        names = ", ".join(f"'{it}'" for it in self.odd_names[:MOST_ODD])
        more = f" and {len(self.odd_names) - MOST_ODD} more" if self.odd_names[MOST_ODD:] else ""
        symbols = counted(len(self.odd_names), "symbol")
        return f"without {symbols}, whose name is none: {names}{more}"

    @property
    def data_address(self) -> int:
        end = len(self.text)
        return end if self.magic == PLAIN else -(-end // PAGE_BYTES) * PAGE_BYTES

    @property
    def end(self) -> int:
        return self.data_address + len(self.data) + self.bss

    @property
    def bytes(self) -> dict[int, int]:
        """Its bytes, with bss as zeros."""
        found = dict(enumerate(self.text))
        found.update(enumerate(self.data + bytes(self.bss), self.data_address))
        return found

    @property
    def parts(self) -> str:
        data = f"{len(self.data)} of data at {self.data_address:o}"
        return f"{counted(len(self.text), 'byte')} of text at 0, {data}, {self.bss} of bss"


def aout_of(data: bytes) -> AOut:
    """The program in a file, or an error that says what is wrong."""
    if len(data) < HEAD.size:
        raise ExploreError(f"the file ends in the head, which has {HEAD.size} bytes")
    magic, text, words, bss, symbols, entry, _, is_bare = HEAD.unpack_from(data)
    if magic in REFUSED:
        raise ExploreError(f"the magic number is {magic:04o}: {REFUSED[magic]}")
    if text % 2 or words % 2 or bss % 2:
        raise ExploreError(f"its head has an odd number of bytes for a part; {AS_WORDS}")
    start_of_symbols = HEAD.size + (text + words) * (1 if is_bare else 2)
    end = start_of_symbols + symbols
    if len(data) < end:
        sizes = f"the file has {counted(len(data), 'byte')}, and by its head at least {end}"
        raise ExploreError(f"{sizes}; {AS_WORDS}")
    at = HEAD.size + text
    found, odd = symbols_of(data[start_of_symbols:end], data[end:])
    return AOut(magic, data[HEAD.size : at], data[at : at + words], bss, entry, found, odd)


def symbols_of(table: bytes, rest: bytes) -> tuple[list[Symbol], list[str]]:
    """The symbols that have an address, or a constant, and the names that are none. The name of a
    file, which a linker puts at the begin of its text, is no label."""
    is_old = not rest.strip(b"\0")  # a file may be filled up with zeros
    found: list[Symbol] = []
    odd: list[str] = []
    for name, whole, value in entries_of(table) if is_old else entries_of_211(table, rest):
        kind, text = whole & TYPE, name.decode(errors="surrogateescape")
        if kind not in (ABSOLUTE, TEXT, DATA, BSS):
            continue
        if not name or any(not 0o40 < it < 0o177 for it in name):
            odd.append(text)
        elif whole != TEXT or not NAME_OF_FILE.fullmatch(text):
            found.append(Symbol(text, value, kind == ABSOLUTE, kind != ABSOLUTE))
    return found, odd


def entries_of(table: bytes) -> Iterator[tuple[bytes, int, int]]:
    """Name, type and value of the symbols of V6, V7 and the earlier 2BSD."""
    if len(table) % ENTRY.size:
        size = counted(len(table), "byte")
        raise ExploreError(f"the symbol table has {size}, not {ENTRY.size} a symbol")
    for padded, kind, value in ENTRY.iter_unpack(table):
        yield padded.rstrip(b"\0"), kind, value


def entries_of_211(table: bytes, rest: bytes) -> Iterator[tuple[bytes, int, int]]:
    """The same of 2.11BSD. What follows the table are its names, after their length."""
    high, low = struct.unpack("<HH", rest[:4].ljust(4, b"\0"))
    length = high << 16 | low
    if len(rest) < max(4, length):
        names = f"the names of its symbols, which have {counted(length, 'byte')}"
        raise ExploreError(f"the file ends in {names}")
    if len(table) % ENTRY_OF_211.size:
        size = counted(len(table), "byte")
        raise ExploreError(f"the symbol table has {size}, not {ENTRY_OF_211.size} each")
    for high, low, kind, _, value in ENTRY_OF_211.iter_unpack(table):
        yield string_at(rest[:length], high << 16 | low), kind, value


def string_at(names: bytes, at: int) -> bytes:
    """The name that begins at this byte, or nothing if none does."""
    end = names.find(b"\0", at) if 4 <= at < len(names) else -1
    return names[at:end] if end >= 0 else b""


OF_PROGRAM = "an a.out"


def names_of(path: Path) -> SymbolFile:
    """The names in a file, which has one at least."""
    data = content(path)
    check_known(path, data)
    if begins_as_aout(data):
        try:
            program = aout_of(data)
            found = SymbolFile(OF_PROGRAM, program.symbols, 0, program.odd_in_words)
        except ExploreError as error:
            raise ExploreError(f"{path}: {error}") from None
    else:
        found = symbol_file(data.decode(errors="replace"))
    if not found.symbols and found.kind == OF_PROGRAM:
        raise ExploreError(f"{path} is {OF_PROGRAM} without symbols")
    if not found.symbols:
        raise ExploreError(
            f"{path} has no symbol: no line is NAME OCTAL, OCTAL NAME, NAME=OCTAL or one of nm,"
            " and it is no listing and no map"
        )
    return found
