"""Names of addresses in files of text: lists, what nm writes, listings of MACRO-11, and the maps of
the linkers of RT-11 and RSX-11."""
import re
from typing import Callable, Iterator, Optional, Sequence

from .hardware import LARGEST_WORD
from .in_words import counted
from .values import dataclass, replace

NAME = r"[A-Za-z_.$~%?@][^\s=:;,()\[\]<>]*"
NAME_OF_DEC = r"[A-Za-z$.][A-Za-z0-9$._]*"


@dataclass(frozen=True)
class Symbol:
    """A name with its value. A constant, such as the address of a device's register or an offset,
    names no place of the program. A relocatable one counts from the begin of its section."""

    name: str
    value: int
    is_constant: bool = False
    is_relocatable: bool = False

    def moved(self, base: int) -> "Symbol":
        return replace(self, value=self.value + base) if self.is_relocatable else self


@dataclass(frozen=True)
class SymbolFile:
    """The symbols of a file, what it is, how many of its lines have no symbol, and what else there
    is to say."""

    kind: str
    symbols: list[Symbol]
    skipped: int
    remark: str = ""

    def line(self) -> str:
        """How many there are, in words."""
        of_kind = f" of {self.kind}" if self.kind else ""
        skipped = f", {counted(self.skipped, 'line')} skipped" if self.skipped else ""
        return f"{counted(len(self.symbols), 'symbol')}{of_kind}{skipped}"


# Lists: a line is a symbol, or it is none.

NAME_OCTAL = re.compile(rf"(?P<name>{NAME})\s+(?P<value>[0-7]{{1,6}})")
OCTAL_NAME = re.compile(rf"(?P<value>[0-7]{{1,6}})\s+(?P<name>{NAME})")
ASSIGNED = re.compile(rf"(?P<name>{NAME})\s*==?:?\s*(?P<value>[0-7]{{1,6}})")
OF_NM = re.compile(r"(?P<value>[0-9a-fA-F]+)\s*(?P<kind>[A-Za-z?])\s+(?P<name>\S+)")
OF_NM_P = re.compile(
    r"(?P<name>\S+)\s+(?P<kind>[A-Za-z?])\s+(?P<value>[0-9a-fA-F]+)(\s+[0-9a-fA-F]+)?"
)
UNDEFINED_OF_NM = re.compile(r"[Uu]\s+\S+|\S+\s+[Uu]")
# Linkers put the name of each file at the begin of its text, as a local symbol.
NAME_OF_FILE = re.compile(r".*/.*|.+\.[oa]")
KIND_OF_FILE, LOCAL_TEXT = "Ff", "t"


def symbol_of(line: str) -> Optional[Symbol]:
    """The symbol of a line of a list. The name of a file is no label."""
    for form in (NAME_OCTAL, OCTAL_NAME, ASSIGNED):
        found = form.fullmatch(line)
        if found:
            return None if "/" in found["name"] else Symbol(found["name"], int(found["value"], 8))
    found = OF_NM.fullmatch(line)
    # six digits of an old Unix's nm and eleven of nm -t o are octal, eight of nm hexadecimal, and
    # so are those of nm -P
    is_hexadecimal = found is not None and len(found["value"]) in (4, 8, 16)
    if found is None:
        found = OF_NM_P.fullmatch(line)
        is_hexadecimal = found is not None and len(found["value"]) != 11
    return symbol_of_nm(found, 16 if is_hexadecimal else 8) if found else None


def symbol_of_nm(found: "re.Match[str]", base: int) -> Optional[Symbol]:
    names_file = found["kind"] == LOCAL_TEXT and NAME_OF_FILE.fullmatch(found["name"])
    if found["kind"] in KIND_OF_FILE or names_file:
        return None
    try:
        return Symbol(found["name"], int(found["value"], base))
    except ValueError:
        return None


def of_list(lines: Sequence[str]) -> SymbolFile:
    bare = (re.split(r"[#;]", it, maxsplit=1)[0].strip() for it in lines)
    meant = [it for it in bare if it and not UNDEFINED_OF_NM.fullmatch(it)]
    found = [symbol_of(it) for it in meant]
    symbols = [it for it in found if it is not None and it.value <= LARGEST_WORD]
    return SymbolFile("", symbols, len(found) - len(symbols))


# Listings of MACRO-11. On the left are the line's number, which may be missing, the address, and
# the words or bytes of the line, with ' or G behind those that the linker changes. Then comes the
# source.

LINE_NUMBER = r"([0-9]{1,5}\s+)?"
SOURCE = re.compile(
    rf"\f?\s*{LINE_NUMBER}(?P<address>[0-7]{{6}})"
    r"(?P<words>(\s+([0-7]{6}|[0-7]{3})['GC]{0,2}(?!\S))*)(\s+(?P<source>.*))?"
)
COMMENT = re.compile(r"\s*([0-9]{1,5}\s*)?(;.*)?")
LABEL = re.compile(rf"(?P<name>{NAME_OF_DEC})::?\s*")
# A line that is labels alone may lack the address: it is the one after the words of the last line
# with an address, or, if that has no words, the address of the next line that has one.
LABELS_ALONE = re.compile(rf"\f?\s*{LINE_NUMBER}(?P<source>{NAME_OF_DEC}::?(\s.*)?)")
IN_SOURCE = re.compile(
    rf"\f?\s*{LINE_NUMBER}([0-7]{{6}}['GC]?\s+)?(?P<name>{NAME_OF_DEC})\s*==?:?\s*"
    r"(?P<value>[0-7]{1,6})\s*(;.*)?"
)
TABLE = re.compile(r"\f?\s*symbol table\s*", re.IGNORECASE)
END_OF_TABLE = re.compile(r"\s*(\. ABS\.|\*\*\*|errors detected)", re.IGNORECASE)
IN_TABLE = re.compile(
    rf"(?<!\S)(?P<name>{NAME_OF_DEC}?)\s*(?P<mark>=?)\s*(?P<register>%?)(?<![0-7])"
    r"(?P<value>[0-7]{6}|\*{6})\s?(?P<flags>R?( ?[GXLCW]{1,2})?)(\s+[0-9]{3})?(?=\s|$)"
)


def labels_of(source: str) -> Iterator[str]:
    """The labels that a line of source begins with."""
    found = LABEL.match(source)
    while found:
        yield found["name"]
        source = source[found.end() :]
        found = LABEL.match(source)


def of_columns(line: str) -> list[Symbol]:
    """The labels of a line of a listing, or its assignment of a number."""
    assigned = IN_SOURCE.fullmatch(line)
    if assigned and assigned["name"] != ".":
        return [Symbol(assigned["name"], int(assigned["value"], 8), is_constant=True)]
    found = SOURCE.fullmatch(line)
    address = int(found["address"], 8) if found else 0
    return [Symbol(it, address) for it in labels_of(found["source"] or "")] if found else []


def labels_alone(line: str) -> list[str]:
    found = LABELS_ALONE.fullmatch(line)
    return list(labels_of(found["source"])) if found else []


def end_of(source: "re.Match[str]") -> Optional[int]:
    """The address after the words and bytes of a line, or None if it has none."""
    found = re.findall("[0-7]+", source["words"])
    return int(source["address"], 8) + sum(len(it) // 3 for it in found) if found else None


def of_table(line: str) -> list[Symbol]:
    """The symbols of a line of the table at the end of a listing, except registers and those that
    are defined elsewhere."""
    return [
        Symbol(it["name"], int(it["value"], 8), it["mark"] == "=", it["flags"][:1] == "R")
        for it in IN_TABLE.finditer(line)
        if not it["register"] and it["value"].isdigit() and it["name"] != "."
    ]


def is_listing(lines: Sequence[str]) -> bool:
    """A listing has a table of symbols, or labels beside addresses and words."""
    return any(TABLE.fullmatch(it) for it in lines) or any(
        found and found["words"] and LABEL.match(found["source"] or "")
        for found in map(SOURCE.fullmatch, lines)
    )


def of_listing(lines: Sequence[str]) -> SymbolFile:
    """The table has each symbol; labels on the left tell which name a place, and in which order.
    Without a table the left columns have them all."""
    labels: dict[str, Symbol] = {}
    table: dict[str, Symbol] = {}
    waiting: list[str] = []
    at: Optional[int] = None
    in_table, skipped = False, 0
    for line in lines:
        if COMMENT.fullmatch(line):
            continue
        in_table = bool(TABLE.fullmatch(line)) or in_table and not END_OF_TABLE.match(line)
        found = of_table(line) if in_table else of_columns(line)
        source = None if in_table else SOURCE.fullmatch(line)
        waiting += [] if in_table or source or found else labels_alone(line)
        if source or at is not None:
            address = int(source["address"], 8) if source else at or 0
            found += [Symbol(it, address) for it in waiting]
            waiting = []
        at = end_of(source) if source else at
        into = table if in_table else labels
        into.update((it.name, it) for it in found)
        skipped += not found and not waiting
    places = [name.upper() for name, it in labels.items() if not it.is_constant]
    order = {name: at for at, name in enumerate(places, 1)}
    named = [
        replace(it, is_constant=it.is_constant and it.name.upper() not in order)
        for it in sorted(table.values(), key=lambda it: order.get(it.name.upper(), 0))
    ]
    return SymbolFile("a MACRO-11 listing", named or list(labels.values()), skipped)


# Maps: lines that are pairs of a name and a value, and nothing else.

PAIR = rf"(?P<name>{NAME_OF_DEC})\s+(@\s*)?(?P<value>[0-7]{{6}})(?P<mark>-R)?(?=\s|$)"
PAIRS = re.compile(rf"\s*({re.sub(r'[?]P<[a-z]+>', '', PAIR)}\s*)+")
MAP_OF_RT11 = re.compile(r"\f?\s*RT-11 LINK\b.*", re.IGNORECASE)
GLOBALS_OF_RSX = re.compile(r"\f?\s*global symbols:\s*", re.IGNORECASE)
SECTION_OF_RT11 = re.compile(rf"\s*(?P<name>{NAME_OF_DEC}|\. ABS\.)?\s*[0-7]{{6}}\s+[0-7]{{6}}\b.*")


def pairs_of(line: str) -> Iterator[tuple[str, int, bool]]:
    """Name, value, and whether the value is one that was moved."""
    if PAIRS.fullmatch(line):
        for found in re.finditer(PAIR, line):
            yield found["name"], int(found["value"], 8), bool(found["mark"])


def of_map_of_rt11(lines: Sequence[str]) -> SymbolFile:
    """The globals of each section. Those of `. ABS.` are constants."""
    symbols: list[Symbol] = []
    in_absolute, skipped = False, 0
    for line in filter(str.strip, lines):
        found = [Symbol(name, value, in_absolute) for name, value, _ in pairs_of(line)]
        if not found and SECTION_OF_RT11.fullmatch(line):
            in_absolute = line.strip().startswith(". ABS.")
        symbols += found
        skipped += not found
    return SymbolFile("a map of RT-11's linker", symbols, skipped)


def of_map_of_rsx(lines: Sequence[str]) -> SymbolFile:
    """What stands after `Global symbols:`. The mark -R says that a value is an address."""
    symbols: list[Symbol] = []
    in_globals, skipped = False, 0
    for line in filter(str.strip, lines):
        begins = GLOBALS_OF_RSX.fullmatch(line)
        in_globals = bool(begins) or in_globals and not line.lstrip().startswith("***")
        found = list(pairs_of(line)) if in_globals else []
        symbols += [Symbol(name, value, not is_moved) for name, value, is_moved in found]
        skipped += not found
    return SymbolFile("a map of the Task Builder", symbols, skipped)


def readers(lines: Sequence[str]) -> Iterator[Callable[[Sequence[str]], SymbolFile]]:
    """How the file may be read, the likeliest way first."""
    if any(map(GLOBALS_OF_RSX.fullmatch, lines)):
        yield of_map_of_rsx
    if any(map(MAP_OF_RT11.fullmatch, lines)):
        yield of_map_of_rt11
    if is_listing(lines):
        yield of_listing
    yield of_list


def symbol_file(text: str) -> SymbolFile:
    """The symbols of a file. If all are constants, they count as places."""
    lines = text.splitlines()
    files = [it(lines) for it in readers(lines)]
    found = next((it for it in files if it.symbols), files[0])
    if all(it.is_constant for it in found.symbols):
        return replace(found, symbols=[replace(it, is_constant=False) for it in found.symbols])
    return found
