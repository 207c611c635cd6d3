"""What people bring into core, and names for it: `load`, `symbols`."""
from pathlib import Path
from typing import Callable, Iterable, Iterator, Optional, Sequence

from ..analysis.command import Arguments, check_even, command
from ..analysis.explorer import Explorer
from ..analysis.restart import make
from ..core.all_words import core_lines, words_in
from ..core.aout import aout_of, begins_as_aout, names_of
from ..core.engine import Machine
from ..core.errors import ExploreError
from ..core.in_words import counted
from ..core.kinds import TEXT, begins_as_tape, check_known, content, foreign_of, is_text
from ..core.options import FILES, RK05_BYTES, Options
from ..core.replies import Mode
from ..core.symbol_files import Symbol
from ..core.values import dataclass, field
from .absolute_tape import tape_of

LAST_WORD = 0o177776
BOTH_MODES = [Mode.KERNEL, Mode.USER]


@dataclass(frozen=True)
class Loaded:
    """What a file puts into core, in words and byte by byte; where it begins, if it says so; and
    its symbols."""

    title: str
    bytes: dict[int, int]
    start: Optional[int] = None
    symbols: list[Symbol] = field(default_factory=list)
    remark: str = ""


def loaded_tape(data: bytes, base: Optional[int]) -> Loaded:
    if base is not None:
        raise ExploreError(
            "it begins as a tape of the absolute loader, which has its own addresses;"
            " load words FILE at A takes any file as words"
        )
    tape = tape_of(data)
    blocks = counted(tape.blocks, "block")
    odd = f"its transfer address, {tape.transfer:o}, is odd, so the start stays"
    rest = len(data[tape.end :].strip(b"\0\377"))
    more = f"without {counted(rest, 'byte')} after its transfer address" if rest else ""
    remark = "; ".join(filter(None, (odd if tape.start is None else "", more)))
    return Loaded(f"absolute-loader tape, {blocks}", tape.bytes, tape.start, remark=remark)


def loaded_program(data: bytes, base: Optional[int]) -> Loaded:
    program, at = aout_of(data), base or 0
    placed = {at + address: byte for address, byte in program.bytes.items()}
    entry = at + program.entry
    start = None if entry % 2 or entry > LAST_WORD else entry
    why = "odd" if entry % 2 else f"above {LAST_WORD:o}"
    stays = f"its entry, {entry:o}, is {why}, so the start stays" if start is None else ""
    remark = "; ".join(filter(None, (stays, program.odd_in_words)))
    symbols = [it.moved(at) for it in program.symbols]
    title = f"a.out {program.magic:04o}, {program.parts}"
    return Loaded(title, placed, start, symbols, remark)


def loaded_words(data: bytes, base: Optional[int]) -> Loaded:
    if base is None and len(data) == RK05_BYTES:
        raise ExploreError("it is as long as an image of an RK05, which is attached: --disk FILE")
    if base is None:
        raise ExploreError(
            "it is neither a tape of the absolute loader nor an a.out;"
            " load FILE at A takes it as words, the low byte of each first"
        )
    if len(data) % 2 or not data:
        raise ExploreError(f"words have two bytes each, and the file has {len(data)}")
    return Loaded(counted(len(data) // 2, "word"), dict(enumerate(data, base)))


def loaded(path: Path, base: Optional[int], is_words: bool) -> Loaded:
    """What the file puts into core, by its first bytes."""
    data = content(path)
    if not is_words:
        check_known(path, data)
    try:
        if is_words:
            return loaded_words(data, base)
        if begins_as_tape(data):
            return loaded_tape(data, base)
        if begins_as_aout(data):
            return loaded_program(data, base)
        if is_text(data):
            raise ExploreError(f"it is {TEXT}")
        return loaded_words(data, base)
    except ExploreError as error:
        raise ExploreError(f"{path}: {error}") from None


def check_place(machine: Machine, places: Iterable[int]) -> None:
    top, last = machine.setup.core_end, max(places, default=0)
    if last >= top:
        drive = "; an image of a drive is attached: --disk FILE" if last >= RK05_BYTES - 1 else ""
        raise ExploreError(f"it goes on to {last:o}, and core ends at {top - 1:o}{drive}")


def patches_of(machine: Machine, found: dict[int, int]) -> list[str]:
    """The lines that make core so, of the words that aren't so already. The other half of a word of
    which the file has one byte stays."""
    check_place(machine, found)
    places = sorted({it & ~1 for it in found})
    if not places:
        return []
    around = range(places[0], places[-1] + 2, 2)
    before = dict(zip(around, words_in(machine.read_all(core_lines(0, around)))))
    lines = []
    for at in places:
        low, high = found.get(at, before[at] & 0o377), found.get(at + 1, before[at] >> 8)
        if high << 8 | low != before[at]:
            lines.append(f"core {at:o} {high << 8 | low:o}")
    return lines


def counted_patches(edits: Sequence[str]) -> str:
    count = sum(it.startswith("core ") for it in edits)
    return counted(count, "patch")


def load_lines(explorer: Explorer, found: Loaded) -> Iterator[str]:
    """Loads it, and says what it was."""
    machine = explorer.machine
    before = machine.start
    start = machine.setup.start if found.start is None else found.start
    options = {} if found.start is None else {"start": f"{start:o}"}
    edits = make(explorer, options, lambda: patches_of(machine, found.bytes))
    if found.symbols:
        explorer.symbols.take(found.symbols, BOTH_MODES)
    ends = f"{min(found.bytes):o} to {max(found.bytes):o}" if found.bytes else "nothing"
    begun = f"start {start:o}{' (started again)' if machine.start != before else ''}"
    names = f", {counted(len(found.symbols), 'symbol')}" if found.symbols else ""
    yield f"{found.title}: {ends} in core, {counted_patches(edits)}, {begun}{names}"
    yield from [found.remark] if found.remark else []


@command(
    "load [words] FILE [at A]",
    r"((?P<kind>words) )?<file:file>( at <address:address>)?",
    "loads a paper tape, an a.out, or words, as patches of core",
)
def load(explorer: Explorer, arguments: Arguments) -> Iterator[str]:
    """Puts what a file has into core as of power-up. What it is, its first bytes tell:
    a tape of the absolute loader (bytes 001 000, count, address, data, checksum): its transfer
    address becomes the start, if it is even;
    an a.out of Unix V6, V7 or 2BSD, 0407 or 0410: text, data and bss at 0, or at A; its entry
    becomes the start, and its symbols are taken as `symbols` does. Addresses in it aren't moved;
    otherwise words, the low byte first, at A. With `words` any file is taken so.
    Each word that isn't so already becomes a patch. For another start the program is started
    again with all edits. What is wrong is told with its place, and nothing is loaded then. `undo`
    takes a load back."""
    path = Path(arguments.text("file"))
    base = arguments.octal("address") if arguments.optional("address") else None
    check_even(base or 0)
    found = loaded(path, base, arguments.optional("kind") is not None)
    try:
        yield from load_lines(explorer, found)
    except ExploreError as error:
        raise ExploreError(f"{path}: {error}") from None


def looks_like(name: str, data: bytes) -> str:
    """What a file looks like that is given as this option, if it isn't what the option takes."""
    foreign = foreign_of(data)
    if foreign:
        return str(foreign)
    if name == "core" and begins_as_tape(data) and is_right(tape_of, data):
        return "an absolute-loader tape: `load` reads it"
    if name == "core" and begins_as_aout(data) and is_right(aout_of, data):
        return "an a.out: `load` reads it"
    return ""


def is_right(reads: Callable[[bytes], object], data: bytes) -> bool:
    try:
        reads(data)
    except ExploreError:
        return False
    return True


def warnings_of(options: Options) -> Iterator[str]:
    """What the files of options look like that the program takes for images and tapes. A file that
    can't be read is no matter of this."""
    for name, value in options.items():
        if name not in FILES or not Path(value).is_file():
            continue
        try:
            found = looks_like(name, content(Path(value)))
        except ExploreError:
            continue
        if found:
            yield f"--{name} {value}: this looks like {found}"


SYMBOLS_PATTERN = r"<file:file>( at <address:octal>)?( (?P<mode>kernel|user))?"


@command(
    "symbols FILE [at A] [kernel|user]",
    SYMBOLS_PATTERN,
    "names of addresses: a list, a listing, a map, an a.out",
)
def read_symbols(explorer: Explorer, arguments: Arguments) -> Iterator[str]:
    """Takes names for the last column of `see` and `list`, for pages, and for use in the place of
    an address: `until PC TICK`, `next BALANCE+2`. There it is its number, also if the address is
    a physical one. A file is a list with lines NAME OCTAL, OCTAL NAME, NAME=OCTAL or those of nm
    (with `nm -t o`, or nm of an old Unix, octal; with eight digits or of `nm -P`, hexadecimal), a
    listing of MACRO-11, a map of the linker of RT-11 or of RSX-11's Task Builder, or an a.out. In
    lists what follows a # or ; is a comment. Lines without a symbol, or with the name of a file,
    are counted. Constants, as a listing marks them by `=`, are numbers, and no names of places. A
    symbol that is relocatable (R in a listing, text and data of an a.out) counts from A, or from 0.
    With `kernel` or `user` the names are those of that mode alone. They take the place of those
    there were; `names FILE` adds to these."""
    yield from symbol_lines(arguments, explorer.symbols.take, "symbols")


@command(
    "names FILE [at A] [kernel|user]",
    SYMBOLS_PATTERN,
    "further names of addresses, beside those there are",
)
def add_names(explorer: Explorer, arguments: Arguments) -> Iterator[str]:
    """Takes names as `symbols` does, which has more. But those that are there already stay, so
    several files can name parts of one program. A name that was there before gets the new value."""
    yield from symbol_lines(arguments, explorer.symbols.add, "names")


def symbol_lines(
    arguments: Arguments, take: Callable[[Iterable[Symbol], Sequence[Mode]], None], word: str
) -> Iterator[str]:
    """Takes the symbols of a file, and says how many there are."""
    only, base = arguments.optional("mode"), arguments.octal("address")
    check_even(base)
    found = names_of(Path(arguments.text("file")))
    symbols = [it.moved(base) for it in found.symbols]
    take(symbols, [Mode(only)] if only else BOTH_MODES)
    yield found.line()
    yield from [found.remark] if found.remark else []
    relocatable = sum(it.is_relocatable for it in symbols)
    if relocatable and not arguments.optional("address"):
        yield f"{relocatable} are relocatable, and count from 0; {word} FILE at A moves them to A"
