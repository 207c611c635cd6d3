"""What `export` writes of a range of turns, by the ending of the file's name."""
import re
import shlex
from pathlib import Path
from typing import Callable, Iterable, Iterator, Sequence

from ..analysis.call_tree import CallTree
from ..analysis.command import Arguments, turns_between
from ..analysis.counting import windows_of
from ..analysis.explorer import Explorer
from ..analysis.quotes import WORD, file_of
from ..analysis.long_work import ask_to_begin
from ..core.engine import LAST_TURN
from ..core.errors import ExploreError
from ..core.in_words import counted, span
from ..core.language import MOST_DIGITS
from ..core.replies import Mode
from ..core.values import dataclass
from ..core.written_files import OUTPUT, write_whole
from .callgrind import Callgrind, costs_of, remarks, stacks_of
from .covered import Listing, counted_lines, ran_of, tracefile
from .vcd import Dump, Word

MOST_WORDS, UNASKED_SECONDS, MEGABYTE = 32, 10, 1_000_000
OCTAL = re.compile(rf"[0-7]{{1,{MOST_DIGITS}}}")
FORM = "export [-y] FILE from N to M [with ..]"
ENDINGS = "FILE ends in .vcd, .callgrind, .folded or .lcov"


@dataclass(frozen=True)
class FileKind:
    """A kind of file: the most turns it may have, how many are written in a second on a usual
    computer, and how many bytes each takes; and what writes it."""

    most: int
    a_second: int
    bytes_each: int
    write: Callable[["Export"], Iterator[str]]


@dataclass(frozen=True)
class Export:
    """What is written: the turns, the file, and what stands after `with`."""

    explorer: Explorer
    path: Path
    turns: range
    rest: Sequence[str]

    @property
    def where(self) -> str:
        return f"{span(self.turns)} {'is' if len(self.turns) == 1 else 'are'} in {self.path}"

    @property
    def quoted(self) -> str:
        return shlex.quote(str(self.path))

    def words(self) -> list[Word]:
        """The words of core that are named."""
        symbols, machine = self.explorer.symbols, self.explorer.machine
        if len(self.rest) > MOST_WORDS:
            raise ExploreError(f"{len(self.rest)} words are more than {MOST_WORDS}")
        found = []
        for text in self.rest:
            address = symbols.number(text)
            machine.word(0, address)  # an error if it isn't there
            name = "word" if OCTAL.fullmatch(text) else text
            found.append(Word(address, f"{name}_{address:06o}"))
        return list({it.name: it for it in found}.values())

    def listings(self) -> list[Listing]:
        """The listings that are named, with `and` between them."""
        found, rest = [], [*self.rest]
        while rest:
            path, base, mode = file_of(rest.pop(0)), 0, Mode.KERNEL
            if rest[:1] == ["at"] and len(rest) > 1 and OCTAL.fullmatch(rest[1]):
                base, rest = int(rest[1], 8), rest[2:]
            if rest and rest[0] in (Mode.KERNEL.value, Mode.USER.value):
                mode = Mode(rest.pop(0))
            if rest and (rest.pop(0) != "and" or not rest):
                raise ExploreError("after with: LISTING [at A] [kernel|user] [and LISTING ..]")
            found.append(Listing.of(Path(path), base, mode))
        return found

    def write(self, lines: Iterable[str]) -> None:
        write_whole(self.path, "".join(f"{it}\n" for it in lines))


def write_dump(export: Export) -> Iterator[str]:
    dump = Dump(export.explorer, export.turns, export.words())
    OUTPUT.write_parts(export.path, dump.parts())
    signals = counted(len(dump.signals), "signal")
    yield f"{export.where}: {signals}, one unit of time for each turn"
    yield f"open it: gtkwave {export.quoted}; Edit, Data Format, Octal"


def write_callgrind(export: Export) -> Iterator[str]:
    listings = export.listings()
    tree = CallTree.of(export.explorer, export.turns)
    costs = costs_of(export.explorer, tree)
    export.write(Callgrind(tree, costs, listings).lines())
    without = sum(sum(it.values()) for label, it in costs.own.items() if label.mode is None)
    routines = sum(1 for it in costs.own if it.mode is not None)
    yield f"{export.where}: {counted(costs.total - without, 'instruction')} of " + (
        f"{counted(routines, 'routine')}, and {counted(without, 'turn')} of none"
    )
    yield from remarks(tree)
    yield f"open it: kcachegrind {export.quoted}, or callgrind_annotate {export.quoted}"


def write_folded(export: Export) -> Iterator[str]:
    if export.rest:
        raise ExploreError("nothing stands after `to M` for a .folded")
    tree = CallTree.of(export.explorer, export.turns)
    stacks = stacks_of(tree)
    export.write(f"{name} {count}" for name, count in sorted(stacks.items()))
    yield f"{export.where}: {counted(len(stacks), 'stack')}"
    yield from remarks(tree)
    yield f"open it: flamegraph.pl --countname turns {export.quoted} > flames.svg"


def write_lcov(export: Export) -> Iterator[str]:
    listings = export.listings()
    if not listings:
        raise ExploreError("an .lcov counts lines of a listing: .. to M with LISTING")
    sources = counted_lines(export.explorer, export.turns, listings)
    export.write(tracefile(sources))
    ran, count = ran_of(sources)
    yield f"{export.where}: {ran} of {counted(count, 'instruction')} ran"
    yield f"open it: genhtml -o FOLDER {export.quoted}"


KINDS = {
    ".vcd": FileKind(2_000_000, 60_000, 45, write_dump),
    ".callgrind": FileKind(20_000_000, 100_000, 0, write_callgrind),
    ".folded": FileKind(20_000_000, 100_000, 0, write_folded),
    ".lcov": FileKind(LAST_TURN, 10_000_000, 0, write_lcov),
}


def seconds_of(export: Export, kind: FileKind) -> float:
    """What it takes some. The lines of a listing are counted 256 words at a time."""
    is_counted = kind.write is write_lcov
    listings = export.listings() if is_counted else []
    areas = sum(len(list(windows_of(it.even_addresses()))) for it in listings)
    return len(export.turns) / kind.a_second * (areas if is_counted else 1)


def check(export: Export, kind: FileKind, is_agreed: bool) -> None:
    """An error if it is too much, or if it takes long and nobody wants it."""
    first, count = export.turns.start, len(export.turns)
    if count > kind.most:
        form = f"from {first} to {first + kind.most - 1}"
        raise ExploreError(f"{count} turns are more than {kind.most}; the first: {form}")
    seconds, size = seconds_of(export, kind), count * kind.bytes_each
    if seconds > UNASKED_SECONDS and not is_agreed:
        of_size = f" and {round(size / MEGABYTE)} MB" if size else ""
        ask_to_begin(
            export.explorer, "export", f"{count} turns take some {round(seconds)} s{of_size}"
        )


def export_turns(explorer: Explorer, arguments: Arguments) -> Iterator[str]:
    """Writes the turns, and says what is in the file."""
    path = Path(arguments.text("file"))
    kind = KINDS.get(path.suffix)
    if kind is None:
        raise ExploreError(f"{ENDINGS}; the form is: {FORM}")
    turns = turns_between(arguments.decimal("first"), arguments.decimal("last"))
    rest = re.findall(WORD, arguments.text("rest"))
    export = Export(explorer, path, turns, rest)
    OUTPUT.target(path)
    check(export, kind, arguments.optional("yes") is not None)
    yield from kind.write(export)
