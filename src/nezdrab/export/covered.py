"""Which lines of a listing ran, and how often: `covered`, and the tracefiles of lcov."""
import re
from pathlib import Path
from typing import Iterator, Optional, Sequence

from ..analysis.assembler import LABEL, is_mnemonic
from ..analysis.command import Arguments, check_even, command, turns_between
from ..analysis.counting import Place, counts_at
from ..analysis.explorer import Explorer
from ..analysis.listing import VIRTUAL
from ..analysis.routines import in_one_word
from ..core.engine import Machine
from ..core.errors import ExploreError
from ..core.in_words import counted, span
from ..core.kinds import content
from ..core.replies import Mode
from ..core.symbol_files import SOURCE
from ..core.values import dataclass, field
from ..core.written_files import OUTPUT, write_whole

NEVER, NO_CODE = "#####", "-"
NAME = re.compile(r"[A-Za-z0-9.$_]+")


@dataclass(frozen=True)
class ListedLine:
    """A line of a listing: its address if it has words, and whether these are an instruction, by
    the name in its source."""

    text: str
    address: Optional[int]
    is_instruction: bool

    @classmethod
    def of(cls, text: str, base: int) -> "ListedLine":
        """The line, whose address counts from the base."""
        found = SOURCE.fullmatch(text)
        words = found["words"].split() if found else []
        if found is None or not words or len(words[0].rstrip("'GC")) < 6:
            return cls(text, None, False)
        source = found["source"] or ""
        while label := LABEL.match(source):
            source = source[label.end() :].lstrip()
        name = NAME.match(source)
        address = (int(found["address"], 8) + base) % VIRTUAL
        return cls(text, address, name is not None and is_mnemonic(name[0]))


@dataclass(frozen=True)
class Listing:
    """A listing, and the mode that its addresses are of."""

    path: Path
    mode: Mode
    lines: Sequence[ListedLine]

    @classmethod
    def of(cls, path: Path, base: int, mode: Mode) -> "Listing":
        check_even(base)
        return cls(path, mode, listed_lines(path, base))

    def even_addresses(self) -> set[int]:
        """Where an instruction may begin."""
        found = (it.address for it in self.lines)
        return {it for it in found if it is not None and not it % 2}


@dataclass(frozen=True)
class Coverage:
    """The lines of a listing with how often the instruction of each ran in its mode."""

    lines: Sequence[ListedLine]
    mode: Mode
    counts: dict[Place, int]

    @classmethod
    def of(cls, machine: Machine, turns: range, listing: Listing) -> "Coverage":
        """The counts of these turns. They are exact."""
        mode = listing.mode
        counts = counts_at(machine, turns, mode, listing.even_addresses())
        return cls(listing.lines, mode, counts)

    def count(self, line: ListedLine) -> Optional[int]:
        """How often the instruction of this line ran; None if it has none. What no instruction is
        by its source may have run too."""
        if line.address is None:
            return None
        count = self.counts.get(Place(self.mode, line.address), 0)
        return count if count or line.is_instruction else None

    def marked(self) -> Iterator[str]:
        """Each line after its count."""
        for line in self.lines:
            count = self.count(line)
            mark = NO_CODE if count is None else str(count or NEVER)
            yield f"{mark:>10}: {line.text}".rstrip()

    def sum_in_words(self) -> str:
        counts = [it for it in map(self.count, self.lines) if it is not None]
        ran = sum(1 for it in counts if it)
        total = counted(len(counts), "instruction")
        return f"{ran} of {total} ran ({100 * ran / len(counts):.1f} %)"


def listed_lines(path: Path, base: int) -> list[ListedLine]:
    """The lines of a listing, of which one at least is an instruction at an even address."""
    text = content(path).decode(errors="surrogateescape")
    lines = [ListedLine.of(it.removesuffix("\r"), base) for it in text.split("\n")]
    lines = lines[:-1] if not lines[-1].text else lines
    if not any(it.is_instruction for it in lines):
        raise ExploreError(
            f"{path} has no line with an address, words and an instruction, as a listing has them"
        )
    return lines


@command(
    "covered [-o FILE] LISTING [at A] [kernel|user] [from N] [to M]",
    r"(-o <out:file> )?<file:file>( at <address:octal>)?( (?P<mode>kernel|user))?{from}{to}",
    "a listing, with how often each instruction ran in the turns N to M",
)
def covered(explorer: Explorer, arguments: Arguments) -> Iterator[str]:
    """Shows a listing of MACRO-11 with a count before each line: how often the instruction at its
    address ran in the turns N to M, in kernel mode or in user mode; without a word kernel mode.
    ##### is an instruction that never ran, - a line without one. It is exact. Without `from` N is
    0, without `to` M is the turn before the current turn. The addresses of the listing are virtual
    ones and count from A, or from 0; sums are modulo 200000. Only addresses are compared: if the
    program was changed, or another one ran at these addresses, the counts are those of what ran.
    A line with .WORD or a macro is shown as - unless something ran there.
    With -o FILE the lines go to this file, and covered! overwrites one that was there before. A
    span of 10000000 turns takes about a second for each 256 words of the program."""
    last = arguments.decimal("last", explorer.turn - 1)
    if last < 0:
        raise ExploreError("the current turn is turn 0: covered LISTING to M names the last turn")
    turns = turns_between(arguments.decimal("first"), last)
    base, mode = arguments.octal("address"), Mode(arguments.optional("mode") or "kernel")
    out = Path(arguments.text("out")) if arguments.optional("out") is not None else None
    if out is not None:
        OUTPUT.target(out)
    listing = Listing.of(Path(arguments.text("file")), base, mode)
    coverage = Coverage.of(explorer.machine, turns, listing)
    if out is not None:
        write_whole(out, "".join(f"{it}\n" for it in coverage.marked()))
    else:
        yield from coverage.marked()
    where = f"; the lines are in {out}" if out is not None else ""
    yield f"{coverage.sum_in_words()} in {span(turns)}, in {mode.value} mode{where}"


@dataclass
class LineCounts:
    """A file as a source: how often the instruction of each line ran, by the line's number, and the
    names of routines by the numbers of their first lines."""

    path: Path
    counts: dict[int, int] = field(default_factory=dict)
    names: dict[int, str] = field(default_factory=dict)

    def add(self, explorer: Explorer, turns: range, listing: Listing) -> None:
        """Adds what ran at the addresses of the listing."""
        coverage = Coverage.of(explorer.machine, turns, listing)
        for number, line in enumerate(listing.lines, 1):
            count = coverage.count(line)
            if count is None or line.address is None:
                continue
            self.counts[number] = self.counts.get(number, 0) + count
            name = explorer.symbols.names.get((listing.mode, line.address))
            self.names.update({number: in_one_word(name)} if name else {})

    def lines(self) -> Iterator[str]:
        """The record of a source."""
        yield f"SF:{self.path}"
        for number, name in sorted(self.names.items()):
            yield f"FN:{number},{name}"
        for number, name in sorted(self.names.items()):
            yield f"FNDA:{self.counts[number]},{name}"
        yield f"FNF:{len(self.names)}"
        yield f"FNH:{sum(1 for it in self.names if self.counts[it])}"
        yield from (f"DA:{number},{count}" for number, count in sorted(self.counts.items()))
        yield f"LF:{len(self.counts)}"
        yield f"LH:{sum(1 for it in self.counts.values() if it)}"
        yield "end_of_record"


def counted_lines(
    explorer: Explorer, turns: range, listings: Sequence[Listing]
) -> list[LineCounts]:
    """The sources. What several listings say of one file is added."""
    sources: dict[Path, LineCounts] = {}
    for listing in listings:
        path = listing.path.resolve()
        sources.setdefault(path, LineCounts(path)).add(explorer, turns, listing)
    return list(sources.values())


def tracefile(sources: Sequence[LineCounts]) -> Iterator[str]:
    yield "TN:"
    for source in sources:
        yield from source.lines()


def ran_of(sources: Sequence[LineCounts]) -> tuple[int, int]:
    """How many lines with an instruction ran, and how many there are."""
    counts = [count for it in sources for count in it.counts.values()]
    return sum(1 for it in counts if it), len(counts)
