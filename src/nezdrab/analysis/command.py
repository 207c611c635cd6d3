"""What a command is: its form, the words that have this form, and what it does with them."""
import itertools
import re
from functools import cached_property
from typing import Callable, Iterator, Optional

from ..core.engine import LAST_TURN, Machine
from ..core.errors import ExploreError
from ..core.language import comma_fault
from ..core.places import place_of
from ..core.replies import Mode
from ..core.symbols import ADDRESS
from ..core.values import dataclass, field
from .explorer import Explorer
from .quotes import RULE, WORD, file_of, quote_fault, text_of

MOST_WORDS = 20  # that are looked at for missing quotes


@dataclass(frozen=True)
class Arguments:
    """The named parts of a command's words. A part that isn't there is None. `numbers` are those of
    addresses and places, whose words may be names."""

    parts: dict[str, Optional[str]]
    numbers: dict[str, int] = field(default_factory=dict)

    def optional(self, name: str) -> Optional[str]:
        return self.parts[name]

    def text(self, name: str) -> str:
        return self.parts[name] or ""

    def decimal(self, name: str, default: int = 0, base: int = 10) -> int:
        text = self.parts[name]
        return self.numbers[name] if name in self.numbers else int(text, base) if text else default

    def octal(self, name: str, default: int = 0) -> int:
        return self.decimal(name, default, 8)


Run = Callable[[Explorer, Arguments], Iterator[str]]


@dataclass(frozen=True)
class Command:
    """A command: its form, the words that have this form, what it is for, and what it does. In the
    pattern of the words a space stands for spaces and tabs, and <turn:decimal> for a named part."""

    form: str
    words: str
    summary: str
    run: Run

    @property
    def name(self) -> str:
        return self.form.split()[0]

    @property
    def detail(self) -> str:
        """What `help` shows besides: the docstring."""
        lines = (self.run.__doc__ or "").strip().splitlines()
        return "\n".join(it.strip() for it in lines)

    @cached_property
    def kinds(self) -> dict[str, str]:
        """The kind of each part."""
        return dict(re.findall(r"<(\w+):(\w+)>", self.words))

    def parts_of(self, *kinds: str) -> frozenset[str]:
        """The names of the parts of these kinds."""
        return frozenset(it for it, kind in self.kinds.items() if kind in kinds)

    @cached_property
    def pattern(self) -> "re.Pattern[str]":
        def part(found: "re.Match[str]") -> str:
            return f"(?P<{found[1]}>{PARTS[found[2]]})"

        whole = re.sub(r"<(\w+):(\w+)>", part, self.words)
        whole = whole.replace("{from}", PARTS["from"]).replace("{to}", PARTS["to"])
        return re.compile(whole.replace(" ", BLANKS))

    def lines(self, explorer: Explorer, words: str) -> Iterator[str]:
        match = self.pattern.fullmatch(words.strip(" \t"))
        if match is None:
            raise ExploreError(self.fault(words))
        parts = match.groupdict()
        for name in ("first", "last", "turn"):
            check_turn(int(parts.get(name) or 0))
        if parts.get("drive"):
            check_drive(explorer.machine)
        if "\0" in words:
            raise ExploreError("the line has a NUL")
        mode, numbers = Mode(parts["mode"]) if parts.get("mode") else None, dict[str, int]()
        for name, kind in self.kinds.items():
            text = parts[name]
            if text and kind == "address":
                numbers[name] = explorer.symbols.number(text, mode)
            elif text and kind == "place":
                numbers[name] = place_of(explorer.machine, explorer.symbols, text)
            elif text is not None and kind in INSIDE:
                parts[name] = INSIDE[kind](text)
        return self.run(explorer, Arguments(parts, numbers))

    def fault(self, words: str) -> str:
        """Why these words haven't the form."""
        has_quotes = bool(self.parts_of("file", "text"))
        if has_quotes and quote_fault(words):
            return quote_fault(words)
        if comma_fault(words):
            return f"{comma_fault(words)}; {self.form}"
        rule = f"; {RULE}" if has_quotes and self.lacks_quotes(words.split()) else ""
        return f"the form is: {self.form}{rule}"

    def lacks_quotes(self, words: list[str]) -> bool:
        """Whether these words have the form if some of them, side by side, are one in quotes."""
        if len(words) > MOST_WORDS:
            return True
        spans = itertools.combinations(range(len(words) + 1), 2)
        as_one = (" ".join([*words[:begin], "''", *words[end:]]) for begin, end in spans)
        return any(map(self.pattern.fullmatch, as_one))


# What a part in quotes is.
INSIDE = {"file": file_of, "text": text_of}
# The commands by their names, of the modules that were read.
READ: dict[str, Command] = {}


def check_turn(turn: int) -> None:
    """A question may be about the turns 0 to LAST_TURN, which is the end of the run."""
    if turn > LAST_TURN:
        raise ExploreError(f"turn {turn} is above {LAST_TURN}")


END_OF_RUN = f"turn {LAST_TURN} is the end of the run: the last turn is {LAST_TURN - 1}"


def turns_between(first: int, last: int) -> range:
    """The turns of `from N to M`, each of which runs."""
    check_turn(max(first, last))
    if LAST_TURN in (first, last):
        raise ExploreError(END_OF_RUN)
    if last < first:
        raise ExploreError(f"turn {last} comes before turn {first}")
    return range(first, last + 1)


def turns_before(first: int, end: int) -> range:
    """The turns from N on and before M."""
    check_turn(max(first, end))
    if end <= first:
        raise ExploreError("M isn't above N")
    return range(first, end)


def check_even(address: int) -> None:
    """An error if words can't be moved to this address."""
    if address % 2:
        raise ExploreError(f"A is odd: {address:o}")


def check_drive(machine: Machine) -> None:
    """An error in version 1, in which no line names a drive."""
    if machine.setup.version == 1:
        raise ExploreError("version 1 has one drive, which isn't named; see version 2")


# What separates words. It can begin at one place alone: with more, a long run of blanks would take
# the square of its length.
BLANKS = r"(?<![ \t])[ \t]+"
# The parts of patterns: a turn, a count and an event are decimal, a word is octal, and so is an
# address, or it is a symbol; a place may also be a register of the I/O page. A file and a text may
# stand in quotes.
PARTS = {
    "decimal": r"[0-9]{1,10}",
    "octal": r"[0-7]{1,10}",
    "address": ADDRESS,
    "place": ADDRESS,
    "file": WORD,
    "text": WORD,
    "from": r"((^| )from (?P<first>[0-9]{1,10}))?",
    "to": r"((^| )to (?P<last>[0-9]{1,10}))?",
}


def command(form: str, pattern: str, summary: str) -> Callable[[Run], Run]:
    """Adds the function to the table. Its docstring is the detail of `help`."""

    def register(run: Run) -> Run:
        made = Command(form, pattern, summary, run)
        READ[made.name] = made
        return run

    return register


SEARCHED_TURNS = 1_000_000


def turn_range(arguments: Arguments, first: int = 0, turns: int = SEARCHED_TURNS) -> range:
    """The turns of `[from N] [to M]`: without `from` they begin at `first`, and without `to` they
    are this number of turns."""
    begin = arguments.decimal("first", first)
    end = min(begin + turns, LAST_TURN) - 1
    return turns_between(begin, arguments.decimal("last", end))


def searched_range(explorer: Explorer, arguments: Arguments, first: int = 0) -> range:
    """The turns of a search, without `from` those from `first` on. Without `to` they go on to the
    greatest turn that was asked so far, and then a million further."""
    begin = arguments.decimal("first", first)
    asked = max(0, explorer.machine.asked.greatest - begin)
    return turn_range(arguments, first, asked + SEARCHED_TURNS)


def range_ahead(explorer: Explorer, arguments: Arguments) -> range:
    """The same, but without `from` those behind the current turn. Behind turn 0, where explore
    begins, they have that turn too."""
    turn = explorer.turn
    return searched_range(explorer, arguments, min(turn + 1, LAST_TURN) if turn else 0)
