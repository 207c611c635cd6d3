"""Turns and instructions with their texts: `list`."""
import itertools
from typing import Iterable, Iterator, Optional, Sequence

from ..core.engine import MOST_WORDS, SHORT_SENT_AHEAD, Machine
from ..core.errors import ExploreError
from ..core.hardware import IO_PAGE
from ..core.replies import INSTRUCTION, INTERRUPT, LastWrite, Mode, Registers, Turn, turns_of
from ..core.replies import words_of
from ..core.values import dataclass
from .command import Arguments, command
from .disassembly import Instruction
from .explorer import Explorer

INSTRUCTION_WORDS = 3
SHOWN_AT_ONCE, VIRTUAL, PHYSICAL = 16, 0o200000, 0o1000000
NOT_WHOLE = "(can't be fetched whole)"


@dataclass(frozen=True)
class SeenTurn:
    """A turn as `see` shows it, with the registers before it and the words of its instruction."""

    turn: Turn
    registers: Registers
    physical: Optional[int]
    words: Sequence[int]
    text: str
    symbol: str

    @property
    def mode(self) -> Mode:
        return self.registers.mode

    def line(self) -> str:
        place = "------" if self.physical is None else f"{self.physical:06o}"
        line = (
            f"{self.turn.turn:>10}  {self.mode.value:<6}  {self.turn.pc:06o}  {place}  {self.text}"
        )
        return f"{line:<64}  {self.symbol}".rstrip()

    def brief(self) -> str:
        name = f" ({self.symbol})" if self.symbol else ""
        return f"{self.mode.value} {self.turn.pc:06o}{name} {self.text}"


HEADING = f"{'turn':>10}  {'mode':<6}  {'PC':<6}  {'core':<6}  what it did"


@dataclass(frozen=True)
class Fetch:
    """Where a turn found its instruction: the physical addresses of its words, as far as they are
    core. The first address may be none, or none of core."""

    registers: Registers
    physical: Optional[int]
    words: list[int]


def words_in_core(places: Iterable[Optional[int]], top: int) -> list[int]:
    """The addresses before the first that isn't one of a word of core."""
    found: list[int] = []
    for place in places:
        if place is None or place % 2 or place >= top:
            break
        found.append(place)
    return found


def fetches_of(machine: Machine, turns: Sequence[Turn]) -> list[Fetch]:
    """Only the words of instructions are looked for."""
    replies = machine.read_all([f"regs {it.turn}" for it in turns], SHORT_SENT_AHEAD)
    registers = [Registers.of(it) for it in replies]
    counts = [INSTRUCTION_WORDS if it.act == INSTRUCTION else 1 for it in turns]
    modes = [it.mode for it in registers]
    asked = [
        (turn.turn, mode, (turn.pc + 2 * at) % VIRTUAL)
        for turn, mode, count in zip(turns, modes, counts)
        for at in range(count)
    ]
    replied, top = machine.places(asked), machine.setup.core_end
    places = [list(itertools.islice(replied, it)) for it in counts]
    return [
        Fetch(of_turn, found[0], words_in_core(found, top) if len(found) > 1 else [])
        for of_turn, found in zip(registers, places)
    ]


def parts_that_follow(addresses: Sequence[int]) -> list[list[int]]:
    """The addresses in parts of words that follow one another, each for one question."""
    parts: list[list[int]] = []
    for address in addresses:
        if parts and parts[-1][-1] + 2 == address and len(parts[-1]) < MOST_WORDS:
            parts[-1].append(address)
        else:
            parts.append([address])
    return parts


def fetched_words(
    machine: Machine, turns: Sequence[Turn], fetches: Sequence[Fetch]
) -> list[list[int]]:
    """The words that the instruction of each turn was fetched from, as the act of the turn found
    them: a transfer that ends in the turn comes before it."""
    places = [(turn.turn, it.words) for turn, it in zip(turns, fetches)]
    asked = [
        (at, part)
        for turn, words in places
        for at in (turn, turn + 1)
        for part in parts_that_follow(words)
    ]
    lines = [f"mem {at} {part[0]:o} {len(part)}" for at, part in asked]
    replies = machine.ask_all(lines, SHORT_SENT_AHEAD)
    values = {
        (at, place): word
        for (at, part), reply in zip(asked, replies)
        for place, word in zip(part, words_of(reply))
    }
    changed = [
        (turn, it)
        for turn, words in places
        for it in words
        if values[turn, it] != values[turn + 1, it]
    ]
    lasts = machine.ask_all([f"last {turn + 1} {it:o}" for turn, it in changed])
    for (turn, place), reply in zip(changed, lasts):
        last = LastWrite.of(reply)
        if last is not None and last.writer == "disk":
            values[turn, place] = values[turn + 1, place]
    return [[values[turn, it] for it in words] for turn, words in places]


def instruction_of(explorer: Explorer, address: int, words: list[int]) -> Instruction:
    """The instruction with these words, one at least. If further words of it aren't there, of its
    text the name alone is known."""
    padded = (words + [0] * INSTRUCTION_WORDS)[:INSTRUCTION_WORDS]
    found = explorer.disassembler.instruction(address, padded)
    if found.words <= len(words):
        return found
    return Instruction(len(words), f"{found.text.split()[0]} .. {NOT_WHOLE}")


def act_text(explorer: Explorer, turn: Turn, fetch: Fetch, words: list[int]) -> str:
    if turn.act == INTERRUPT:
        return turn.interrupt()
    if turn.act == INSTRUCTION:
        return instruction_of(explorer, turn.pc, words).text if words else "(can't be fetched)"
    idle = "halted" if fetch.registers.state == "halted" else "waits"
    return {"idle": idle, "trace": "trace trap", "stack": "stack trap"}[turn.act]


def seen(explorer: Explorer, turns: Sequence[Turn]) -> Iterator[SeenTurn]:
    """The turns, which ascend, with their instructions. What they need is asked in four passes
    upwards: registers, physical addresses, words, and who wrote those that a turn changed."""
    fetches = fetches_of(explorer.machine, turns)
    words = fetched_words(explorer.machine, turns, fetches)
    for turn, fetch, found in zip(turns, fetches, words):
        text = act_text(explorer, turn, fetch, found)
        symbol = explorer.symbols.near(fetch.registers.mode, turn.pc)
        yield SeenTurn(turn, fetch.registers, fetch.physical, found, text, symbol)


def turns_in_words(explorer: Explorer, numbers: Sequence[int]) -> list[str]:
    """Turns, which ascend, each in one line, such as `kernel 001040 ADD #7,@#2000`."""
    lines = [f"trail {it + 1} 1" for it in numbers]
    replies = explorer.machine.ask_all(lines, SHORT_SENT_AHEAD)
    turns = [turns_of(reply)[0] for reply in replies]
    return [it.brief() for it in seen(explorer, turns)]


def turn_in_words(explorer: Explorer, turn: int) -> str:
    return turns_in_words(explorer, [turn])[0]


def listed_line(address: int, words: Sequence[int], text: str, name: str = "") -> str:
    octal = " ".join(f"{it:06o}" for it in words)
    return f"{address:06o}  {octal:<20}  {text:<28}  {name}".rstrip()


@dataclass(frozen=True)
class Listed:
    """The addresses of `list` before a turn: those of core, or those of a mode's programs."""

    mode: Optional[Mode]
    top: int
    physical: dict[int, Optional[int]]  # by virtual address, of kernel mode if the list has none
    words: dict[int, int]  # by address of core

    @classmethod
    def of(
        cls, machine: Machine, turn: int, mode: Optional[Mode], address: int, count: int
    ) -> "Listed":
        """What this number of instructions from the address on may take."""
        listed = range(address, address + 2 * INSTRUCTION_WORDS * count, 2)
        top = machine.setup.core_end
        virtual = sorted({it % VIRTUAL for it in listed if mode or it < VIRTUAL})
        asked = [(turn, mode or Mode.KERNEL, it) for it in virtual]
        physical = dict(zip(virtual, machine.places(asked)))
        places = listed if mode is None else physical.values()
        parts = parts_that_follow(sorted({it for it in places if it is not None and it < top}))
        replies = machine.read_all([f"mem {turn} {it[0]:o} {len(it)}" for it in parts])
        words = [word for reply in replies for word in words_of(reply)]
        return cls(mode, top, physical, dict(zip(itertools.chain(*parts), words)))

    @property
    def end(self) -> int:
        return PHYSICAL if self.mode is None else VIRTUAL

    def place(self, address: int) -> Optional[int]:
        """The physical address of this one, if it has one."""
        return address if self.mode is None else self.physical[address % VIRTUAL]

    def word(self, address: int) -> Optional[int]:
        """The word at an even address, if there is one."""
        place = self.place(address) if 0 <= address < self.end else None
        return None if place is None else self.words.get(place)

    def words_at(self, address: int) -> list[int]:
        """The words of an instruction at the address, as far as they are in core."""
        if address >= self.end:
            return []
        places = [self.place(address + 2 * at) for at in range(INSTRUCTION_WORDS)]
        return [self.words[it] for it in words_in_core(places, self.top)]

    def nothing(self, address: int) -> str:
        """Why there is no word at this address."""
        if address >= self.end:
            return f"the addresses end at {self.end - 1:o}"
        place = self.place(address)
        if place is None:
            return "no page is there that can be read"
        return "no core is there" if place < IO_PAGE else "the I/O page is there, and no core"

    def symbol(self, explorer: Explorer, address: int) -> str:
        """The symbol of an address; of one of core, if kernel mode has this address at it."""
        if self.mode is None and self.physical.get(address) != address:
            return ""
        return explorer.symbols.near(self.mode or Mode.KERNEL, address)

    def lines(self, explorer: Explorer, address: int, count: int) -> Iterator[str]:
        """This number of instructions from the address on, as far as there are any."""
        for _ in range(count):
            words = self.words_at(address)
            if not words:
                yield f"{min(address, self.end):06o}  {self.nothing(address)}"
                return
            found = instruction_of(explorer, address % VIRTUAL, words)
            name = self.symbol(explorer, address)
            yield listed_line(address, words[: found.words], found.text, name)
            address += 2 * found.words


@command(
    "list  or  list [kernel|user] A C [at N]",
    r"(((?P<mode>kernel|user) )?<address:address> <count:decimal>( at <turn:decimal>)?)?",
    "C instructions from address A on, before turn N",
)
def list_instructions(explorer: Explorer, arguments: Arguments) -> Iterator[str]:
    """Shows C instructions as they are in core before turn N, up to 256. A is an address of core,
    as in `mem`. With `kernel` or `user` before it A is an address as a program of that mode has
    it, and goes through its pages. Without `at` N is the current turn. `list` alone shows the 16
    instructions from its PC on, in its mode. A listing ends where there is no core. Above 177777 an
    address in the text of an instruction lacks its upper bits."""
    machine, turn = explorer.machine, arguments.decimal("turn", explorer.turn)
    address, count = arguments.octal("address"), arguments.decimal("count", SHOWN_AT_ONCE)
    mode = Mode(arguments.text("mode")) if arguments.optional("mode") else None
    if not arguments.optional("address"):
        registers = machine.registers(turn)
        address, mode = registers.pc, registers.mode
    if address % 2 or not 1 <= count <= 256:
        raise ExploreError(f"{address:o} is odd" if address % 2 else "C is 1 to 256")
    if not arguments.optional("turn"):
        yield f"before turn {turn}" + (f", {mode.value} mode:" if mode else ":")
    yield from Listed.of(machine, turn, mode, address, count).lines(explorer, address, count)
    explorer.turn = turn
