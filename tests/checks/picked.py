"""Which lines lines.py asks of a stored system: many of each kind, with arguments that chance
picks from a fixed seed, and with those at the edges."""
import random
from typing import Sequence, TypeVar

from tests.checks.computed import OPERATORS
from tests.checks.stored_systems import WORDS_OF_PAGE, System
from tests.checks.traps import trap_of
from tests.checks.turn_accesses import MOST_TURNS, cycles_of
from tests.checks.turn_moves import acts_of
from tests.checks.virtual_places import REGISTERS_AT
from tests.checks.word_reads import first_reads

LAST_OF_DRIVE = 0o4603777
REGISTERS = ["R0", "R1", "R2", "R3", "R4", "R5", "KSP", "USP", "SP", "PC", "PS"]
VECTORS = [0o60, 0o64, 0o70, 0o74, 0o100, 0o220]
TRAPS = [0o4, 0o10, 0o14, 0o20, 0o30, 0o34, 0o250]
DEVICES = ["continue", "tick", "printer", "reader", "punch", "disk"]
MODES = ["kernel", "user"]
# How many words of core and of drives are asked of each turn, and how many turns of all of core.
MOST_WORDS = 6
WHOLE_TURNS = 2

Picked = TypeVar("Picked")


class Picker:
    """Picks lines about the turns of a system that are known."""

    def __init__(self, system: System, chance: random.Random) -> None:
        self.system, self.chance = system, chance
        self.first, self.last = system.turns[0], system.turns[-1]
        self.codes = [turn for turn, it in system.acts.items() if it[1] == "instr"]
        self.vectors: dict[int, list[int]] = {it: [] for it in VECTORS}
        self.traps: dict[int, list[int]] = {it: [] for it in TRAPS}
        self.patches = [it.split() for it in system.replies_to(["patches"])[1][0].split("\n")[1:]]
        some = chance.sample(system.turns, min(WHOLE_TURNS, len(system.turns)))
        self.whole = sorted({self.first, self.last, *some})
        self.ask_whole()
        self.words = self.core_words()
        self.on_drives = self.drive_words()

    def find_acts(self) -> None:
        """The turns that have each interrupt and each trap."""
        for turn, (_, act) in self.system.acts.items():
            if act.startswith("irq"):
                self.vectors.setdefault(int(act[4:], 8), []).append(turn)
        is_lacking = True
        while is_lacking:
            traps = {turn: trap_of(self.system, turn) for turn in self.system.acts}
            is_lacking = self.system.ask_wanted()
        for turn, trap in traps.items():
            for vector in trap.vectors:
                self.traps.setdefault(vector, []).append(turn)

    def ask_whole(self) -> None:
        """Asks all of core, and the sectors in use, before some turns."""
        for turn in self.whole:
            for address in range(0, self.system.core_bytes, 2 * WORDS_OF_PAGE):
                self.system.core_in_page(turn, address)
            for drive, first in self.sectors():
                self.system.drive_in_sector(turn, drive, first)
        self.system.ask_wanted()

    def sectors(self) -> list[tuple[int, int]]:
        """The drive and the first word of sectors with patches, of those that RKDA names, and of a
        first and a last one."""
        found = {(0, 0), (7 * (self.system.version == 2), LAST_OF_DRIVE & ~0o377)}
        for name, *numbers in self.patches:
            if name == "disk":
                drive, word = [0, *(int(it, 8) for it in numbers)][-3:-1]
                found.add((drive, word & ~0o377))
        found |= sectors_named(self.system, self.system.turns)
        return sorted(found)

    def core_words(self) -> list[int]:
        """Addresses of core, first those of words that change."""
        first, last = self.first, self.last
        every = range(0, self.system.core_bytes, 2)
        core = self.system.core_in_page
        changed = [it for it in every if core(first, it) != core(last, it)]
        patched = [int(it[1], 8) for it in self.patches if it[0] == "core"]
        found = self.some(changed, MOST_WORDS - 3) + self.some(patched, 2)
        return [*found, self.chance.randrange(0, self.system.core_bytes, 2)]

    def drive_words(self) -> list[tuple[int, int]]:
        """Drives with a word, first of words that change."""
        first, last = self.first, self.last
        sectors = self.sectors()
        every = [(drive, word + i) for drive, word in sectors for i in range(WORDS_OF_PAGE)]
        word_of = self.system.drive_in_sector
        changed = [it for it in every if word_of(first, *it) != word_of(last, *it)]
        return self.some(changed, MOST_WORDS - 2) + self.some(every, 2)

    def some(self, every: Sequence[Picked], count: int) -> list[Picked]:
        return self.chance.sample(every, min(count, len(every)))

    def turn(self) -> int:
        some = self.chance.choices(self.system.turns, k=6)
        return self.chance.choice([self.first, self.last, *some])

    def span(self, turns: Sequence[int] = ()) -> str:
        """N and M: mostly of many turns, one of these among them, and of one or none."""
        one, other = sorted([self.turn(), self.turn()])
        kind = self.chance.randrange(8)
        if kind == 0:
            return f"{one} {one}"
        if kind == 1:
            one = min(one, self.last - 1)
            return f"{one} {one + 1}"
        if turns and kind < 6:
            one = self.chance.choice(turns)
            after, before = (self.first, one), (one + 1, self.last)
            return f"{self.chance.randint(*after)} {self.chance.randint(*before)}"
        return f"{self.first} {self.last}" if kind < 7 else f"{one} {other}"

    def search(self, turns: Sequence[int] = ()) -> str:
        return f"{self.chance.choice(['first', 'latest'])} {self.span(turns)}"

    def at(self) -> list[str]:
        lines = [f"{self.search()} at {self.chance.randrange(0o200000):o}"]
        for turn in self.some(self.codes, 20):
            pc, same = self.system.acts[turn][0], self.mode_before(turn)
            turns = [it for it in self.codes if self.system.acts[it][0] == pc]
            mode = self.chance.choice(["", " kernel", " user", f" {same}", f" {same}"])
            lines.append(f"{self.search(turns)} at {pc:o}{mode}")
        return lines

    def mode_before(self, turn: int) -> str:
        return "user" if self.system.registers(turn)["PS"] >> 14 == 3 else "kernel"

    def code(self) -> int:
        return self.system.acts[self.chance.choice(self.codes)][0] if self.codes else 0

    def acts(self) -> list[str]:
        """Of each vector of an interrupt and of a trap, and of others."""
        self.find_acts()
        lines = []
        for kind, turns_of in (("vector", self.vectors), ("trap", self.traps)):
            lines.append(f"{self.search()} {kind} {self.chance.randrange(0o400):o}")
            for vector, turns in turns_of.items():
                for _ in range(8 if turns else 1):
                    lines.append(f"{self.search(turns)} {kind} {vector:o}")
        return lines

    def where(self) -> list[str]:
        """With one to four conditions, mostly such as one turn meets."""
        lines = []
        for turn in self.chance.choices(self.system.turns[:-1], k=50):
            count = self.chance.choice([1, 1, 2, 2, 3, 4])
            conditions = " and ".join(self.condition(turn) for _ in range(count))
            lines.append(f"{self.search([turn])} where {conditions}")
        return lines

    def condition(self, turn: int) -> str:
        kind = self.chance.randrange(12)
        if kind == 0:
            return f"at {self.system.acts[turn][0]:o}"
        if kind == 1:
            return self.chance.choice([*MODES, self.mode_before(turn)])
        left, word = self.quantity(turn)
        if kind < 4:
            right, other = self.quantity(turn)
            return f"{left} {self.relation(word, other)} {right}"
        return f"{left} {self.compared(word)}"

    def quantity(self, turn: int) -> tuple[str, int]:
        """A word of core or a register, and about what it is before the turn."""
        if self.chance.randrange(8) < 3:
            address = self.chance.choice(self.words)
            near = min(self.whole, key=lambda it: abs(it - turn))
            return f"core {address:o}", self.system.core_in_page(near, address)
        register = self.chance.choice(REGISTERS)
        return register, self.system.registers(turn)[register]

    def relation(self, word: int, other: int) -> str:
        """An operator, mostly one by which the words agree."""
        true = [it for it, holds in OPERATORS.items() if holds(word, other)]
        return self.chance.choice(true * 4 + list(OPERATORS))

    def compared(self, word: int) -> str:
        """An operator and a number, with which the word mostly agrees."""
        low, high = self.chance.randint(0, word), self.chance.randint(word, 0o177777)
        bits = [0o1, 0o177776, 0o360, 0o140000, self.chance.randrange(0o200000)]
        mask = self.chance.choice(bits)
        true = [f"= {word:o}", f"!= {word ^ 1:o}", f"> {low:o}", f"< {high:o}"]
        true.append(f"& {mask:o} = {word & mask:o}")
        other = [f"= {word ^ 1:o}", f"!= {word:o}", f"> {word:o}", f"< {word:o}"]
        other.append(f"& {mask:o} = {word:o}")
        return self.chance.choice(true * 6 + other)

    def counts(self) -> list[str]:
        lines = []
        for turn in self.chance.choices(self.codes or self.system.turns[:-1], k=12):
            count = self.chance.choice([1, 2, 16, 256, self.chance.randint(1, 256)])
            first = (self.system.acts[turn][0] & ~1) - 2 * self.chance.randrange(count)
            first = max(0, min(first, 0o200000 - 2 * count))
            mode = self.chance.choice([*MODES, self.mode_before(turn), self.mode_before(turn)])
            lines.append(f"counts {self.span([turn])} {mode} {first:o} {count}")
        return lines

    def writes(self) -> list[str]:
        # A word that is written in every other turn has 256 writes in 511 turns.
        ends = [self.last, *(min(self.first + it, self.last) for it in (511, 512))]
        spans = [self.span(), *(f"{self.first} {end}" for end in dict.fromkeys(ends))]
        return [f"writes {span} {address:o}" for address in self.words for span in spans]

    def reads(self) -> list[str]:
        """Of a few words, and none if explore's rules don't follow each turn."""
        lines = []
        for address in self.some(self.words, 2):
            try:
                first_reads(self.system, address)
            except LookupError:
                return []
            spans = f"{self.first} {self.last}", self.span()
            lines += [f"reads {span} {address:o}" for span in spans]
        return lines

    def accesses(self) -> list[str]:
        """Of turns, each of whose cycles explore's rules tell."""
        known = cycles_of(self.system)
        lines = []
        for turn in self.some(sorted(known), 12):
            first = turn
            while first in known and turn - first < MOST_TURNS:
                first -= 1
            lines += [f"accesses {turn + 1} {it}" for it in (1, turn - first)]
        return [*lines, f"accesses {self.turn()} 65"]

    def moves(self) -> list[str]:
        """Of each turn that explore's rules follow; of none if the tape isn't followed from turn
        0."""
        known = {} if self.first and self.system.followed.tape else acts_of(self.system)
        lines, begin = [], self.first
        for turn in range(self.first, self.last + 1):
            if turn - begin == MOST_TURNS or turn not in known:
                lines += [f"moves {turn} {turn - begin}"] * (turn > begin)
                begin = turn if turn in known else turn + 1
        return [*lines, f"moves {self.turn()} 65"]

    def changes(self) -> list[str]:
        on, whole = self.system.drive_word, f"{self.first} {self.last}"
        return [
            f"change {span} {on(drive)}{word:o}"
            for drive, word in self.on_drives
            for span in (whole, self.span(), self.span())
        ]

    def transfers(self) -> list[str]:
        whole = f"transfers {self.first} {self.last}"
        return [whole, *(f"transfers {self.span()}" for _ in range(6))]

    def bytes_out(self) -> list[str]:
        lines = []
        for command in ("text", "punched"):
            count = len(self.system.text(command, self.last))
            for _ in range(10 if count else 2):
                first = self.chance.choice([0, count, self.chance.randint(0, count + 2)])
                lines.append(f"{command} {self.turn()} from {first}")
        known = [len(self.system.text("text", turn)) for turn in (self.first, self.last)]
        return lines + [f"when {it}" for it in self.some(range(*known), 12)]

    def address(self) -> int:
        """A virtual address: of code, at an edge of a page or of the I/O page, or any."""
        edge = self.chance.choice([self.chance.randrange(0, 0o200000, 0o20000), 0o160000])
        register = self.chance.choice(self.chance.choice(REGISTERS_AT)) & 0o17776 | 0o160000
        choices = [self.code(), edge, edge - 2, register, self.chance.randrange(0o200000)]
        return self.chance.choice(choices) % 0o200000

    def ends_of_pages(self) -> list[str]:
        """Modes with virtual addresses about the last blocks of the pages that are there in the
        end."""
        pages, found = self.system.page_registers(self.last), []
        for mode, name in zip(MODES, ("KPDR", "UPDR")):
            for page, word in enumerate(pages[name]):
                last = word >> 8 & 0o177
                blocks = sorted({max(last - 1, 0), last, min(last + 1, 0o177)} if word & 2 else ())
                found += [f"{mode} {(page << 13) + (block << 6) + 0o76:o}" for block in blocks]
        return found

    def places(self) -> list[str]:
        lines = []
        for it in self.ends_of_pages():
            lines += [f"translate {self.last} {it}", f"virtual {self.last} {it} 2"]
        for _ in range(30):
            mode = self.chance.choice(MODES)
            lines.append(f"translate {self.turn()} {mode} {self.address():o}")
            count = self.chance.choice([1, 2, 3, self.chance.randint(1, 256)])
            address = self.address() & ~(self.chance.random() < 0.95)
            lines.append(f"virtual {self.turn()} {mode} {address:o} {count}")
        return lines

    def mask(self) -> str:
        mask = self.chance.choice([0, 0o177777, 0o7, self.chance.randrange(0o200000)])
        return self.chance.choice(["", f" mask {mask:o}"])

    def finds(self) -> list[str]:
        lines = []
        for _ in range(12):
            turn, first = self.chance.choice(self.whole), self.chance.choice([0, *self.words])
            last = self.chance.choice([first, first + 0o776, first + 0o1000, first + 0o20000])
            last = min(last, self.system.core_bytes - 2)
            word = self.system.core_in_page(turn, self.chance.choice(self.words))
            lines.append(f"find {turn} {first:o} {last:o} {word:o}{self.mask()}")
        return [*lines, f"find {self.last} 0 {self.system.core_bytes - 2:o} 0"]

    def finds_on_drives(self) -> list[str]:
        lines = []
        for _ in range(8):
            turn = self.chance.choice(self.whole)
            drive, first = self.chance.choice(self.sectors())
            first += self.chance.choice([0, 1, 0o377])
            last = min(first + self.chance.choice([0, 0o377, 0o400, 0o1400]), LAST_OF_DRIVE)
            word = self.system.drive_in_sector(turn, drive, first)
            on = self.system.drive_word(drive)
            lines.append(f"finddsk {turn} {on}{first:o} {last:o} {word:o}{self.mask()}")
        return lines

    def edits(self) -> list[str]:
        """Edits for `fades`."""
        on = self.chance.choice(self.on_drives)
        word = self.chance.choice([0, 0o240, self.chance.randrange(0o200000)])
        at = f"{self.turn()} {self.event()}"
        found = [f"core {self.chance.choice(self.words):o} {word:o}", f"at {at}"]
        found.append(f"disk {self.system.drive_word(on[0])}{on[1]:o} {word:o}")
        if self.system.followed.events:
            number = self.chance.choice(self.system.followed.events).number
            found += [f"drop {number}", f"alter {number} {at}"]
        return found

    def event(self) -> str:
        byte, word = self.chance.randrange(0o400), self.chance.randrange(0o200000)
        return self.chance.choice([f"key {byte:o}", f"switches {word:o}", *DEVICES])

    def fades(self) -> list[str]:
        edits = [edit for _ in range(3) for edit in self.edits()]
        return [f"fades {self.chance.choice([self.last, self.turn()])} {it}" for it in edits]

    def lines(self) -> list[str]:
        """All lines, those of one kind not together, so that turns are asked back and forth."""
        kinds = [self.at, self.acts, self.where, self.counts, self.writes, self.changes]
        kinds.append(self.transfers)
        kinds += [self.bytes_out, self.places, self.finds, self.finds_on_drives, self.fades]
        kinds += [self.reads, self.accesses, self.moves]
        found = [line for kind in kinds for line in kind()] + ["events", "setup"]
        found = list(dict.fromkeys(found))
        self.chance.shuffle(found)
        return found


def sectors_named(system: System, turns: list[int]) -> set[tuple[int, int]]:
    """The sectors that RKDA names at these turns, with the one before."""
    found = set()
    for named in {system.reply(f"devices {turn}").split("RKDA ")[1].split()[0] for turn in turns}:
        address = int(named, 8)
        sector = (address >> 5 & 0o377) * 24 + (address >> 4 & 1) * 12 + (address & 0o17)
        drive = address >> 13 if system.version == 2 else 0
        for it in (sector - 1, sector):
            if 0 <= it * WORDS_OF_PAGE <= LAST_OF_DRIVE:
                found.add((drive, it * WORDS_OF_PAGE))
    return found
