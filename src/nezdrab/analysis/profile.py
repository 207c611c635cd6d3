"""Where the turns went: `profile`."""
import bisect
import math
import random
from collections import Counter
from typing import Iterable, Iterator, Optional

from ..core.engine import SHORT_SENT_AHEAD, Machine
from ..core.errors import ExploreError
from ..core.hardware import INTERRUPTS, TRAPS
from ..core.in_words import counted, span
from ..core.replies import INSTRUCTION, Mode, Registers, turns_of, words_of
from ..core.symbols import FARTHEST
from ..core.values import dataclass, field
from .command import Arguments, command, turns_before
from .counting import MODES, Area, Place, areas_with_turns, counts_at, windows_of
from .crew import Progress
from .dump import in_mode, is_read
from .explorer import Explorer
from .levels import JSR, WITHOUT, WITH_NUMBER, call_in

EXACT_TURNS = 1_000_000  # that are counted if `whole` isn't said
SAMPLES = 10_000
COUNTED_TURNS = 50_000_000  # in all searches that count the entries of sampled routines
MOST_ROWS = 30
NOT_NAMED = "(before the first routine)"


@dataclass(frozen=True)
class Share:
    """A part of a whole, of which all was counted, or these samples were looked at."""

    part: int
    whole: int
    is_sampled: bool

    def percent(self) -> float:
        return 100 * self.part / self.whole

    def error(self) -> float:
        """Two standard errors in percent, as Agresti and Coull estimate them; of a count 0."""
        if not self.is_sampled:
            return 0.0
        count = self.whole + 4
        near = (self.part + 2) / count
        return 200 * math.sqrt(near * (1 - near) / count)

    def text(self) -> str:
        after = f" ±{self.error():.2f}" if self.is_sampled else ""
        return f"{self.percent():.2f} %{after}"


@dataclass
class Profile:
    """How often the instruction at each place ran in some turns, which are in these areas; or how
    often it was met in samples of the turns, and in one of which."""

    turns: range
    samples: int = 0
    counts: Counter[Place] = field(default_factory=Counter)
    areas: list[Area] = field(default_factory=list)
    met: dict[Place, int] = field(default_factory=dict)

    @property
    def instructions(self) -> int:
        return sum(self.counts.values())

    def share(self, count: int) -> Share:
        return Share(count, self.samples or len(self.turns), self.samples > 0)

    def in_turns(self, count: int) -> int:
        """How many turns a count stands for."""
        return round(count * len(self.turns) / self.samples) if self.samples else count


def is_call(word: int) -> bool:
    return word >> 9 == JSR or word >> 8 in WITH_NUMBER or word in WITHOUT


# All turns


def counted_profile(machine: Machine, turns: range) -> Profile:
    profile = Profile(turns)
    profile.areas += [it for mode in MODES for it in areas_with_turns(machine, turns, mode)]
    for area in profile.areas:
        profile.counts.update(area.counts(machine, turns))
    return profile


def calls_in(machine: Machine, profile: Profile, area: Area) -> set[Place]:
    """The places in an area at which calls ran. Its words are those before the last of the turns,
    and those when the area was met first."""
    found = set()
    for turn in {area.turn, profile.turns.stop}:
        words = in_mode(machine, turn, area.mode, area.addresses[0], len(area.addresses)).words
        calls = (at for at, word in words.items() if word is not None and is_call(word))
        found |= {Place(area.mode, it) for it in calls}
    return {it for it in found if profile.counts[it]}


def calls_that_ran(machine: Machine, profile: Profile) -> Iterator[int]:
    """For each place of a call that ran, the first turn there."""
    for area in profile.areas:
        for place in calls_in(machine, profile, area):
            sought = f"at {place.address:o} {place.mode.value}"
            found = machine.found("first", profile.turns, sought)
            yield from [] if found is None else [found]


# Samples


def sampled_turns(turns: range, count: int) -> list[int]:
    """A turn of each of `count` equal parts, by chance, so that no period of the program meets that
    of the samples. The same turns give the same samples."""
    chance = random.Random(count)
    ends = [turns.start + len(turns) * it // count for it in range(count + 1)]
    return [chance.randrange(begin, end) for begin, end in zip(ends, ends[1:])]


def sampled_profile(machine: Machine, turns: range) -> Profile:
    samples = sampled_turns(turns, SAMPLES)
    profile = Profile(turns, len(samples))
    lines = [line for it in samples for line in (f"regs {it}", f"trail {it + 1} 1")]
    replies = machine.read_all(lines, SHORT_SENT_AHEAD)
    with Progress(len(turns), "turns") as progress:
        for turn, registers, trail in zip(samples, replies, replies):
            progress.step(len(turns) // len(samples))
            (done,) = turns_of(trail)
            if done.act == INSTRUCTION:
                place = Place(Registers.of(registers).mode, done.pc)
                profile.counts[place] += 1
                profile.met[place] = turn
    return profile


def calls_met(machine: Machine, profile: Profile) -> list[int]:
    """Of the samples, one of each place, the turns that are calls."""
    places = {turn: it for it, turn in profile.met.items() if it.mode in MODES}
    turns = sorted(turn for turn, it in places.items() if not it.address % 2)
    named = [(it, places[it]) for it in turns]
    lines = [f"virtual {turn} {it.mode.value} {it.address:o} 1" for turn, it in named]
    replies = machine.read_all(lines, SHORT_SENT_AHEAD)
    return [
        turn
        for turn, reply in zip(turns, replies)
        if is_read(reply) and is_call(words_of(reply)[0])
    ]


# Routines


@dataclass(frozen=True)
class Routine:
    """A routine, by its first address, with how often its instructions were counted or met. Without
    an address it is what comes before all routines of its mode."""

    mode: Mode
    begin: Optional[int]
    count: int


def entered(machine: Machine, profile: Profile) -> Iterator[Place]:
    """Where the calls led that were found, and where vectors lead if instructions ran there."""
    calls = calls_met(machine, profile) if profile.samples else calls_that_ran(machine, profile)
    for turn in sorted(calls):
        call = call_in(machine, turn)
        if call is not None:
            yield Place(call.inside, call.routine)
    lines = [f"virtual {profile.turns.stop} kernel {it:o} 2" for it in (*TRAPS, *INTERRUPTS)]
    for reply in machine.read_all(lines):
        if is_read(reply):
            pc, ps = words_of(reply)
            place = Place(Mode.current(ps), pc)
            yield from [place] if profile.counts[place] else []


def begins_of(explorer: Explorer, profile: Profile) -> dict[Mode, list[int]]:
    """Where routines begin: at symbols, or in a mode without any where something led to."""
    begins = {it: explorer.symbols.values.get(it, []) for it in Mode}
    nameless = {it for it in MODES if not begins[it]}
    if nameless:
        places = set(entered(explorer.machine, profile))
        begins.update({it: sorted(at.address for at in places if at.mode == it) for it in nameless})
    return begins


def begin_of(begins: dict[Mode, list[int]], place: Place) -> Optional[int]:
    """Where the routine of a place begins, or None if it lies before all of its mode."""
    of_mode = begins[place.mode]
    at = bisect.bisect_right(of_mode, place.address) - 1
    return of_mode[at] if at >= 0 and place.address - of_mode[at] < FARTHEST else None


def name_of(explorer: Explorer, mode: Mode, begin: Optional[int]) -> str:
    """What a routine is called: by its symbol, or an empty text."""
    return NOT_NAMED if begin is None else explorer.symbols.near(mode, begin)


def routines_of(profile: Profile, begins: dict[Mode, list[int]]) -> list[Routine]:
    """The routines that ran, the longest first."""
    counts: Counter[tuple[Mode, Optional[int]]] = Counter()
    for place, count in profile.counts.items():
        counts[place.mode, begin_of(begins, place)] += count
    found = [Routine(mode, begin, count) for (mode, begin), count in counts.items()]
    return sorted(found, key=lambda it: (-it.count, it.mode.value, it.begin or 0))


def entries_of(
    machine: Machine, profile: Profile, routines: Iterable[Routine]
) -> Optional[Counter[Place]]:
    """How often the first instruction of each routine ran; None if counting takes too long."""
    if not profile.samples:
        return profile.counts
    begins = {
        mode: [it.begin for it in routines if it.mode == mode and it.begin is not None]
        for mode in MODES
    }
    searches = sum(len(list(windows_of(it))) for it in begins.values())
    if searches * len(profile.turns) > COUNTED_TURNS:
        return None
    entries: Counter[Place] = Counter()
    for mode, addresses in begins.items():
        even = [it for it in addresses if not it % 2]
        entries.update(counts_at(machine, profile.turns, mode, even))
    return entries


# Lines


def heading_lines(explorer: Explorer, profile: Profile) -> Iterator[str]:
    total, turns = profile.instructions, profile.turns
    if profile.samples:
        yield f"{span(turns)}: {profile.samples} of them were looked at, at random distances"
        yield "turns and shares are estimates: 19 of 20 shares are within the error after ±"
    else:
        yield f"{span(turns)}: {counted(total, 'instruction')}, each counted"
    for mode in MODES:
        ran = any(it.mode == mode for it in profile.counts)
        if ran and not explorer.symbols.values[mode]:
            yield f"{mode.value} mode has no symbols: routines are where calls and vectors led"
    yield ROW.format("turns", "share", "entries", "mode", "PC", "routine").rstrip()


ROW = "{:>10}  {:>12}  {:>10}  {:<6}  {:<6}  {}"


def row(
    explorer: Explorer, profile: Profile, routine: Routine, entries: Optional[Counter[Place]]
) -> str:
    mode, begin = routine.mode, routine.begin
    share = profile.share(routine.count).text()
    is_known = entries is not None and begin is not None
    entered_often = entries[Place(mode, begin)] if entries and begin is not None else 0
    return ROW.format(
        profile.in_turns(routine.count),
        share,
        entered_often if is_known else "-",
        mode.value,
        "------" if begin is None else f"{begin:06o}",
        name_of(explorer, mode, begin),
    ).rstrip()


def profile_lines(explorer: Explorer, profile: Profile) -> Iterator[str]:
    routines = routines_of(profile, begins_of(explorer, profile))
    listed, others = routines[:MOST_ROWS], routines[MOST_ROWS:]
    entries = entries_of(explorer.machine, profile, listed)
    yield from heading_lines(explorer, profile)
    yield from (row(explorer, profile, it, entries) for it in listed)
    if others:
        count = sum(it.count for it in others)
        more = f"{counted(len(others), 'more routine')}: {profile.share(count).text()} of all turns"
        yield f"and {more}"
    rest = (profile.samples or len(profile.turns)) - profile.instructions
    yield f"no instruction that is counted: {profile.share(rest).text()} of all turns"
    if profile.samples:
        first, last = profile.turns.start, profile.turns.stop
        what = " and entries" if entries is None else ""
        yield f"`profile {first} {last} whole` counts all turns{what}"


@command(
    "profile [N M] [whole]",
    r"(<first:decimal> <last:decimal>)?((^| )(?P<whole>whole))?",
    "in which routines the turns from N on and before M were",
)
def profile_command(explorer: Explorer, arguments: Arguments) -> Iterator[str]:
    """Shows in which routines the instructions of the turns from N on and before M were, those with
    most turns first. Without N and M they are the turns before the current turn. The turns of
    a routine are its own, without those of the routines that it calls. `entries` is how often its
    first instruction ran, be it by a call, a jump or a loop back to it.
    A routine goes from one symbol to the next: see `symbols`. In a mode without symbols routines
    begin where JSR and traps that ran led, as far as they were met, and at the addresses in the
    vectors before turn M.
    Up to 1000000 turns each is counted. Of more turns 10000 are looked at, at random distances, and
    each share has its error; entries are counted still if that is quick. With `whole` all turns are
    counted: some seconds for 10000000. Counted are instructions in kernel and user mode at even
    addresses; interrupts, trace and stack traps, waiting and halted turns are none. In user mode
    all programs with the same virtual addresses count together."""
    if not arguments.optional("first") and not explorer.turn:
        raise ExploreError("the current turn is turn 0: profile N M")
    turns = turns_before(arguments.decimal("first"), arguments.decimal("last", explorer.turn))
    is_counted = arguments.optional("whole") or len(turns) <= EXACT_TURNS
    made = counted_profile if is_counted else sampled_profile
    yield from profile_lines(explorer, made(explorer.machine, turns))
