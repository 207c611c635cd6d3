"""Two pasts beside each other, `compare`; the words that differ between two turns, `diff`."""
import os.path
import re
from contextlib import closing
from typing import Iterator, Optional, Sequence

from ..core.all_words import Pair, differing, memory_lines, words_apart
from ..core.engine import SHORT_SENT_AHEAD, Machine
from ..core.in_words import counted, span
from ..core.replies import LastWrite
from ..core.values import dataclass
from .command import Arguments, command, turn_range
from .crew import Progress
from .explorer import Explorer
from .fades import fade_of, turns_to_ask

LOOKED_AT_SINGLY = 512
LOOKS = 512
COMPARED_TURNS = 100_000
BYTES_BEFORE, BYTES_AFTER = 20, 40  # of a text, around the first byte that differs
QUESTIONS = {"registers": "regs", "devices": "devices"}


@dataclass(frozen=True)
class Parting:
    """Where two machines part: the turn in words, and the replies after it."""

    where: str
    before: str
    after: str


def looks_of(turns: range) -> list[int]:
    """Each of the first turns, and then further ones by a stride."""
    singly = range(turns.start, min(turns.stop, turns.start + LOOKED_AT_SINGLY))
    stride = max(1, (turns.stop - singly.stop) // LOOKS)
    return [*singly, *range(singly.stop, turns.stop, stride), turns.stop]


def parting(one: Machine, other: Machine, title: str, turns: range) -> Optional[Parting]:
    """Where the replies part first, of the turns that are looked at, and then by halving."""

    def pair(turn: int) -> list[str]:
        return [it.read(f"{QUESTIONS[title]} {turn}") for it in (one, other)]

    equal: Optional[int] = None
    looks = looks_of(turns)
    with Progress(len(looks), f"turns, {title}") as progress:
        for look in looks:
            progress.step()
            first, second = pair(look)
            if first != second:
                break
            equal = look
        else:
            return None
    if equal is None:
        return Parting(f"differ before turn {look} already", first, second)
    when = "in" if look - equal == 1 else "at the latest in"
    while look - equal > 1:
        middle = (equal + look) // 2
        first, second = pair(middle)
        equal, look = (middle, look) if first == second else (equal, middle)
    return Parting(f"part {when} turn {look - 1}", *pair(look))


def parting_of_texts(one: Machine, other: Machine, turns: range) -> Optional[Parting]:
    """Where the texts part: at the first byte that one machine prints in another turn than the
    other, or alone, or that is another one."""
    before, after = (it.read(f"text {turns.start}") for it in (one, other))
    if before != after:
        return Parting(f"differ before turn {turns.start} already", before, after)
    texts = [it.text(turns.stop) for it in (one, other)]
    same = len(os.path.commonprefix(texts))
    numbers = range(one.text_length(turns.start), same)
    printed = zip(one.printed_in(numbers), other.printed_in(numbers))
    turn = next((min(pair) for pair in printed if pair[0] != pair[1]), None)
    if turn is None:
        longer = [it for it, text in zip((one, other), texts) if same < len(text)]
        turn = min((found for it in longer for found in it.printed_in([same])), default=None)
    if turn is None:
        return None
    return Parting(
        f"part in turn {turn}", *(it.read(f"text {turn + 1}") for it in (one, other))
    )


def not_found(turns: range) -> str:
    """That there is no difference, and how many turns were looked at."""
    looked_at = len(looks_of(turns)) - 1  # the last look is after them
    if looked_at == len(turns):
        return f"no difference in {span(turns)}"
    return f"no difference found in {span(turns)}, of which {looked_at} were looked at"


def parts_of_texts(*replies: str) -> str:
    """The replies of `text` around the first byte that differs."""
    texts = [re.findall(r"\\[0-7]{3}|.", it.partition(":")[2]) for it in replies]
    at = len(os.path.commonprefix(texts))
    begin, end = max(0, at - BYTES_BEFORE), at + BYTES_AFTER
    return " | ".join(
        f"{'..' * (begin > 0)}{''.join(it[begin:end])}{'..' * (len(it) > end)}" for it in texts
    )


def differences(before: str, after: str) -> str:
    """The fields that differ of two replies of names and words."""
    ours, theirs = before.split(), after.split()
    skipped = len(ours) % 2 if before.startswith("devices") else 0
    names: dict[str, str] = {}
    for at in range(skipped, len(ours) - 1, 2):
        if ours[at + 1] != theirs[at + 1]:
            names[ours[at]] = f"{ours[at + 1]} | {theirs[at + 1]}"
    if ours[-1] != theirs[-1] and not before.startswith("devices"):
        names["state"] = f"{ours[-1]} | {theirs[-1]}"
    return ", ".join(f"{name} {words}" for name, words in names.items())


def same_from(without: Machine, line: str, turns: range) -> Optional[int]:
    """The turn up to the end of these from which on both machines are the same, if there is one and
    the program says so."""
    edited = turns_to_ask(line, without)
    if edited is None or edited.stop > turns.stop:
        return None
    fade = fade_of(without, line, turns.stop)
    return None if fade is None else fade.turn


def words_at(without: Machine, machine: Machine, turn: int) -> Iterator[str]:
    """The words of core and of the drives that differ before a turn."""
    other = ""
    for drive, words in words_apart(without, machine, turn):
        if words:
            other = " other"
            yield from word_rows(machine, turn, drive, ("without", "with"), words)
    yield f"no{other} word of core or of a drive differs"


@command(
    "compare [from N] [to M]  or  compare at N",
    r"at <turn:decimal>|{from}{to}",
    "where the past before the last edit parts from the one after it; words that differ",
)
def compare(explorer: Explorer, arguments: Arguments) -> Iterator[str]:
    """Runs the machine without the last edit beside the one with it, and finds the first turn of N
    to M that leaves their registers, their devices or their texts different. Without `from` N is
    the first turn that the edit can change, without `to` M is N + 99999. Where texts part is exact.
    Of registers and devices the first 512 turns are looked at one by one; from then on a stride is
    looked at, and halved where the two differ. So a parting may have come and gone before: the
    reply says 'at the latest', or how many turns were looked at. If the edit fades before M, the
    last line says from which turn on the two are the same, and no later turn is looked at: only
    what was printed before stays different.
    `compare at N` lists the words of core and of the drives that differ before turn N. It is exact:
    all are looked at, and of each memory the first 256 that differ are shown."""
    machine = explorer.machine
    if not machine.journal:
        yield "no edit was made"
        return
    line = machine.journal[-1]
    with closing(machine.twin(machine.journal[:-1])) as without:
        if arguments.optional("turn"):
            yield f"without | with: {line}"
            yield from words_at(without, machine, arguments.decimal("turn"))
            return
        edited = turns_to_ask(line, without)
        turns = turn_range(arguments, edited.start if edited else 0, COMPARED_TURNS)
        yield f"without | with: {line}"
        same = same_from(without, line, turns)
        if same is not None:
            turns = range(turns.start, max(turns.start + 1, same))
        for title in QUESTIONS:
            found = parting(without, machine, title, turns)
            if found is None:
                yield f"{title}: {not_found(turns)}"
            else:
                yield f"{title} {found.where}: {differences(found.before, found.after)}"
        found = parting_of_texts(without, machine, turns)
        if found is None:
            yield f"text: no difference in {span(turns)}"
        else:
            yield f"text {found.where}: {parts_of_texts(found.before, found.after)}"
        if same is not None:
            yield f"the same from turn {same} on"


MOST_SHOWN = 256


def writers(machine: Machine, turn: int, words: Sequence[Pair]) -> Iterator[str]:
    """Who wrote these words of core last before the turn."""
    lines = [f"last {turn} {2 * at:o}" for at, _, _ in words]
    for reply in machine.read_all(lines, SHORT_SENT_AHEAD):
        last = LastWrite.of(reply)
        yield f"turn {last.turn} {last.writer}" if last else "never"


def row(place: str, before: str, after: str, who: str) -> str:
    return f"{place:<7}  {before:<10}  {after:<10}  {who}".rstrip()


def word_rows(
    machine: Machine,
    turn: int,
    drive: Optional[int],
    titles: tuple[str, str],
    words: Sequence[Pair],
) -> Iterator[str]:
    """Words that differ, the first of them, and how many there are. Below the titles stand the
    words, and of core who wrote them in this machine last before the turn."""
    is_core, shown = drive is None, words[:MOST_SHOWN]
    who = writers(machine, turn, shown) if is_core else iter([""] * len(shown))
    if shown:
        yield row("core" if is_core else "disk", *titles, "last written" if is_core else "")
    for at, before, after in shown:
        place = f"{2 * at:06o}" if is_core else f"{at:07o}"
        yield row(place, f"{before:06o}", f"{after:06o}", next(who))
    what = "core" if is_core else f"drive {drive}"
    more = f"; the first {MOST_SHOWN} are shown" if len(words) > MOST_SHOWN else ""
    verb = "differs" if len(words) == 1 else "differ"
    yield f"{counted(len(words), 'word')} of {what} {verb}{more}"


@command(
    "diff N M [core]  or  diff N M disk [D]",
    r"<turn:decimal> <last:decimal>( core| (?P<kind>disk)( (?P<drive>[0-7]))?)?",
    "the words of core or of a drive that differ between turns N and M",
)
def diff(explorer: Explorer, arguments: Arguments) -> Iterator[str]:
    """Shows each word of core, or of the drive, in version 2 of drive D or of drive 0, that is
    another one before turn M than before turn N: its address, or its number; the word before turn
    N and before turn M; and of core who wrote it last before the later one. All words are looked
    at: the last line has the number of those that differ, of which the first 256 are shown. A word
    that was changed and has its old value again doesn't differ. `where disk I M` finds who changed
    a word of the disk."""
    machine = explorer.machine
    first, last = arguments.decimal("turn"), arguments.decimal("last")
    drive = arguments.octal("drive") if arguments.optional("kind") else None
    taken = {
        turn: list(machine.read_all(memory_lines(machine, turn, drive)))
        for turn in sorted((first, last))
    }
    words = list(differing(zip(taken[first], taken[last])))
    yield from word_rows(machine, max(first, last), drive, (str(first), str(last)), words)
