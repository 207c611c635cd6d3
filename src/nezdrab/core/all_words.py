"""All words of core and of a drive: the questions about them, and which of them differ or are
written; images of them."""
import struct
from typing import Iterable, Iterator, Optional, Sequence

from .engine import MOST_WORDS, SHORT_SENT_AHEAD, Machine, in_parts
from .hardware import DRIVE_WORDS
from .replies import LastWrite, words_of

DRIVES = 8  # of version 2
# The place of a word, from 0 on, and two words.
Pair = tuple[int, int, int]


def core_lines(turn: int, places: range) -> list[str]:
    """The questions about the words of core at these addresses, 256 words each."""
    return [f"mem {turn} {it[0]:o} {len(it)}" for it in in_parts(places, MOST_WORDS)]


def drive_lines(machine: Machine, turn: int, drive: int, places: range) -> list[str]:
    """The same about these words of a drive."""
    parts = in_parts(places, MOST_WORDS)
    return [machine.disk_line(turn, drive, it[0], len(it)) for it in parts]


def memory_lines(machine: Machine, turn: int, drive: Optional[int] = None) -> list[str]:
    """The questions about all words of core before the turn, or of a drive."""
    if drive is not None:
        return drive_lines(machine, turn, drive, range(DRIVE_WORDS))
    return core_lines(turn, range(0, machine.setup.core_end, 2))


def words_in(replies: Iterable[str]) -> Iterator[int]:
    return (word for reply in replies for word in words_of(reply))


def differing(replies: Iterable[Sequence[str]]) -> Iterator[Pair]:
    """The words that differ of pairs of replies, each to a question about 256 words but for the
    last. Equal replies are passed over."""
    for number, (one, other) in enumerate(replies):
        pairs = zip(words_of(one), words_of(other)) if one != other else ()
        for at, (before, after) in enumerate(pairs):
            if before != after:
                yield number * MOST_WORDS + at, before, after


def words_apart(
    one: Machine, other: Machine, turn: int
) -> Iterator[tuple[Optional[int], list[Pair]]]:
    """The words of core, named by None, and of each drive that differ before a turn. Drives 1 to 7
    are looked at if both machines have them."""
    drives = DRIVES if one.setup.version == other.setup.version == 2 else 1
    for drive in (None, *range(drives)):
        replies = (it.read_all(memory_lines(it, turn, drive)) for it in (one, other))
        yield drive, list(differing(zip(*replies)))


def written(machine: Machine, turns: range, words: range) -> dict[int, range]:
    """Those of these words of core that are written in the turns, and the turns up to the last
    write of each. No turn runs again for the others."""
    lines = [f"last {turns.stop} {it:o}" for it in words]
    lasts = map(LastWrite.of, machine.read_all(lines, SHORT_SENT_AHEAD))
    pairs = ((it, last) for it, last in zip(words, lasts) if last and last.turn >= turns.start)
    return {it: range(turns.start, last.turn + 1) for it, last in pairs}


def parsed(replies: Iterator[str]) -> Iterator[list[int]]:
    """The words of replies. Most of them are zeros, which are not read one by one."""
    zeros = " 000000" * MOST_WORDS
    for reply in replies:
        yield [0] * MOST_WORDS if reply[3:] == zeros else words_of(reply)


def core_words(machine: Machine, turn: int) -> list[int]:
    """All of core before the turn."""
    replies = machine.read_all(memory_lines(machine, turn))
    return [word for words in parsed(replies) for word in words]


def drive_image(machine: Machine, turn: int, drive: int) -> bytes:
    replies = machine.read_all(memory_lines(machine, turn, drive))
    return b"".join(struct.pack(f"<{MOST_WORDS}H", *words) for words in parsed(replies))
