"""Searches for a CONDITION with words of a drive, such as `first 0 900 where disk 17 = core 2000`,
which the program doesn't have. Between two changes of such words each of them is one number: a
search of the program has this number in its place."""
from __future__ import annotations

import operator
import re
from typing import TYPE_CHECKING, Callable, Iterator, NamedTuple, Optional, Sequence, Union

from .sessions import LONGEST_LINE, words_of

if TYPE_CHECKING:
    from .engine import Machine

SEARCHES, LAST_TURN = ("first", "latest"), 1_000_000_000
FIRST_PART, LARGEST_PART = 16_384, 10_000_000  # turns that are searched together
IN_VERSION = {1: r"(?<!\S)disk ([0-7]+)(?!\S)", 2: r"(?<!\S)disk ([0-7]+ [0-7]+)(?!\S)"}
BAD_LINE = "refused 10 BadLine"
OF_NUMBER, MASKED = "([0-7]+) (=|!=|<|>|&) (.+)", "([0-7]+) = ([0-7]+)"
RELATIONS: dict[str, Callable[[int, int], bool]] = {
    **{"=": operator.eq, "!=": operator.ne, "<": operator.lt, ">": operator.gt},
}
TURNED = {"=": "=", "!=": "!=", "<": ">", ">": "<"}


def is_of_drive(line: str) -> bool:
    """Whether a line is a search for a CONDITION with a word of a drive."""
    if "disk" not in line or len(line) > LONGEST_LINE:
        return False
    words = words_of(line)
    return words[0] in SEARCHES and words[3:4] == ["where"] and "disk" in words[4:]


def is_turn(word: str) -> bool:
    return re.fullmatch("[0-9]{1,10}", word) is not None


def growing(turns: range, is_backwards: bool, largest: int) -> Iterator[range]:
    """The turns in parts that double, from the first turn on or from the last one back."""
    size = FIRST_PART
    while turns:
        if is_backwards:
            turns, part = turns[:-size], turns[-size:]
        else:
            part, turns = turns[:size], turns[size:]
        yield part
        size = min(2 * size, largest)


def settled(term: str) -> Union[bool, str]:
    """A part of a CONDITION as the program has it; if it is of numbers alone, whether it holds."""
    found = re.fullmatch(OF_NUMBER, term)
    if found is None:
        return term
    number, relation, other = int(found[1], 8), found[2], found[3]
    masked = re.fullmatch(MASKED, other) if relation == "&" else None
    if masked is not None:
        return number & int(masked[1], 8) == int(masked[2], 8)
    if re.fullmatch("[0-7]+", other):
        return RELATIONS[relation](number, int(other, 8))
    return f"{other} {TURNED[relation]} {number:o}"


class DriveSearch(NamedTuple):
    """A search: its first word, its CONDITION, and the words of drives in it as lines name them."""

    machine: Machine
    word: str
    condition: str
    pattern: str
    places: Sequence[str]

    @classmethod
    def of(cls, machine: Machine, word: str, condition: str) -> DriveSearch:
        pattern = IN_VERSION[machine.setup.version]
        places = list(dict.fromkeys(re.findall(pattern, condition)))
        return cls(machine, word, condition, pattern, places)

    def refusal(self, first: str, end: str) -> Optional[str]:
        """Why these turns can't be searched, as the program replies it."""
        condition = re.sub(self.pattern, "R0", self.condition)
        if "disk" in condition.split() or not is_turn(first) or not is_turn(end):
            return BAD_LINE
        lines = [f"{self.word} 0 0 where {condition}", *(f"change 0 0 {it}" for it in self.places)]
        refused = [it for it in self.machine.ask_all(lines) if it.startswith("refused")]
        if any(it.startswith("refused 10 ") for it in refused):
            return BAD_LINE
        if max(int(first), int(end)) > LAST_TURN:
            return "refused 7 TurnTooLarge"
        if int(first) > int(end):
            return "refused 8 CountOutOfRange"
        return refused[0] if refused else None

    def changes(self, turns: range) -> dict[str, Optional[int]]:
        return {it: self.machine.found("change", turns, it) for it in self.places}

    def stretches(self, turns: range) -> Iterator[range]:
        """The turns in parts in which no word of a drive changes before the last one."""
        at, changes = turns.start, self.changes(turns)
        while at < turns.stop:
            end = min((it + 1 for it in changes.values() if it is not None), default=turns.stop)
            yield range(at, end)
            at = end
            for place, turn in changes.items():
                if turn is not None and turn < end:
                    changes[place] = self.machine.found("change", range(end, turns.stop), place)

    def found_in(self, turns: range) -> Optional[int]:
        """The turn of a stretch that is found."""
        lines = {it: f"dsk {turns.start} {it} 1" for it in self.places}
        values = dict(zip(lines, self.machine.single_words(list(lines.values()))))
        condition = re.sub(self.pattern, lambda it: f"{values[it[1]]:o}", self.condition)
        terms = [settled(it) for it in condition.split(" and ")]
        left = [it for it in terms if isinstance(it, str)]
        if not all(terms):
            return None
        if not left:
            return turns[0 if self.word == "first" else -1]
        return self.machine.found(self.word, turns, f"where {' and '.join(left)}")

    def turn(self, turns: range) -> Optional[int]:
        is_backwards = self.word == "latest"
        for part in growing(turns, is_backwards, LARGEST_PART):
            stretches = self.stretches(part)
            for it in reversed(list(stretches)) if is_backwards else stretches:
                found = self.found_in(it)
                if found is not None:
                    return found
        return None


def reply_to(machine: Machine, line: str) -> str:
    """The reply to a search for a CONDITION with a word of a drive, as that of the program to other
    searches."""
    word, first, end, _, *condition = words_of(line)
    search = DriveSearch.of(machine, word, " ".join(condition))
    refusal = search.refusal(first, end)
    if refusal is not None:
        return refusal
    turn = search.turn(range(int(first), int(end)))
    return f"{word} {'none' if turn is None else turn}"
