"""Counts and ranges of turns, as messages have them."""
from typing import Sequence


def counted(count: int, what: str) -> str:
    """A count with its noun: `1 turn`, `2 turns`, `2 patches`."""
    if count == 1:
        return f"1 {what}"
    return f"{count} {what}{'es' if what.endswith('ch') else 's'}"


def some_are(count: int, total: int, what: str) -> str:
    """How many of a total, with the verb: `3 of 5 keys are`, `0 of 1 key is`."""
    return f"{count} of {counted(total, what)} {'is' if total == 1 else 'are'}"


def span(turns: range) -> str:
    """The turns of a range that has one at least: `turn 5`, or `the turns 5 to 9`."""
    first, last = turns[0], turns[-1]
    return f"turn {first}" if first == last else f"the turns {first} to {last}"


def ranges(numbers: Sequence[int]) -> str:
    """Numbers in their order, such as `1, 3-5, 9`."""
    parts: list[list[int]] = []
    for number in numbers:
        if parts and parts[-1][-1] + 1 == number:
            parts[-1].append(number)
        else:
            parts.append([number])
    shown = (f"{it[0]}-{it[-1]}" if len(it) > 1 else f"{it[0]}" for it in parts)
    return ", ".join(shown) or "none"
