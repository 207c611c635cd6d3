"""The words that a machine has at power-up, as `machine.core` and `machine.disk`."""
from __future__ import annotations

from typing import Callable, Iterable, Optional, Sequence, SupportsIndex, Union

from .questions import Address, octal

Values = Union[SupportsIndex, Iterable[SupportsIndex]]
Edit = Callable[[Sequence[str]], Sequence[str]]


def values_of(value: Values) -> list[str]:
    """One word, or several, in octal."""
    if isinstance(value, Iterable):
        return [octal(it) for it in value]
    return [octal(value)]


class Core:
    """The words of core as of power-up, by addresses in bytes, which are even. `core[A] = W` is a
    patch: it sets the word from power-up on, and the whole run is one with it. `core[A] = [W, ..]`
    sets as many words from A on. `del core[A]` takes a patch back."""

    def __init__(
        self, edit: Edit, number: Callable[[Address], int], word: Callable[[Address], int]
    ):
        self._edit, self._number, self._word = edit, number, word

    def __getitem__(self, address: Address) -> int:
        return self._word(address)

    def __setitem__(self, address: Address, value: Values) -> None:
        begin, words = self._number(address), values_of(value)
        self._edit([f"core {octal(begin + 2 * at)} {it}" for at, it in enumerate(words)])

    def __delitem__(self, address: Address) -> None:
        self._edit([f"uncore {octal(self._number(address))}"])


class Drive:
    """The words of a drive as of power-up, by their numbers. `disk[I] = W` and `disk[I] = [W, ..]`
    are patches. The one drive of version 1 has no number, those of version 2 have 0 to 7."""

    def __init__(
        self, edit: Edit, word: Callable[[SupportsIndex], int], drive: Optional[SupportsIndex]
    ):
        self._edit, self._word = edit, word
        self._named = "disk" if drive is None else f"disk {octal(drive)}"

    def __getitem__(self, index: SupportsIndex) -> int:
        return self._word(index)

    def __setitem__(self, index: SupportsIndex, value: Values) -> None:
        begin, words = index.__index__(), values_of(value)
        self._edit([f"{self._named} {octal(begin + at)} {it}" for at, it in enumerate(words)])
