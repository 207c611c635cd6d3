"""What questions of the package give that explore has no type for."""
from __future__ import annotations

from typing import Callable, Generic, Iterator, Optional, TypeVar

from .errors import ExploreError
from .replies import hash_of
from .values import dataclass

Item = TypeVar("Item")


class Unreadable(ExploreError):
    """Why a virtual address can't be read: the `reason`, such as `abort length` or `device`, and
    the `address` of the word, if the reply names it."""

    def __init__(self, reason: str, address: Optional[int] = None):
        super().__init__(reason, address)
        self.reason, self.address = reason, address

    def __str__(self) -> str:
        return self.reason if self.address is None else f"{self.reason} at {self.address:06o}"


def readable(reply: str) -> str:
    """A reply of `translate` or `virtual` that has numbers. Unreadable if it says why not."""
    word, _, rest = reply.partition(" ")
    if rest[:1].isdigit():
        return reply
    reason, _, address = rest.partition(" at ")
    raise Unreadable(reason, int(address, 8) if address else None)


@dataclass(frozen=True)
class Found(Generic[Item]):
    """What a search has found, and whether that is all there is."""

    items: list[Item]
    is_all: bool

    __hash__ = hash_of


def going_on(
    search: Callable[[int], Found[Item]], begin: int, after: Callable[[Item], int]
) -> Iterator[Item]:
    """All that a search finds, which after its most goes on behind the last item."""
    is_all = False
    while not is_all:
        found = search(begin)
        yield from found.items
        is_all = found.is_all
        begin = begin if is_all else after(found.items[-1])


@dataclass(frozen=True)
class Transfer:
    """A function of the disk that was done: in which turn, and in which it was begun, None if that
    was before the turns that were searched; what it was; the drive and its word, the address of
    core, how many words were moved or compared, and RKER."""

    turn: int
    begun: Optional[int]
    function: str
    drive: int
    index: int
    address: int
    count: int
    error: int

    @classmethod
    def of(cls, line: str) -> Transfer:
        """A line of the reply of `transfers`."""
        turn, begun, function, drive, index, address, count, error = line.split()
        return cls(
            int(turn),
            None if begun == "before" else int(begun),
            function,
            int(drive, 8),
            int(index, 8),
            int(address, 8),
            int(count),
            int(error, 8),
        )
