"""Listings as sources: at which line of a file the words of an address stand, and back."""
import os
from typing import Iterator, NamedTuple, Optional

from ..analysis.listing import VIRTUAL
from ..core.errors import ExploreError
from ..core.replies import Mode
from ..core.symbol_files import SOURCE, TABLE
from ..core.values import dataclass, field
from .wire import Fields, Object

MOST_LINES_ON = 32  # to the next line with words
MODES = {it.value: it for it in (Mode.KERNEL, Mode.USER)}


class Place(NamedTuple):
    """An address as programs of a mode have it; without a mode, as those of any have it."""

    mode: Optional[Mode]
    address: int


def octal_of(fields: Fields, name: str, default: str) -> int:
    """An octal number in a text, with a sign or without."""
    text = fields.text(name, default)
    try:
        return int(text, 8)
    except ValueError:
        raise ExploreError(f"launch: {name} is octal, in a text, and '{text}' isn't") from None


def mode_of(fields: Fields) -> Optional[Mode]:
    name = fields.text("mode", "")
    if name and name not in MODES:
        raise ExploreError(f"launch: mode is kernel or user, and not '{name}'")
    return MODES.get(name)


def listed_lines(path: str) -> Iterator[tuple[int, int]]:
    """The lines of a listing that have words and a source beside them, by their numbers from 1 on,
    and the address of each. Lines that only go on with words belong to the line before."""
    try:
        with open(path, encoding="latin-1") as file:
            for number, line in enumerate(file, 1):
                found = SOURCE.fullmatch(line.rstrip("\r\n"))
                if TABLE.fullmatch(line.rstrip("\r\n")):
                    return
                if found and found["words"].strip() and (found["source"] or "").strip():
                    yield number, int(found["address"], 8)
    except OSError as error:
        raise ExploreError(f"{path}: {error.strerror}") from error


@dataclass
class Sources:
    """What listings have. A path is absolute, and without links where it is compared."""

    lines: dict[Place, tuple[str, int]] = field(default_factory=dict)
    places: dict[tuple[str, int], list[Place]] = field(default_factory=dict)
    paths: list[str] = field(default_factory=list)

    def read(self, path: str, fields: Fields) -> int:
        """Takes a listing, and returns how many lines of it have words. Its addresses from `first`
        to `last` count, moved by `moved`, and are those of programs in `mode`."""
        mode, moved = mode_of(fields), octal_of(fields, "moved", "0")
        first, last = octal_of(fields, "first", "0"), octal_of(fields, "last", "177777")
        key, count = os.path.realpath(path), 0
        for number, listed in listed_lines(path):
            if not first <= listed <= last or (listed + moved) % 2:
                continue
            place = Place(mode, (listed + moved) % VIRTUAL)
            self.lines.setdefault(place, (path, number))
            self.places.setdefault((key, number), []).append(place)
            count += 1
        if path not in self.paths:
            self.paths.append(path)
        return count

    def line_of(self, mode: Optional[Mode], address: int) -> Optional[tuple[str, int]]:
        """The path and the line of an address in a mode."""
        exact = self.lines.get(Place(mode, address))
        return exact or self.lines.get(Place(None, address))

    def from_line(self, path: str, line: int) -> tuple[int, list[Place]]:
        """The first line with words from this one on, and its places; none if it has none."""
        key = os.path.realpath(path)
        for number in range(line, line + MOST_LINES_ON):
            if (key, number) in self.places:
                return number, self.places[key, number]
        return line, []

    def lines_between(self, path: str, first: int, last: int) -> list[int]:
        """The lines with words among these."""
        key = os.path.realpath(path)
        return sorted(line for at, line in self.places if at == key and first <= line <= last)


def source(path: str) -> Object:
    """A path as the protocol has it."""
    return {"name": os.path.basename(path), "path": path}
