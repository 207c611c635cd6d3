"""Names of addresses: beside an address, and in its place."""
import bisect
import re
from typing import TYPE_CHECKING, Iterable, Optional, Sequence

from . import sessions
from .engine import Machine
from .errors import ExploreError
from .language import FADING, LINES, kinds_of, line_of
from .replies import Mode
from .sessions import BEFORE_ADDRESS, words_of
from .values import dataclass, field

if TYPE_CHECKING:
    from .symbol_files import Symbol

FARTHEST = 0o10000
OFFSETS = r"([+-][0-7]{1,10})*"
# What stands for an address: an octal number, or a symbol, with octal numbers after + and -.
ADDRESS = rf"([0-7]{{1,10}}|[A-Za-z_.$~%?@][^\s=:+-]*){OFFSETS}"
OCTAL = "[0-7]+"
AN_ADDRESS, A_WORD = "ADDRESS", "WORD"  # kinds of arguments, as in the forms here
MODES = (Mode.KERNEL.value, Mode.USER.value)


@dataclass
class Symbols:
    """Names of virtual addresses, those of kernel mode and those of user mode."""

    values: dict[Mode, list[int]] = field(default_factory=lambda: {Mode.KERNEL: [], Mode.USER: []})
    names: dict[tuple[Mode, int], str] = field(default_factory=dict)
    numbers: dict[Mode, dict[str, int]] = field(
        default_factory=lambda: {Mode.KERNEL: {}, Mode.USER: {}}
    )
    taken: "dict[Mode, list[Symbol]]" = field(
        default_factory=lambda: {Mode.KERNEL: [], Mode.USER: []}
    )

    def take(self, found: "Iterable[Symbol]", modes: Sequence[Mode]) -> None:
        """Takes these in place of those there were. A constant has a number, and is the name of no
        address. Of two names of an address the last one is shown: in a listing it is that of what
        begins there, and the other may be the end of what was before."""
        symbols = sorted(found, key=lambda it: it.value)
        places = [it for it in symbols if not it.is_constant]
        for mode in modes:
            self.names = {key: name for key, name in self.names.items() if key[0] != mode}
            self.names.update({(mode, it.value): it.name for it in places})
            self.values[mode] = sorted({it.value for it in places})
            self.numbers[mode] = {it.name: it.value for it in symbols}
            self.taken[mode] = symbols

    def add(self, found: "Iterable[Symbol]", modes: Sequence[Mode]) -> None:
        """Takes these beside those there are. A name that was there before gets the new value."""
        added = list(found)
        names = {it.name for it in added}
        for mode in modes:
            before = (it for it in self.taken[mode] if it.name not in names)
            self.take([*before, *added], [mode])

    def near(self, mode: Mode, address: int) -> str:
        """The symbol at or before the address, such as `main+4`, or an empty text."""
        values = self.values.get(mode, [])
        at = bisect.bisect_right(values, address) - 1
        if at < 0 or address - values[at] >= FARTHEST:
            return ""
        name, offset = self.names[mode, values[at]], address - values[at]
        return f"{name}+{offset:o}" if offset else name

    def named(self, name: str, mode: Optional[Mode]) -> dict[int, Mode]:
        """The numbers that a name has, in this mode, or in any. If none has this name, capital
        letters and small ones count alike."""
        modes = [mode] if mode in self.numbers else list(self.numbers)
        found = {self.numbers[it][name]: it for it in modes if name in self.numbers[it]}
        return found or {
            value: it
            for it in modes
            for other, value in self.numbers[it].items()
            if other.upper() == name.upper()
        }

    def number(self, text: str, mode: Optional[Mode] = None) -> int:
        """The number that a text of the form ADDRESS is."""
        first, *offsets = re.split(r"(?=[+-])", text)
        if re.fullmatch(OCTAL, first):
            number = int(first, 8)
        else:
            found = self.named(first, mode)
            if not found:
                raise ExploreError(f"there is no symbol '{first}'; symbols FILE reads them")
            if len(found) > 1:
                values = ", ".join(f"{it:o} of {of.value}" for it, of in found.items())
                raise ExploreError(f"there are several symbols '{first}': {values}; name a number")
            (number,) = found
        number += sum(int(it, 8) for it in offsets)
        if number < 0:
            raise ExploreError(f"{text} is less than 0")
        return number

    def is_named(self, word: str) -> bool:
        """Whether a word is a symbol or a number with an offset, so that a number takes its
        place."""
        first, *offsets = re.split(r"(?=[+-])", word)
        if re.fullmatch(ADDRESS, word) is None:
            return False
        return bool(offsets) if re.fullmatch(OCTAL, first) else bool(self.named(first, None))

    def in_octal(self, word: str, mode: Optional[Mode] = None) -> str:
        """The word, or the number that it names."""
        return f"{self.number(word, mode):o}" if self.is_named(word) else word

    def line_in_octal(self, line: str, machine: Machine) -> str:
        """A line of the language or of searches, with numbers for symbols where it has addresses.
        If the line names a mode, the symbols are those of that mode."""
        words = words_of(line)
        if not any(map(self.is_named, words)):
            return line
        for form in forms_of(words[0], machine.setup.version):
            pairs = list(zip(in_full(form, words), words))
            if len(pairs) == len(words) and all(it.isupper() or it == word for it, word in pairs):
                named = (word for it, word in pairs if it == "MODE" and word in MODES)
                mode = next(map(Mode, named), None)
                found = [
                    self.in_octal(word, mode) if it == AN_ADDRESS else word for it, word in pairs
                ]
                return line if found == words else " ".join(found)
        return line


def in_full(form: list[str], words: list[str]) -> list[str]:
    """A form with a kind for each word of the CONDITION that these words have at its end. No form
    if its length isn't that of the words."""
    if form[-1] == "CONDITION":
        begin = len(form) - 1
        before = words[begin - 1 : -1]
        form = form[:begin] + [AN_ADDRESS if it in BEFORE_ADDRESS else A_WORD for it in before]
    return form if len(form) == len(words) else []


def forms_of(word: str, version: int) -> list[list[str]]:
    """The forms of the lines that begin with this word, word by word, with the kinds of their
    arguments. For EDIT stand the edits that `fades` takes."""
    own = [kinds_of(line_of(word, version))] if word in LINES else []
    searches = [kinds_of(it) for it in sessions.SEARCHES if it.form.split()[0] == word]
    edits = [kinds_of(line_of(it, version)) for it in FADING]
    with_edits = [[*it[:-1], *edit] for it in searches if it[-1] == "EDIT" for edit in edits]
    return own + [it for it in searches if it[-1] != "EDIT"] + with_edits
