"""Memory as the protocol has it: references, bytes, instructions. A reference is hexadecimal: the
address, and above its 24 bits 0 for one of core, 1 for one of kernel mode, 3 for one of user
mode."""
import base64
from typing import Iterator, Optional

from ..analysis.explorer import Explorer
from ..analysis.listing import INSTRUCTION_WORDS, PHYSICAL, VIRTUAL, Listed, instruction_of
from ..core.errors import ExploreError
from ..core.replies import Mode
from .sources import Place, Sources, source
from .wire import Fields, Object

MODE_BITS, ADDRESS = 24, 0xFFFFFF
SPACES: dict[Optional[Mode], int] = {None: 0, Mode.KERNEL: 1, Mode.USER: 3}
MOST_INSTRUCTIONS = 10_000
SHORTEST, LONGEST = 2, 2 * INSTRUCTION_WORDS  # an instruction, in bytes


def reference(mode: Optional[Mode], address: int) -> str:
    """The reference to an address. In a mode without pages it is one of core."""
    return f"0x{SPACES.get(mode, 0) << MODE_BITS | address:x}"


def place_of(text: str) -> Place:
    """The place that a reference is to."""
    try:
        number = int(text, 0)
    except ValueError:
        raise ExploreError(f"'{text}' is no memory reference, such as 0x1000200") from None
    modes = {space: mode for mode, space in SPACES.items()}
    if number < 0 or number >> MODE_BITS not in modes:
        raise ExploreError(f"'{text}' names no mode: 0, 1 or 3 stands above 24 bits of address")
    return Place(modes[number >> MODE_BITS], number & ADDRESS)


def moved_place(fields: Fields, name: str) -> Place:
    """The place of the reference in this field, moved by `offset` bytes."""
    mode, address = place_of(fields.text(name))
    return Place(mode, address + fields.number("offset", 0))


def listed_at(explorer: Explorer, mode: Optional[Mode], addresses: range) -> Listed:
    """The words of these addresses, from an even one on, before the current turn."""
    first = max(0, addresses.start)
    count = max(1, -(-(addresses.stop - first) // LONGEST) + 1)
    return Listed.of(explorer.machine, explorer.turn, mode, first, count)


def read(explorer: Explorer, fields: Fields) -> Object:
    """The reply to `readMemory`: the bytes up to the first that isn't core, and how many follow
    that aren't either."""
    mode, address = moved_place(fields, "memoryReference")
    count = fields.number("count")
    if count < 0:
        raise ExploreError(f"count is {count}, less than 0")
    end = VIRTUAL if mode else PHYSICAL
    bytes_at = range(address, min(address + count, max(end, address)))
    even = range(bytes_at.start & ~1, bytes_at.stop)
    listed = listed_at(explorer, mode, even) if bytes_at and address >= 0 else None
    data = bytearray()
    for at in even[::2] if listed else ():
        word = listed.word(at) if listed else None
        if word is None:
            break
        data += word.to_bytes(2, "little")
    found = bytes(data[address & 1 :][: bytes_at.stop - bytes_at.start])
    shown = reference(mode, max(0, address))
    body = {"address": shown, "unreadableBytes": count - len(found)}
    return {**body, "data": base64.b64encode(found).decode("ascii")} if found else body


class Instructions:
    """The instructions around a place. Where those before it begin is known from listings, and
    otherwise guessed: of the lengths that fit the longest counts."""

    def __init__(self, explorer: Explorer, sources: Sources, mode: Optional[Mode], near: range):
        self.explorer, self.sources, self.mode = explorer, sources, mode
        self.listed = listed_at(explorer, mode, near)

    def bytes_at(self, address: int) -> int:
        """How many bytes the instruction at the address has."""
        words = self.listed.words_at(address) if address >= 0 else []
        return 2 * instruction_of(self.explorer, address % VIRTUAL, words).words if words else 2

    def before(self, address: int) -> int:
        """Where the instruction before this address begins."""
        lengths = range(SHORTEST, LONGEST + 1, 2)
        known = (it for it in lengths if self.sources.line_of(self.mode, address - it))
        fitting = (it for it in reversed(lengths) if self.bytes_at(address - it) == it)
        return address - next(known, next(fitting, SHORTEST))

    def shown(self, address: int) -> Object:
        """An instruction as the protocol has it."""
        words = self.listed.words_at(address) if address >= 0 else []
        if not words:
            nothing = "no core" if address >= 0 else "no address"
            where = reference(self.mode, max(0, address))
            return {"address": where, "instruction": nothing, "presentationHint": "invalid"}
        found = instruction_of(self.explorer, address % VIRTUAL, words)
        symbol = self.listed.symbol(self.explorer, address)
        line = self.sources.line_of(self.mode, address)
        return {
            "address": reference(self.mode, address),
            "instructionBytes": " ".join(f"{it:06o}" for it in words[: found.words]),
            "instruction": found.text,
            **({"symbol": symbol} if symbol else {}),
            **({"location": source(line[0]), "line": line[1]} if line else {}),
        }


def disassembled(explorer: Explorer, sources: Sources, fields: Fields) -> Iterator[Object]:
    """The instructions of a request `disassemble`, as many as it asks for."""
    mode, address = moved_place(fields, "memoryReference")
    moved, count = fields.number("instructionOffset", 0), fields.number("instructionCount")
    if count < 0:
        raise ExploreError(f"instructionCount is {count}, less than 0")
    if max(count, abs(moved)) > MOST_INSTRUCTIONS:
        raise ExploreError(f"a request is for {MOST_INSTRUCTIONS} instructions at most")
    start = address & ~1
    last = start + LONGEST * (max(0, moved) + count)
    near = range(start - LONGEST * (max(0, -moved) + 1), min(last, PHYSICAL))
    found = Instructions(explorer, sources, mode, near)
    for _ in range(-moved):
        start = found.before(start)
    for _ in range(moved):
        start += found.bytes_at(start)
    for _ in range(count):
        yield found.shown(start)
        start += found.bytes_at(start)
