"""Paper tapes of the absolute loader. A block is the bytes 001 000, a count, an address, data, and
a checksum that makes the sum of all bytes of the block 0, modulo 256. Count and address have two
bytes each, the low one first, and the count is that of all bytes before the checksum. A block
without data, so with the count 6, ends the tape: its address is where the program begins, or odd if
the loader is to halt. Between blocks there is leader, bytes 000, which counts for nothing."""
from typing import Optional

from ..core.errors import ExploreError
from ..core.hardware import IO_PAGE_OF_PROGRAMS
from ..core.kinds import LEADER
from ..core.values import dataclass

HEAD_BYTES = 6


@dataclass(frozen=True)
class Tape:
    """What a tape loads, byte by byte, and its transfer address."""

    blocks: int
    bytes: dict[int, int]
    transfer: int
    end: int  # the number of the byte after the last block

    @property
    def start(self) -> Optional[int]:
        return None if self.transfer % 2 else self.transfer


@dataclass(frozen=True)
class Block:
    """A block that begins at this byte of the tape."""

    address: int
    data: bytes
    end: int

    @classmethod
    def of(cls, tape: bytes, at: int) -> "Block":
        head = tape[at : at + HEAD_BYTES]
        if head[:2] != b"\1\0"[: len(head)]:
            found = " ".join(f"{it:03o}" for it in head[:2])
            raise ExploreError(f"byte {at}: a block begins 001 000, and here is {found}")
        count, address = head[2:4], int.from_bytes(head[4:6], "little")
        if len(head) < HEAD_BYTES:
            raise ExploreError(f"the tape ends in the block that begins at byte {at}")
        size = int.from_bytes(count, "little")
        if size < HEAD_BYTES:
            raise ExploreError(f"byte {at + 2}: the count is {size}, less than {HEAD_BYTES}")
        end = at + size + 1
        if end > len(tape):
            raise ExploreError(
                f"the tape ends in the block that begins at byte {at} and has {size + 1} bytes"
            )
        total = sum(tape[at:end])
        if total % 256:
            wanted = (tape[end - 1] - total) % 256
            raise ExploreError(
                f"byte {end - 1}: the checksum is {tape[end - 1]:03o}, and {wanted:03o} would be"
                f" right for the block that begins at byte {at}"
            )
        return cls(address, tape[at + HEAD_BYTES : end - 1], end)


def tape_of(data: bytes) -> Tape:
    """What the tape loads, or an error that says at which byte it is wrong."""
    loaded: dict[int, int] = {}
    at = blocks = 0
    while True:
        while at < len(data) and data[at] in LEADER:
            at += 1
        if at == len(data):
            raise ExploreError(f"the tape ends after byte {at - 1} without a transfer address")
        block = Block.of(data, at)
        blocks += 1
        if not block.data:
            return Tape(blocks, loaded, block.address, block.end)
        last = block.address + len(block.data) - 1
        if last >= IO_PAGE_OF_PROGRAMS:
            raise ExploreError(
                f"byte {at}: the block goes on to address {last:o}, and core that a loader can"
                f" reach ends at {IO_PAGE_OF_PROGRAMS - 1:o}"
            )
        loaded.update(enumerate(block.data, block.address))
        at = block.end
