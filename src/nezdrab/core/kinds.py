"""What a file is, by its first bytes: what explore loads, and what it knows and can't use."""
import struct
from pathlib import Path
from typing import Optional

from .errors import ExploreError
from .values import dataclass

MOST_BYTES = 4_194_304
LEADER = b"\0\377"  # blank tape, and tape with all holes punched
TEXT_BYTES = frozenset(range(0o40, 0o177)) | frozenset(b"\t\n\r\f")
LEAST_RECORD, MOST_RECORD = 2, 0xFFFFFF
END_OF_MEDIUM, TAPE_MARK = 0xFFFFFFFF, 0


@dataclass(frozen=True)
class Foreign:
    """A kind of file that can't be used as it is: its name, and what to do."""

    name: str
    advice: str

    def __str__(self) -> str:
        return f"{self.name}: {self.advice}"


ELF = Foreign(
    "an ELF file, a program of another system",
    "a PDP-11 program is an a.out or an absolute-loader tape",
)
MAGIC = {
    b"\x1f\x8b": Foreign("a gzip", "gunzip it first"),
    b"\x1f\x9d": Foreign("a file of compress", "uncompress it first"),
    b"BZh": Foreign("a bzip2", "bunzip2 it first"),
    b"\xfd7zXZ\0": Foreign("an xz", "unxz it first"),
    b"\x28\xb5\x2f\xfd": Foreign("a zstd", "unzstd it first"),
    b"PK\3\4": Foreign("a zip", "unzip it first"),
    b"\x7fELF": ELF,
}
SAVE = Foreign(
    "a SIMH SAVE file",
    "restore it in SIMH; there `attach` a drive, or `deposit`, and import the command file",
)
MAGNETIC_TAPE = Foreign(
    "a .tap of SIMH, a magnetic tape",
    "there is no such drive here: copy it to a disk image in SIMH, and attach that",
)
BOOTSTRAP_TAPE = Foreign(
    "a tape of the bootstrap loader, by its leader of bytes 351",
    "the loader on it isn't needed: `load` reads absolute-loader tapes",
)
TEXT = Foreign("text", "`symbols FILE` reads names, `import FILE` commands of SIMH")


def content(path: Path, most: int = MOST_BYTES) -> bytes:
    """The bytes of a file. One without an end is an error."""
    try:
        with open(path, "rb") as file:
            data = file.read(most + 1)
    except OSError as error:
        raise ExploreError(f"{path}: {error.strerror}") from error
    if len(data) > most:
        foreign = foreign_of(data)
        raise ExploreError(f"{path} is {foreign or f'too long: it has more than {most} bytes'}")
    return data


def is_save(data: bytes) -> bool:
    """The first line of a SAVE file is a version such as V3.5, the second the simulator's name."""
    version, _, others = data[:200].partition(b"\n")
    return version[:1] == b"V" and version[1:2].isdigit() and others.startswith(b"PDP-11")


def is_magnetic_tape(data: bytes) -> bool:
    """Each record has its length before and behind it, in four bytes; a tape mark has none. All
    records of the file, as far as it was read, are so, and there is one at least."""
    at = records = 0
    while at + 4 <= len(data):
        (length,) = struct.unpack_from("<I", data, at)
        at += 4
        if length == END_OF_MEDIUM:
            break
        if length == TAPE_MARK and records:
            continue
        if not LEAST_RECORD <= length <= MOST_RECORD:
            return False
        at += length + length % 2
        if at + 4 > len(data):
            return len(data) > MOST_BYTES and records > 0
        if struct.unpack_from("<I", data, at) != (length,):
            return False
        at += 4
        records += 1
    return records > 0


def is_text(data: bytes) -> bool:
    return len(data) > 0 and TEXT_BYTES.issuperset(data[:512])


def foreign_of(data: bytes) -> Optional[Foreign]:
    """What a file is, if it is none of what explore and the program read."""
    for magic, kind in MAGIC.items():
        if data.startswith(magic):
            return kind
    if is_save(data):
        return SAVE
    if data.startswith(b"\xe9" * 16):
        return BOOTSTRAP_TAPE
    return MAGNETIC_TAPE if is_magnetic_tape(data) else None


def check_known(path: Path, data: bytes) -> None:
    foreign = foreign_of(data)
    if foreign:
        raise ExploreError(f"{path} is {foreign}")


def begins_as_tape(data: bytes) -> bool:
    """Whether the first byte after the leader begins a block of the absolute loader."""
    return data.lstrip(LEADER)[:2] == b"\1\0"
