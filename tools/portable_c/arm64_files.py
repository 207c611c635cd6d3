"""The files in release/ for Linux on ARM64, NAME-linux-aarch64. Beside each stands a file with
.sources behind its name, which says of what the program was made and by what: the sum of its
sources (tools/sources-sum), the sums of the WebAssembly module and of what stands around it in C,
the version of wasm2c, the sum of the C, the line of the compiler, the sum of the C library, and the
sum of the program itself."""
from pathlib import Path
from typing import NamedTuple, Optional

from webassembly import files

HERE = Path(__file__).resolve().parent
ROOT = files.ROOT
SYSTEM = "linux-aarch64"
# What a program is made by, beside the module.
WAY = ("host.h", "made.py", "runtime.h")


class Record(NamedTuple):
    """Of what a program was made and by what, and its own sum."""

    sources: str
    module: str
    way: str
    wasm2c: str
    c: str
    compiler: str
    library: str
    program: str

    def lines(self) -> str:
        return "".join(f"{name} {value}\n" for name, value in self._asdict().items())


def sum_of_way() -> str:
    return files.sum_of(b"".join(it.encode() + b"\n" + (HERE / it).read_bytes() for it in WAY))


def sum_of_module(name: str) -> str:
    """The sum of the module in release/. Raises OSError if it can't be read."""
    return files.sum_of(files.module_of(name).read_bytes())


def program_of(name: str) -> Path:
    return files.RELEASE / f"{name}-{SYSTEM}"


def sources_of(name: str) -> Path:
    return files.RELEASE / f"{name}-{SYSTEM}.sources"


def record_of(name: str) -> Optional[Record]:
    """What the file beside the program says, or None if it isn't there or can't be read."""
    try:
        lines = sources_of(name).read_text(encoding="ascii").splitlines()
    except (OSError, UnicodeDecodeError):
        return None
    said = dict(line.partition(" ")[::2] for line in lines)
    return Record(**said) if tuple(said) == Record._fields else None


def is_as_made(name: str) -> bool:
    """Whether the program has the sum that the file beside it says."""
    record, program = record_of(name), program_of(name)
    if record is None or not program.is_file():
        return False
    return files.sum_of(program.read_bytes()) == record.program


def is_current(name: str) -> bool:
    """Whether the program was made of these sources, by the module in release/ and in this way."""
    record = record_of(name)
    if record is None or not files.module_of(name).is_file():
        return False
    now = (files.sum_of_sources(name), sum_of_module(name), sum_of_way())
    return (record.sources, record.module, record.way) == now


def names() -> list[str]:
    return [it.name for it in files.programs()]
