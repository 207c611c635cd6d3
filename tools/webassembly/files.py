"""The WebAssembly modules in release/. Beside NAME.wasm there is NAME.wasm.sources, which says of
what it was made: the sum of the program's sources (tools/sources-sum), the sum of the way that it
was made, the lines of the kit and of binaryen, and the sum of the module itself."""
import hashlib
import subprocess
from pathlib import Path
from typing import NamedTuple, Optional

from .kit import MakingError, Program, run

HERE = Path(__file__).resolve().parent
ROOT = HERE.parents[1]
RELEASE = ROOT / "release"
# What a module is made by. The page asks only some of the programs.
WAY = ("heap.ll", "kit.py", "retarget.py")
# The programs that answer a line before they read the next one, and wait for it.
WAITING = ("pdp11", "search")


class Record(NamedTuple):
    """Of what a module was made and by what, and its own sum."""

    sources: str
    way: str
    kit: str
    binaryen: str
    module: str

    def lines(self) -> str:
        return "".join(f"{name} {value}\n" for name, value in self._asdict().items())


def sum_of(held: bytes) -> str:
    return hashlib.sha256(held).hexdigest()


def sum_of_way() -> str:
    return sum_of(b"".join(it.encode() + b"\n" + (HERE / it).read_bytes() for it in WAY))


def sum_of_sources(name: str) -> str:
    return run([ROOT / "tools" / "sources-sum", name], ROOT)


def module_of(name: str) -> Path:
    return RELEASE / f"{name}.wasm"


def sources_of(name: str) -> Path:
    return RELEASE / f"{name}.wasm.sources"


def record_of(name: str) -> Optional[Record]:
    """What the file beside the module says, or None if it isn't there or can't be read."""
    try:
        lines = sources_of(name).read_text(encoding="ascii").splitlines()
    except (OSError, UnicodeDecodeError):
        return None
    said = dict(line.partition(" ")[::2] for line in lines)
    return Record(**said) if tuple(said) == Record._fields else None


def is_as_made(name: str) -> bool:
    """Whether the module has the sum that the file beside it says."""
    record, module = record_of(name), module_of(name)
    return record is not None and module.is_file() and sum_of(module.read_bytes()) == record.module


def is_current(name: str) -> bool:
    """Whether the module was made of these sources in this way."""
    record = record_of(name)
    now = (sum_of_sources(name), sum_of_way())
    return record is not None and (record.sources, record.way) == now


def programs() -> list[Program]:
    """The programs of crates.txt, with what their crates name."""
    uses: dict[str, list[str]] = {}
    for line in (ROOT / "crates.txt").read_text(encoding="utf-8").splitlines():
        name, colon, rest = line.partition(":")
        if colon and not line.startswith("#"):
            uses[name] = rest.split()
    return [
        Program(
            name,
            [it for it in used if it in uses],
            [it for it in used if it not in uses],
            name in WAITING,
        )
        for name, used in uses.items()
        if (ROOT / "crates" / name / "src" / "main.rt").is_file()
    ]


def is_built(name: str) -> bool:
    """Whether the program was built here after the last change of a source."""
    program = ROOT / "crates" / name / "out" / name
    if not program.is_file():
        return False
    folders = [it for kind in ("src", "specs", "proofs") for it in ROOT.glob(f"crates/*/{kind}")]
    words = ["find", ROOT / "crates.txt", *folders, "-newer", program, "-print", "-quit"]
    found = subprocess.run([str(it) for it in words], stdout=subprocess.PIPE, check=True)
    return not found.stdout


def new_record(name: str, module: Path, kit: str, binaryen: str) -> Record:
    made_of = sum_of_sources(name), sum_of_way()
    return Record(*made_of, kit, binaryen, sum_of(module.read_bytes()))


def must_be_built(name: str) -> None:
    if not is_built(name):
        raise MakingError(
            f"crates/{name}/out/{name} isn't there or is older than a source: first rt ci"
        )
