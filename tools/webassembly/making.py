"""Makes the modules in release/, and checks whether they are what the sources give."""
import tempfile
from pathlib import Path
from typing import NamedTuple, Optional

from . import files, kit


class Makers(NamedTuple):
    """By what a module is made: the line of the kit, and that of binaryen's wasm-opt."""

    kit: str
    binaryen: str

    def __str__(self) -> str:
        return f"{self.kit} and {self.binaryen}"


class Counts:
    """What is passed, failed and skipped, each said as it comes."""

    def __init__(self) -> None:
        self.passed = self.failed = self.skipped = 0

    def holds(self, is_right: bool, otherwise: str) -> None:
        self.passed += is_right
        self.failed += not is_right
        if not is_right:
            print(otherwise, flush=True)

    def skip(self, why: str) -> None:
        self.skipped += 1
        print(why, flush=True)

    def ended(self) -> int:
        print(f"{self.skipped} skipped")
        print(f"{self.passed} passed, {self.failed} failed")
        return int(self.failed > 0)


def makers_here() -> Optional[Makers]:
    """What makes a module on this computer, or None if the kit or binaryen isn't here."""
    version = kit.version_of_wasm_opt()
    if kit.kit_folder() is None or version is None:
        return None
    return Makers(kit.run(["rt", "version"], files.ROOT).splitlines()[-1], version)


def make(program: kit.Program, to: Path) -> None:
    """Makes the file `to`, the module of a program that was built here."""
    folder = kit.kit_folder()
    assert folder is not None
    with tempfile.TemporaryDirectory() as room:
        kit.make(kit.Kit(folder, Path(room)), files.ROOT, program, to)


def make_modules() -> None:
    makers = makers_here()
    if makers is None:
        raise kit.MakingError("the kit's rt and binaryen's wasm-opt must be on PATH")
    programs = files.programs()
    for program in programs:
        files.must_be_built(program.name)
    for program in programs:
        print(f"web: making {program.name}.wasm", flush=True)
        module = files.module_of(program.name)
        make(program, module)
        record = files.new_record(program.name, module, *makers)
        files.sources_of(program.name).write_text(record.lines(), encoding="ascii")


def why_not_same(program: kit.Program) -> str:
    """How the module that is made here differs from the file in release/, or an empty text."""
    with tempfile.TemporaryDirectory() as room:
        again = Path(room) / "again.wasm"
        try:
            make(program, again)
        except kit.MakingError as error:
            return f"can't be made: {' '.join(str(error).split())}"
        is_same = again.read_bytes() == files.module_of(program.name).read_bytes()
    return "" if is_same else "has other bytes"


def check_module(program: kit.Program, counts: Counts) -> None:
    """Counts whether the file is the one that was made, and whether it is what the sources give:
    skipped if that can't be told here, as if another kit or binaryen gives another module."""
    module = f"release/{program.name}.wasm"
    record, makers = files.record_of(program.name), makers_here()
    counts.holds(files.is_as_made(program.name), f"{module} isn't the file that was made")
    if record is None or not files.is_current(program.name):
        counts.skip(f"{module}: older than the sources")
    elif makers is None:
        counts.skip(f"{module}: not made again, since the kit or binaryen isn't here")
    elif not files.is_built(program.name):
        counts.skip(f"{module}: not made again, since the program wasn't built of these sources")
    else:
        why, made_by = why_not_same(program), Makers(record.kit, record.binaryen)
        if why and makers != made_by:
            counts.skip(f"{module} was made by {made_by}; by {makers} it {why}")
        else:
            counts.holds(not why, f"{module}: what the sources give {why}")

