"""Makes the files for Linux on ARM64 in release/, and checks whether they are what their modules
give."""
import tempfile
from pathlib import Path

from webassembly import files as modules
from webassembly.kit import MakingError
from webassembly.making import Counts

from . import arm64_files, made


def make_program(name: str) -> None:
    """Makes the file of one program. Raises MakingError if it can't be made."""
    if not (modules.is_as_made(name) and modules.is_current(name)):
        raise MakingError(f"release/{name}.wasm isn't of these sources: first tools/web --make")
    c = made.c_of(name, modules.module_of(name))
    program = arm64_files.program_of(name)
    made.compile_for_arm64(c, program)
    record = arm64_files.Record(
        modules.sum_of_sources(name),
        arm64_files.sum_of_module(name),
        arm64_files.sum_of_way(),
        made.WASM2C,
        modules.sum_of(c.encode()),
        made.compiler_line(),
        made.sum_of_library(),
        modules.sum_of(program.read_bytes()),
    )
    arm64_files.sources_of(name).write_text(record.lines(), encoding="ascii")


def check_program(name: str, counts: Counts, is_compiled: bool) -> None:
    """Counts whether the file is the one that was made, and whether it is of what wasm2c writes of
    the module; and whether the compiler makes the same bytes of that, which takes minutes. What
    can't be told here is skipped."""
    file, record = f"release/{name}-{arm64_files.SYSTEM}", arm64_files.record_of(name)
    if not arm64_files.program_of(name).exists():
        counts.skip(f"{file} isn't there: tools/portable --make")
        return
    counts.holds(arm64_files.is_as_made(name), f"{file} isn't the file that was made")
    if record is None or not arm64_files.is_current(name):
        counts.skip(f"{file} is older than the sources")
    elif made.lacks_wasm2c():
        counts.skip(f"{file}: no C is made again, since {made.lacks_wasm2c()}")
    else:
        c = made.c_of(name, modules.module_of(name))
        is_same = modules.sum_of(c.encode()) == record.c
        counts.holds(is_same, f"{file} was made of other C than wasm2c writes")
        if is_compiled:
            compare(name, c, record, counts)


def compare(name: str, c: str, record: arm64_files.Record, counts: Counts) -> None:
    """Counts whether the compiler makes the file, byte for byte."""
    file = f"release/{name}-{arm64_files.SYSTEM}"
    if made.lacks_compiler():
        counts.skip(f"{file}: not compiled again, since {made.lacks_compiler()}")
        return
    with tempfile.TemporaryDirectory() as room:
        again = Path(room) / "again"
        made.compile_for_arm64(c, again)
        is_same = again.read_bytes() == arm64_files.program_of(name).read_bytes()
    here = (made.compiler_line(), made.sum_of_library())
    if not is_same and here != (record.compiler, record.library):
        counts.skip(f"{file} was made by {record.compiler}, and {here[0]} makes other bytes")
    else:
        counts.holds(is_same, f"{file} isn't what the compiler makes")
