"""portable [FOLDER..]: checks the files for Linux on ARM64 in release/: whether they are those
that were made, and of the C that wasm2c writes again. Then it runs them, by qemu if the processor
is another one, on the stored sessions of these folders: sessions by pdp11, searches by search. It
compares standard output, exit status and standard error byte for byte. It also runs what
the check streams runs, but of the outputs that take a part of the replies each twentieth one, and
disassemble on the words that its crate has. It compiles nothing: tools/portable --check does. The
folders are program and searches of tests/sessions/rules if none is given.

The last line is 'N passed, M failed', and before it stands how many files were skipped: those that
are older than the sources. The status is 77 if wasm2c or qemu isn't here, or no file was run."""
import platform
import shutil
import sys
import tempfile
from pathlib import Path
from typing import Optional

from portable_c import arm64_files, checking, made
from tests import stored_sessions as sessions
from webassembly.making import Counts

from . import by_node

SKIPPED = 77
QEMU = ("qemu-aarch64", "qemu-aarch64-static")


def starter(name: str, folder: Path, qemu: Optional[str]) -> str:
    """The path of what runs a program under its own name, which its help shows."""
    program, path = arm64_files.program_of(name), folder / name
    if qemu is None:
        path.symlink_to(program)
    else:
        path.write_text(f'#!/bin/sh\nexec {qemu} -0 {name} "{program}" "$@"\n')
        path.chmod(0o755)
    return str(path)


def lacks(qemu: Optional[str]) -> str:
    """What isn't here that the checks take, or an empty text."""
    is_arm = (platform.system(), platform.machine()) == ("Linux", made.ARM64)
    no_qemu = "" if is_arm or qemu else "qemu-aarch64 (Debian's qemu-user) isn't installed"
    return made.lacks_wasm2c() or no_qemu


def run_program(name: str, folders: list[str], qemu: Optional[str], counts: Counts) -> None:
    with tempfile.TemporaryDirectory() as room:
        program = starter(name, Path(room), qemu)
        for wrong in by_node.CHECKS[name](program, folders):
            counts.holds(wrong is None, f"{name} for ARM64: {wrong}")


def check(folders: list[str]) -> int:
    qemu = next((it for it in QEMU if shutil.which(it)), None)
    if lacks(qemu):
        print(lacks(qemu))
        return SKIPPED
    counts = Counts()
    for name in arm64_files.names():
        checking.check_program(name, counts, is_compiled=False)
    current = [it for it in arm64_files.names() if arm64_files.is_current(it)]
    for name in current:
        run_program(name, folders, None if platform.machine() == made.ARM64 else qemu, counts)
    status = counts.ended()
    return status if current or status else SKIPPED


def main() -> int:
    given = sessions.asked_folders(sessions.parser_of(__doc__)).folders
    return check(sessions.folders_of(given, *by_node.FOLDERS))


if __name__ == "__main__":
    sys.exit(main())
