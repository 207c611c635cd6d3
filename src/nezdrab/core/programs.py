"""Where the programs are that the sources of a clone give, or that a package was made with."""
import os
import subprocess
import sys
from pathlib import Path
from typing import NoReturn, Optional

from .errors import ExploreError

HERE = Path(__file__).resolve()
BESIDE = HERE.parents[1] / "programs"  # as a wheel has them
SOURCES = HERE.parents[2]  # what the package is in


def clone() -> Optional[Path]:
    """The clone that this file is in, or None in a package that was installed."""
    above = list(HERE.parents)[2:4]
    return next((it for it in above if (it / "tools" / "program").is_file()), None)


def release() -> str:
    """The newest release, by its day, which the file VERSION has; of a package that was installed
    the one that it was made of."""
    root = clone()
    if root is None:
        from importlib import metadata  # which takes a while to read

        year, *rest = metadata.version("nezdrab").split(".")
        return "-".join([year, *(it.zfill(2) for it in rest)])
    path = root / "release" / "VERSION"
    try:
        found = path.read_text(encoding="ascii").strip()
    except (OSError, ValueError) as error:
        raise ExploreError(f"{path} can't be read: {error}") from error
    if not found:
        raise ExploreError(f"{path} names no release")
    return found


def program_of(name: str, given: Optional[str]) -> str:
    """The path of the program that is given, or else of the one of this name that is found."""
    if not given:
        return found_program(name)
    if not os.access(given, os.X_OK):
        raise ExploreError(f"{given}: no such program")
    return os.path.abspath(given)


def found_program(name: str) -> str:
    """The path of the program of this name: the one beside the package; in a clone the one that its
    sources give, which is built first if it must be; `nezdrab-NAME` on PATH; or the one beside the
    package that node runs. An error if there is none."""
    root = clone()
    if os.access(BESIDE / name, os.X_OK):
        return str(BESIDE / name)
    if root is not None:
        return program_of_clone(root, name)
    from shutil import which  # which takes a while to read

    path = which(f"nezdrab-{name}")
    if path is not None:
        return os.path.abspath(path)
    by_node = BESIDE / "tools" / "by-node" / name
    if not os.access(by_node, os.X_OK):
        raise ExploreError(
            f"there is no program {name}: {BESIDE} hasn't got it, and no nezdrab-{name} is on PATH"
        )
    if which("node") is None:
        raise ExploreError(f"the program {name} is run by node, 16 or later, which isn't on PATH")
    return str(by_node)


def program_of_clone(root: Path, name: str) -> str:
    quiet = ["--quiet"] if name == "disassemble" else []  # what search says holds for both
    command = [str(root / "tools" / "program"), *quiet, name]
    found = subprocess.run(command, stdin=subprocess.DEVNULL, stdout=subprocess.PIPE)
    if found.returncode:
        raise ExploreError(f"there is no program {name}")
    return os.fsdecode(found.stdout.removesuffix(b"\n"))


def by_another_python(statements: str) -> list[str]:
    """The command of another Python that has this package, and runs these statements."""
    begin = f"import sys; sys.path.insert(0, {str(SOURCES)!r}); {statements}"
    return [sys.executable, "-S", "-B", "-c", begin]


def own_command() -> str:
    """How explore is started."""
    root = clone()
    is_installed = root is None or (root / "INSTALLED").exists()  # which tools/release put there
    return "nezdrab-explore" if is_installed else "./explore"


def become(program: str, command: str) -> NoReturn:
    """Runs the program of this name in the place of this process, under the name of the
    command."""
    try:
        os.execv(found_program(program), [command, *sys.argv[1:]])
    except (ExploreError, OSError) as error:
        print(f"{command}: {error}", file=sys.stderr)
        sys.exit(1)


def nezdrab() -> NoReturn:
    become("pdp11", "nezdrab")


def nezdrab_search() -> NoReturn:
    become("search", "nezdrab-search")


def nezdrab_disassemble() -> NoReturn:
    become("disassemble", "nezdrab-disassemble")
