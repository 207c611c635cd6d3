"""What is tested. The environment names it: TESTED_PDP11, TESTED_SEARCH and TESTED_DISASSEMBLE are
the programs, TESTED_MODULES is the folder of the WebAssembly modules, TESTED_PAGE the address of
the page, TESTED_SHOTS the folder that gets screenshots, TESTED_SLOW how many times slower the page
in Chromium is made, and TESTED_CLICKS how many random clicks there are. Otherwise tools/program
finds a program, release/ has the modules, and the page is packed of them."""
import atexit
import functools
import os
import subprocess
import tempfile
from pathlib import Path
from typing import Optional

from webassembly import files

PREFIX = "TESTED_"


class NoProgram(FileNotFoundError):
    """There is no such program: why, for the user to read."""


def name_it(what: str, value: object) -> None:
    """Names in the environment what is tested."""
    os.environ[PREFIX + what.upper()] = str(value)


def named(what: str) -> Optional[str]:
    return os.environ.get(PREFIX + what.upper()) or None


@functools.lru_cache(maxsize=None)
def program(name: str) -> str:
    """The absolute path of a program."""
    given = named(name)
    if given is not None and not os.access(given, os.X_OK):
        raise NoProgram(f"{PREFIX}{name.upper()} names {given}, which is no program")
    if given is not None:
        return os.path.abspath(given)
    finder = [str(files.ROOT / "tools" / "program"), "--at-hand", name]
    found = subprocess.run(finder, stdout=subprocess.PIPE, text=True)
    if found.returncode != 0:
        raise NoProgram(
            f"no program {name} of these sources is here: {PREFIX}{name.upper()} names one"
        )
    return found.stdout.strip()


@functools.lru_cache(maxsize=None)
def by_its_name(name: str) -> str:
    """The path of a program, or of a link to it that has its name, which its help shows."""
    found = program(name)
    if os.path.basename(found) == name:
        return found
    folder = tempfile.TemporaryDirectory()
    atexit.register(folder.cleanup)
    os.symlink(found, os.path.join(folder.name, name))
    return os.path.join(folder.name, name)


def modules() -> Path:
    return Path(named("modules") or files.RELEASE)


def page() -> Optional[str]:
    return named("page")


def slower() -> float:
    return float(named("slow") or 1)


def clicks() -> int:
    return int(named("clicks") or 200)


def shots() -> Optional[Path]:
    folder = named("shots")
    return None if folder is None else Path(folder)
