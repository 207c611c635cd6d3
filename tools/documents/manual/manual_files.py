"""make manual [--check]: makes the manual pages of the programs, docs/manual/NAME.1, and what
completes their options and session files in bash, zsh and fish, docs/completion/NAME.SHELL. SIMH
has a command pdp11, so NAME is nezdrab for pdp11, and nezdrab-search, nezdrab-explore,
nezdrab-disassemble and nezdrab-dap. All comes from the tables that the programs' help is compared
with, from the stored help of disassemble, and from the parsers of explore and of the adapter.

With --check nothing is made: is each file the one that would be made? If man or mandoc is here, it
must find nothing wrong with a page, and so must each shell with its completion. The last line is
'N passed, M failed', and before it stands how many checks were skipped, since a command isn't
here."""
import argparse
import os
import shutil
import subprocess
import sys
from dataclasses import dataclass, field
from pathlib import Path

from nezdrab.core.errors import ExploreError

from . import manual_pages, shell_completion
from .tables import ROOT, programs

PAGES, COMPLETIONS = ROOT / "docs" / "manual", ROOT / "docs" / "completion"
MAN = ["man", "--warnings", "--local-file"]
MANDOC = ["mandoc", "-T", "lint", "-W", "warning"]


@dataclass
class Counts:
    """How many facts hold, what is wrong, and what couldn't be checked."""

    passed: int = 0
    wrong: list[str] = field(default_factory=list)
    skipped: list[str] = field(default_factory=list)

    def holds(self, fact: bool, otherwise: str) -> None:
        if fact:
            self.passed += 1
        else:
            self.wrong.append(otherwise)

    def ended(self) -> int:
        print("".join(f"{it}\n" for it in self.wrong), end="")
        if self.skipped:
            print(f"not here: {', '.join(self.skipped)}")
        print(f"{len(self.skipped)} skipped")
        print(f"{self.passed} passed, {len(self.wrong)} failed")
        return int(len(self.wrong) > 0)


def made() -> dict[Path, str]:
    """The files, each with its text."""
    found = programs()
    texts = {PAGES / f"{it.name}.1": manual_pages.page(it, found) for it in found}
    for shell, text_of in shell_completion.SHELLS.items():
        texts.update({COMPLETIONS / f"{it.name}.{shell}": text_of(it) for it in found})
    return texts


def held(path: Path) -> str:
    try:
        return path.read_text(encoding="utf-8")
    except (OSError, ValueError):
        return ""


def faults(command: list[str], path: Path) -> str:
    """What a command says is wrong with a file."""
    ran = subprocess.run(
        [*command, str(path)],
        stdin=subprocess.DEVNULL,
        stdout=subprocess.PIPE,
        stderr=subprocess.PIPE,
        env={**os.environ, "LC_ALL": "C", "MANPAGER": "cat"},
    )
    said = ran.stderr + (ran.stdout if command == MANDOC else b"")
    text = said.decode(errors="replace").strip()
    return text or (f"status {ran.returncode}" if ran.returncode else "")


def check() -> int:
    """Compares the files with what would be made, and has them read by what they are for."""
    counts = Counts()
    readers = {".1": [MAN, MANDOC], **{f".{it}": [[it, "-n"]] for it in shell_completion.SHELLS}}
    for path, text in made().items():
        shown = path.relative_to(ROOT)
        counts.holds(held(path) == text, f"{shown} isn't what tools/make manual makes")
        for command in readers[path.suffix]:
            if shutil.which(command[0]) is None:
                counts.skipped.append(f"{command[0]} for {shown}")
                continue
            wrong = faults(command, path)
            counts.holds(not wrong, f"{shown}: {command[0]}: {wrong}")
    counts.holds(not strange(), f"no file of a program: {', '.join(strange())}")
    return counts.ended()


def strange() -> list[str]:
    """The files that stand beside those that are made."""
    there = [it for folder in (PAGES, COMPLETIONS) if folder.is_dir() for it in folder.iterdir()]
    return sorted(str(it.relative_to(ROOT)) for it in set(there) - set(made()))


def make() -> int:
    texts = made()
    for path, text in texts.items():
        path.parent.mkdir(exist_ok=True)
        path.write_text(text, encoding="utf-8")
    print("\n".join(str(it.relative_to(ROOT)) for it in texts), flush=True)
    return 0


def main() -> int:
    as_it_is = argparse.RawDescriptionHelpFormatter
    parser = argparse.ArgumentParser(
        prog="make manual", description=__doc__, formatter_class=as_it_is
    )
    parser.add_argument("--check", action="store_true")
    try:
        return check() if parser.parse_args().check else make()
    except BrokenPipeError:
        sys.stdout = open(os.devnull, "w")
    except OSError as error:
        where = error.filename or "standard output"
        print(f"make manual: {where}: {error.strerror}", file=sys.stderr)
        sys.stdout = open(os.devnull, "w")  # what is left for it can't be written either
    except (ExploreError, ValueError) as error:
        print(f"make manual: {error}", file=sys.stderr)
    except KeyboardInterrupt:
        print("make manual: stopped", file=sys.stderr)
        return 130
    return 1
