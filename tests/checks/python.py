"""python: the Python of tools/, of tests/ and of the package in src/ by mypy, with its strict
settings, and by ruff, each as Python 3.9 has the language; the rooms of the package, whose imports
go downwards only; and that no two modules have one name. It counts the files in which each finds
nothing. mypy reads the modules, ruff the tools too. What isn't installed is skipped.

The last line is 'N passed, M failed'. The status is 77 if neither is installed, and the rooms and
names are right."""
import json
import os
import re
import shutil
import subprocess
import sys
from pathlib import Path

from tests import stored_sessions as sessions

from . import rooms

ROOT = Path(__file__).resolve().parents[2]
FOLDERS = [ROOT / it for it in ("src/nezdrab", "tests", "tools")]
MYPY = ["mypy", "--strict", "--python-version", "3.9", "--cache-dir", os.devnull]
# Errors of syntax, names without a use or a meaning, and List for list.
RUFF = ["ruff", "check", "--isolated", "--no-cache", "--target-version", "py39"]
RUFF += ["--select", "E9,F,UP006", "--output-format", "json"]
ERROR = re.compile(r"^([^:\n]+):\d+: error: ", re.M)
SKIPPED = 77


class CheckerFailed(Exception):
    """How a checker ended that couldn't check."""


def modules() -> list[str]:
    return sorted(str(it.relative_to(ROOT)) for folder in FOLDERS for it in folder.rglob("*.py"))


def tools() -> list[str]:
    """The tools in Python whose names don't end in `.py`."""
    there = (it for folder in ("tests", "tools") for it in sorted((ROOT / folder).iterdir()))
    files = [it for it in there if it.is_file() and not it.suffix]
    found = [it for it in files if it.read_bytes().split(b"\n")[0].endswith(b"python3")]
    return [str(it.relative_to(ROOT)) for it in found]


def wrong_by_mypy(files: list[str]) -> set[str]:
    """Shows what mypy finds; returns the files in which it finds something."""
    ran = run([*MYPY, *files])
    print(ran.stdout, end="")
    wrong = set(ERROR.findall(ran.stdout))
    check_end(ran, wrong)
    return wrong


def wrong_by_ruff(files: list[str]) -> set[str]:
    """Shows what ruff finds; returns the files in which it finds something."""
    ran = run([*RUFF, *files])
    wrong = set()
    for it in json.loads(ran.stdout or "[]"):
        name = os.path.relpath(it["filename"], ROOT)
        print(f"{name}:{it['location']['row']}: {it['code']} {it['message']}")
        wrong.add(name)
    check_end(ran, wrong)
    return wrong


def wrong_by_rooms() -> set[str]:
    """Shows the imports that go upwards, and names that stand twice; returns their files."""
    wrong = set()
    for path, said in (*rooms.upward_imports(), *rooms.names_twice(*FOLDERS)):
        name = os.path.relpath(path, ROOT)
        print(f"{name}:{said}")
        wrong.add(name)
    return wrong


def run(command: list[str]) -> "subprocess.CompletedProcess[str]":
    environment = {**os.environ, "MYPYPATH": "tools:src"}
    return subprocess.run(command, cwd=ROOT, env=environment, capture_output=True, text=True)


def check_end(ran: "subprocess.CompletedProcess[str]", wrong: set[str]) -> None:
    """That a checker which found nothing wrong ended well."""
    if ran.returncode != 0 and not wrong:
        raise CheckerFailed(f"status {ran.returncode}: {ran.stderr.strip() or ran.stdout.strip()}")


def main() -> int:
    sessions.parser_of(__doc__).parse_args()
    passed = failed = 0
    checkers = {
        "mypy": (wrong_by_mypy, modules()),
        "ruff": (wrong_by_ruff, [*modules(), *tools()]),
    }
    for name, (wrong_by, files) in checkers.items():
        if shutil.which(name) is None:
            print(f"{name} isn't installed")
            continue
        try:
            wrong = wrong_by(files)
            passed, failed = passed + len(set(files) - wrong), failed + len(wrong)
        except (CheckerFailed, ValueError) as error:
            print(f"{name} checked nothing: {error}")
            failed += 1
    is_skipped = passed == failed == 0
    wrong = wrong_by_rooms()
    failed += len(wrong)
    passed += len(modules()) - len(wrong)
    print(f"{passed} passed, {failed} failed")
    return SKIPPED if is_skipped and not wrong else int(failed > 0)


if __name__ == "__main__":
    sys.exit(main())
