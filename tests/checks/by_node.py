"""by-node [FOLDER..]: runs the stored sessions of these folders by node, as ./pdp11 does where the
native program can't run (tools/by-node): sessions by pdp11, searches by search. It compares
standard output, exit status and standard error byte for byte. It also runs what the check streams
runs, but of the outputs that take a part of the replies each twentieth one, and disassemble on the
words that its crate has. The folders are program and searches of tests/sessions/rules if none is
given.

The last line is 'N passed, M failed', and before it stands how many programs were left out: those
whose module is older than the sources. The status is 77 if nothing was run: without node too."""
import shutil
import subprocess
import sys
from pathlib import Path
from typing import Callable, Iterator, Optional

from tests import stored_sessions as sessions
from webassembly import files

from . import streams

ROOT = Path(__file__).resolve().parents[2]
FOLDERS = f"{sessions.RULES}/program", f"{sessions.RULES}/searches"
SKIPPED, STEP_OF_PARTS = 77, 20
# What is wrong with each run, or None.
Found = Iterator[Optional[str]]


def program_of(name: str) -> str:
    return str(ROOT / "tools" / "by-node" / name)


def of_sessions(program: str, folders: list[str], ending: str) -> Found:
    for session in (one for it in folders for one in sessions.sessions_of(it, ending)):
        got = sessions.run(program, session, session.lines)
        is_right = got == session.expected
        yield None if is_right else f"{session.name}: {sessions.difference(got, session.expected)}"


def of_pdp11(program: str, folders: list[str]) -> Found:
    yield from of_sessions(program, folders, ".session")
    for name, is_well in streams.runs(program, STEP_OF_PARTS):
        yield None if is_well else f"{name}: another end"


def of_search(program: str, folders: list[str]) -> Found:
    yield from of_sessions(program, folders, ".search")


def of_disassemble(program: str, folders: list[str]) -> Found:
    crate = ROOT / "crates" / "disassemble"
    with open(crate / "stdin", "rb") as given:
        ran = subprocess.run([program], stdin=given, capture_output=True)
    is_right = (ran.returncode, ran.stdout) == (0, (crate / "stdout").read_bytes())
    yield None if is_right else f"disassemble: status {ran.returncode}, or other lines than stdout"


CHECKS: dict[str, Callable[[str, list[str]], Found]] = {
    "pdp11": of_pdp11,
    "search": of_search,
    "disassemble": of_disassemble,
}


def check_programs(folders: list[str]) -> int:
    passed = failed = skipped = 0
    for name, check in CHECKS.items():
        if not files.is_current(name):
            print(f"release/{name}.wasm is older than the sources", flush=True)
            skipped += 1
            continue
        found = list(check(program_of(name), folders))
        wrong = [it for it in found if it is not None]
        print("".join(f"{name} by node: {it}\n" for it in wrong), end="", flush=True)
        passed, failed = passed + len(found) - len(wrong), failed + len(wrong)
    print(f"{skipped} skipped")
    print(f"{passed} passed, {failed} failed")
    return SKIPPED if passed == failed == 0 else int(failed > 0)


def main() -> int:
    given = sessions.asked_folders(sessions.parser_of(__doc__)).folders
    if shutil.which("node") is None:
        print("node isn't installed")
        return SKIPPED
    return check_programs(sessions.folders_of(given, *FOLDERS))


if __name__ == "__main__":
    sys.exit(main())
