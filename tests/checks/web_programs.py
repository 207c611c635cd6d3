"""web-sessions [--programs MODULES] [FOLDER..]: runs the stored sessions of these folders on
pdp11.wasm and search.wasm by node and the page's host (web/host.js), and compares output, exit
status and standard error byte for byte; search.wasm waits for each line, as in the page. So is
disassemble.wasm run on the words that its crate has beside it, with what they must give. In
web-refusals (--refusals) the host's heap refuses requests for memory. MODULES is the folder of the
modules, release/ if it isn't given; then a module that is older than the sources is left out.

The last line is 'N passed, M failed', and before it stands how many modules were left out. The
status is 77 if nothing was run: without node too."""
import argparse
import base64
import json
import re
import shutil
import subprocess
import sys
import tempfile
from pathlib import Path
from typing import Any, Iterable

from tests import stored_sessions as sessions
from webassembly import files

ROOT = Path(__file__).resolve().parents[2]
TESTS = ROOT / "tests" / "webassembly"
COUNTS = re.compile(rb"([0-9]+) passed, ([0-9]+) failed")
SKIPPED = 77


def described(session: sessions.Session) -> dict[str, Any]:
    """A session as the tests of the modules read it, with its bytes in base64."""

    def text(it: bytes) -> str:
        return base64.b64encode(it).decode()

    output, status, error = session.expected
    expected = {"output": text(output), "status": status, "error": text(error)}
    more = {"lines": text(session.lines), "expected": expected}
    return {**session._asdict(), **more, "isOfBoth": sessions.is_of_both(session)}


def write_sessions(folders: list[str], file: Path) -> None:
    """Writes the stored sessions of these folders, by their kinds."""
    found = {
        kind: [described(it) for folder in folders for it in sessions.sessions_of(folder, kind)]
        for kind in sessions.TRANSCRIPTS
    }
    file.write_text(json.dumps(found))


def counted(test: str, name: str, module: Path, stored: Path) -> list[int]:
    """Runs a test by node and shows what it says; how many it passed and failed."""
    command = ["node", str(TESTS / test), name, str(module), str(stored)]
    ran = subprocess.run(command, stdout=subprocess.PIPE)
    *said, last = ran.stdout.splitlines() or [b""]
    counts = COUNTS.fullmatch(last)
    sys.stdout.buffer.write(b"".join(line + b"\n" for line in said))
    if counts is None:
        print(f"{name}.wasm: {test} ended with {ran.returncode}, and without counts")
        return [0, 1]
    return [int(it) for it in counts.groups()]


def main() -> int:
    parser = sessions.parser_of(__doc__)
    parser.add_argument("--refusals", action="store_true")
    parser.add_argument("--programs", metavar="MODULES", type=Path, default=files.RELEASE)
    found = sessions.asked_folders(parser)
    usual = (f"{sessions.RULES}/refused-memory",) if found.refusals else sessions.ALL
    folders = sessions.folders_of(found.folders, *usual)
    if shutil.which("node") is None:
        print("node isn't installed")
        return SKIPPED
    test = "refusals.mjs" if found.refusals else "sessions.mjs"
    names = files.WAITING if found.refusals else (*files.WAITING, "disassemble")
    with tempfile.TemporaryDirectory() as room:
        stored = Path(room) / "sessions.json"
        write_sessions(folders, stored)
        return outcome(parser, found.programs, names, test, stored)


def outcome(
    parser: argparse.ArgumentParser, programs: Path, names: Iterable[str], test: str, stored: Path
) -> int:
    """Runs a test on each of these modules, and returns the status."""
    passed = failed = skipped = 0
    for name in names:
        if programs == files.RELEASE and not files.is_current(name):
            print(f"release/{name}.wasm is older than the sources", flush=True)
            skipped += 1
            continue
        module = programs / f"{name}.wasm"
        if not module.is_file():
            parser.error(f"{module}: no such module")
        right, wrong = counted(test, name, module, stored)
        passed, failed = passed + right, failed + wrong
    print(f"{skipped} skipped")
    print(f"{passed} passed, {failed} failed")
    return SKIPPED if passed == failed == 0 else int(failed > 0)


if __name__ == "__main__":
    sys.exit(main())
