"""check [NAME ..]: runs the checks of these names, or all, each as the gate runs its part of that
name. They run the programs that TESTED_PDP11, TESTED_SEARCH and TESTED_DISASSEMBLE name in the
environment, otherwise those that tools/program finds. check NAME WORD.. gives one check words of
its own, as `check rules 4.12` or `check sessions FOLDER`; check NAME --help shows them.

{names}

The last line is 'N passed, M failed': of one check what it counts, of several the checks."""
import importlib
import os
import sys
from typing import NamedTuple

from tests import stored_sessions as sessions, under_test

SKIPPED, STOPPED = 77, 130


class Check(NamedTuple):
    """A module of this folder, the flags that it is run with, and what it checks."""

    module: str
    flags: list[str]
    says: str


CHECKS = {
    "help": Check("help", [], "--help shows the lines that the tools know"),
    "streams": Check("streams", [], "streams that fail or come in parts, the largest images"),
    "documents": Check("docs", [], "what README and docs/ show, their links and widths"),
    "python": Check("python", [], "all Python by mypy and ruff; rooms; names of modules"),
    "names": Check("names", [], "no type or definition has the name of another"),
    "rules": Check("rules", [], "each rule of MACHINE has a definition and a session"),
    "sessions": Check("stored", [], "the stored sessions on pdp11"),
    "sessions-by-search": Check("stored", ["--search"], "the stored sessions on search"),
    "searches": Check("stored", ["--searches"], "the stored searches"),
    "lines": Check("lines", [], "searches, beside replies computed from each turn"),
    "jumps": Check("jumps", [], "questions asked again, back and forth"),
    "undoing": Check("undoing", [], "each edit taken back and made again"),
    "each-turn": Check("jumps", ["--each-turn"], "each turn from a loaded state"),
    "web-sessions": Check("web_programs", [], "the stored sessions on the page's modules"),
    "web-refusals": Check("web_programs", ["--refusals"], "the same, with memory refused"),
    "by-node": Check("by_node", [], "the programs as node runs them"),
    "portable": Check("portable", [], "the programs for Linux on ARM64"),
}


def described() -> str:
    """What `check --help` shows."""
    names = "\n".join(f"  {name:20}{it.says}" for name, it in CHECKS.items())
    return (__doc__ or "").format(names=names)


def run(name: str, words: list[str]) -> int:
    """Runs one check with words of its own; returns its exit status."""
    found = CHECKS[name]
    sys.argv = [f"check {name}", *found.flags, *words]
    return int(importlib.import_module(f"tests.checks.{found.module}").main())


def run_each(names: list[str]) -> int:
    """Runs checks one after another, and counts them."""
    ended = {}
    for name in names:
        print(f"== {name}", flush=True)
        ended[name] = run(name, [])
    failed = [name for name, status in ended.items() if status not in (0, SKIPPED)]
    if failed:
        print(f"failed: {', '.join(failed)}")
    skipped = list(ended.values()).count(SKIPPED)
    print(f"{skipped} skipped")
    print(f"{len(ended) - len(failed) - skipped} passed, {len(failed)} failed")
    return int(len(failed) > 0)


def do(words: list[str]) -> int:
    """Runs what the words name: names of checks alone, or one with further words."""
    if words and words[0] in CHECKS and not set(words) <= CHECKS.keys():
        return run(words[0], words[1:])
    parser = sessions.parser_of(described())
    parser.add_argument("names", metavar="NAME", nargs="*")
    names = parser.parse_args(words).names
    for it in names:
        if it not in CHECKS:
            parser.error(f"{it}: no such check; there are {', '.join(CHECKS)}")
    return run(names[0], []) if len(names) == 1 else run_each(names or list(CHECKS))


def main() -> int:
    try:
        return do(sys.argv[1:])
    except under_test.NoProgram as error:
        print(f"check: {error}", file=sys.stderr)
    except BrokenPipeError:
        sys.stdout = open(os.devnull, "w")
    except KeyboardInterrupt:
        return STOPPED
    return 1


if __name__ == "__main__":
    sys.exit(main())
