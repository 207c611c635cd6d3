"""make definitions [--check]: writes crates/DEFINITIONS.md anew: the modules of definitions and
the laws, crate by crate. A module's sentence is the first of the comment at the head of its file in
specs/, a law's the first of its docstring in src/. With --check it writes nothing: it compares the
document with what it would write, line by line. The last line is then 'N passed, M failed'."""
import argparse
import difflib
import itertools
import os
import re
import sys
from typing import NamedTuple

ROOT = os.path.join(os.path.dirname(os.path.abspath(__file__)), "..", "..")
DOCUMENT = os.path.join("crates", "DEFINITIONS.md")
LONGEST = 120  # characters of a cell

HEAD = """# Definitions and laws

Don't edit this page: `tools/make definitions` writes it from the comments in `specs/` and the
docstrings of laws, and the gate compares. [PROOFS.md](../docs/PROOFS.md) says how definitions,
contracts and laws belong together, and which to read first.

The crates go from the bottom up. Each module uses only modules above it. The module `Handbook.Jump`
of pdp_instruction is the file `crates/pdp_instruction/specs/Handbook/Jump.antt`. A law is a
function in `src/laws.rt` or `src/extended_laws.rt` of its crate. Two dots stand for the rest of a
long sentence. The source of a rule is a chapter of the DEC PDP-11/40 Processor Handbook (1972), a
chapter of the PDP-11 Peripherals Handbook (Unibus, or the name of a device), or this project's
profile ([\\[P\\]](../docs/MACHINE.md)). A module without a source has no rule of the machine.

| module or law | what it says | source |
|---|---|---|
"""

PROFILE = r"[Tt]his project's profile|\[P\]"
HANDBOOK = r"(?:DEC PDP-11/40 Processor|PDP-11 Peripherals) Handbook(?: \(1972\))?,"
# The chapters of a handbook that a comment names end where its clause does.
CHAPTERS = rf"{HANDBOOK} ([^.;:()]+?)(?= \(|[.;:)]|, [a-z]|$)"
# A source in brackets, with what is said of it, and one after a colon.
INSIDE = r"(?:[^()]|\(1972\))*"
SOURCE = rf" ?\({INSIDE}(?:{PROFILE}|{HANDBOOK}){INSIDE}\)|[:.] {HANDBOOK}.*"
# What a docstring of a law begins with; what it is a law of stays.
LAW = r"A law and no code: |A law of |The laws of "
SENTENCE = re.compile(r".*?[.](?= [A-Z]|$)")

# How the lines begin by which a file names others. A file with such lines alone defines nothing.
NAMES = ("pub mod ", "pub use ", "unfoldable pub use ")


class Row(NamedTuple):
    """A row of the list: a module or a law, its sentence, and the source of its rules."""

    name: str
    says: str
    source: str


def read(*path: str) -> str:
    with open(os.path.join(ROOT, *path), encoding="utf-8") as file:
        return file.read()


def comment_at_head(text: str, mark: str) -> str:
    """The lines at the head of a text that begin with the mark: each paragraph as one line."""
    lines = itertools.takewhile(lambda line: line.startswith(mark), text.splitlines())
    words = [line[len(mark) :].strip() or "\n" for line in lines]
    return " ".join(words).replace(" \n ", "\n")


def source_of(comment: str) -> str:
    """The chapters of the handbooks that a comment names, and [P] if it names the profile."""
    named = re.findall(CHAPTERS, comment)
    if re.search(PROFILE, comment):
        named.append("[P]")
    return "; ".join(dict.fromkeys(named))


def shortened(sentence: str) -> str:
    """The sentence, or what a cell has room for: up to the end of a clause, or else of a word."""
    if len(sentence) <= LONGEST:
        return sentence
    room = sentence[: LONGEST - len(" ..")]
    end = max(room.rfind(mark) for mark in (",", ";", ":"))
    return room[: end if end > LONGEST * 2 // 3 else room.rfind(" ")] + " .."


def sentence_of(comment: str) -> str:
    """The first sentence of a comment without its source, shortened."""
    said = re.sub(SOURCE, "", re.sub(LAW, "", comment.split("\n")[0]))
    first = SENTENCE.match(said)
    said = first.group() if first else said
    return shortened(said[:1].upper() + said[1:].rstrip(".:"))


def crates() -> list[str]:
    """The names of the crates from the bottom up."""
    lines = read("crates.txt").splitlines()
    return [line.split(":")[0] for line in lines if not line.startswith("#")]


def modules(crate: str, group: tuple[str, ...] = ()) -> list[tuple[str, str]]:
    """The modules of a crate's definitions, in the order in which the files of groups name them."""
    folder = os.path.join("crates", crate, "specs")
    path = os.path.join(folder, *group[:-1], f"{(group or ('Lib',))[-1]}.antt")
    if not os.path.exists(os.path.join(ROOT, path)):
        return []
    text = read(path)
    found: list[tuple[str, str]] = []
    lines = [line for line in text.splitlines() if line and not line.startswith("--")]
    if not all(line.startswith(NAMES) for line in lines):
        found.append((".".join(group), text))
    for name in re.findall(r"^pub mod (\w+)$", text, re.M):
        found += modules(crate, (*group, name))
    return found


def in_order(crate: str, found: list[tuple[str, str]]) -> list[tuple[str, str]]:
    """The modules such that each uses only those above it."""
    texts = dict(found)
    ordered: list[str] = []

    def put(name: str, waiting: set[str]) -> None:
        if name in ordered or name in waiting:
            return
        used = re.findall(rf"^use Rattle\.{crate}\.specs\.([\w.]+?)\.?(?:\{{|$)", texts[name], re.M)
        for it in used:
            if it in texts:
                put(it, {*waiting, name})
        ordered.append(name)

    for name in texts:
        put(name, set())
    return [(name, texts[name]) for name in ordered]


def laws(crate: str) -> list[tuple[str, str]]:
    """The laws of a crate: public functions of its modules of laws, each with its docstring."""
    folder, found = os.path.join("crates", crate, "src"), []
    for file in sorted(os.listdir(os.path.join(ROOT, folder)), key=lambda name: (len(name), name)):
        if not re.fullmatch(r"(\w+_)?laws\.rt", file):
            continue
        for item in re.split(r"\n\n(?=///)", read(folder, file)):
            name = re.search(r"^pub fn (\w+)\(", item, re.M)
            if name:
                found.append((name.group(1), comment_at_head(item, "///")))
    return found


def rows_of(crate: str) -> list[Row]:
    """A row for each module of a crate, and then one for each law."""
    commented = [
        (f"`{name}`", comment_at_head(text, "--"))
        for name, text in in_order(crate, modules(crate))
    ]
    commented += [(f"law `{name}`", comment) for name, comment in laws(crate)]
    return [Row(name, sentence_of(said), source_of(said)) for name, said in commented]


def document() -> str:
    lines = HEAD.splitlines()
    for crate in crates():
        rows = rows_of(crate)
        if rows:
            lines += [f"| **{crate}** | | |"]
            lines += [f"| {it.name} | {it.says} | {it.source} |" for it in rows]
    return "\n".join([*lines, ""])


def check(wanted: str) -> int:
    """Compares the document with the list, line by line; the count of lines that differ."""
    path = os.path.join(ROOT, DOCUMENT)
    got = read(DOCUMENT) if os.path.exists(path) else ""
    compared = list(difflib.ndiff(got.splitlines(), wanted.splitlines()))
    wrong = [line for line in compared if line.startswith(("- ", "+ "))]
    wrong += [f"no comment: {line}" for line in wanted.splitlines() if "` |  |" in line]
    for line in wrong:
        print(f"{DOCUMENT}: {line}")
    if wrong:
        print("tools/make definitions writes the document anew")
    print(f"{sum(line.startswith('  ') for line in compared)} passed, {len(wrong)} failed")
    return len(wrong)


def main() -> int:
    as_it_is = argparse.RawDescriptionHelpFormatter
    parser = argparse.ArgumentParser(description=__doc__, formatter_class=as_it_is)
    parser.add_argument("--check", action="store_true", help="compare, and write nothing")
    wanted = document()
    if parser.parse_args().check:
        return int(check(wanted) > 0)
    with open(os.path.join(ROOT, DOCUMENT), "w", encoding="utf-8") as file:
        file.write(wanted)
    return 0


if __name__ == "__main__":
    sys.exit(main())
