"""Whether each checklist of docs/CHANGING.md names what a change touches.

A list is a section `## Add ..` that shows, by an example, `grep -r.. WORDS FOLDERS`. Each file that
the grep finds is to be named by a row: its first cell has crates or folders, its second one files
and folders there, which end in `/`. The line 'Left out of every list: ..' and a list's own 'Left
out: ..' name files and folders that need no row. What a row or such a line names has to exist."""
import os
import re
import shlex
import subprocess
from typing import Iterator, NamedTuple, Optional, Sequence

ROOT = os.path.normpath(os.path.join(os.path.dirname(os.path.abspath(__file__)), "..", ".."))
CHANGING = "docs/CHANGING.md"
CRATES = "crates"
TOP = [CRATES, "src", "tools", "docs", "tests", "web"]  # the folders that a list speaks of
LEFT_OUT_OF_LIST, LEFT_OUT_OF_EVERY = "Left out: ", "Left out of every list: "
PATH = re.compile(r"`([\w./-]+)`")
GREP = re.compile(r"`(grep -r[^`]*)`")
# What is built or computed is no source.
NO_SOURCES = {"out", "__pycache__"}


class Named(NamedTuple):
    """Files and folders that a list names: below which folders, and their paths there."""

    folders: list[str]
    paths: list[str]


class Checklist(NamedTuple):
    """A checklist: its heading, the greps of its example, and what it names."""

    title: str
    greps: list[str]
    named: list[Named]


def cells_of(row: str) -> list[str]:
    return [it.strip() for it in row.strip().strip("|").split("|")]


def folder_of(name: str) -> str:
    """The folder that a first cell means by a name: that of a crate, or one of the tree."""
    crate = os.path.join(CRATES, name)
    return crate if os.path.isdir(os.path.join(ROOT, crate)) else name


def named_by_row(row: str) -> Named:
    first, second, *_ = [*cells_of(row), "", ""]
    folders = [folder_of(it) for it in re.findall(r"\w+", first)]
    there = [it for it in folders if os.path.isdir(os.path.join(ROOT, it))]
    return Named(there, PATH.findall(second) if there else [])


def named_by(line: str) -> Optional[Named]:
    """What a line of a list names, if it is a row or says what is left out."""
    if line.startswith("|"):
        return named_by_row(line)
    if line.startswith((LEFT_OUT_OF_LIST, LEFT_OUT_OF_EVERY)):
        return Named(TOP, PATH.findall(line))
    return None


def checklists_of(document: Sequence[str]) -> list[Checklist]:
    """The checklists of a document. What is left out of every list stands before them."""
    lists: list[Checklist] = []
    everywhere: list[Named] = []
    for line in paragraphs_of(document):
        named = named_by(line)
        if line.startswith("## Add "):
            lists.append(Checklist(line[len("## ") :], [], [*everywhere]))
        elif named and lists:
            lists[-1].greps.extend(GREP.findall(line))
            lists[-1].named.append(named)
        elif named and line.startswith(LEFT_OUT_OF_EVERY):
            everywhere.append(named)
    return lists


def paragraphs_of(document: Sequence[str]) -> Iterator[str]:
    """The lines of a document; one that says what is left out has the lines that go on with it."""
    left_out: list[str] = []
    for line in [*document, ""]:
        if line.startswith((LEFT_OUT_OF_LIST, LEFT_OUT_OF_EVERY)) or (left_out and line):
            left_out.append(line)
            continue
        if left_out:
            yield " ".join(left_out)
            left_out = []
        yield line


def has(path: str, file: str) -> bool:
    """Whether a file, by its path from the root, is one of this path or lies in such a folder."""
    return f"/{path}" in f"/{file}" if path.endswith("/") else f"/{file}".endswith(f"/{path}")


def is_named(file: str, named: Named) -> bool:
    below = [it for it in named.folders if file.startswith(f"{it}/")]
    return any(has(path, file[len(folder) + 1 :]) for folder in below for path in named.paths)


def files_below(folder: str) -> Iterator[str]:
    """The paths of all sources below a folder, from the root of the tree."""
    for top, folders, files in os.walk(os.path.join(ROOT, folder)):
        folders[:] = [it for it in folders if it not in NO_SOURCES]
        yield from (os.path.relpath(os.path.join(top, it), ROOT) for it in files)


def files_found(grep: str) -> list[str]:
    """The files that a list's grep finds in the tree."""
    _, options, *words = shlex.split(grep)
    without = [f"--exclude-dir={it}" for it in sorted(NO_SOURCES)]
    command = ["grep", f"{options}lI", *without, *words]
    found = subprocess.run(command, cwd=ROOT, stdout=subprocess.PIPE, text=True, check=False)
    return sorted(found.stdout.splitlines())


def failures_of_list(checklist: Checklist) -> Iterator[Optional[str]]:
    """What is wrong with a list, or None, for each of its greps and for what it names."""
    at = f"{CHANGING}, {checklist.title}"
    if not checklist.greps:
        yield f"{at}: no row has a grep of an example"
    for grep in checklist.greps:
        found = files_found(grep)
        left = [it for it in found if not any(is_named(it, row) for row in checklist.named)]
        wrong = f"no row names {', '.join(left)}" if left else "it finds no file"
        yield f"{at}: {grep}: {wrong}" if left or not found else None
    lost = [path for row in checklist.named for path in row.paths if not is_there(path, row)]
    yield f"{at}: there is no {', '.join(lost)}" if lost else None


def is_there(path: str, row: Named) -> bool:
    named = Named(row.folders, [path])
    return any(is_named(it, named) for folder in row.folders for it in files_below(folder))


def failures_of_checklists(document: Sequence[str]) -> Iterator[Optional[str]]:
    """What is wrong with the checklists of a document, or None, for each thing that is checked."""
    for checklist in checklists_of(document):
        yield from failures_of_list(checklist)
