"""The rooms of the package src/nezdrab: which room the modules of each may import."""
import ast
from pathlib import Path
from typing import Iterator

PACKAGE = Path(__file__).resolve().parents[2] / "src" / "nezdrab"
# From the bottom up: a module imports its own room and those before it. `main` begins them all, and
# the package itself gives names of core alone.
ROOMS = ("core", "analysis", "export", "shell", "dap", "main")


def module_of(path: Path, package: Path) -> str:
    """The dotted name of a file's module, or of the package that it is the head of."""
    parts = [package.name, *path.relative_to(package).with_suffix("").parts]
    return ".".join(parts[:-1] if parts[-1] == "__init__" else parts)


def height_of(module: str) -> int:
    room = module.split(".")[1:2]
    return ROOMS.index(room[0]) if room and room[0] in ROOMS else 0


def imported_by(path: Path, package: Path) -> Iterator[tuple[int, str]]:
    """The line of each import of a file, wherever it stands, and the module or name imported."""
    above = [*module_of(path, package).split("."), *(["."] if path.stem == "__init__" else [])]
    for node in ast.walk(ast.parse(path.read_text(encoding="utf-8"))):
        if isinstance(node, ast.Import):
            yield from ((node.lineno, it.name) for it in node.names)
        elif isinstance(node, ast.ImportFrom):
            base = [*(above[: -node.level] if node.level else []), *filter(None, [node.module])]
            yield from ((node.lineno, ".".join([*base, it.name])) for it in node.names)


def upward_imports(package: Path = PACKAGE) -> Iterator[tuple[Path, str]]:
    """Each file with an import of a room above its own, and what is wrong with the import."""
    for path in sorted(package.rglob("*.py")):
        own = module_of(path, package)
        for line, name in imported_by(path, package):
            is_ours = name.split(".")[0] == package.name
            if is_ours and height_of(name) > height_of(own):
                yield path, f"{line}: {own} imports {name}, which is of a room above"


def names_twice(*folders: Path) -> Iterator[tuple[Path, str]]:
    """Each module below these folders with the name of one before."""
    found: dict[str, Path] = {}
    for path in (it for folder in folders for it in sorted(folder.rglob("*.py"))):
        before = found.setdefault(path.stem, path)
        if before != path and path.stem != "__init__":
            yield path, f"1: {before.parent.name}/{before.name} has this name too"
