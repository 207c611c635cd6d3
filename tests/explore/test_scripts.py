"""The stored scripts: lines that are typed, and what explore writes."""
from pathlib import Path
from typing import Callable

from .explore_case import ROOT, Case

FOLDERS = [Path(__file__).parent, *(ROOT / "examples" / it for it in ("forth", "ledger", "media"))]


class Scripts(Case):
    """One test for each NAME.explore."""


def test_of(path: Path) -> Callable[[Case], None]:
    def test(self: Case) -> None:
        options = path.with_suffix(".args")
        words = options.read_text().splitlines() if options.exists() else []
        written = self.explore(path.read_text(), "--echo", *words)
        self.assertEqual(written, path.with_suffix(".expected").read_text())
        self.assertEqual(self.error, "")

    return test


for folder in FOLDERS:
    for path in sorted(folder.glob("*.explore")):
        setattr(Scripts, f"test_{path.stem}".replace("-", "_"), test_of(path))
