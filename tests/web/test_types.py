"""The types that the page's modules give in comments (JSDoc), as tsc checks them. It comes with
Debian's node-typescript; without it these tests are skipped."""
import re
import shutil
import subprocess
import tempfile
import unittest
from pathlib import Path

from .page_case import ROOT

WEB = ROOT / "web"
TSC = ["tsc", "--allowJs", "--checkJs", "--noEmit", "--strict", "--target", "es2022"]
TSC += ["--module", "es2022", "--lib", "es2022,dom,dom.iterable"]
ERROR = re.compile(r"^(\S+\.js)\(\d+,\d+\): error ", re.M)


def wrong(folder: Path) -> str:
    """What tsc finds in the modules of a folder."""
    names = sorted(it.name for it in folder.glob("*.js"))
    ran = subprocess.run([*TSC, *names], cwd=folder, capture_output=True, text=True)
    found = ran.stdout.strip()
    if ran.returncode and not ERROR.search(found):
        raise AssertionError(f"tsc ended with status {ran.returncode}: {found or ran.stderr}")
    return found


class Types(unittest.TestCase):
    maxDiff = None

    def setUp(self) -> None:
        if shutil.which(TSC[0]) is None:
            raise unittest.SkipTest("tsc isn't installed: it comes with node-typescript")

    def test_the_types_are_right(self) -> None:
        self.assertEqual(wrong(WEB), "")

    def test_a_wrong_type_is_found(self) -> None:
        with tempfile.TemporaryDirectory() as folder:
            text = "/** @type {number} */\nexport const turns = 'none';\n"
            (Path(folder) / "turns.js").write_text(text)
            self.assertEqual(ERROR.findall(wrong(Path(folder))), ["turns.js"])

    def test_a_parameter_without_a_type_is_found(self) -> None:
        with tempfile.TemporaryDirectory() as folder:
            (Path(folder) / "turns.js").write_text("export const next = turn => turn + 1;\n")
            self.assertEqual(ERROR.findall(wrong(Path(folder))), ["turns.js"])
