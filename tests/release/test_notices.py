"""The licences: NOTICES has what of others is inside the release files, and goes with them."""
import re
import subprocess
import tempfile
import unittest
from pathlib import Path

from portable_c.made import WASM2C
from webassembly import kit

from .tree import ROOT

LICENCE = "MIT OR Apache-2.0"
OWNER = "Copyright 2026 the Nezdrab authors"
PROGRAMS = sorted(ROOT.glob("release/*-linux-x86_64"))
# A name of Rattle in the table of symbols, of which the crate is the first part.
NAME = re.compile(rb"\0<?([a-z][a-z0-9_]*)::")


def text_of(name: str) -> str:
    return (ROOT / name).read_text(encoding="utf-8")


def crates() -> "tuple[set[str], set[str]]":
    """The crates of crates.txt: those that are here, and what else they stand on."""
    lines = [it.split(":") for it in text_of("crates.txt").splitlines() if re.match("[a-z]", it)]
    own = {name for name, _ in lines}
    return own, {it for _, uses in lines for it in uses.split()} - own


class Notices(unittest.TestCase):
    def setUp(self) -> None:
        self.text = text_of("release/NOTICES")
        rows = [it.split(" | ") for it in self.text.splitlines() if it.startswith("| ")][1:]
        self.versions = {
            name: row[1] for row in rows for name in row[0].removeprefix("| ").split(", ")
        }

    def test_each_crate_that_others_made(self) -> None:
        self.assertEqual(crates()[1] - set(self.versions), set())

    def test_each_name_that_the_linker_took(self) -> None:
        linked = {it.decode() for path in PROGRAMS for it in NAME.findall(path.read_bytes())}
        self.assertLessEqual({"clap", "strsim", "core"}, linked)
        self.assertEqual(linked - crates()[0] - set(self.versions), set())

    def test_versions(self) -> None:
        """Those that release/ names."""
        self.assertIn(" ".join(text_of("release/LIBRARY").split()[:2]), self.versions["musl"])
        self.assertIn(self.versions["core"], text_of("release/KIT").split())
        self.assertEqual(self.versions["wasm2c"], f"wabt {WASM2C}")
        made = text_of("release/pdp11-linux-aarch64.sources")
        compiler = re.search(r"^compiler .*\(Debian (.*?)\)", made, re.M)
        assert compiler is not None
        self.assertEqual(self.versions["libgcc"], f"Debian's gcc {compiler[1]}")

    def test_each_has_a_licence_and_its_text(self) -> None:
        heads = re.findall(r"^-{78}\n(\w+): .*\n-{78}\n\n *\S", self.text, re.M)
        rattle = {it for it, version in self.versions.items() if version in text_of("release/KIT")}
        self.assertEqual(set(heads), set(self.versions) - rattle)

    def test_texts_of_the_kit(self) -> None:
        folder = kit.kit_folder()
        if folder is None:
            self.skipTest("the kit isn't here")
        for name in crates()[1] | {"strsim"}:
            files = (folder / "rattle" / name).glob("LICENSE*")
            texts = [it.read_text(encoding="utf-8").strip() for it in files]
            self.assertTrue(any(it in self.text for it in texts), name)
            page = (folder / "rattle" / name / "README.md").read_text(encoding="utf-8")
            self.assertIn(self.versions[name].split(", ")[0].split()[-1], page)

    def test_the_page_has_those_of_the_modules(self) -> None:
        with tempfile.TemporaryDirectory() as folder:
            page = Path(folder) / "it.html"
            command = [str(ROOT / "tools" / "web"), "--pack", str(page)]
            subprocess.run(command, stdout=subprocess.DEVNULL, check=True)
            head = page.read_text(encoding="utf-8").split("</head>")[0]
        comment = re.search(r"<!--\n(.*)-->\n$", head, re.S)
        self.assertIsNotNone(comment, "the head ends with a comment")
        held = comment[1] if comment else ""
        self.assertTrue(self.text.startswith(held.rstrip("\n")))
        for name in crates()[1]:
            self.assertIn(f"\n{name}: ", held)
        self.assertNotIn("\nmusl: ", held)


class Licences(unittest.TestCase):
    def test_the_projects_own(self) -> None:
        self.assertTrue(text_of("LICENSE-MIT").startswith(f"{OWNER}\n"))
        self.assertIn("Version 2.0, January 2004", text_of("LICENSE-APACHE"))
        for name in "pyproject.toml", "setup.py", "release/NOTICES", "docs/CHANGING.md":
            self.assertIn(LICENCE, text_of(name))
        listed = "".join(f"\n  - {it}" for it in LICENCE.split(" OR "))
        self.assertIn(f"\nlicense:{listed}\n", text_of("CITATION.cff"))

    def test_contributing(self) -> None:
        part = text_of("docs/CHANGING.md").split("\n## Contribute\n", 1)[1].split("\n\n", 1)[0]
        self.assertIn("Bugs: ", part)
        self.assertIn("Security: ", part)
        self.assertLessEqual(len(part.splitlines()), 8)
        self.assertIn("(docs/CHANGING.md#contribute)", text_of("README.md"))
