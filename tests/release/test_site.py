"""README and the documents as one page, as tools/make site writes it."""
import base64
import contextlib
import io
import re
import shutil
import subprocess
import unittest
from collections import Counter
from html.parser import HTMLParser
from pathlib import Path
from typing import Optional
from unittest import mock

from documents import site_page, turned
from tests.checks.docs import CODE, ITEM, LINK, Document, anchors_of

from .test_manual import InAFolder
from .tree import ROOT, SECONDS

TOOL = ROOT / "tools" / "make"
# What would be loaded, or would run.
LOADED = {"src", "srcset", "data", "action", "poster", "background"}
RUNNING = {"script", "iframe", "link", "object", "embed", "base", "form"}
PICTURE = re.compile(r"!\[[^]]*\]\([^)]*\)")


class Read(HTMLParser):
    """What a page has: its elements, anchors, links, pictures, and the texts of its code blocks."""

    def __init__(self, page: str) -> None:
        super().__init__()
        self.elements: Counter[str] = Counter()
        self.anchors: Counter[str] = Counter()
        self.links: list[str] = []
        self.loaded: list[str] = []
        self.blocks: list[str] = []
        self.open: list[str] = []
        self.feed(page)
        self.close()

    def handle_starttag(self, name: str, attributes: list[tuple[str, Optional[str]]]) -> None:
        held = {key: value or "" for key, value in attributes}
        self.elements[name] += 1
        self.anchors.update([held["id"]] if "id" in held else [])
        self.links += [held["href"]] if name == "a" else []
        self.loaded += [value for key, value in held.items() if key in LOADED]
        self.blocks += [""] if name == "pre" else []
        if name not in ("img", "meta", "br", "hr"):
            self.open.append(name)

    def handle_endtag(self, name: str) -> None:
        assert self.open.pop() == name, f"{name} ends where {self.open[-1:]} is open"

    def handle_data(self, data: str) -> None:
        if "pre" in self.open:
            self.blocks[-1] += data


def count_of(document: Document, pattern: str) -> int:
    return sum(re.match(pattern, line) is not None for _, line in document.prose)


def targets_of(document: Document) -> list[str]:
    """Where the links of a document lead to, without its pictures."""
    prose = "\n".join(PICTURE.sub("", CODE.sub("", line)) for _, line in document.prose)
    return LINK.findall(prose)


@unittest.skipUnless(shutil.which(turned.MAKER), f"{turned.MAKER} isn't installed")
class OnePage(unittest.TestCase):
    """The page of the documents as they are."""

    pages: list[turned.Turned]
    page: str
    read: Read

    @classmethod
    def setUpClass(cls) -> None:
        cls.pages = site_page.turned_documents()
        cls.page = site_page.page_of(cls.pages)
        cls.read = Read(cls.page)

    def test_each_document_is_there_once(self) -> None:
        there = [f"docs/{it.name}" for it in sorted((ROOT / "docs").glob("*.md"))]
        names = [it.name for it in self.pages]
        self.assertEqual(sorted(names), sorted(["README.md", *there]))
        self.assertEqual(names[:3], ["README.md", "docs/USING.md", "docs/LANGUAGE.md"])
        for page in self.pages:
            stem = turned.stem_of(page.name)
            begin = "<summary>" if count_of(page.document, "##") else "<p>"
            self.assertIn(f'{begin}<a href="#{stem}">{stem}</a>', self.page)

    def test_each_link_has_its_target(self) -> None:
        for link in self.read.links:
            if not re.match(r"https?:", link):
                self.assertEqual(self.read.anchors[link.removeprefix("#")], 1, link)
        self.assertEqual([it for it, count in self.read.anchors.items() if count > 1], [])

    def test_each_link_of_the_documents_is_there(self) -> None:
        """As a link, or with the path of a file that the page doesn't have."""
        outside = 0
        for page in self.pages:
            written = "".join(page.written)
            inside = 0
            for target in targets_of(page.document):
                path = page.path_of(target.partition("#")[0])
                is_inside = target[0] == "#" or path in page.names
                inside, outside = inside + is_inside, outside + (not is_inside)
                self.assertTrue(is_inside or path in written, f"{page.name}: {target}")
            self.assertEqual(len(Read(written).links), inside, page.name)
        self.assertGreater(outside, 10)

    def test_each_heading_table_row_item_and_block_is_there(self) -> None:
        for page in self.pages:
            document, read = page.document, Read("".join(page.written))
            with self.subTest(page.name):
                self.assertEqual(len(page.headings), count_of(document, "#"))
                tables = count_of(document, r"\|-")
                self.assertEqual(read.elements["table"], tables)
                self.assertEqual(read.elements["tr"], count_of(document, r"\|") - tables)
                self.assertEqual(read.elements["li"], count_of(document, ITEM.pattern))
                shown = [it.rstrip("\n") for it in read.blocks]
                self.assertEqual(shown, ["\n".join(it.lines) for it in document.blocks])
            for anchor in anchors_of(document):
                self.assertEqual(self.read.anchors[turned.place_of(page.name, anchor)], 1)

    def test_the_page_stands_alone(self) -> None:
        self.assertEqual(sorted(RUNNING & set(self.read.elements)), [])
        self.assertNotIn("url(", self.page)
        self.assertNotIn("@import", self.page)
        for address in self.read.loaded:
            self.assertRegex(address, r"^data:image/(png|svg\+xml);base64,")
        held = [base64.b64decode(it.partition(",")[2]) for it in self.read.loaded]
        for name in "page.png", "lost-update.svg", "gtkwave.png":
            self.assertIn((ROOT / "docs" / name).read_bytes(), held)
        self.assertIn("@media (prefers-color-scheme: dark)", self.page)


class Written(InAFolder):
    """The tool, as it is called."""

    def run_tool(self, *words: str, path: str = "/usr/bin:/bin") -> tuple[int, str]:
        command = [shutil.which("python3") or "python3", str(TOOL), "site", *words]
        ran = subprocess.run(
            command, env={"PATH": path}, capture_output=True, text=True, timeout=SECONDS
        )
        self.assertNotIn("Traceback", ran.stderr)
        return ran.returncode, ran.stdout + ran.stderr

    def test_what_is_not_made_is_told(self) -> None:
        for words in (), ("sites", "folder"), ("--page",):
            ran = subprocess.run([str(TOOL), *words], capture_output=True, text=True)
            self.assertEqual((ran.returncode, ran.stdout), (2, ""))
            self.assertIn("make NAME [WORD..]: ", ran.stderr)
            self.assertEqual("there are manual, " in ran.stderr, words != ())

    def test_bad_arguments_are_told(self) -> None:
        for words in (), ("one", "two"), ("--check", "folder"), ("",):
            status, said = self.run_tool(*words)
            self.assertEqual(status, 2)
            self.assertIn("make site: error: ", said)

    def test_without_a_maker(self) -> None:
        said = "make site: it takes pandoc, which isn't installed (apt-get install pandoc)\n"
        empty = self.folder / "empty"
        self.assertEqual(self.run_tool(str(self.folder), path=str(empty)), (2, said))
        self.assertEqual(list(self.folder.iterdir()), [])

    @unittest.skipUnless(shutil.which(turned.MAKER), f"{turned.MAKER} isn't installed")
    def test_a_folder_that_is_made_and_written_twice(self) -> None:
        folder = self.folder / "some" / "folder"
        for _ in range(2):
            self.assertEqual(self.run_tool(str(folder)), (0, f"{folder / site_page.FILE}\n"))
            self.assertEqual([it.name for it in folder.iterdir()], [site_page.FILE])
        self.assertEqual(len(Read((folder / site_page.FILE).read_text()).loaded), 3)

    @unittest.skipUnless(shutil.which(turned.MAKER), f"{turned.MAKER} isn't installed")
    def test_what_can_not_be_written_is_told(self) -> None:
        file = self.folder / "file"
        file.write_text("mine")
        (self.folder / "full" / site_page.FILE).mkdir(parents=True)
        for folder in file, file / "below", Path("/proc/nothing"), self.folder / "full":
            status, said = self.run_tool(str(folder))
            self.assertEqual(status, 1, said)
            self.assertRegex(said, r"^make site: /.*: [A-Z].*\n$")
        self.assertEqual(file.read_text(), "mine")

    def test_a_maker_that_fails_is_told(self) -> None:
        error = io.StringIO()
        for command in ["false"], ["true"]:
            with contextlib.ExitStack() as stack:
                stack.enter_context(mock.patch.object(turned, "COMMAND", command))
                stack.enter_context(mock.patch("shutil.which", return_value="here"))
                stack.enter_context(mock.patch("sys.argv", ["make site", str(self.folder)]))
                stack.enter_context(contextlib.redirect_stderr(error))
                self.assertEqual(site_page.main(), 1)
        first, second = error.getvalue().splitlines()
        self.assertEqual(first, "make site: README.md: pandoc ended with 1: ")
        self.assertIn("finds other headings", second)
        self.assertEqual(list(self.folder.iterdir()), [])
