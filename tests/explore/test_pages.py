"""The page that `page` writes has what explore has, and what it can't have is refused."""
import os
import threading
from pathlib import Path
from typing import Optional
from unittest import mock

from nezdrab.analysis.disassembly import Disassembler
from nezdrab.analysis.explorer import Explorer
from nezdrab.core.engine import Machine, Start
from nezdrab.core.errors import ExploreError
from nezdrab.core.symbol_files import Symbol
from nezdrab.core.written_files import OUTPUT
from nezdrab.export import page_file
from nezdrab.export.page_file import BEGIN, EMPTY, END, NAME, PageSession, page_with
from nezdrab.export.web_session import symbol_text
from nezdrab.shell.command_table import COMMANDS

from .explore_case import BUILT, ROOT, SECONDS, Case
from .machines import OnMachine
from .pages import held_in

LEDGER = "examples/ledger/ledger.session"
TITLE = "# story title A recorded day of a small bank's computer"
FORM = "the form is: page FILE [to N]"


class PageCase(Case):
    def page(self, lines: str, *words: str) -> PageSession:
        """What the page has that is written after these lines; `said` is what explore says then."""
        written = self.explore(f"{lines}page! it.html\n", *words)
        self.said = written.partition("the machine is in it.html, ")[2].splitlines()
        return held_in(self.folder / "it.html")

    def put(self, name: str, data: bytes) -> str:
        path = self.folder / name
        path.parent.mkdir(exist_ok=True)
        path.write_bytes(data)
        return name


class Pages(PageCase):
    """What is in the page."""

    def test_all_else_is_the_packed_page(self) -> None:
        before, _, rest = (ROOT / "release" / NAME).read_text(encoding="utf-8").partition(BEGIN)
        self.page("core 1000 5\n", LEDGER)
        written = (self.folder / "it.html").read_text(encoding="utf-8")
        self.assertTrue(written.startswith(f'{before}{BEGIN}{{"name": "ledger.session", '))
        self.assertTrue(written.endswith(f"}}}}{rest[rest.index(END) :]}"))

    def test_nothing(self) -> None:
        self.assertEqual(self.page(""), PageSession("", [], ["regs 0"], {}))
        self.assertEqual(self.said, ["with its turns to 0"])

    def test_a_session_with_edits(self) -> None:
        """Its comments that name words stay, and its questions say how far it goes."""
        edits = "alter 15 127165 key 66\ndrop 1\ncore 2000 7\ndelay disk 9\ntape 1 2\n"
        found = self.page(edits, LEDGER)
        self.assertEqual((found.name, found.lines[-1]), ("ledger.session", "regs 238614"))
        told = [it for it in found.lines if it.startswith("#")]
        self.assertEqual(told[2:4], ["# name disk 0 the ledger", TITLE])
        self.assertEqual(found.lines[len(told)], "tape 1 2")
        self.assertLessEqual({"delay disk 9", "core 2000 7"}, set(found.lines))
        events = [it for it in found.lines if it.startswith("at ")]
        self.assertEqual(events, sorted(events, key=lambda it: int(it.split()[1])))
        self.assertEqual((len(events), "at 127165 key 66" in events), (26, True))

    def test_a_session_of_which_lines_were_refused(self) -> None:
        text = b"# name core 2 caf\xc3\xa9</script>\ncore 1 5\nat 5 nothing\ncore 2 5\n"
        text += b"regs 2000000000\n# name core 4 " + b"x" * 200 + b"\nregs 30\r\nat 3 tick\nmem 4"
        found = self.page("core 2 6\nat 70 bell\n", self.put("my.session", text))
        named = "# name core 2 caf\u00c3\u00a9</script>"
        self.assertEqual(found.lines, [named, "core 2 6", "at 3 tick", "regs 30"])

    def test_a_journal_that_is_taken_up(self) -> None:
        session = self.put("my.session", b"# name core 2 it\ncore 2 5\nregs 30\n")
        self.explore("at 7 tick\nundo\nat 9 tick\n", "--journal", "kept", session)
        found = self.page("", "--resume", "kept")
        wanted = ["# name core 2 it", "core 2 5", "at 9 tick", "regs 30"]
        self.assertEqual((found.name, found.lines), ("my.session", wanted))

    def test_the_turns_that_are_shown(self) -> None:
        """Up to the last that was asked about, or the one that is named; and the last event's."""
        for lines, end in (
            ("regs 500\nregs 3\nregs 9999999999\n", 500),
            ("at 600 tick\nregs 500\n", 600),
            ("regs 900\nshow 700\n", 900),
        ):
            found = self.page(lines)
            self.assertEqual(found.lines[-1], f"regs {end}")
            self.assertEqual(self.said[0], f"with its turns to {end}")
        self.assertEqual(self.said[1:], ["it.html#turn=700 opens it at the current turn"])
        lines = "at 600 tick\nregs 5000\npage it.html to 900\npage it.html to 9\n"
        said = self.explore(f"{lines}page it.html to 1000000001\n".replace("page", "page!"))
        self.assertEqual(
            said.splitlines()[2:],
            [
                "the machine is in it.html, with its turns to 900",
                "the machine is in it.html, with its turns to 600",
                "page: turn 1000000001 is above 1000000000",
            ],
        )

    def test_images(self) -> None:
        """Each has a name of its own, which the program takes for no option."""
        names = ("one/my.disk", "two/my.disk", "-x.core", "it's \N{SNOWMAN}.tape")
        files = [self.put(it, bytes([at, 0])) for at, it in enumerate(names)]
        kinds = ("disk", "disk1", "core", "tape")
        options = [f"--{kind}={name}" for kind, name in zip(kinds, files)]
        found = self.page("version 2\n", *options, "--units=2")
        words = "--core core--x.core --disk my.disk --disk1 disk1-my.disk --tape"
        self.assertEqual(found.arguments, [*words.split(), names[3], "--units", "2"])
        held = [b"\2\0", b"\0\0", b"\1\0", b"\3\0"]
        self.assertEqual([found.files[it] for it in found.arguments[1:8:2]], held)
        self.assertEqual(found.lines, ["version 2", "regs 0"])

    def test_a_start_that_was_loaded(self) -> None:
        found = self.page("load examples/media/hello.aout\n")
        self.assertEqual(found.arguments, ["--start", "0"])
        self.assertIn("user.sym", found.files)
        self.assertGreater(len(found.lines), 9)

    def test_a_name_that_is_no_text(self) -> None:
        self.assertEqual(self.page("", self.put(os.fsdecode(b"\xff<b>"), b"")).name, "?<b>")

    def test_symbols(self) -> None:
        """Those of places, by the modes."""
        self.put("both", b"START 1000\nADD=1002\n")
        self.put("more", b"000000 T _main\n")
        listing = b"1 000010 000240 LOOP: NOP\nSymbol table\n\nLOOP 000010  TOP = 000020\n"
        self.put("it.lst", listing)
        both = {"kernel.sym": b"START 1000\nADD 1002\n", "user.sym": b"START 1000\nADD 1002\n"}
        self.assertEqual(self.page("symbols both\n").files, both)
        lines = "symbols both\nsymbols more user\nsymbols it.lst kernel\n"
        found = {"kernel.sym": b"LOOP 10\n", "user.sym": b"_main 0\n"}
        self.assertEqual(self.page(lines).files, found)
        files = self.page(lines, "--disk", self.put("user.sym", b"\1\0")).files
        self.assertEqual(files, {**found, "user.sym": b"\1\0", "user-user.sym": b"_main 0\n"})
        # what follows a # is a comment in the page's file
        self.assertEqual(symbol_text([Symbol("a#b", 4), Symbol("c", 0o10)]), b"c 10\n")


class OnExplorer(OnMachine):
    def written(self, explorer: Explorer) -> list[str]:
        """What `page` says of explore in this process."""
        OUTPUT.overwrites = True
        return list(COMMANDS["page"].lines(explorer, str(self.folder / "it.html")))

    def with_disk(self, path: Path) -> Explorer:
        machine = Machine(Start(BUILT.program, ["--disk", str(path)], self.folder))
        self.addCleanup(machine.close)
        return Explorer(machine, Disassembler(None))


class Refused(PageCase, OnExplorer):
    """What can't be written is refused before the work, and leaves what was there."""

    def test_names_of_files(self) -> None:
        self.put("old.html", b"old")
        self.put("old.svg", b"old")
        named = "a browser takes a file for a page if its name ends in .html"
        for line, said in (
            ("page old.html", "old.html is there already; page! overwrites it"),
            ("page! old.svg", f"old.svg: {named}"),
            ("page it", f"it: {named}"),
            ("page it.html.gz", f"it.html.gz: {named}"),
            ("page none/it.html", "none/it.html can't be written: No such file or directory"),
            ("page old.html/it.html", "old.html/it.html can't be written: Not a directory"),
            (f"page {'a' * 300}.html", f"{'a' * 300}.html can't be written: File name too long"),
            ("page ''", "a FILE has no name"),
            ("page it.html to", FORM),
            ("page it.html from 5", FORM),
            ("page it.html to 5 words 2000", FORM),
            ("page it.html to -1", FORM),
        ):
            self.assertIn(f"page: {said}", self.explore(f"{line}\n"), line)
        self.assertEqual((self.folder / "old.svg").read_bytes(), b"old")
        self.assertEqual(len(list(self.folder.glob("*it*"))), 0)
        self.page("page IT.HTM\n", LEDGER)
        self.assertTrue((self.folder / "IT.HTM").exists())

    def test_an_image_that_cannot_be_read_again(self) -> None:
        gone, pipe = self.folder / "gone.disk", self.folder / "pipe"
        gone.write_bytes(b"\7\0")
        os.mkfifo(pipe)
        thread = threading.Thread(target=pipe.write_bytes, args=(b"\7\0",))
        thread.start()
        explorers = [self.with_disk(it) for it in (gone, pipe)]
        thread.join(SECONDS)
        # who reads the pipe again gets other bytes
        threading.Thread(target=pipe.write_bytes, args=(b"\5\0",), daemon=True).start()
        gone.unlink()
        for explorer, said in zip(explorers, ("No such file", "is no plain file, and can't be")):
            with self.assertRaisesRegex(ExploreError, said):
                self.written(explorer)
            self.assertEqual(explorer.machine.read("dsk 0 0 1"), "dsk 000007")
        self.assertFalse((self.folder / "it.html").exists())

    def test_a_session_whose_file_is_gone(self) -> None:
        """The past is there, without names of words."""
        explorer = self.explorer(edits=("core 2 5",))
        explorer.session = self.folder / "gone.session"
        self.assertIn("with its turns to 0", self.written(explorer)[0])
        found = held_in(self.folder / "it.html")
        self.assertEqual((found.name, found.lines), ("gone.session", ["core 2 5", "regs 0"]))


class Packed(OnExplorer):
    """Where the packed page is, and what is said if it isn't as it should be."""

    def setUp(self) -> None:
        super().setUp()
        self.clone: Optional[Path] = self.folder / "clone"
        self.release = self.folder / "clone" / "release"
        self.release.mkdir(parents=True)
        for name, what in (("BESIDE", self.folder), ("clone", lambda: self.clone)):
            patched = mock.patch.object(page_file, name, what)
            patched.start()
            self.addCleanup(patched.stop)

    def test_where_it_is(self) -> None:
        page = f"{BEGIN}{{}}{END}"
        with self.assertRaisesRegex(ExploreError, "isn't here: .*clone/release/nezdrab.html; a"):
            self.written(self.explorer())
        (self.release / NAME).write_text(f"of the clone{page}")
        self.assertTrue(page_with(EMPTY).startswith("of the clone"))
        (self.folder / NAME).write_text(f"beside{page}")
        self.assertTrue(page_with(EMPTY).startswith("beside"))
        self.clone = None
        (self.folder / NAME).unlink()
        with self.assertRaisesRegex(ExploreError, f"there is no {self.folder}/{NAME}; a clone"):
            self.written(self.explorer())
        self.assertFalse((self.folder / "it.html").exists())

    def test_what_is_no_packed_page(self) -> None:
        for text, said in (
            (b"<html>", "no place for a session"),
            (2 * f"{BEGIN}{END}".encode(), "no place for a session"),
            (b"\xff", "can't decode"),
        ):
            (self.release / NAME).write_bytes(text)
            with self.assertRaisesRegex(ExploreError, f"{NAME}.*{said}"):
                self.written(self.explorer())

    def test_a_page_that_is_older_than_the_sources(self) -> None:
        (self.release / NAME).write_text(f"{BEGIN}{END}")
        (self.clone or Path()).joinpath("tools").mkdir()
        summing = self.folder / "clone" / "tools" / "sources-sum"
        summing.write_text("#!/bin/sh\necho the sum of $1\n")
        summing.chmod(0o755)
        for sums, count in (((), 1), (("the sum of search", "another"), 2), (("another",), 2)):
            for name, it in zip(("search", "disassemble"), sums):
                (self.release / f"{name}.wasm.sources").write_text(f"sources {it}\nway 5\n")
            written = self.written(self.explorer())
            self.assertEqual(len(written), count, sums)
        self.assertIn("is older than the sources of this clone", written[-1])
