"""How the modules are made, and which of them are of these sources."""
import io
import shutil
import subprocess
import sys
import tempfile
import unittest
from contextlib import redirect_stdout
from pathlib import Path
from typing import Any, Optional
from unittest import mock

from webassembly import files, kit, making
from webassembly.retarget import TRIPLE, RetargetError, retargeted

ROOT = Path(__file__).resolve().parents[2]
TESTS = Path(__file__).resolve().parent
MODULE = """\
target datalayout = "e-m:e-i64:64"
target triple = "x86_64-unknown-linux-gnu"
declare i64 @read(i32 noundef, ptr readonly captures(none), i64) #2
declare void @llvm.trap()
declare { i64, i64 } @rattle_alloc(i64, i64) #1
define i32 @main() #1 {
  ret i32 0
}
attributes #1 = { nounwind "target-cpu"="x86-64" "probe-stack"="inline-asm" }
attributes #2 = { nounwind }
"""
PROGRAM = "fn main() {}\n"
LIBRARY = '#[unsafe(no_mangle)]\npub extern "C" fn one() -> u32 { 1 }\n'


class Retargeted(unittest.TestCase):
    """What is changed in the text of an LLVM module."""

    def test_a_module_of_x86(self) -> None:
        lines = retargeted(MODULE).splitlines()
        self.assertIn('target triple = "wasm64-unknown-unknown"', lines)
        self.assertIn("define i32 @program_main() #3 {", lines)
        self.assertIn('attributes #3 = { nounwind "wasm-export-name"="program_main" }', lines)
        declared = "declare i64 @read(i32 noundef, ptr readonly captures(none), i64) #5"
        self.assertIn(declared, lines)
        module, name = '"wasm-import-module"="host"', '"wasm-import-name"="read"'
        self.assertIn(f"attributes #5 = {{ nobuiltin nounwind {module} {name} }}", lines)
        self.assertIn("attributes #1 = { nounwind }", lines)
        for it in "declare void @llvm.trap()", "declare { i64, i64 } @rattle_alloc(i64, i64) #1":
            self.assertIn(it, lines)

    def test_a_module_without_what_is_changed(self) -> None:
        for part in "target triple", "target datalayout", "define i32 @main()":
            with self.subTest(part), self.assertRaisesRegex(RetargetError, "0 lines"):
                retargeted(MODULE.replace(part, "; "))


@unittest.skipUnless(shutil.which("rt"), "the kit's rt isn't on PATH")
class OfTheKit(unittest.TestCase):
    """What tools/web leans on in the kit: the name of the module's file, and clang's arguments."""

    def arguments(self, source: str, root: str, library: str, *words: object) -> list[str]:
        """What `rattle build` gives clang for a crate of one file."""
        folder = kit.kit_folder()
        assert folder is not None
        with tempfile.TemporaryDirectory() as room:
            made, crate = kit.Kit(folder, Path(room)), Path(room) / "crate"
            (crate / "src").mkdir(parents=True)
            (crate / "src" / root).write_text(source)
            needed = ["--extern", made.library(library), "-L", f"dependency={folder / 'rlibs'}"]
            named = ["--crate-name", "one", f"src/{root}", "--links", "one="]
            made.build(crate, *named, *needed, *words)
            if root == "main.rt":
                module = made.wasm64(made.text_of(made.room / kit.MODULE))
                self.assertEqual(module.read_bytes()[:4], b"\0asm")
            return (made.room / "arguments").read_text().splitlines()

    def test_a_program_gives_clang_a_module_that_is_retargeted(self) -> None:
        given = self.arguments(PROGRAM, "main.rt", "std", "--cpu", "x86-64")
        at = given.index("-x")
        self.assertEqual(given[at : at + 3], ["-x", "ir", kit.MODULE], kit.LEANS)
        self.assertIn("-march=x86-64", given, kit.LEANS)

    def test_a_library_for_webassembly_gives_clang_these_arguments(self) -> None:
        words = ["--crate-type", "staticlib", "--target", TRIPLE]
        given = self.arguments(LIBRARY, "lib.rt", "core", *words)
        ours = [it for it in given if not it.startswith("--sysroot=")]
        wanted = [*kit.CLANG_ARGUMENTS, kit.MODULE, "-o", "module.o", kit.LEVEL]
        self.assertEqual(ours, wanted, kit.LEANS)

    def test_a_kit_that_names_the_module_otherwise_is_said(self) -> None:
        with mock.patch.object(kit, "MODULE", "other.bc"):
            with self.assertRaisesRegex(kit.MakingError, f"no other.bc: {kit.LEANS[:20]}"):
                self.arguments(PROGRAM, "main.rt", "std", "--cpu", "x86-64")


class OfSources(unittest.TestCase):
    """Which modules are the files that were made, and of these sources."""

    def setUp(self) -> None:
        folder = tempfile.TemporaryDirectory()
        self.addCleanup(folder.cleanup)
        self.release = Path(folder.name)
        changed = mock.patch.object(files, "RELEASE", self.release)
        changed.start()
        self.addCleanup(changed.stop)
        (self.release / "pdp11.wasm").write_bytes(b"a module")
        module = self.release / "pdp11.wasm"
        self.record = files.new_record("pdp11", module, "a kit", "wasm-opt version 0")
        self.keep(self.record)

    def keep(self, record: files.Record) -> None:
        (self.release / "pdp11.wasm.sources").write_text(record.lines())

    def test_a_module_of_these_sources(self) -> None:
        self.assertEqual(files.record_of("pdp11"), self.record)
        self.assertTrue(files.is_as_made("pdp11") and files.is_current("pdp11"))

    def test_a_module_of_other_sources_or_of_another_way(self) -> None:
        for part in "sources", "way":
            self.keep(self.record._replace(**{part: "0"}))
            self.assertTrue(files.is_as_made("pdp11"))
            self.assertFalse(files.is_current("pdp11"))

    def test_a_module_that_was_changed_or_is_missing(self) -> None:
        (self.release / "pdp11.wasm").write_bytes(b"another one")
        self.assertFalse(files.is_as_made("pdp11"))
        (self.release / "pdp11.wasm").unlink()
        self.assertFalse(files.is_as_made("pdp11"))
        self.assertFalse(files.is_as_made("search") or files.is_current("search"))

    def test_a_record_that_cannot_be_read(self) -> None:
        for text in "", "sources 0\n", "\x00\n" * 9, f"{self.record.lines()}more 1\n":
            (self.release / "pdp11.wasm.sources").write_text(text)
            self.assertIsNone(files.record_of("pdp11"))
            self.assertFalse(files.is_current("pdp11"))

    def counts(self, makers: Optional[making.Makers], made: bytes) -> tuple[int, int, int]:
        """What is counted where these makers make these bytes again; without bytes they can't."""
        counts = making.Counts()

        def make(program: kit.Program, to: Path) -> None:
            if not made:
                raise kit.MakingError("the kit has changed:\nno module")
            to.write_bytes(made)

        with mock.patch.multiple(making, make=make, makers_here=lambda: makers), mock.patch.object(
            files, "is_built", return_value=True
        ), redirect_stdout(io.StringIO()) as said:
            making.check_module(kit.Program("pdp11", [], [], True), counts)
        self.said = said.getvalue()
        return counts.passed, counts.failed, counts.skipped

    def test_a_module_that_is_made_again(self) -> None:
        ours = making.Makers("a kit", "wasm-opt version 0")
        others = ours._replace(kit="another kit"), ours._replace(binaryen="wasm-opt version 1")
        self.assertEqual(self.counts(None, b""), (1, 0, 1))
        for makers in ours, *others:
            self.assertEqual((self.counts(makers, b"a module"), self.said), ((2, 0, 0), ""))
        for made in b"another one", b"":
            self.assertEqual(self.counts(ours, made), (1, 1, 0))
            for makers in others:
                self.assertEqual(self.counts(makers, made), (1, 0, 1))
                self.assertEqual(self.said.count("\n"), 1)
                self.assertIn(f"made by {ours}; by {makers} it", self.said)

    def test_the_programs_are_those_of_crates(self) -> None:
        found = {it.name: it for it in files.programs()}
        self.assertEqual(set(found), {"pdp11", "search", "disassemble"})
        self.assertEqual(found["search"], kit.Program("search", ["pdp_program"], [], True))
        self.assertIn("arrayvec", found["disassemble"].libraries)


class OfTheHost(unittest.TestCase):
    """The page's host, by node."""

    @unittest.skipUnless(shutil.which("node"), "node isn't installed")
    def test_the_heap(self) -> None:
        ran = subprocess.run(["node", str(TESTS / "heap.mjs")], capture_output=True, text=True)
        self.assertEqual((ran.returncode, ran.stderr), (0, ""), ran.stdout)

    def test_without_node_the_sessions_are_skipped(self) -> None:
        words = [sys.executable, str(ROOT / "tools" / "check"), "web-sessions", "examples"]
        how: Any = {"capture_output": True, "text": True, "env": {"PATH": "/nowhere"}}
        ran = subprocess.run(words, cwd=ROOT, **how)
        wanted = (77, "node isn't installed\n")
        self.assertEqual((ran.returncode, ran.stdout), wanted)
