"""The programs in C, the files for Linux on ARM64, and where tools/program finds them."""
import os
import shutil
import unittest
from unittest import mock

from portable_c import arm64_files, made
from webassembly.files import sum_of
from webassembly.kit import MakingError

from .tree import ROOT, Tree, path_without

ARM64 = "release/pdp11-linux-aarch64"
ARM64_SYSTEM = "#!/bin/sh\n[ $1 = -s ] && echo Linux || echo aarch64\n"
PROGRAM = "#!/bin/sh\necho for ARM64: $*\n"
NODE = "#!/bin/sh\n[ $1 = --version ] && echo v20.0.0 || echo by node\n"
OTHER_WASM2C = "#!/bin/sh\necho 1.0.36\n"
# A module that uses each call of its host: see the statuses.
MODULE = """\
(module
  (import "host" "malloc" (func $malloc (param i64) (result i64)))
  (import "host" "realloc" (func $realloc (param i64 i64) (result i64)))
  (import "host" "free" (func $free (param i64)))
  (import "host" "read" (func $read (param i32 i64 i64) (result i64)))
  (import "host" "write" (func $write (param i32 i64 i64) (result i64)))
  (import "host" "open" (func $open (param i64 i32 i64) (result i32)))
  (import "host" "close" (func $close (param i32) (result i32)))
  (import "host" "rattle_arg" (func $arg (param i64 i64 i64) (result i64)))
  (import "host" "rattle_errno" (func $errno (result i32)))
  (import "host" "__sysv_signal" (func $signal (param i32 i64) (result i64)))
  (memory (export "memory") 1)
  (data (i32.const 8) "/nowhere/file\\00")
  (global (export "__heap_base") i64 (i64.const 1024))
  (func (export "program_main") (result i32) (local $a i64) (local $n i64)
    (drop (call $signal (i32.const 13) (i64.const 1)))
    (local.set $a (call $malloc (i64.const 16)))
    (local.set $n (call $read (i32.const 0) (local.get $a) (i64.const 16)))
    (local.set $a (call $realloc (local.get $a) (i64.const 20000000)))
    (drop (call $write (i32.const 1) (local.get $a) (local.get $n)))
    (local.set $n (call $arg (i64.const 1) (local.get $a) (i64.const 16)))
    (drop (call $write (i32.const 1) (local.get $a) (local.get $n)))
    (call $free (local.get $a))
    (if (i64.ne (local.get $a) (call $malloc (i64.const 20000000))) (then (return (i32.const 91))))
    (if (i64.ne (i64.const 0) (call $malloc (i64.const 4294900000))) (then (return (i32.const 92))))
    (if (i64.ne (i64.const -1) (call $arg (i64.const 2) (local.get $a) (i64.const 16)))
      (then (return (i32.const 93))))
    (if (i32.ne (i32.const -1) (call $close (i32.const 99))) (then (return (i32.const 94))))
    (if (i32.ne (i32.const 9) (call $errno)) (then (return (i32.const 95))))
    (if (i32.ne (i32.const -1) (call $open (i64.const 8) (i32.const 0) (i64.const 0)))
      (then (return (i32.const 96))))
    (call $errno)))
"""


class OnArm64(Tree):
    """Which program is found on Linux on ARM64."""

    def setUp(self) -> None:
        super().setUp()
        self.make_release()
        self.write("../bin/uname", ARM64_SYSTEM, 0o755)
        self.path = path_without(self.folder, "rt", "node")
        self.arm64(PROGRAM)

    def arm64(self, program: str) -> None:
        """The file for ARM64, as made of these sources."""
        sources = self.run_in("tools/sources-sum", "pdp11").stdout.strip()
        record = [sources, *["any"] * 6, sum_of(program.encode())]
        self.write(ARM64, program, 0o755)
        self.write(f"{ARM64}.sources", arm64_files.Record(*record).lines())

    def assertFinds(self, wanted: str) -> None:
        ended = self.run_in("./pdp11", "a", "b")
        self.assertEqual((ended.stdout, ended.stderr, ended.returncode), (wanted, "", 0))

    def test_a_file_of_these_sources(self) -> None:
        self.assertFinds("for ARM64: a b\n")
        (self.tree / ARM64).chmod(0o644)
        self.assertFinds("for ARM64: a b\n")
        self.write("../bin/uname", ARM64_SYSTEM.replace("aarch64", "x86_64"), 0o755)
        self.assertFinds("a program: a b\n")

    def test_a_file_that_is_another_or_cannot_run(self) -> None:
        for name in ARM64, f"{ARM64}.sources", "crates/low/src/lib.rt":
            self.change_a_byte(name)
            self.assertRefuses("this system is linux-aarch64", "or install node, 16 or later")
            self.change_a_byte(name)
        self.module("a module")
        self.write("../bin/node", NODE, 0o755)
        self.assertFinds("for ARM64: a b\n")
        self.arm64("#!/bin/sh\nexit 1\n")
        self.assertFinds("by node\n")

    def test_from_source(self) -> None:
        with mock.patch.dict(os.environ, {"PDP11_FROM_SOURCE": "1"}):
            self.assertRefuses("this system is linux-aarch64")

    def test_an_archive_has_none_that_is_older(self) -> None:
        known = self.run_in("tools/release", "--verify")
        self.assertEqual(known.returncode, 0, self.said)
        ended = self.run_in("tools/portable", "--verify")
        self.assertEqual(ended.returncode, 1)
        self.assertIn(f"{ARM64} is older than the sources\n", ended.stdout)
        self.assertTrue(ended.stdout.endswith("1 skipped\n1 passed, 1 failed\n"), ended.stdout)

    def assertMakesNoC(self, lacks: str) -> None:
        ended = self.run_in("tools/portable", "--c", "pdp11")
        self.assertEqual((ended.returncode, ended.stdout), (1, ""))
        self.assertIn(f"portable: {lacks}", ended.stderr)
        ended = self.run_in(str(ROOT / "tools/check"), "portable", str(ROOT / "examples"))
        self.assertEqual(ended.returncode, 77)
        self.assertTrue(ended.stdout.startswith(lacks), self.said)

    def test_another_wasm2c_or_none(self) -> None:
        self.write("release/pdp11.wasm", "")
        self.write("../bin/wasm2c", OTHER_WASM2C, 0o755)
        self.assertMakesNoC("wasm2c is 1.0.36, and 1.0.32 is needed")
        (self.folder / "bin" / "wasm2c").unlink()
        (self.folder / "more").mkdir()
        self.path = path_without(self.folder / "more", "rt", "wasm2c")
        self.assertMakesNoC("wasm2c (Debian's wabt) isn't installed")

    def test_a_file_that_is_there_stays(self) -> None:
        self.write("pdp11.c", "mine\n")
        ended = self.run_in("tools/portable", "--c", "pdp11")
        self.assertEqual((ended.stderr, ended.returncode), ("portable: pdp11.c: File exists\n", 1))
        self.assertEqual((self.tree / "pdp11.c").read_text(), "mine\n")

    def test_words_that_are_wrong(self) -> None:
        for text in "", "--c", "--c rt", "--verify pdp11", "--c pdp11 a b":
            words = text.split()
            ended = self.run_in("tools/portable", *words)
            self.assertEqual((ended.returncode, ended.stdout), (2, ""), words)


@unittest.skipUnless(
    shutil.which("cc") and shutil.which("wat2wasm") and not made.lacks_wasm2c(),
    "cc isn't installed, or wabt 1.0.32",
)
class InC(Tree):
    """What is written of a small module, compiled for this computer."""

    def test_the_calls_of_the_host(self) -> None:
        self.write("module.wat", MODULE)
        self.run_in("wat2wasm", "module.wat", "-o", "module.wasm")
        c = made.c_of("pdp11", self.tree / "module.wasm")
        self.assertEqual(made.c_of("pdp11", self.tree / "module.wasm"), c)
        self.write("pdp11.c", c)
        self.run_in("cc", "-O1", "-w", "-o", "pdp11", "pdp11.c", "-lm")
        ended = self.run_in("./pdp11", "an argument", given="lines\n")
        self.assertEqual((ended.stdout, ended.stderr), ("lines\nan argument", ""))
        self.assertEqual(ended.returncode, 2, "ENOENT, or which call went wrong")
        ended = self.run_in("sh", "-c", "ulimit -v 4000000; exec ./pdp11")
        self.assertEqual((ended.returncode, self.said), (4, "pdp11: refused 1 NoMemory\n"))

    def test_a_file_that_is_no_module(self) -> None:
        self.write("module.wasm", "no module")
        self.assertRaises(MakingError, made.c_of, "pdp11", self.tree / "module.wasm")
