"""Programs in C that tools/release-static links, in the place of those that rt ci builds."""
import re
import subprocess
from pathlib import Path

from webassembly import kit

from .tree import ROOT, Tree

HEAP = "#include <stdlib.h>\nvoid *rattle_alloc(unsigned long n) { return malloc(n); }\n"
# As the kit takes the arguments, which glibc gives to such a function and musl doesn't.
ARGUMENTS = """\
static char **kept; static int count;
static void keep(int n, char **words) { count = n; kept = words; }
__attribute__((section(".init_array"), used)) static void (*at_start)(int, char **) = keep;
long rattle_arg_count(void) { return count; }
long rattle_arg(unsigned long n, char *to, unsigned long most) { return 0; }
int rattle_errno(void) { return 0; }
"""
MUSL = Path("/usr/lib/x86_64-linux-musl/libc.a")
SYSTEM = "x86_64-unknown-linux-gnu"
SCRIPT = "tools/static/turns.ld"


def lacking() -> str:
    """What isn't here of what the tests take, or an empty text."""
    if not MUSL.is_file():
        return "musl-dev isn't installed"
    folder = kit.kit_folder()
    return "" if folder and (folder / "toolchain/bin/clang").exists() else "the kit isn't here"


LACKING = lacking()


def chosen() -> tuple[str, int]:
    """A burst, and how far past a multiple of 32 it begins by tools/static/turns.ld."""
    line = re.compile(r'ALIGN\(32\) \+ (\d+); \*\("\.text\.(.*)"\)')
    found = line.search((ROOT / SCRIPT).read_text())
    return (found[2].replace("*", "x"), int(found[1])) if found else ("pdp_cpu::burst::<#1>", 0)


class Linked(Tree):
    def setUp(self) -> None:
        super().setUp()
        for name in "tools/release-static", "tools/static/start.c", SCRIPT:
            self.copy(name)
        folder = self.folder / "kit"
        self.write("../kit/rt", f"#!/bin/sh\necho {folder}/START-HERE.md\n", 0o755)
        self.write("../kit/START-HERE.md", "")

    def by_kit(self, *words: str, tool: str = "clang") -> str:
        ran = subprocess.run(
            [tool, *words],
            executable=self.folder / "kit/toolchain/bin/clang",
            cwd=self.tree,
            stdout=subprocess.PIPE,
            text=True,
        )
        self.assertEqual(ran.returncode, 0, words)
        return ran.stdout

    def compiled(self, text: str, to: str, *options: str) -> None:
        self.write(f"{to}.c", text)
        words = ["--no-default-config", f"--target={SYSTEM}", "-O1", "-fPIC", "-ffunction-sections"]
        words += ["-nostdinc", "-isystem", "/usr/include/x86_64-linux-musl", "-fno-builtin"]
        self.by_kit(*words, *options, "-c", f"{to}.c", "-o", to)

    def with_kit(self) -> None:
        """The kit's tools, and libraries in the place of the kit's."""
        found = kit.kit_folder()
        assert found is not None
        for name in "toolchain", "bin":
            (self.folder / "kit" / name).symlink_to(found / name)
        for name, text in ("liblibc_c", HEAP), ("libos_c", ARGUMENTS):
            self.compiled(text, f"{name}.o")
            (self.folder / "kit" / "c").mkdir(exist_ok=True)
            self.by_kit("rc", f"../kit/c/{name}.a", f"{name}.o", tool="llvm-ar")

    def built(self, name: str, text: str, *options: str) -> None:
        """The object that rt ci leaves of a program."""
        to = f"crates/{name}/out/{name}.o"
        (self.tree / to).parent.mkdir(parents=True, exist_ok=True)
        self.compiled(text, to, *options)

    def by_rattle_link(self, name: str) -> None:
        """The program as rt ci links it, with glibc."""
        to = f"crates/{name}/out/{name}"
        words = ["--target", SYSTEM, "--toolchain", "../kit/toolchain", "-o", to, f"{to}.o"]
        libraries = ["../kit/c/libos_c.a", "../kit/c/liblibc_c.a"]
        linked = self.run_in("../kit/bin/rattle-link", *words, *libraries)
        self.assertEqual(linked.returncode, 0, self.said)

    def places(self, program: str) -> dict[str, int]:
        """How far past a multiple of 32 each function begins."""
        lines = (it.split(" ", 2) for it in self.by_kit(program, tool="llvm-nm").splitlines())
        return {name: int(at, 16) % 32 for at, kind, name in lines if kind in ("T", "t")}
