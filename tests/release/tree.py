"""A small tree of four crates. Scripts stand in the place of the programs and of the kit's rt."""
import hashlib
import os
import shutil
import subprocess
import tempfile
import unittest
from pathlib import Path
from typing import Union

ROOT = Path(__file__).resolve().parents[2]
SECONDS = 300
TOOLS = [
    *("pdp11", "tools/start", "tools/program", "tools/build", "tools/sources-sum"),
    *("release/VERSION", "CHANGELOG.md", "disassemble", "tools/portable", "release/NOTICES"),
    *("tools/release", ".ci/run", "tools/web", "tests/__init__.py", "tests/stored_sessions.py"),
    *("search", "explore", "tools/start-explore", "tools/python_needed.py", "tests/refuse-each"),
    *(str(it.relative_to(ROOT)) for it in sorted(ROOT.glob("tools/page/*.py"))),
    *(str(it.relative_to(ROOT)) for it in sorted(ROOT.glob("src/nezdrab/**/*.py"))),
    *(str(it.relative_to(ROOT)) for it in sorted(ROOT.glob("tools/webassembly/*.*"))),
    *(str(it.relative_to(ROOT)) for it in sorted(ROOT.glob("tools/by-node/*"))),
    *(str(it.relative_to(ROOT)) for it in sorted(ROOT.glob("tools/portable_c/*.*"))),
]
STORED_HELP = "tests/sessions/rules/program/help.expected"
RELEASE = "release/pdp11-linux-x86_64"
BUILT = "crates/pdp11/out/pdp11"
CRATES = "low:\npdp11: low\ndisassemble: low\nother:\n"
KIT = "line of the kit"
# What stands for the kit's rt: `lib` proves, and `run` builds the program of the current crate.
RT = f"""\
#!/bin/sh
case $1 in
version) echo the kit; echo {KIT} ;;
doc) echo /nowhere/kit/START-HERE.md ;;
run) mkdir -p out && printf '%s' "$PROGRAM" >out/${{PWD##*/}} && chmod +x out/${{PWD##*/}} ;;
esac
"""
PROGRAM = "#!/bin/sh\necho a program: $*\n"
CANNOT_RUN = "#!/bin/sh\necho 'CPU lacks POPCNT' >&2\nexit 127\n"
# What stands for tools/release-static: it copies the programs.
STATIC = """\
#!/bin/sh
cd "${0%/*}/.." && [ -f ../kit/musl ] || { echo musl is lacking; exit 77; }
[ "$1" != --library ] || exec cat ../kit/musl
mkdir -p "$1"
for it in disassemble pdp11; do cp crates/$it/out/$it "$1/$it" || exit 1; done
"""


class Tree(unittest.TestCase):
    """A small tree in a folder of its own, and commands in it, with or without rt."""

    def setUp(self) -> None:
        folder = tempfile.TemporaryDirectory()
        self.addCleanup(folder.cleanup)
        self.folder = Path(folder.name).resolve()
        self.tree = self.folder / "tree"
        self.path = path_without(self.folder, "rt")
        self.said = ""
        for name in [*TOOLS, STORED_HELP, "HANDLES"]:
            self.copy(name)
        self.write("crates.txt", CRATES)
        for name in "low", "pdp11", "disassemble", "other":
            root = "lib" if name in ("low", "other") else "main"
            self.write(f"crates/{name}/src/{root}.rt", f"// the crate {name}\n")
        self.write("crates/low/specs/Low.antt", "-- a definition\n")
        self.write("README.md", f"Made with `{KIT}`.\n")
        self.write("../kit/rt", RT, 0o755)
        self.write("../kit/musl", "line of musl\n")
        self.write("tools/release-static", STATIC, 0o755)

    def copy(self, name: str) -> None:
        (self.tree / name).parent.mkdir(parents=True, exist_ok=True)
        shutil.copy(ROOT / name, self.tree / name)

    def write(self, name: str, text: Union[str, bytes], mode: int = 0o644) -> None:
        path = self.tree / name
        path.parent.mkdir(parents=True, exist_ok=True)
        path.write_bytes(text.encode() if isinstance(text, str) else text)
        path.chmod(mode)

    def change_a_byte(self, name: str) -> None:
        path = self.tree / name
        held = bytearray(path.read_bytes())
        held[-2] ^= 1
        path.write_bytes(held)

    def run_in(
        self, *command: str, kit: bool = False, program: str = PROGRAM, given: str = ""
    ) -> "subprocess.CompletedProcess[str]":
        """Runs a command at the top of the tree, and shows what it said if a test fails."""
        folders = [self.folder / "kit"] if kit else []
        path = os.pathsep.join(map(str, [self.folder / "bin", *folders, *self.path]))
        ended = subprocess.run(
            command,
            cwd=self.tree,
            env={**os.environ, "PATH": path, "PROGRAM": program},
            input=given,
            capture_output=True,
            text=True,
            timeout=SECONDS,
        )
        self.said = f"{ended.stdout}{ended.stderr}"
        return ended

    def make_release(self, program: Union[str, bytes] = PROGRAM) -> None:
        """The release files of this tree, as after rt ci."""
        for name in "pdp11", "disassemble":
            self.write(f"crates/{name}/out/{name}", program, 0o755)
        made = self.run_in("tools/release", "--make", kit=True)
        self.assertEqual(made.returncode, 0, self.said)
        for name in "pdp11", "disassemble":
            shutil.rmtree(self.tree / "crates" / name / "out")

    def module(self, content: Union[str, bytes], name: str = "pdp11") -> None:
        """A module of a program with this content, as made of these sources."""
        held = content.encode() if isinstance(content, str) else content
        self.write(f"release/{name}.wasm", held)
        way = b"".join(
            it.name.encode() + b"\n" + it.read_bytes()
            for it in sorted((self.tree / "tools/webassembly").iterdir())
            if it.name in ("heap.ll", "kit.py", "retarget.py")
        )
        sources = self.run_in("tools/sources-sum", name).stdout.strip()
        sums = [hashlib.sha256(it).hexdigest() for it in (way, held)]
        lines = f"sources {sources}\nway {sums[0]}\nkit any\nbinaryen any\nmodule {sums[1]}\n"
        self.write(f"release/{name}.wasm.sources", lines)

    def assertRuns(self) -> None:
        ended = self.run_in("./pdp11", "a", "b")
        self.assertEqual((ended.returncode, ended.stdout), (0, "a program: a b\n"), self.said)

    def assertRefuses(self, *words: str) -> None:
        """Without the kit ./pdp11 runs nothing, and says why."""
        ended = self.run_in("./pdp11", "a", "b")
        self.assertEqual((ended.returncode, ended.stdout), (1, ""), self.said)
        for it in words:
            self.assertIn(it, ended.stderr)


def path_without(folder: Path, *names: str) -> list[Path]:
    """The folders of PATH. Links to the other commands stand for one that has such a command."""
    found = []
    for number, it in enumerate(map(Path, os.environ["PATH"].split(os.pathsep))):
        place = it
        if any((it / name).exists() for name in names):
            place = folder / "-".join(["path", str(number), *names])
            place.mkdir()
            for command in it.iterdir():
                if command.name not in names:
                    (place / command.name).symlink_to(command)
        found.append(place)
    return found
