"""The package as it is installed: a wheel with the programs, and the sources that make it, without
a network and outside the clone."""
import os
import platform
import shutil
import subprocess
import sys
import tarfile
import zipfile
from pathlib import Path

import nezdrab

from .machine_case import EXAMPLES, ROOT, Case

NAMES = (
    *("pyproject.toml", "setup.py", "README.md", "CHANGELOG.md"),
    *("LICENSE-MIT", "LICENSE-APACHE"),
)
FOLDERS = ("src", "release", "tools/by-node", "web")
INSTALL = ("-m", "pip", "install", "--quiet", "--no-index", "--no-deps")
MAKING = """\
import sys
from setuptools import build_meta
print(build_meta.build_sdist(sys.argv[1]) if sys.argv[2] == "sdist" else
      build_meta.build_wheel(sys.argv[1]))
"""
# Runs setup.py with another version of setuptools, or without wheel.
OTHER_SETUPTOOLS = """\
import sys, setuptools
setuptools.__version__ = "52.0.0"
sys.argv = ["setup.py", "--version"]
exec(compile(open("setup.py").read(), "setup.py", "exec"), {"__file__": "setup.py"})
"""
# What Python reads first: this one is of 32 bits.
OF_32_BITS = "import sys\nsys.maxsize = 2**31 - 1\n"
METADATA = """\
from importlib import metadata
it = metadata.metadata("nezdrab")
print(it["Summary"], it["Author"], it["License"] or it["License-Expression"], it["Keywords"])
print(*it.get_all("Classifier"), sep="\\n")
"""
USING = """\
import importlib, pkgutil, sys
import nezdrab
from nezdrab import Machine
names = [it.name for it in pkgutil.walk_packages(nezdrab.__path__, "nezdrab.")]
for name in names:
    importlib.import_module(name)
with Machine.of_session(sys.argv[1]) as machine:
    print(len(names) > 100, nezdrab.__file__, machine.last(40, 0o2000), nezdrab.__version__)
"""


def lacks() -> str:
    """What is lacking for a wheel of this system."""
    if sys.platform != "linux" or platform.machine() != "x86_64":
        return "a wheel with programs is one for Linux on x86-64"
    parts = "import setuptools.build_meta, wheel.bdist_wheel, venv, ensurepip, pip"
    ran = subprocess.run([sys.executable, "-c", parts], capture_output=True, text=True)
    return ran.stderr.strip().splitlines()[-1] if ran.returncode else ""


class Wheel(Case):
    """Wheels of the sources that an sdist has."""

    def setUp(self) -> None:
        super().setUp()
        if lacks():
            self.skipTest(lacks())
        sources = self.folder / "sources"
        for name in FOLDERS:
            shutil.copytree(ROOT / name, sources / name)
        for name in NAMES:
            shutil.copy(ROOT / name, sources / name)
        with tarfile.open(self.made(sources, "sdist")) as archive:
            archive.extractall(self.folder / "unpacked")
        (self.sources,) = (self.folder / "unpacked").iterdir()
        self.away, self.room = self.folder / "away", self.folder / "room"
        self.room.mkdir()
        shutil.copy(EXAMPLES / "who-wrote-this-word.session", self.room / "my.session")

    def run_in(self, folder: Path, *command: str, given: str = "", **more: str) -> str:
        """What a command writes, with an environment that knows nothing of the clone."""
        environment = {"PATH": os.defpath, "HOME": str(self.folder), "LANG": "C.UTF-8", **more}
        ran = subprocess.run(
            command, cwd=folder, env=environment, input=given, capture_output=True, text=True
        )
        self.assertEqual(ran.returncode, 0, ran.stdout + ran.stderr)
        return ran.stdout

    def test_a_setuptools_that_is_older(self) -> None:
        """It would make a package that has no name."""
        ran = subprocess.run(
            [sys.executable, "-c", OTHER_SETUPTOOLS], cwd=ROOT, capture_output=True, text=True
        )
        self.assertEqual((ran.returncode, ran.stdout), (1, ""))
        said = "^nezdrab is made by setuptools 61 or later, and this is 52[.]0[.]0: [^\n]*\n$"
        self.assertRegex(ran.stderr, said)

    def test_a_python_of_32_bits(self) -> None:
        """On a 64-bit kernel the programs of x86-64 run beside it."""
        (self.room / "sitecustomize.py").write_text(OF_32_BITS)
        wheel = self.made(self.sources, "wheel", PYTHONPATH=str(self.room))
        self.assertRegex(wheel.name, "-py3-none-linux_i686.whl$")
        with zipfile.ZipFile(wheel) as archive:
            program = archive.read("nezdrab/programs/search")
            self.assertEqual(program, (ROOT / "release/search-linux-x86_64").read_bytes())

    def made(self, sources: Path, kind: str, **more: str) -> Path:
        out = self.folder / kind
        out.mkdir()
        making = [sys.executable, "-c", MAKING, str(out), kind]
        return out / self.run_in(sources, *making, **more).split()[-1]

    def check_package(self, said: str) -> None:
        self.assertTrue(said.startswith(f"True {self.away}"), said)
        self.assertIn(f"LastWrite(turn=19, writer='cpu', word=71) {nezdrab.__version__}", said)

    def test_wheel_of_the_system(self) -> None:
        wheel = self.made(self.sources, "wheel")
        tag = "-py3-none-manylinux1_x86_64.musllinux_1_1_x86_64.whl"
        self.assertTrue(wheel.name.endswith(tag), wheel.name)
        with zipfile.ZipFile(wheel) as archive:
            names = set(archive.namelist())
        package = ROOT / "src" / "nezdrab"
        files = [*package.rglob("*.py"), package / "py.typed"]
        programs = ("pdp11", "search", "disassemble", "nezdrab.html")
        files += [package / "programs" / it for it in (*programs, "NOTICES")]
        self.assertEqual({str(it.relative_to(ROOT / "src")) for it in files} - names, set())
        licences = {it.rpartition("/")[2] for it in names if ".dist-info/" in it}
        self.assertLessEqual({"LICENSE-MIT", "LICENSE-APACHE"}, licences)
        self.run_in(self.room, sys.executable, "-m", "venv", str(self.away))
        python, explore = (str(self.away / "bin" / it) for it in ("python", "nezdrab-explore"))
        self.run_in(self.room, python, *INSTALL, str(wheel))
        self.check_package(self.run_in(self.room, python, "-c", USING, "my.session"))
        shown = self.run_in(self.room, python, "-c", METADATA)
        self.assertIn(" The Nezdrab authors MIT OR Apache-2.0 PDP-11,emulator,", shown)
        self.assertIn("\nTopic :: System :: Emulators\n", shown)
        self.assertIn("release 20", self.run_in(self.room, explore, "--version"))
        shown = self.run_in(self.room, explore, "my.session", given="last 40 2000\nsee 20 1\n")
        self.assertIn("last 19 cpu 000107", shown)
        self.assertIn("ADD #7,@#2000", shown)
        for name in "search", "disassemble":
            said = self.run_in(self.room, str(self.away / "bin" / f"nezdrab-{name}"), "--version")
            self.assertEqual(said, f"{name} {nezdrab.__version__}\n")
        for command in ("nezdrab", "nezdrab-search"):
            shown = self.run_in(self.room, str(self.away / "bin" / command), given="regs 0\n")
            self.assertIn("PC 001000", shown)
        self.run_in(self.room, explore, "web", "--no-open", "my.session")
        said = self.run_in(self.room, explore, "my.session", given="page it.html\n")
        self.assertEqual(said, "the machine is in it.html, with its turns to 40\n")
        for name in "my.html", "it.html":
            written = (self.room / name).read_text(encoding="utf-8")
            self.assertIn('id="session">{"name": "my.session", ', written)

    def test_wheel_for_any_system(self) -> None:
        """Its programs are run by node."""
        wheel = self.made(self.sources, "wheel", NEZDRAB_WHEEL="any")
        self.assertTrue(wheel.name.endswith("-py3-none-any.whl"), wheel.name)
        into = [*INSTALL, "--target", str(self.away), str(wheel)]
        self.run_in(self.room, sys.executable, *into)
        using = [sys.executable, "-c", USING, "my.session"]
        node = shutil.which("node")
        if node is None:
            self.skipTest("no node")
        path = f"{os.defpath}:{os.path.dirname(node)}"
        self.check_package(self.run_in(self.room, *using, PYTHONPATH=str(self.away), PATH=path))
