"""Adds the programs, the page and NOTICES to the package, which pyproject.toml alone can't do: on
each system the programs are others. On Linux on x86-64 the wheel is one of that system, whatever
its C library. Elsewhere, or with NEZDRAB_WHEEL=any in the environment, it is one of any system,
whose programs are the WebAssembly modules, run by node. A 32-bit Python on Linux on x86-64 gets a
wheel of its own system, with the programs of x86-64."""
import hashlib
import os
import platform
import shutil
import subprocess
import sys
from pathlib import Path

import setuptools
from setuptools import Distribution, setup
from setuptools.command.build_py import build_py

LEAST_SETUPTOOLS = 61  # which reads the package's name and version in pyproject.toml
if int(setuptools.__version__.split(".")[0]) < LEAST_SETUPTOOLS:
    raise SystemExit(
        f"nezdrab is made by setuptools {LEAST_SETUPTOOLS} or later, and this is"
        f" {setuptools.__version__}: pip install --upgrade setuptools, or leave out"
        " --no-build-isolation"
    )
try:
    from setuptools.command.bdist_wheel import bdist_wheel
except ImportError:  # setuptools before 70.1
    try:
        from wheel.bdist_wheel import bdist_wheel
    except ImportError:
        raise SystemExit("nezdrab is made by setuptools with wheel: pip install wheel") from None

ROOT = Path(__file__).resolve().parent
NAMES = ("pdp11", "search", "disassemble")
PAGE = "nezdrab.html"
# What node takes to run the modules, as a clone has it.
BY_NODE = (
    *(f"tools/by-node/{it}" for it in (*NAMES, "start", "host.mjs")),
    *("web/host.js", "web/heap.js", "web/package.json"),
)
# What a package of the sources has beside the package itself.
OF_SOURCES = (
    *("CHANGELOG.md", "LICENSE-MIT", "LICENSE-APACHE", *BY_NODE),
    *(f"release/{it}" for it in (PAGE, "NOTICES", "SHA256SUMS")),
    *(f"release/{it}{end}" for it in NAMES for end in ("-linux-x86_64", ".wasm", ".wasm.sources")),
)
TAG = "manylinux1_x86_64.musllinux_1_1_x86_64"


IS_64_BIT = sys.maxsize > 2**32


def runs_programs() -> bool:
    """Whether the release files run on this system. On a 64-bit kernel they run beside a 32-bit
    Python too."""
    if sys.platform != "linux" or platform.machine() not in ("x86_64", "i686", "i586", "i386"):
        return False
    if IS_64_BIT:
        return True
    program = [str(ROOT / "release" / "pdp11-linux-x86_64"), "--help"]
    try:
        return subprocess.run(program, stdout=subprocess.DEVNULL).returncode == 0
    except OSError:
        return False


NATIVE = runs_programs() and os.environ.get("NEZDRAB_WHEEL") != "any"


def checked(path: Path, sums: Path, line: str) -> Path:
    """A file of release/. An error if it isn't the one that was made, by its sum in another."""
    total = hashlib.sha256(path.read_bytes()).hexdigest()
    if line.format(total) not in sums.read_text().splitlines():
        raise SystemExit(f"{path} isn't the file that was made, by its sum in {sums}")
    return path


def native_files() -> "dict[str, Path]":
    """The programs, by their paths in the package's folder of programs."""
    release = ROOT / "release"
    files = {it: release / f"{it}-linux-x86_64" for it in NAMES}
    sums = release / "SHA256SUMS"
    return {name: checked(it, sums, f"{{}}  {it.name}") for name, it in files.items()}


def files_for_node() -> "dict[str, Path]":
    """The modules and what runs them, in the same way."""
    found = {it: ROOT / it for it in BY_NODE}
    for name in NAMES:
        module = ROOT / "release" / f"{name}.wasm"
        found[f"release/{module.name}"] = checked(
            module, module.with_name(f"{module.name}.sources"), "module {}"
        )
    return found


class WithPrograms(Distribution):
    """Whether the package is of one system."""

    def has_ext_modules(self) -> bool:
        return NATIVE


class BuildWithPrograms(build_py):
    def get_source_files(self) -> "list[str]":
        return [*super().get_source_files(), *OF_SOURCES]

    def run(self) -> None:
        shutil.rmtree(Path(self.build_lib) / "nezdrab", ignore_errors=True)  # of an earlier build
        super().run()
        folder = Path(self.build_lib) / "nezdrab" / "programs"
        files = native_files() if NATIVE else files_for_node()
        files.update({PAGE: ROOT / "release" / PAGE, "NOTICES": ROOT / "release" / "NOTICES"})
        for name, path in files.items():
            (folder / name).parent.mkdir(parents=True, exist_ok=True)
            shutil.copy(path, folder / name)
            is_program = not path.suffix and name != "NOTICES"
            (folder / name).chmod(0o755 if is_program else 0o644)


class WheelOfSystem(bdist_wheel):
    """A wheel for any Python 3 of the system."""

    def get_tag(self) -> "tuple[str, str, str]":
        tag = super().get_tag()
        return ("py3", "none", TAG if IS_64_BIT else tag[2]) if NATIVE else tag


setup(
    license="MIT OR Apache-2.0",
    distclass=WithPrograms,
    cmdclass={"build_py": BuildWithPrograms, "bdist_wheel": WheelOfSystem},
)
