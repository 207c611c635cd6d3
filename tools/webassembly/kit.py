"""The kit, and what is made with it: the LLVM module of a proved program, and of that a WebAssembly
module."""
import os
import shlex
import shutil
import subprocess
from pathlib import Path
from typing import NamedTuple, Optional, Sequence

from .retarget import TRIPLE, RetargetError, retargeted

HERE = Path(__file__).resolve().parent
# What `rattle build` gives clang: the name of the module's file, and these arguments for
# WebAssembly.
MODULE = "module.bc"
CLANG_ARGUMENTS = [
    f"--target={TRIPLE}", "-mcpu=lime1",
    "-mllvm", "-expand-div-rem-bits=64", "-mllvm", "-expand-fp-convert-bits=64",
    "-ffunction-sections", "-fdata-sections",
    "-mllvm", "-trap-unreachable", "-mllvm", "-no-x86-call-frame-opt",
    "-mllvm", "-disable-machine-licm", "-mllvm", "-disable-postra-machine-licm",
    "-mllvm", "-sink-common-insts=false",
    "--no-default-config", "-no-canonical-prefixes", "-fintegrated-cc1", "-fno-crash-diagnostics",
    "-Werror", "-c", "-x", "ir",
]  # fmt: skip
LEVEL = "-O3"
STACK_BYTES = 4 << 20
# Memory of 64 bits becomes one of 32; and `read` may wait: it unwinds the stack, and rewinds it.
LOWERED = ["-all", "--memory64-lowering"]
WAITS = ["--asyncify", "--pass-arg=asyncify-imports@host.read"]
LEANS = "what tools/web leans on in the kit has changed (docs/DECISIONS.md)"


class MakingError(Exception):
    """Why a module can't be made, for the user to read."""


class Program(NamedTuple):
    """A program, the crates and the kit's libraries that its crate names, and whether its module
    can wait for input."""

    name: str
    crates: list[str]
    libraries: list[str]
    waits: bool


def said_by(words: Sequence[object], folder: Path) -> tuple[int, str]:
    """Runs a command to its end: its exit status, and what it says."""
    command = [str(it) for it in words]
    ran = subprocess.run(command, cwd=folder, stdout=subprocess.PIPE, stderr=subprocess.STDOUT)
    return ran.returncode, ran.stdout.decode(errors="replace").strip()


def run(words: Sequence[object], folder: Path) -> str:
    """What a command says that succeeds; the text of the error if it fails."""
    status, said = said_by(words, folder)
    if status:
        what = shlex.join([str(it) for it in words][:3])
        raise MakingError(f"{what} .. ended with {status}: {said[-900:]}")
    return said


def version_of_wasm_opt() -> Optional[str]:
    """The line of the installed wasm-opt, or None if there is none."""
    if not shutil.which("wasm-opt"):
        return None
    return run(["wasm-opt", "--version"], Path.cwd())


def kit_folder() -> Optional[Path]:
    """The folder of the kit whose rt is on PATH, or None."""
    if not shutil.which("rt"):
        return None
    return Path(run(["rt", "doc"], Path.cwd())).resolve().parent


class Kit:
    """The kit, and a folder for what is made with it."""

    def __init__(self, folder: Path, room: Path):
        self.folder, self.room = folder, room
        self.clang = folder / "toolchain" / "bin" / "clang"

    def stand_in(self) -> Path:
        """A toolchain whose clang only keeps the module that it is given and its arguments in the
        room: a program for this processor isn't wanted. All else is the kit's."""
        made = self.room / "toolchain"
        (made / "bin").mkdir(parents=True)
        shutil.copytree(self.folder / "toolchain" / "lib", made / "lib")
        # rattle tells by the name of its file which tool clang is to be
        shutil.copy(self.folder / "toolchain" / "bin" / "rattle-x64", made / "bin")
        for name in "ld.lld", "llvm-ar":
            (made / "bin" / name).symlink_to("clang")
        kept = shlex.quote(str(self.room))
        (made / "bin" / "clang").write_text(
            "#!/bin/bash\n"
            f"if [[ -f {MODULE} ]]; then\n"
            f'    cp {MODULE} {kept}/ && printf "%s\\n" "$@" >{kept}/arguments\n'
            "    exit 1\n"
            "fi\n"
            f'exec -a "$0" {shlex.quote(str(self.clang))} "$@"\n'
        )
        (made / "bin" / "clang").chmod(0o755)
        return made

    def build(self, folder: Path, *words: object) -> None:
        """Runs `rattle build` in a folder with the stand-in toolchain, up to the module."""
        shutil.rmtree(self.room / "toolchain", ignore_errors=True)
        (self.room / MODULE).unlink(missing_ok=True)
        command = [
            self.folder / "bin" / "rattle", "build", *words,
            "--antt-project", self.folder / "rattle" / "logic" / "antt-project.json",
            "--logic-built", self.folder / "logic_built",
            "--toolchain", self.stand_in(), "-o", self.room / "made",
        ]  # fmt: skip
        said = said_by(command, folder)[1]
        if not (self.room / MODULE).exists():
            raise MakingError(f"rattle build gave clang no {MODULE}: {LEANS}: {said[-900:]}")

    def library(self, name: str) -> str:
        return f"{name}={self.folder / 'rlibs' / name}.rlib"

    def llvm_module(self, root: Path, program: Program) -> str:
        """The text of the LLVM module that `rattle build` makes of the proved program."""
        words: list[object] = ["--crate-name", program.name, "src/main.rt"]
        for name in "std", *program.libraries:
            words += ["--extern", self.library(name)]
        words += ["-L", f"dependency={self.folder / 'rlibs'}"]
        crates = root / "crates"
        for name in program.crates:
            rlib = crates / name / "out" / "rlib" / f"{name}.rlib"
            if not rlib.exists():
                raise MakingError(f"{rlib.relative_to(root)} isn't there: first rt ci")
            words += ["--extern", f"{name}={rlib}"]
        for it in sorted(crates.glob("*/out/rlib")):
            words += ["-L", f"dependency={it}"]
        # with x86-64 the program doesn't test its processor at the start, which LLVM can't retarget
        words += ["--links", f"{program.name}=", "--incremental", "out/incremental"]
        words += ["--cpu", "x86-64"]
        self.build(crates / program.name, *words)
        return self.text_of(self.room / MODULE)

    def text_of(self, module: Path) -> str:
        to = self.room / "module.ll"
        words = [self.clang, "-x", "ir", "-S", "-emit-llvm", "-Xclang", "-disable-llvm-passes"]
        run([*words, "--target=x86_64-unknown-linux-gnu", module, "-o", to], self.room)
        return to.read_text(encoding="utf-8")

    def compiled(self, text: Path) -> str:
        to = text.with_suffix(".o").name
        run([self.clang, *CLANG_ARGUMENTS, text, "-o", to, LEVEL], self.room)
        return to

    def wasm64(self, text: str) -> Path:
        """The WebAssembly module, with a memory of 64 bits, of an LLVM module for x86-64."""
        try:
            (self.room / "program.ll").write_text(retargeted(text), encoding="utf-8")
        except RetargetError as error:
            raise MakingError(f"{error}: {LEANS}") from error
        shutil.copy(HERE / "heap.ll", self.room)
        objects = [self.compiled(self.room / it) for it in ("program.ll", "heap.ll")]
        (self.room / "program.a").unlink(missing_ok=True)
        archive = self.folder / "toolchain" / "bin" / "llvm-ar"
        run([archive, "rcsD", "--format=gnu", "program.a", *objects], self.room)
        link = [self.folder / "bin" / "rattle-link", "--target", TRIPLE]
        link += ["--toolchain", self.folder / "toolchain", "--stack", str(STACK_BYTES)]
        run([*link, "-o", "program.wasm", "program.a"], self.room)
        return self.room / "program.wasm"


def make(kit: Kit, root: Path, program: Program, to: Path) -> None:
    """Makes the file `to`, the WebAssembly module of a program that was proved in `root`."""
    module = kit.wasm64(kit.llvm_module(root, program))
    passes = [*LOWERED, *(WAITS if program.waits else []), "-O2"]
    made = kit.room / "lowered.wasm"
    run(["wasm-opt", *passes, module, "-o", made], kit.room)
    shutil.copyfile(made, to)
    os.chmod(to, 0o644)
