"""A program in C, made of its WebAssembly module, and compiled for Linux on ARM64."""
import platform
import shutil
import tempfile
from pathlib import Path

from webassembly import files as modules
from webassembly.kit import MakingError, run

HERE = Path(__file__).resolve().parent
# Later versions of wasm2c give their functions other names, and take another runtime.
WASM2C = "1.0.32"
HEADERS = "errno fcntl signal stdbool stdint stdio stdlib string sys/mman unistd".split()
HEAD = """\
/* {name}: the program of Nezdrab, in C, which wasm2c {version} wrote of release/{name}.wasm.
 *
 *     cc -O2 -w -o {name} {name}.c -lm
 *
 * It takes gcc or clang on a 64-bit processor, and Linux. It asks for nothing that macOS lacks, and
 * was not tried there. No proof covers what makes the module, wasm2c, what stands before its text
 * and between its parts, or the compiler. */
"""
# On Debian: gcc-aarch64-linux-gnu, and musl-dev of the architecture arm64.
ARM64, MUSL = "aarch64", Path("/usr/lib/aarch64-linux-musl")
MUSL_HEADERS = Path("/usr/include/aarch64-linux-musl")


def version_of_wasm2c() -> str:
    """The version of the installed wasm2c, or an empty text."""
    if not shutil.which("wasm2c"):
        return ""
    return run(["wasm2c", "--version"], Path.cwd())


def lacks_wasm2c() -> str:
    """Why no C can be made here, or an empty text."""
    version = version_of_wasm2c()
    if not version:
        return "wasm2c (Debian's wabt) isn't installed"
    return "" if version == WASM2C else f"wasm2c is {version}, and {WASM2C} is needed"


def replaced(text: str, line: str, by: str = "") -> str:
    """The text with another text in the place of the one line that it must have."""
    if text.count(f"{line}\n") != 1:
        raise MakingError(f"wasm2c wrote no line {line}")
    return text.replace(f"{line}\n", by, 1)


def c_of(name: str, module: Path) -> str:
    """The program in C: the runtime, what wasm2c writes of the module, and the host. Of that only
    the line is changed which has each load made, also if nothing uses its value: an optimizing
    compiler takes many times as long with it. Raises MakingError if wasm2c lacks, or is another
    version."""
    why = lacks_wasm2c()
    if why:
        raise MakingError(why)
    with tempfile.TemporaryDirectory() as room:
        to = Path(room) / f"{name}.c"
        run(["wasm2c", "-n", name, module, "-o", to], Path(room))
        header = replaced(to.with_suffix(".h").read_text(), '#include "wasm-rt.h"')
        body = replaced(to.read_text(), f'#include "{name}.h"')
    parts = [
        HEAD.format(name=name, version=WASM2C),
        "#define _GNU_SOURCE\n",
        "".join(f"#include <{it}.h>\n" for it in HEADERS),
        (HERE / "runtime.h").read_text(),
        header,
        f"#define PROGRAM {name}\n",
        (HERE / "host.h").read_text(),
        replaced(body, "#define wasm_asm __asm__", "#define wasm_asm(X)\n"),
    ]
    return "\n".join(parts)


def compiler() -> str:
    """The compiler for ARM64."""
    return "gcc" if platform.machine() == ARM64 else "aarch64-linux-gnu-gcc"


def lacks_compiler() -> str:
    """Why nothing can be compiled for ARM64 here, or an empty text."""
    if not shutil.which(compiler()):
        return f"{compiler()} isn't installed"
    is_there = (MUSL / "libc.a").is_file() and MUSL_HEADERS.is_dir()
    return "" if is_there else "musl for ARM64 (Debian's musl-dev:arm64) isn't installed"


def compiler_line() -> str:
    return run([compiler(), "--version"], Path.cwd()).splitlines()[0]


def sum_of_library() -> str:
    return modules.sum_of((MUSL / "libc.a").read_bytes())


def compile_for_arm64(c: str, to: Path) -> None:
    """Makes a program that needs no library. Raises MakingError if it can't be compiled."""
    why = lacks_compiler()
    if why:
        raise MakingError(why)
    own_headers = run([compiler(), "-print-file-name=include"], Path.cwd())
    with tempfile.TemporaryDirectory() as room:
        (Path(room) / "program.c").write_text(c)
        words = [compiler(), "-O2", "-w", "-static", "-no-pie", "-s", "-ffile-prefix-map=.=."]
        words += ["-nostdinc", "-isystem", str(MUSL_HEADERS), "-isystem", own_headers]
        words += ["-nostdlib", "-Wl,--gc-sections", "-Wl,--build-id=none"]
        start = [MUSL / "crt1.o", MUSL / "crti.o"]
        end = ["-L", MUSL, "-lc", "-lgcc", MUSL / "crtn.o"]
        run([*words, *start, "program.c", *end, "-o", "program"], Path(room))
        shutil.copyfile(Path(room) / "program", to)
    to.chmod(0o755)
