"""What the measurements share: their arguments, the programs, and runs of the built program."""
import argparse
import os
import re
import subprocess
import time

HERE = os.path.dirname(os.path.abspath(__file__))
ROOT = os.path.join(HERE, "..")


def found_program(name="pdp11"):
    """The program that was built here last, or that tools/release-static linked since, whatever the
    sources are now. Otherwise the release file; an empty path if there is none."""
    folders = os.path.join("crates", name, "out"), os.path.join("out", "static")
    made = [os.path.join(ROOT, it, name) for it in folders]
    runs = [it for it in made if os.access(it, os.X_OK)]
    if runs:
        return max(runs, key=os.path.getmtime)
    command = [os.path.join(ROOT, "tools", "program"), "--at-hand", name]
    found = subprocess.run(command, stdout=subprocess.PIPE)
    return os.fsdecode(found.stdout.removesuffix(b"\n"))


PROGRAM = found_program()

# The arguments of a run that keeps its first state alone.
FIRST_ALONE = ["--stride", "2000000000"]


def asked(description, **defaults):
    """Returns the numbers that a measurement is given, in the order of these names, each with its
    default. --help shows the description and ends. Without a program it ends with status 1."""
    return list(vars(_read(_parser(description, defaults))).values())


def asked_beside(description, **defaults):
    """The same numbers, and the programs to measure: the built one, and after it the program OTHER
    if that is given."""
    parser = _parser(description, defaults)
    parser.add_argument("other", metavar="OTHER", nargs="?", help="a program to measure beside it")
    *numbers, other = vars(_read(parser)).values()
    if other is None:
        return numbers, [PROGRAM]
    if not os.access(other, os.X_OK):
        parser.exit(1, f"{parser.prog}: {other}: no such program\n")
    return numbers, [PROGRAM, os.path.abspath(other)]


def _parser(description, defaults):
    as_it_is = argparse.RawDescriptionHelpFormatter
    parser = argparse.ArgumentParser(description=description, formatter_class=as_it_is)
    for name, default in defaults.items():
        text = f"{default:,} if it isn't given"
        parser.add_argument(name.upper(), nargs="?", type=int, default=default, help=text)
    return parser


def _read(parser):
    words = parser.parse_args()
    if not PROGRAM:
        parser.exit(1, f"{parser.prog}: build the program first: tools/build pdp11\n")
    return words


def programs(kind="programs", period=0):
    """The name and the lines of each program in a folder: those that run on, or those that idle.
    The line clock ticks each `period` turns, 0 for never."""
    folder = os.path.join(HERE, kind)
    for name in sorted(os.listdir(folder)):
        with open(os.path.join(folder, name), encoding="ascii") as file:
            yield name.removesuffix(".session"), file.read() + f"delay clock {period}\n"


def patches_of(path):
    """The lines of a session that make its machine, without its script."""
    with open(os.path.join(ROOT, path), encoding="ascii") as file:
        lines = file.read().splitlines()
    return [it for it in lines if it.split(" ")[0] in ("core", "disk", "delay")]


def ledger():
    """The lines of a bank on a disk (examples/ledger), which runs on without a key."""
    return patches_of("examples/ledger/ledger.session")


def words_of(lines):
    """The words that a program's lines put into core: pairs of address and word, in octal."""
    return [line.split()[1:] for line in lines.splitlines() if line.startswith("core ")]


def run(command, text):
    """Runs a command on these lines: the seconds that it took, and what it wrote."""
    start = time.perf_counter()
    done = subprocess.run(command, input=text.encode(), capture_output=True, check=True)
    return time.perf_counter() - start, done.stdout.decode()


def rate(lines, turns, states=("run",)):
    """Turns in a second, less the time of a run that takes none. The run must end in one of these
    states."""
    none, _ = run([PROGRAM], lines + "regs 0\n")
    some, out = run([PROGRAM], lines + f"regs {turns}\n")
    if out.split()[-1] not in states:
        raise SystemExit(f"the program isn't in the state {' or '.join(states)}:\n{out}")
    return turns / max(some - none, 1e-9)


def after(arguments, lines, asked, measured=None):
    """Runs the program, or the one that is measured, on these lines, and then on those that are
    asked; no reply has more than one line. Returns the seconds from asking to the last reply, and
    the resident kilobytes then."""
    pipes = {"stdin": subprocess.PIPE, "stdout": subprocess.PIPE}
    with subprocess.Popen([measured or PROGRAM, *arguments], **pipes) as program:
        for text in lines, asked:
            begun = time.perf_counter()
            program.stdin.write(text.encode())
            program.stdin.flush()
            for line in text.splitlines():
                if not line.startswith("#"):
                    program.stdout.readline()
            seconds = time.perf_counter() - begun
        with open(f"/proc/{program.pid}/status", encoding="ascii") as status:
            kilobytes = int(re.search(r"VmRSS:\s+(\d+) kB", status.read())[1])
        program.stdin.close()
    return seconds, kilobytes
