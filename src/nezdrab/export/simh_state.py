"""`export`: the machine at a turn as a command file of SIMH's pdp11, or a range of turns."""
import shlex
from pathlib import Path
from typing import Iterator

from ..analysis.command import Arguments, command
from ..analysis.explorer import Explorer
from ..core.all_words import core_words, drive_image
from ..core.engine import Machine
from ..core.replies import Devices, Mode, Pages, Registers
from ..core.written_files import OUTPUT, write_whole
from .exports import FORM, export_turns

MODEL_NAMES = {Mode.KERNEL: "KI", Mode.USER: "UI"}
DONE = 0o200


def runs_of(words: list[int]) -> Iterator[tuple[int, int, int]]:
    """Runs of equal words that aren't 0: the first address, the last address, the word."""
    begin = 0
    for at in range(1, len(words) + 1):
        if at == len(words) or words[at] != words[begin]:
            if words[begin]:
                yield 2 * begin, 2 * (at - 1), words[begin]
            begin = at


def core_lines(words: list[int]) -> Iterator[str]:
    for first, last, word in runs_of(words):
        yield f"d {first:o} {word:o}" if first == last else f"d {first:o}-{last:o} {word:o}"


def register_lines(registers: Registers, pages: Pages) -> Iterator[str]:
    for name in ("R0", "R1", "R2", "R3", "R4", "R5", "KSP", "USP", "PC"):
        yield f"d {name} {registers.words[name]:o}"
    yield f"d PSW {registers.ps:o}"
    yield f"d MMR0 {pages.sr0:o}"
    yield f"d MMR2 {pages.sr2:o}"
    for mode, name in MODEL_NAMES.items():
        for page in range(8):
            yield f"d {name}PAR{page} {pages.addresses[mode][page]:o}"
            yield f"d {name}PDR{page} {pages.descriptors[mode][page]:o}"


def device_lines(devices: Devices) -> Iterator[str]:
    words = devices.words
    yield f"d tti BUF {words['TKB']:o}"
    for unit, status in (("tti", "TKS"), ("tto", "TPS"), ("clk", "LKS")):
        yield f"d {unit} DONE {words[status] >> 7 & 1}"
        yield f"d {unit} IE {words[status] >> 6 & 1}"
    for name in ("RKCS", "RKER", "RKWC", "RKBA", "RKDA"):
        yield f"d rk {name} {words[name]:o}"
    yield f"d rk DONE {words['RKCS'] >> 7 & 1}"
    yield f"d rk IE {words['RKCS'] >> 6 & 1}"
    yield f"d SR {words['SWR']:o}"


def left_out(machine: Machine, turn: int, registers: Registers, devices: Devices) -> Iterator[str]:
    """What another emulator can't take over, of what is under way."""
    busy = {"disk": devices.disk_is_ready, "printer": devices.words["TPS"] & DONE}
    busy["punch"] = devices.words["PPS"] & DONE
    for name, is_ready in busy.items():
        if not is_ready:
            yield f"what the {name} does in turn {turn} is dropped"
    if registers.state == "wait":
        yield "the processor waits: there it runs on at once"
    if registers.state == "halted":
        yield "the processor is halted: there it runs on with the instruction after the HALT"
    if any(it.turn >= turn for it in machine.script):
        yield f"the events from turn {turn} on are not in it: keys are typed by hand"


def drives(machine: Machine) -> range:
    return range(8) if machine.setup.version == 2 else range(1)


def attach_lines(drive: int, image: Path) -> Iterator[str]:
    """SIMH writes to the file of a drive, so it gets a copy of the image, new at each start."""
    copy = image.with_name(f"{image.name}.run")
    yield f"! cp {shlex.quote(str(image))} {shlex.quote(str(copy))}"
    yield f"attach rk{drive} {copy}"
    yield f"echo drive {drive} is a copy, new at each start: {copy}"


def export_state(explorer: Explorer, arguments: Arguments) -> Iterator[str]:
    """Writes the command file and the images of drives, and says what is lost."""
    machine, turn = explorer.machine, arguments.decimal("turn")
    path = Path(arguments.text("file"))
    OUTPUT.target(path)
    registers, devices = machine.registers(turn), machine.devices(turn)
    lost = list(left_out(machine, turn, registers, devices))
    images = []
    for drive in drives(machine):
        image = drive_image(machine, turn, drive)
        if drive == 0 or any(image):
            images.append((drive, path.with_suffix(f".rk{drive}"), image))
    for _, name, _ in images:
        OUTPUT.target(name)
    for _, name, image in images:
        OUTPUT.write(name, image)
    lines = [
        f"; the machine before turn {turn}, by Nezdrab's explore",
        "set cpu 11/40",
        "set cpu 256K",
    ]
    lines += [f"; {it}" for it in lost]
    lines += [it for drive, name, _ in images for it in attach_lines(drive, name.resolve())]
    lines += core_lines(core_words(machine, turn))
    lines += register_lines(registers, machine.pages(turn))
    lines += device_lines(devices)
    write_whole(path, "".join(f"{it}\n" for it in lines))
    names = ", ".join(str(it) for it in (path, *(name for _, name, _ in images)))
    how = f"pdp11 {shlex.quote(str(path))}"
    yield f"written: {names}; run it: {how}, then: step, go or examine"
    yield f"each run attaches a copy: {', '.join(f'{name}.run' for _, name, _ in images)}"
    yield from lost

@command(
    f"export FILE at N  or  {FORM}",
    r"(-(?P<yes>y) )?<file:file>"
    r" (at <turn:decimal>|from <first:decimal> to <last:decimal>( with (?P<rest>.+))?)",
    "the state before turn N, for SIMH; the turns N to M, for viewers",
)
def export(explorer: Explorer, arguments: Arguments) -> Iterator[str]:
    """With `at` it writes the machine before turn N as a command file of SIMH's PDP-11, `pdp11
    FILE`, and each drive as an image beside it, FILE.rk0 and so on (FILE without its ending). The
    command file copies an image to FILE.rk0.run and attaches the copy, so that each start finds the
    same drive. Core, registers, mapping and the registers of keyboard, printer, clock and disk are
    in it. What a device is doing, requests, tape and events aren't; the reply names what is lost.
    With `from` it writes the turns N to M. The ending of FILE says what of them:
    FILE.vcd from N to M [with A ..]: waves, for GTKWave, up to 2000000 turns. One unit of time is a
    turn. It has the registers, mode, routine, interrupts, traps, the disk, and the words of core
    that are named.
    FILE.callgrind from N to M [with LISTING ..]: turns by routine, by line of a listing and by
    call, for KCachegrind and callgrind_annotate, up to 20000000 turns.
    FILE.folded from N to M: the same by stacks, for flame graphs.
    FILE.lcov from N to M with LISTING ..: how often each line ran, as `covered` counts it, for
    genhtml.
    LISTING .. is LISTING [at A] [kernel|user], as for `covered`, and further ones, each after
    `and`.
    Routines are those of `profile`. A call is an interrupt, a trap, or a JSR that leaves SP lower
    by 2, unless it leads to one of the three words behind it. It has returned once SP is above what
    it pushed. The first turn stands in the calls that `calls` finds; the reply says if some are
    believed. A routine that another one jumps to, or runs into, stands above it. If SP is loaded
    away from calls, as when stacks are switched, what follows is believed, and the reply says so.
    Turns that begin no instruction stand by themselves, such as (waits). If a routine calls itself,
    the turns of its outermost call count, and those of calls within it don't count again.
    What takes more than some 10 seconds wants a `y`, or -y. A file is there whole, or not at all.
    One that was there before is overwritten by export! FILE alone."""
    write = export_state if arguments.optional("turn") else export_turns
    yield from write(explorer, arguments)
