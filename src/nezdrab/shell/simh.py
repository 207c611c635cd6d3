"""Command files of SIMH's PDP-11: `import`."""
import os
import re
import shlex
from pathlib import Path
from typing import Callable, Iterator, Optional

from ..analysis.command import Arguments, command
from ..analysis.explorer import Explorer
from ..analysis.restart import make
from ..core.errors import ExploreError
from ..core.hardware import LARGEST_WORD
from ..core.in_words import counted
from ..core.kinds import check_known, content
from ..core.options import MOST_UNITS, fault_of_option
from ..core.values import dataclass, field
from .load import counted_patches, loaded, patches_of
from .simh_lines import Line, Lines, Unusable

MOST_BYTES = 1_048_576  # of a command file
MOST_KILOBYTES, LEAST_KILOBYTES, UNIT_KILOBYTES = 256, 8, 8
BOOTSTRAP = 0o2000
LONGEST_SHOWN, MOST_SHOWN = 60, 100  # characters of a line, and lines that weren't taken
# What a command may be cut to, and its whole name.
LEAST_NAMES = {
    "at": "attach", "b": "boot", "d": "deposit", "det": "detach", "do": "do", "ec": "echo",
    "e": "examine", "ex": "examine", "g": "go", "l": "load", "q": "quit", "exi": "exit",
    "bye": "exit", "ru": "run", "se": "set", "sh": "show", "h": "help", "br": "break",
    "sen": "send", "exp": "expect", "s": "step", "c": "continue",
}  # fmt: skip
ASKING = {"echo", "examine", "show", "help"}  # they show something, and set nothing
REGISTERS = re.compile(
    r"r[0-7]|sp|pc|psw?|sr|dr|[ksu][id]?(par|pdr|sp)\w*|mmr[0-9]|stklim|pirq", re.I | re.A
)
AS_HERE = {"11/40", "eis", "mmu", "nofis", "nofpp", "nocis", "noidle", "enabled"}
DRIVE = re.compile(r"rk(?P<number>[0-7]?)")  # rk is rk0


def drive_of(words: list[str]) -> Optional[int]:
    """The drive that the first word names."""
    match = DRIVE.fullmatch(words[0].lower()) if words else None
    return int(match["number"] or "0") if match else None


def option_of(drive: int) -> str:
    return f"disk{drive}" if drive else "disk"


def bootstrap(drive: int) -> list[int]:
    """The bootstrap of the RK11, as in examples/boot-rk0.session: it reads the first 512 words of
    the drive to 0, and goes on there. A drive above 0 is put into RKDA, and its number into R0."""
    select = [0o5011] if drive == 0 else [0o12711, drive << 13]
    unit = [] if drive == 0 else [0o12700, drive]
    read = [0o5041, 0o12741, 0o177000, 0o12741, 5]  # RKBA, RKWC, RKCS
    wait = [0o105711, 0o100376, 0o105011, 0o5007]  # until it is ready; then to 0
    return [*unit, 0o12701, 0o177412, *select, *read, *wait]


def octal_word(text: str) -> int:
    if not re.fullmatch(r"[0-7]{1,6}", text) or int(text, 8) > LARGEST_WORD:
        raise Unusable(f"'{text}' is no octal number of a word")
    return int(text, 8)


@dataclass
class Imported:
    """What the commands of a file come to: options, bytes of core, and the switches; and the lines
    that were not taken, each with the reason."""

    folder: Path
    options: dict[str, str] = field(default_factory=dict)
    core: dict[int, int] = field(default_factory=dict)
    switches: Optional[int] = None
    lines: Lines = field(default_factory=Lines)
    command: str = ""  # the one that is taken now, with its place
    taken: int = 0
    without_meaning: list[str] = field(default_factory=list)
    left_out: list[str] = field(default_factory=list)

    @property
    def has_eight_drives(self) -> bool:
        return any(re.fullmatch(r"disk[1-7]", it) for it in self.options)

    def deposit_word(self, address: int, word: int) -> None:
        self.core[address], self.core[address + 1] = word & 0o377, word >> 8

    # Commands

    def file(self, name: str) -> Path:
        """A file that the commands name: in the folder where explore runs, as in SIMH, or in that
        of the command file."""
        path = next((it for it in (Path(name), self.folder / name) if it.exists()), None)
        if path is None:
            raise ExploreError(f"{name}: no such file")
        return Path(os.path.abspath(path))

    def attach(self, words: list[str]) -> None:
        if len(words) < 2:
            raise Unusable("a unit and a file are named")
        unit, name, drive = words[0].lower(), " ".join(words[1:]), drive_of(words)
        if drive is None and unit not in ("ptr", "ptr0"):
            raise Unusable(f"there is no {unit} here: disks are rk0 to rk7, the tape is ptr")
        path, option = self.file(name), "tape" if drive is None else option_of(drive)
        check_known(path, content(path))
        wrong = fault_of_option(option, {option: str(path)})
        if wrong:
            raise ExploreError(f"{path}: {wrong}")
        self.options[option] = str(path)

    def set(self, words: list[str]) -> None:
        if not words or words[0].lower() != "cpu" or len(words) < 2:
            raise Unusable("it has no meaning here")
        for word in ",".join(words[1:]).lower().split(","):
            size = re.fullmatch(r"([0-9]{1,5})(k|m)", word)
            if size:
                self.set_size(int(size[1]) * (1 if size[2] == "k" else 1024))
            elif word not in AS_HERE:
                raise Unusable(f"there is no {word} here: this is an 11/40 with EIS")

    def set_size(self, kilobytes: int) -> None:
        """The last 8 of 256 kilobytes of addresses are those of the devices."""
        if not LEAST_KILOBYTES <= kilobytes <= MOST_KILOBYTES or kilobytes % UNIT_KILOBYTES:
            raise Unusable(f"core has 8K to {MOST_KILOBYTES}K here, in steps of 8K")
        self.options["units"] = str(min(kilobytes // UNIT_KILOBYTES, MOST_UNITS))

    def deposit(self, words: list[str]) -> None:
        where = words[1:] if len(words) > 2 and words[0].lower() == "cpu" else words
        if len(where) == 2 and REGISTERS.fullmatch(where[0]):
            self.deposit_register(where[0].lower(), octal_word(where[1]))
        elif len(where) != 2 or not re.fullmatch(r"[0-7,/:-]+", where[0]):
            name = " ".join(where[:-1]).upper() or "nothing"
            raise Unusable(f"{name} can't be set: only core, PC and SR can")
        else:
            self.deposit_core(where[0], octal_word(where[1]))

    def deposit_register(self, name: str, word: int) -> None:
        if name in ("pc", "r7"):
            if word % 2:
                raise Unusable(f"PC {word:o} is odd")
            self.options["start"] = f"{word:o}"
        elif name == "sr":
            self.switches = word
        elif word:
            raise Unusable(f"{name.upper()} is 0 at power-up, and can't be set")

    def deposit_core(self, places: str, word: int) -> None:
        """Single addresses, `A-B` or `A:B` up to B, `A/C` with C bytes."""
        found: list[int] = []
        for part in places.split(","):
            match = re.fullmatch(r"([0-7]{1,8})(?:([-:/])([0-7]{1,8}))?", part)
            if match is None:
                raise Unusable(f"'{part}' is no address")
            first, second = int(match[1], 8), int(match[3] or match[1], 8)
            last = first + second - 1 if match[2] == "/" else second
            if first % 2 or last > 0o757777:
                odd = first % 2 and f"address {first:o} is odd"
                raise Unusable(odd or f"address {last:o} is above core: registers of devices")
            found += range(first, last + 1, 2)
        for address in found:
            self.deposit_word(address, word)

    def boot(self, words: list[str]) -> None:
        drive = drive_of(words)
        if drive is None:
            raise Unusable("only rk0 to rk7 can be booted; load FILE loads a paper tape")
        for number, word in enumerate(bootstrap(drive)):
            self.deposit_word(BOOTSTRAP + 2 * number, word)
        self.options["start"] = f"{BOOTSTRAP:o}"
        self.lines.run(self.command)

    def go(self, words: list[str]) -> None:
        if words:
            self.deposit_register("pc", octal_word(words[0]))
        self.lines.run(self.command)

    def go_on(self, words: list[str]) -> None:
        self.lines.run(self.command)

    def load(self, words: list[str]) -> None:
        if len(words) != 1:
            raise Unusable("load has one word, a file")
        found = loaded(self.file(words[0]), None, is_words=False)
        self.core.update(found.bytes)
        if found.start is not None:
            self.options["start"] = f"{found.start:o}"

    def detach(self, words: list[str]) -> None:
        drive = drive_of(words)
        if drive is None or self.options.pop(option_of(drive), None) is None:
            raise Unusable("no such unit is attached")

    def take(self, line: str) -> None:
        """Takes a command."""
        name, *words = words_of(line)
        whole = whole_name(name.lower())
        if whole in ASKING:
            return
        if whole in OF_LINES:
            OF_LINES[whole](self.lines, line, self.command)
        elif whole in OF_WORDS:
            switches = [it for it in words if re.fullmatch(r"-[a-zA-Z]+", it)]
            if whole == "deposit" and switches:
                raise Unusable(f"a deposit with {switches[0]} can't be read here")
            OF_WORDS[whole](self, [it for it in words if it not in switches])
        else:
            raise Unusable("import that file too" if whole == "do" else "it has no meaning here")
        self.taken += 1


# What takes a command: the words after it, or the line, for which a line of explore stands.
OF_WORDS: dict[str, Callable[[Imported, list[str]], None]] = {
    **{"attach": Imported.attach, "set": Imported.set, "deposit": Imported.deposit},
    **{"boot": Imported.boot, "go": Imported.go, "run": Imported.go, "load": Imported.load},
    **{"detach": Imported.detach, "continue": Imported.go_on},
}
OF_LINES = {
    **{"send": Lines.send, "expect": Lines.expect, "break": Lines.set_break, "step": Lines.step}
}


def whole_name(name: str) -> str:
    """The command that a word is, which may be cut."""
    for least, whole in LEAST_NAMES.items():
        if name == whole or len(name) >= len(least) and whole.startswith(name):
            return whole
    return name


def words_of(line: str) -> list[str]:
    """The words of a command. A path with spaces may stand in quotes."""
    try:
        return shlex.split(line, posix=True) if '"' in line or "'" in line else line.split()
    except ValueError:
        return line.split()


def shortened(line: str) -> str:
    return line if len(line) <= LONGEST_SHOWN else f"{line[:LONGEST_SHOWN]} .."


def commands_of(text: str) -> Iterator[str]:
    """The lines of a command file. Comments and labels are empty lines."""
    for line in text.split("\n"):
        bare = line.strip()
        yield "" if bare[:1] in (";", "#", ":") else bare


def imported(path: Path) -> Imported:
    """What a command file comes to."""
    data = content(path, MOST_BYTES)
    check_known(path, data)
    if b"\0" in data:
        raise ExploreError(f"{path} is no text")
    found = Imported(path.absolute().parent)
    for number, line in enumerate(commands_of(data.decode(errors="surrogateescape")), 1):
        if not line:
            continue
        if whole_name(line.split()[0].lower()) in ("quit", "exit"):
            break
        found.command = f"line {number}, {shortened(line)}"
        try:
            found.take(line)
        except (Unusable, ExploreError) as error:
            is_unusable = isinstance(error, Unusable)
            into = found.without_meaning if is_unusable else found.left_out
            into.append(f"{found.command}: {error}")
    waiting = (f"{it}: no go, boot or continue follows" for it in found.lines.left())
    found.without_meaning += waiting
    return found


def outcome(explorer: Explorer, lines: list[Line]) -> Iterator[str]:
    """Does the lines that commands stand for, from turn 0 on."""
    explorer.turn = 0
    for it in lines:
        yield f"{explorer.prompt}{it.line}"
        try:
            yield from explorer.interpreter.lines(it.line)
        except ExploreError as error:
            raise ExploreError(f"{it.command}: {error}; what follows isn't done") from None


def told(lines: list[str], what: str) -> Iterator[str]:
    """How many lines weren't taken, and the first of them."""
    if lines:
        yield f"{len(lines)} {what}:"
        yield from (f"  {it}" for it in lines[:MOST_SHOWN])
    if len(lines) > MOST_SHOWN:
        yield f"  and {len(lines) - MOST_SHOWN} more"


@command("import FILE", "<file:file>", "takes over what a command file of SIMH sets up")
def import_file(explorer: Explorer, arguments: Arguments) -> Iterator[str]:
    """Reads the commands of a command file of SIMH, and does what they mean here as of power-up:
    `attach` of rk0 to rk7 (option --disk, and in version 2 --disk1 to --disk7) and of ptr (--tape),
    `set cpu` with a size (--units), `deposit` of core, PC (--start) and SR (an event), `load`,
    `boot rk0` (the bootstrap at 2000), `go A`. The program is started again with these options and
    all edits. Then it lists the commands that have no meaning here, and those that were left out,
    since a file is missing or is none that can be attached or loaded.
    At the end it does the lines that stand for other commands, from turn 0 on: `break A` and
    `break -w A` set breakpoints, `send "text"` is `type`, `step N` is `step N`. `expect "text" send
    "text"; continue` waits for the next `go`, `boot` or `continue`: its lines are then `expect` and
    `type`, each rule once, in their order. If all rules went on, and breakpoints are set,
    `continue` goes on to the next one. `undo` takes an import back."""
    path, machine = Path(arguments.text("file")), explorer.machine
    found = imported(path)

    def edits() -> list[str]:
        version = found.has_eight_drives and machine.setup.version == 1
        switches = [] if found.switches is None else [f"at 0 switches {found.switches:o}"]
        return [*(["version 2"] if version else []), *patches_of(machine, found.core), *switches]

    made = make(explorer, found.options, edits)
    options = " ".join(f"--{name} {shlex.quote(it)}" for name, it in found.options.items())
    patches = counted_patches(made)
    count = counted(found.taken, "command")
    yield f"{count} taken: {', '.join(filter(None, (options, patches)))}"
    yield from (it for it in made if not it.startswith("core "))
    yield from told(found.without_meaning, "without a meaning here")
    yield from told(found.left_out, "left out")
    if found.lines.lines:
        yield from outcome(explorer, found.lines.lines)
