"""The options of the program: those that are given, and those that stand in a session. There they
are comment lines `#! OPTIONS`, which the program passes over."""
import os
import re
import shlex
import stat
from pathlib import Path
from typing import Iterable, Iterator, Optional

from .errors import ExploreError
from .hardware import DRIVE_WORDS
from .in_words import counted
from .values import dataclass

UNIT_BYTES, MOST_UNITS = 0o20000, 31  # of core
RK05_BYTES, TAPE_BYTES = 2 * DRIVE_WORDS, 1_048_576
FILES = ["core", "disk", *(f"disk{it}" for it in range(1, 8)), "tape"]


@dataclass(frozen=True)
class Number:
    """The range of an option that is a number: how it is told, and the numbers themselves."""

    letter: str
    told: str
    digits: str
    numbers: range

    def fault(self, value: str) -> str:
        """What is wrong with this value, if anything is."""
        is_number = re.fullmatch(rf"[{self.digits}]{{1,10}}", value) is not None
        is_right = is_number and int(value, 8 if self.digits == "0-7" else 10) in self.numbers
        return "" if is_right else f"{self.letter} is {self.told}"


NUMBERS = {
    "units": Number(
        "N", f"1 to {MOST_UNITS}, units of 4096 words of core", "0-9", range(1, MOST_UNITS + 1)
    ),
    "start": Number(
        "A", "an address, octal and even, up to 177776", "0-7", range(0, 0o200000, 2)
    ),
    "stride": Number(
        "N", "1 to 2000000000, turns between kept states", "0-9", range(1, 2_000_000_001)
    ),
}
MARK = "#!"
# A line of a session has 200 bytes at most, comments too.
LONGEST_PART = 190

# A value by the name of its option.
Options = dict[str, str]


def fault_of_file(name: str, path: Path, units: int) -> str:
    """What is wrong with the file of an option, if anything is. Of a pipe nothing is known."""
    try:
        found = path.stat()
    except (OSError, ValueError) as error:
        return getattr(error, "strerror", None) or str(error)
    if stat.S_ISDIR(found.st_mode):
        return "it is a folder"
    if not os.access(path, os.R_OK):
        return "it can't be read"
    size, is_tape = found.st_size, name == "tape"
    most = TAPE_BYTES if is_tape else units * UNIT_BYTES if name == "core" else RK05_BYTES
    if size > most:
        holder = {"tape": "a tape", "core": f"core of --units {units}"}.get(name, "an RK05")
        return f"it has {counted(size, 'byte')}, and {holder} has {most} at most"
    is_odd = size % 2 and not is_tape
    return f"it has {counted(size, 'byte')}, and each word of an image has two" if is_odd else ""


def fault_of_option(name: str, options: Options) -> str:
    """What is wrong with the value of this option, if anything is."""
    if name in NUMBERS:
        return NUMBERS[name].fault(options[name])
    units = options.get("units", "")
    return fault_of_file(
        name, Path(options[name]), MOST_UNITS if NUMBERS["units"].fault(units) else int(units)
    )


def faults_of(options: Options) -> dict[str, str]:
    """What is wrong with each option that the program would refuse."""
    faults = {name: fault_of_option(name, options) for name in options}
    return {name: f"--{name} {options[name]}: {it}" for name, it in faults.items() if it}


def words_of_options(options: Options) -> list[str]:
    return [word for name, value in options.items() for word in (f"--{name}", value)]


def options_of_words(words: Iterable[str], where: str, folder: Path) -> Options:
    """The options in these words. Paths of files are in the folder, and become absolute."""
    left = [part for it in words for part in (it.split("=", 1) if it.startswith("--") else [it])]
    found: Options = {}
    for option, value in zip(left[::2], [*left[1::2], None]):
        name = option[2:]
        if not option.startswith("--") or name not in (*FILES, *NUMBERS):
            raise ExploreError(f"{where}: '{option}' is no option of pdp11 with a value")
        if value is None or name in found:
            raise ExploreError(f"{where}: {option} {'twice' if value else 'without a value'}")
        found[name] = str(folder / value) if name in FILES else value
    return found


def option_lines(options: Options) -> Iterator[str]:
    """The options as comment lines. One that is too long goes on in the next line."""
    text = " ".join(shlex.quote(it) for it in words_of_options(options))
    if "\n" in text:
        raise ExploreError("a path with a line feed can't be saved")
    parts: list[str] = [""]
    for character in text:
        if len(f"{parts[-1]}{character}".encode(errors="surrogateescape")) > LONGEST_PART:
            parts.append("")
        parts[-1] += character
    for part in parts[:-1]:
        yield f"{MARK} {part}\\"
    yield f"{MARK} {parts[-1]}".rstrip()


def option_text(lines: Iterable[str]) -> Optional[str]:
    """What the comment lines of options say, or None if there are none. They stand before the
    first line that is no comment."""
    text, goes_on, is_there = "", False, False
    for line in lines:
        if not line.startswith("#") and line.strip(" \t"):
            break
        match = re.fullmatch(rf"{MARK}( -.*|)" if not goes_on else rf"{MARK} (.*)", line)
        if match is None:
            continue
        is_there = True
        part = match[1] if goes_on else match[1].lstrip(" ")
        goes_on = part.endswith("\\")
        text += part[:-1] if goes_on else f"{part} "
    return text if is_there else None


def check_session(path: Path) -> None:
    """An error if this is no file that can be read twice: its options first, then its lines."""
    try:
        mode = path.stat().st_mode
    except FileNotFoundError:
        raise ExploreError(f"{path}: no such file") from None
    except OSError as error:
        raise ExploreError(f"{path}: {error.strerror}") from error
    if stat.S_ISDIR(mode):
        raise ExploreError(f"{path} is a folder")
    if not stat.S_ISREG(mode):
        how = f"./explore < {shlex.quote(str(path))}"
        raise ExploreError(f"{path} is no plain file; {how} reads its lines")


def options_of_session(path: Path) -> Options:
    """The options in a session, or without any, those of a file beside it with the ending .args,
    one word a line."""
    beside = path.with_suffix(".args")
    at = path
    try:
        lines = path.read_bytes().decode(errors="surrogateescape").split("\n")
        text = option_text(it.removesuffix("\r") for it in lines)
        if text is not None:
            words = shlex.split(text)
        elif beside.exists():
            at = beside
            words = beside.read_text().splitlines()
        else:
            words = []
    except (OSError, ValueError) as error:
        raise ExploreError(f"{at} can't be read: {error}") from error
    return options_of_words(words, str(at), at.resolve().parent)
