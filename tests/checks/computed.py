"""What the program search must reply to a line, computed for lines.py from what is known of each
turn of a stored system."""
from typing import Callable

from tests.checks.disk_transfers import transfers
from tests.checks.stored_systems import System
from tests.checks.traps import may_trap, must_trap
from tests.checks.turn_accesses import accesses
from tests.checks.turn_moves import moves
from tests.checks.virtual_places import MODES, Abort, is_register, physical
from tests.checks.word_reads import first_reads

MOST_LINES = 256
LAST_ADDRESS = 0o177776
BACKSLASH = ord("\\")
COUNT_OUT_OF_RANGE = "refused 8 CountOutOfRange"
OPERATORS: dict[str, Callable[[int, int], bool]] = {
    "=": lambda a, b: a == b,
    "!=": lambda a, b: a != b,
    "<": lambda a, b: a < b,
    ">": lambda a, b: a > b,
}
Condition = Callable[[int], bool]


def computed(system: System, line: str) -> list[str]:
    """The replies that the line may have: one, except if it can't be decided from outside which
    turns have a trap."""
    command, *words = line.split()
    if command in ("first", "latest"):
        return turns_found(system, command, words)
    return [COMPUTED[command](system, words)]


def turns_found(system: System, command: str, words: list[str]) -> list[str]:
    after, before = int(words[0]), int(words[1])
    if after > before:
        return [COUNT_OUT_OF_RANGE]
    turns = range(after, before)
    if words[2] == "trap":
        vector = int(words[3], 8)
        may = [turn for turn in turns if may_trap(system, turn, vector)]
        must = [turn for turn in may if must_trap(system, turn, vector)]
    else:
        fits = condition(system, words[2:])
        may = must = [turn for turn in turns if fits(turn)]
    if command == "first":
        found = [turn for turn in may if not must or turn <= must[0]]
    else:
        found = [turn for turn in may if not must or turn >= must[-1]]
    return [f"{command} {it}" for it in found] + [f"{command} none"] * (not must)


def condition(system: System, words: list[str]) -> Condition:
    """Whether a turn meets the words after N and M."""
    kind, *rest = words
    if kind == "at":
        address, mode = int(rest[0], 8), "".join(rest[1:])
        return lambda turn: runs(system, turn, address) and is_mode(system, turn, mode)
    if kind == "vector":
        act = f"irq {int(rest[0], 8):03o}"
        return lambda turn: system.acts[turn][1] == act
    every = [one_condition(system, it.split()) for it in " ".join(rest).split(" and ")]
    # Each is asked, so that what it needs is wanted whatever the others say.
    return lambda turn: all([it(turn) for it in every])


def one_condition(system: System, words: list[str]) -> Condition:
    if words[0] == "at":
        return lambda turn: runs(system, turn, int(words[1], 8))
    if words[0] in MODES:
        return lambda turn: is_mode(system, turn, words[0])
    left = words[: 2 if words[0] == "core" else 1]
    operator, *right = words[len(left) :]
    if operator == "&":
        mask, wanted = int(right[0], 8), int(right[2], 8)
        return lambda turn: value(system, turn, left) & mask == wanted
    compare = OPERATORS[operator]
    return lambda turn: compare(value(system, turn, left), value(system, turn, right))


def value(system: System, turn: int, words: list[str]) -> int:
    """The word of core, the register, or the number."""
    if words[0] == "core":
        return system.core(turn, int(words[1], 8))
    return int(words[0], 8) if words[0].isdigit() else system.registers(turn)[words[0]]


def runs(system: System, turn: int, address: int) -> bool:
    return system.acts[turn] == (address, "instr")


def is_mode(system: System, turn: int, mode: str) -> bool:
    """Whether the processor has this mode, or any if it is empty."""
    return not mode or system.registers(turn)["PS"] >> 14 == MODES[mode]


def counts(system: System, words: list[str]) -> str:
    after, before, mode, start, count = words
    first = int(start, 8)
    found = [0] * int(count)
    if int(after) > int(before):
        return COUNT_OUT_OF_RANGE
    for turn in range(int(after), int(before)):
        pc, act = system.acts[turn]
        at = (pc - first) // 2
        if act == "instr" and pc % 2 == 0 and 0 <= at < len(found):
            found[at] += is_mode(system, turn, mode)
    return " ".join(["counts", *map(str, found)])


def writes(system: System, words: list[str]) -> str:
    after, before = int(words[0]), int(words[1])
    if after > before:
        return COUNT_OUT_OF_RANGE
    found = []
    for turn in range(after, before):
        last = system.reply(f"last {turn + 1} {words[2]}").split()
        if last[1:2] == [str(turn)]:
            found.append((turn, " ".join(last[1:])))
    are_left = len(found) >= MOST_LINES and found[MOST_LINES - 1][0] + 1 < before
    return list_of("writes", [shown for _, shown in found], are_left)


def reads(system: System, words: list[str]) -> str:
    after, before = int(words[0]), int(words[1])
    if after > before:
        return COUNT_OUT_OF_RANGE
    every = first_reads(system, int(words[2], 8))
    found = [turn for turn in sorted(every) if after <= turn < before]
    are_left = len(found) >= MOST_LINES and found[MOST_LINES - 1] + 1 < before
    return list_of("reads", [every[turn] for turn in found], are_left)


def list_of(command: str, found: list[str], is_cut: bool) -> str:
    shown = found[:MOST_LINES]
    return "\n".join([f"{command} {len(shown)}" + " or more" * is_cut, *shown])


def change(system: System, words: list[str]) -> str:
    after, before, *drive, word = words
    of, at = int("".join(drive) or "0", 8), int(word, 8)
    if int(after) > int(before):
        return COUNT_OUT_OF_RANGE
    each = [system.drive(turn, of, at) for turn in range(int(after), int(before) + 1)]
    found = [i for i, (old, new) in enumerate(zip(each, each[1:])) if old != new]
    return f"change {int(after) + found[0] if found else 'none'}"


def bytes_from(command: str, system: System, words: list[str]) -> str:
    rest = system.text(command, int(words[0]))[int(words[2]) :]
    shown = "".join(
        chr(it) if 0o40 <= it <= 0o176 and it != BACKSLASH else f"\\{it:03o}" for it in rest
    )
    return f"{command} {len(rest)}:{shown}"


def when(system: System, words: list[str]) -> str:
    turn = system.turns[0]
    while len(system.text("text", turn + 1)) <= int(words[0]):
        turn += 1
    return f"when {turn}"


def translate(system: System, words: list[str]) -> str:
    found = physical(system, int(words[0]), MODES[words[1]], int(words[2], 8))
    return f"translate {f'abort {found.cause}' if isinstance(found, Abort) else f'{found:06o}'}"


def virtual(system: System, words: list[str]) -> str:
    turn, first, count = int(words[0]), int(words[2], 8), int(words[3])
    if not 1 <= count <= 256 or first + 2 * (count - 1) > LAST_ADDRESS:
        return COUNT_OUT_OF_RANGE
    if first % 2:
        return "refused 3 OddAddress"
    shown = ["virtual"]
    for address in range(first, first + 2 * count, 2):
        place = physical(system, turn, MODES[words[1]], address)
        if isinstance(place, Abort):
            return f"virtual abort {place.cause} at {address:06o}"
        if place >= system.core_bytes:
            return f"virtual {'device' if is_register(place) else 'timeout'} at {address:06o}"
        shown.append(f"{system.core_in_page(turn, place):06o}")
    return " ".join(shown)


def agrees(mask: list[str], wanted: int) -> Callable[[int], bool]:
    """Whether a word is the wanted one, in the bits of the mask, if there is one."""
    bits = int(mask[1], 8) if mask else 0o177777
    return lambda word: (word ^ wanted) & bits == 0


def find(system: System, words: list[str]) -> str:
    turn, first, last = int(words[0]), int(words[1], 8), int(words[2], 8)
    if first > last:
        return COUNT_OUT_OF_RANGE
    fits = agrees(words[4:], int(words[3], 8))
    addresses = range(first, last + 1, 2)
    found = [f"{it:06o}" for it in addresses if fits(system.core_in_page(turn, it))]
    return list_of("find", found, len(found) > MOST_LINES)


def find_on_drive(system: System, words: list[str]) -> str:
    mask = words[words.index("mask") :] if "mask" in words else []
    turn, *drive, first, last, wanted = words[: len(words) - len(mask)]
    of = int("".join(drive) or "0", 8)
    if int(first, 8) > int(last, 8):
        return COUNT_OUT_OF_RANGE
    fits, numbers = agrees(mask, int(wanted, 8)), range(int(first, 8), int(last, 8) + 1)
    found = [f"{it:07o}" for it in numbers if fits(system.drive_in_sector(int(turn), of, it))]
    return list_of("finddsk", found, len(found) > MOST_LINES)


def events(system: System, words: list[str]) -> str:
    found = [f"{it.number} {it.turn} {it.what}" for it in system.followed.in_order()]
    return "\n".join([f"events {len(found)}", *found])


COMPUTED: dict[str, Callable[[System, list[str]], str]] = {
    "counts": counts,
    "writes": writes,
    "reads": reads,
    "accesses": accesses,
    "moves": moves,
    "change": change,
    "transfers": transfers,
    "text": lambda system, words: bytes_from("text", system, words),
    "punched": lambda system, words: bytes_from("punched", system, words),
    "when": when,
    "translate": translate,
    "virtual": virtual,
    "find": find,
    "finddsk": find_on_drive,
    "events": events,
    "setup": lambda system, words: system.followed.setup(),
}
