"""Whether a reply to `fades` is right, by two runs: one of a stored system as it is, and one with
the edit. From the turn of the reply on both scripts must be the same, and all that can be asked of
both machines, and a turn sooner it mustn't be so. Last writes and what came out don't count.

Requests, and what an operation is doing, can't be asked. So if a device may interrupt or is busy, a
reply is right too that says that two machines differ which seem the same. But if both had the same
registers at each turn, and have the same script, they can only differ in a byte that is coming
out."""
from tests.checks.picked import sectors_named
from tests.checks.stored_systems import WORDS_OF_PAGE, System

# The bits of each status that say that a device may interrupt or is busy, and what they are if not;
# of the reader all, since they tell if it has read. Then those of what comes out.
MAY_HIDE = {"TKS": (0o100, 0), "TPS": (0o300, 0o200), "LKS": (0o100, 0), "PRS": (0o177777, 0)}
MAY_HIDE.update({"PPS": (0o300, 0o200), "RKCS": (0o300, 0o200)})
BYTES_OUT = {"TPS": (0o200, 0o200), "PPS": (0o200, 0o200)}


def right_fades(system: System, line: str, reply: str) -> list[str]:
    """What the reply may be; if it isn't right, this says what is wrong with it."""
    limit, edit = line.split(" ", 2)[1:]
    other = System(system.program, system.session, [*system.own, edit])
    if other.own_replies[-1].startswith("refused"):
        return [other.own_replies[-1]]
    return Fading(system, other).right(int(limit), reply)


class Fading:
    """Two runs that are compared."""

    def __init__(self, system: System, other: System) -> None:
        self.both = (system, other)
        for turn in system.turns:
            for command in ("regs", "devices", "pages"):
                other.reply(f"{command} {turn}")
        other.ask_wanted()
        self.sectors = sectors_named(system, system.turns) | sectors_named(other, system.turns)
        command, *numbers = other.own[-1].split()
        if command == "disk":
            drive, word = [0, *(int(it, 8) for it in numbers)][-3:-1]
            self.sectors.add((drive, word - word % WORDS_OF_PAGE))

    def right(self, limit: int, reply: str) -> list[str]:
        found = reply.rpartition(" ")[2]
        if not found.isdigit() or int(found) > limit:
            return self.seeming(limit, "fades none")
        turn, right = int(found), f"fades {int(found)}"
        if not all(self.has_same_registers(it) for it in self.both[0].turns if it >= turn):
            return [f"a later turn or none: registers differ in turn {turn} or later"]
        if not self.is_same(turn):
            return [f"a later turn or none: before turn {turn} the two runs differ"]
        return self.seeming(turn - 1, right) if turn > 0 else [right]

    def seeming(self, turn: int, later: str) -> list[str]:
        """The reply that says that the two runs differ before the turn, if that may be."""
        if not self.is_same(turn):
            return [later]
        may_hide = BYTES_OUT if self.has_same_past(turn) else MAY_HIDE
        sooner = f"fades {turn}, or sooner"
        are_idle = all(is_idle(it, turn, may_hide) for it in self.both)
        return [sooner] if are_idle else [sooner, later]

    def has_same_past(self, turn: int) -> bool:
        """Whether both had the same registers up to the turn, and have the same script."""
        turns, scripts = self.both[0].turns, [it.followed.script_from(0) for it in self.both]
        is_known = turns[0] == 0 and turn <= turns[-1] and scripts[0] == scripts[1]
        return is_known and all(self.has_same_registers(it) for it in turns if it <= turn)

    def is_same(self, turn: int) -> bool:
        """Whether scripts, registers, core and sectors are the same from this turn on."""
        scripts = [it.followed.script_from(turn) for it in self.both]
        if scripts[0] != scripts[1] or not self.has_same_registers(turn):
            return False
        size = self.both[0].core_bytes
        lines = [f"mem {turn} {it:o} 256" for it in range(0, size, 2 * WORDS_OF_PAGE)]
        for drive, word in sorted(self.sectors):
            lines.append(f"dsk {turn} {self.both[0].drive_word(drive)}{word:o} 256")
        return self.has_same(lines)

    def has_same_registers(self, turn: int) -> bool:
        return self.has_same([f"{it} {turn}" for it in ("regs", "devices", "pages")])

    def has_same(self, lines: list[str]) -> bool:
        for system in self.both:
            for line in lines:
                system.reply(line)
            system.ask_wanted()
        return all(self.both[0].known[it] == self.both[1].known[it] for it in lines)


def is_idle(system: System, turn: int, may_hide: dict[str, tuple[int, int]]) -> bool:
    """Whether no device is in a state that hides something."""
    words = system.reply(f"devices {turn}").split()[1:]
    status = {name: int(word, 8) for name, word in zip(words[::2], words[1::2])}
    return all(status[name] & mask == idle for name, (mask, idle) in may_hide.items())
