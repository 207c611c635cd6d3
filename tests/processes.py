"""A process and all that descend from it, by /proc: what they took of the processor, and whether
they wait. Other work of the computer changes neither."""
import os
from contextlib import suppress
from pathlib import Path

# The fields of /proc/N/stat after the name: the state, the parent, and the times in ticks of the
# process and of its children that have ended, in user and in system mode.
STATE, PARENT, TIMES = 0, 1, slice(11, 15)


def family(process: int) -> list[list[str]]:
    """The fields of a process and of all that descend from it."""
    found = {}
    for path in Path("/proc").glob("[0-9]*/stat"):
        with suppress(OSError):  # it has ended
            found[int(path.parent.name)] = path.read_text("latin-1").rpartition(")")[2].split()
    members, left = [], [process] if process in found else []
    while left:
        parent = left.pop()
        members.append(found[parent])
        left += [it for it, fields in found.items() if int(fields[PARENT]) == parent]
    return members


def seconds(process: int) -> float:
    """The seconds of the processor that they took."""
    ticks = sum(int(it) for fields in family(process) for it in fields[TIMES])
    return ticks / os.sysconf("SC_CLK_TCK")


def all_wait(process: int) -> bool:
    """Whether each of them waits, or has ended."""
    return all(fields[STATE] in ("S", "Z") for fields in family(process))
