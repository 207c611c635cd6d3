"""lines [--stride LIST] [FOLDER..]: compares replies of the program search with replies computed
from lines of the session language alone. FOLDER is a folder, or a stored session by its name
without ending; if none is given, some that have what each device and mapping does. Of each session
and search it takes the edits, asks what its turns are, at most 600, and asks lines of each search
after the session's own lines, with arguments that chance picks from a fixed seed. It computes
addresses by the rules of memory management, traps by registers and the vectors' words, `moves` by
explore's rules of data, and `fades` by a second run. Of `moves` each turn is asked; which cells an
act makes of which is compared, not in which order (wide_flows.py says what both mean).

Core is as small as the patches allow, and the stride is 32 if LIST doesn't say otherwise. Of a
difference it shows the session, the line, the reply, and the reply that was computed. If it can't
be decided from outside whether a turn has a trap, or whether two machines that seem the same are,
each reply that may be is right; the line before the last says of how many lines that is so. Each
form of a search must be asked. The last line is 'N passed, M failed', of replies."""
import os
import random
import re
import sys

from tests import stored_sessions as sessions, under_test
from tests.checks.computed import computed
from tests.checks.fading import right_fades
from tests.checks.picked import Picker
from tests.checks.stored_systems import NoReplies, System
from tests.checks.turn_moves import in_order

MOST_TURNS = 600
FURTHER_TURNS = 8
STRIDES = ["32"]
# With mapping, user mode, eight drives, interrupts, traps, the disk, the clock and the tape.
SYSTEMS = """
    tests/sessions/rules/memory-management tests/sessions/rules/hostile
    tests/sessions/values/memory-management/aborts-of-each-reference
    tests/sessions/values/interrupts/wait-for-the-clock examples/ledger examples/who-wrote-this-word
    examples/copy-of-a-pack examples/boot-rk0 examples/two-tasks examples/tape-to-console
    examples/text-from-disk examples/what-was-punched
    tests/sessions/rules/decoded-lines/mapped-code-at-every-turn
    tests/sessions/rules/eight-drives/copy-by-sectors tests/sessions/rules/traps/each-cause
    tests/sessions/rules/traps/red-in-a-sequence
    tests/sessions/rules/events-and-patches/order-within-a-turn
    tests/sessions/rules/searches/turns-with-traps
    tests/sessions/rules/searches/latest-turn-at-an-address
    tests/sessions/rules/searches/virtual-addresses
    tests/sessions/rules/searches/change-of-a-disk-word
    tests/sessions/rules/searches/completions-of-the-disk
    tests/sessions/rules/searches/writes-to-a-word
    tests/sessions/values/kept-states/edits-of-many-devices
    tests/sessions/values/kept-states/drives-after-edits-that-fade
""".split()
WITH_SPAN = {sessions.command_of(it) for it in sessions.SEARCHES if it.turns == sessions.SPAN}
UNITS = 31
PATCH = re.compile("core +([0-7]{1,10}) ")


def lines_of(session: sessions.Session) -> list[bytes]:
    """The session's lines that have a reply, except such as end in a CR, which a LF would drop."""
    lines = map(sessions.without_end, sessions.lines_of(session.lines))
    return [line for line in lines if sessions.has_reply(line) and not line.endswith(b"\r")]


def turns_of(session: sessions.Session, system: System) -> tuple[int, int]:
    """The first and the last turn to ask of: up to some more than the session's lines name, from
    turn 0 on, or around its first event if that comes later."""
    named = [0]
    for line in lines_of(session):
        command, words = sessions.first_word(line), sessions.words_of(line)
        if command in sessions.QUESTIONS or sessions.SEARCH_LINE.fullmatch(line):
            at = 2 if command in WITH_SPAN else 1
            named += [int(it) for it in words[at : at + 1] if it.isdigit()]
    events = system.followed.in_order()
    is_late = events and MOST_TURNS < events[0].turn < max(named)
    first = events[0].turn - MOST_TURNS // 2 if is_late else 0
    return first, min(max(named) + FURTHER_TURNS, first + MOST_TURNS)


def with_small_core(session: sessions.Session, edits: list[str]) -> sessions.Session:
    """The session with as many units of core as its patches and its image need, and one more."""
    if any(it.startswith(("--units", "--core")) for it in session.args):
        return session
    patched = [int(it[1], 8) for it in map(PATCH.match, edits) if it]
    units = min(max(patched, default=0) // 8192 + 2, UNITS)
    return session._replace(args=[*session.args, "--units", str(units)])


def sessions_named(name: str) -> list[sessions.Session]:
    """The sessions and searches of a folder, or those of this name."""
    folder = name if os.path.isdir(name) else os.path.dirname(name)
    found = sessions.sessions_of(folder) + sessions.sessions_of(folder, ".search")
    return [it for it in found if starts(it) and name in (folder, it.name)]


def starts(session: sessions.Session) -> bool:
    """Whether the program takes the session's lines: it could start, and showed no help."""
    return session.expected.status == 0 and not {"-h", "--help"} & set(session.args)


class Compared:
    """The counts of all sessions."""

    def __init__(self, strides: list[str]) -> None:
        self.strides = strides
        self.passed = self.failed = self.undecided = 0
        searches = [it for it in sessions.SEARCHES if it.kind != sessions.STEP]
        self.forms = {it.form: re.compile(sessions.pattern_of(it)) for it in searches}

    def session(self, program: str, session: sessions.Session) -> None:
        own = [it.decode("latin-1") for it in lines_of(session)]
        edits = [it for it in own if sessions.first_word(it).encode("latin-1") in sessions.EDITS]
        small = with_small_core(session, edits)
        system = System(program, small, edits)
        system.ask_turns(*turns_of(session, system))
        lines = Picker(system, random.Random(os.path.basename(session.name))).lines()
        wanted = all_computed(system, [it for it in lines if not it.startswith("fades ")])
        self.forms_left(lines)
        for one in sessions.with_strides(small, self.strides):
            searched = System(program, one, own)
            wanted["setup"] = [searched.followed.setup()]
            for line, reply in zip(lines, searched.replies_to(lines)[1]):
                may = wanted.get(line) or right_fades(system, line, reply)
                self.undecided += len(may) > 1
                told = in_order(reply) if line.startswith("moves ") else reply
                self.reply(one.name, line, told, may)

    def forms_left(self, lines: list[str]) -> None:
        """Takes away the forms that these lines have."""
        for form, pattern in list(self.forms.items()):
            if any(map(pattern.fullmatch, lines)):
                del self.forms[form]

    def reply(self, name: str, line: str, reply: str, may: list[str]) -> None:
        if reply in may:
            self.passed += 1
        else:
            self.failed += 1
            print(f"{name}: '{line}' has the reply\n{reply}\nand not\n" + "\nor ".join(may))


def all_computed(system: System, lines: list[str]) -> dict[str, list[str]]:
    """The replies that each of these lines may have."""
    found: dict[str, list[str]] = {}
    while len(found) < len(set(lines)):
        for line in lines:
            if line not in found:
                system.is_lacking = False
                may = computed(system, line)
                if not system.is_lacking:
                    found[line] = may
        system.ask_wanted()
    return found


def main() -> int:
    asked = sessions.asked(sessions.parser_of(__doc__))
    program = under_test.by_its_name("search")
    all_of = Compared(asked.strides or STRIDES)
    for folder in sessions.folders_of(asked.folders, *SYSTEMS):
        found = sessions_named(folder)
        if not found:
            print(f"{folder}: no session")
            all_of.failed += 1
        for session in found:
            try:
                all_of.session(program, session)
            except (NoReplies, LookupError, ValueError) as error:
                print(f"{session.name}: replies can't be read: {error}")
                all_of.failed += 1
    for form in all_of.forms:
        print(f"no line '{form}' was asked")
        all_of.failed += 1
    print(f"{all_of.undecided} lines may have one of several replies")
    print(f"{all_of.passed} passed, {all_of.failed} failed")
    return int(all_of.failed > 0)


if __name__ == "__main__":
    sys.exit(main())
