"""The prompt: lines of the session language go through, explore's own commands are done here."""
import re
import readline
import shlex
import sys
from pathlib import Path
from typing import Iterable, Iterator, Optional, Sequence

from ..analysis.crew import AtWork
from ..analysis.explorer import PROMPT, Explorer, Interpreter
from ..analysis.fades import MOST_TURNS
from ..analysis.quotes import RULE
from ..core import sessions
from ..core.engine import is_refused
from ..core.errors import ExploreError, LineRefused
from ..core.in_words import counted
from ..core.interrupts import INTERRUPTS, typed_line
from ..core.journal import state_folder
from ..core.language import FADING, FORMS, LISTS, OF_LANGUAGE, SEARCHES, SUMMARIES, explanation
from ..core.language import form_of, forms_of_searches, is_decimal, is_edit
from ..core.written_files import OUTPUT
from .command_table import COMMANDS, ENDS, HELP
from .display import definition_line, displays_after_move
from .foreign import BESIDE_LANGUAGE, Value, led_on, line_of, list_of, names_register, sentence
from .mapped import MAPPED_HELP, MAPPED_WORDS, in_core
from .output import LINES, Unwritable, fault_in_words, flush, put
from .topics import LINES as LINES_OF, SESSION, TOPICS, command_lines, commands_of, forms_in_lines
from .topics import language_lines, search_lines
from .wrapping import fit, page, paragraphs_of

BLANKS = " \t"
INTRODUCTION = "lines of the session language, and help, console, see, until ..; quit ends"
OWN_HELP = {
    "help": ("help [TOPIC|WORD|all]", "what there is, or what the command WORD does"),
    "quit": (
        "quit",
        "ends, as q, exit and Ctrl-D do, unless edits would be lost; quit! drops them",
    ),
}
SEARCH_HELP = (
    "With N and M it is about the turns from N on and before M, with N alone about the machine "
    "before turn N; `when` may go on to turn 1000000000. Details: docs/LANGUAGE.md, Searches"
)
FADES_HELP = (
    f"EDIT is a line of {', '.join(FADING)}, and isn't made. At a terminal explore asks this "
    "before each such edit that you type, up to the turn that was asked about last and for "
    f"{MOST_TURNS} turns at most, and says what is true of all edits since then. Details: "
    "docs/LANGUAGE.md, Searches"
)
# With `!` these overwrite a file that this run hasn't written.
WRITING = {"save", "page", "export", "sweep", "core", "disk", "covered", "log", "matters"}
# The replies of these lines of the language begin with the turn that they have found.
FINDING = ("last", "first", "latest", "change", "when", "fades")
# The commands that an empty line does again.
STEPS = {"step", "back", "reverse-continue", "reverse-over", "reverse-finish"}
STEPS |= {"continue", "over", "finish"}
CONDITION_HELP = f"A CONDITION is {sessions.CONDITIONS_HERE}"
NUMBERS = (
    "A, X, I, J, D, V, W, B and a mask K are octal, N, M, T, C, E, F and other K decimal. A and X "
    "may be a symbol, with octal numbers after + and -. A question about turn N is about the "
    "machine before it."
)
CURRENT_TURN = (
    "The current turn is the one that a line found (until, next, where, first, latest, last, "
    "change, when, fades, continue, expect) or showed (show, step, back, over, finish, see, list,"
    " calls, dump, screen, why) last, also by a line with reverse-, or where you left the "
    "console. The lines that show begin there if they name no turn, and so do `expect` and, if no "
    "event lies behind it, `type`; `until`, `next` and `continue` begin after it. Other lines, "
    "edits too, leave it as it is. The prompt at a terminal names it, if it isn't turn 0. An empty "
    "line there does the line right before it again, if that was step, back, over, finish, continue"
    " or one of these with reverse-."
)
# Topics of help that are rules: a title, and the rules.
RULES = {
    "numbers": (
        "numbers, symbols, files and texts in lines",
        NUMBERS,
        MAPPED_HELP,
        f"{RULE[0].upper()}{RULE[1:]}.",
    ),
    "turn": ("the current turn", CURRENT_TURN),
}
TOPIC_WIDTH = 11


class Ended(Exception):
    """A line has ended explore."""

    def __init__(self, is_dropped: bool):
        super().__init__()
        self.is_dropped = is_dropped


class Prompt(Interpreter):
    """Does lines, and shows what each gives."""

    def __init__(self, explorer: Explorer, echo: bool = False):
        explorer.interpreter = self
        self.completions: list[str] = []
        self.told_fault = self.done = ""  # the command that was done last
        self.repeated = ""  # the line that an empty one does again
        self.explorer = explorer
        self.echo = echo
        self.is_stopped = self.is_paged = False
        self.at_work = AtWork("")

    def show(self, lines: Iterable[str]) -> None:
        for line in lines:
            self.at_work.shows()
            put(line, self.explorer.is_terminal)

    def onecmd(self, line: str) -> bool:
        """Does one line, and tells whether it was the last one."""
        bare = line.strip(BLANKS)
        if not bare or line.startswith("#"):
            return False
        word = sessions.first_word(bare)
        name = word.rstrip("!") or word
        self.explorer.depth = 0
        self.begins(bare)
        try:
            if self.is_ended_by(line, name):
                return True
        except (BrokenPipeError, Unwritable):
            raise
        except KeyboardInterrupt:
            self.is_stopped = True
            self.show([f"\n{name}: stopped; the edits are all there"])
            INTERRUPTS.forget()
        except LineRefused:
            pass
        except (ExploreError, OSError) as error:
            self.show([f"{name}: {error}"])
        except Exception as error:
            self.show([f"{name}: {self.fault(error)}"])
        self.note(line)
        flush()
        return False

    def is_ended_by(self, line: str, name: str) -> bool:
        """Shows what a line gives, and tells whether it, or a line of its file, ends explore."""
        try:
            if name in ENDS:
                raise Ended(is_dropped=sessions.first_word(line) != name)
            with AtWork(name) as self.at_work, INTERRUPTS.allowed():
                lines: Iterable[str] = self.lines_and_displays(line)
                if name in HELP and self.is_paged:
                    text = list(lines)
                    self.at_work.shows()
                    lines = [] if page(text) else text
                self.show(lines)
        except Ended as ended:
            is_ended = self.end(ended.is_dropped)
            self.is_stopped = not is_ended
            return is_ended
        return False

    def begins(self, line: str) -> None:
        """The next edits are those of this line."""
        if self.explorer.machine.file is not None:
            self.explorer.machine.file.begins(line)

    def pasted(self, lines: Sequence[str]) -> bool:
        """Does lines that came in one piece, as a terminal gives a paste. Each is shown again
        before its replies. After Ctrl-C and after `quit` the others aren't done. Tells whether one
        was the last."""
        is_last = self.is_stopped = False
        self.repeated = ""
        for line in lines:
            if not is_last and not self.is_stopped and line.strip(BLANKS):
                put(f"{self.explorer.prompt}{line}")
                is_last = self.onecmd(line)
        return is_last

    def at_terminal(self, typed: str) -> bool:
        """Does what was typed, a line or a paste; tells whether a line was the last one. An empty
        line does again the step right before it."""
        typed = typed if typed.strip(BLANKS) else self.repeated
        first, *others = typed.replace("\r\n", "\n").split("\n")
        return self.pasted([first, *others]) if others else bool(first) and self.alone(first)

    def alone(self, line: str) -> bool:
        """Does a line that was typed alone. Its help has pages."""
        self.done = ""
        LINES.note(f"{self.explorer.prompt}{line}")
        self.is_paged = True
        is_last = self.onecmd(line)
        self.is_paged = False
        self.repeated = line if self.done in STEPS else ""
        return is_last

    def fault(self, error: Exception) -> str:
        """A fault of explore, and where the edits are."""
        file = self.explorer.machine.file
        place = f"; the edits are in {file.place}" if file and file.place else ""
        return f"{fault_in_words(error)}{place}"

    def note(self, line: str) -> None:
        """Takes in the edits that a line has made."""
        machine = self.explorer.machine
        self.explorer.steps.note(line, machine.journal)
        fault = machine.file.fault if machine.file else ""
        if fault and fault != self.told_fault:
            self.show([f"{fault}; edits are in memory alone"])
        self.told_fault = fault

    def end(self, is_dropped: bool = False) -> bool:
        """Whether explore may end. The journal stays if it has edits that weren't saved; if it
        can't be written, edits aren't dropped unasked."""
        machine, file = self.explorer.machine, self.explorer.machine.file
        if file is None:
            return True
        count = sum(len(it.edits) for it in self.explorer.steps.done)
        if is_dropped or not count or machine.journal == self.explorer.saved:
            file.remove()
            return True
        file.add(machine.journal, 0)  # what could be written by now
        edits = counted(count, "edit")
        if file.fault:
            said = "save FILE keeps the past, quit! drops it"
            self.show([f"{edits} not saved, and {file.fault}: {said}"])
            return False
        place = "" if file.is_own else f" {shlex.quote(str(file.place))}"
        self.show([f"the past isn't saved: ./explore --resume{place} takes up {edits}"])
        return True

    # Completion

    def complete(self, text: str, number: int) -> Optional[str]:
        """The completion of a word with this number, for readline."""
        if number == 0:
            from .completion import completions  # which Tab alone needs

            before = readline.get_line_buffer()[: readline.get_begidx()]
            self.completions = completions(self.explorer, before, text)
        return self.completions[number] if number < len(self.completions) else None

    # What a line does

    def lines_as_typed(self, line: str) -> Iterator[str]:
        """What a line of a file shows. Its edits are one step for `undo`."""
        bare = line.strip(BLANKS)
        if self.explorer.is_terminal or self.echo:
            yield f"{self.explorer.prompt}{line}"
        self.begins(bare)
        try:
            yield from self.lines_and_displays(line)
        except ExploreError:
            self.note(bare)
            raise
        self.note(bare)

    def lines_and_displays(self, line: str) -> Iterator[str]:
        """What a line shows, and what is displayed then."""
        yield from self.lines(line)
        done = self.done
        yield from displays_after_move(self.explorer)
        self.done = done

    def lines(self, line: str) -> Iterator[str]:
        line = self.explorer.definitions.expanded(line, str(self.explorer.turn))
        mapped = in_core(self.explorer, line)
        if mapped is not None:
            line, said = mapped
            yield said
        word = sessions.first_word(line)
        rest = line.strip(BLANKS)[len(word) :].lstrip(BLANKS)
        if not word or line.startswith("#"):  # what a defined word may stand for
            return
        if word.rstrip("!") in ENDS:
            raise Ended(is_dropped=word[-1] == "!")
        led = list_of(word, rest) or self.led_on(word, rest)
        if led:
            yield from self.lines_of_other(led, rest)
        elif word in HELP:
            yield from self.help_lines(rest)
        elif is_own(word, rest) or self.is_instruction(word, rest):
            self.done = name = word.rstrip("!")
            OUTPUT.way, OUTPUT.overwrites = f"{name}!", word != name
            yield from COMMANDS[name].lines(self.explorer, rest)
        elif word not in OF_LANGUAGE and sentence(word, rest):
            yield from self.lines_of_other(sentence(word, rest), rest, not rest or "/" in word)
        else:
            yield from self.pass_on(line)

    def lines_of_other(self, said: str, rest: str, is_done: bool = True) -> Iterator[str]:
        """What a line of gdb or SIMH shows: the sentence about it, and what the line that this
        begins with shows. An error if there is none."""
        line = line_of(said, rest) if is_done else ""
        if not line and not isinstance(said, Value):
            raise ExploreError(said)
        yield said
        yield from self.lines(line)

    def led_on(self, word: str, rest: str) -> str:
        """The sentence about a line that has the form of gdb or SIMH, and none here."""
        form = COMMANDS[word.rstrip("!")].pattern if is_own(word, rest) else None
        has_form = form is not None and form.fullmatch(rest.strip(BLANKS)) is not None
        is_ours = has_form and not names_register(self.explorer, word, rest)
        return "" if word in OF_LANGUAGE or is_ours else led_on(self.explorer, word, rest)

    def is_instruction(self, word: str, rest: str) -> bool:
        if word != "core":
            return False
        from .images import is_instruction  # which reads the assembler

        return is_instruction(rest, self.explorer.symbols)

    def pass_on(self, line: str) -> Iterator[str]:
        machine = self.explorer.machine
        line = self.explorer.symbols.line_in_octal(line, machine)
        is_looked_at = self.explorer.is_terminal and is_edit(line)
        fading = self.explorer.fading
        reply = fading.make(machine, [line])[0] if is_looked_at else machine.ask(line)
        yield reply
        if is_refused(reply):
            why = explanation(line, reply, machine.setup.version)
            yield from [f"  {why}"] if why else []
            raise LineRefused(reply)
        if is_looked_at:
            yield from fading.said(machine)
        found = re.match(rf"({'|'.join(FINDING)}) ([0-9]+)", reply)
        if found:
            self.explorer.turn = int(found[2])

    # Help

    def help_lines(self, word: str) -> list[str]:
        """The lines of help, which fit the terminal."""
        topic = [] if word in COMMANDS or not word else self.topic(word)
        found = topic or (self.about(word) if word else self.overview())
        if word in TOPICS and word in COMMANDS:
            found += ["", *self.topic(word)]
        return fit(found)

    def about(self, word: str) -> list[str]:
        """What lines that begin with this word do."""
        version = self.explorer.machine.setup.version
        lines: list[str] = []
        if word in FORMS:
            lines += [form_of(word, version), "", f"{SUMMARIES[word]}. Details: docs/LANGUAGE.md"]
        if word in SEARCHES:
            lines += [*([""] if lines else []), *forms_of_searches(word), ""]
            lines += [CONDITION_HELP, ""] if any("CONDITION" in it for it in lines) else []
            lines.append(FADES_HELP if word == "fades" else SEARCH_HELP)
            if word in BESIDE_LANGUAGE:
                lines += ["", f"{BESIDE_LANGUAGE[word]} A lists them with what each turn did"]
        if word in COMMANDS:  # also in place of a list, such as `events`
            found = COMMANDS[word]
            forms = [it.strip() for it in forms_in_lines(found.form)]
            lines += [*([""] if lines else []), *forms, "", *paragraphs_of(found.detail)]
        elif word in LISTS:
            lines += [word, "", f"{LISTS[word]}. Details: docs/LANGUAGE.md, Searches"]
        if word in OWN_HELP:
            return [" : ".join(OWN_HELP[word])]
        if word in self.explorer.definitions.lines:
            return [definition_line(word, self.explorer.definitions.lines[word])]
        if word in MAPPED_WORDS:
            lines += ["", MAPPED_HELP]
        unknown = f"there is no command '{word}'; help lists the topics"
        return lines or [f"{word}: {sentence(word)}" if sentence(word) else unknown]

    def topic(self, word: str) -> list[str]:
        """The lines of a topic, or none if there is no such topic."""
        version = self.explorer.machine.setup.version
        if word in TOPICS:
            found = TOPICS[word]
            remark = [found.remark] if found.remark else []
            return [f"{word}: {found.title}", *command_lines(commands_of(word)), *remark]
        if word == "all":
            topics = (["", *self.topic(it)] for it in (*TOPICS, *LINES_OF, *RULES))
            return [line for topic in topics for line in topic][1:]
        if word in LINES_OF:
            is_session = word == SESSION
            lines = language_lines(version) if is_session else search_lines()
            return [f"{word}: {LINES_OF[word]}", *lines, *([] if is_session else [CONDITION_HELP])]
        return [f"{word}: {RULES[word][0]}", *RULES[word][1:]] if word in RULES else []

    def overview(self) -> list[str]:
        titles = {it: TOPICS[it].title for it in TOPICS}
        titles.update({**LINES_OF, **{it: RULES[it][0] for it in RULES}, "all": "all of these"})
        lines = [f"  {it:<{TOPIC_WIDTH}}  {title}" for it, title in titles.items()]
        own = [f"  {form}: {said}" for form, said in OWN_HELP.values()]
        return ["help TOPIC has the lines of a topic, help WORD what a line does:", *lines, *own]


def is_own(word: str, rest: str) -> bool:
    """Whether a line is a command of explore. A line of the language may begin with its word. The
    commands `accesses` and `moves` have the words of the line, and show more."""
    if word in ("accesses", "moves"):
        return True
    if word in SEARCHES and is_decimal(rest[:1]):
        return False
    if word in FORMS:
        writes = word in WRITING and re.search(r"[ \t]at[ \t]+[^ \t]+$", rest)
        return word in COMMANDS and (rest.startswith("from") or bool(writes))
    return word in COMMANDS or word[-1] == "!" and word[:-1] in WRITING


def read_history(path: Optional[Path]) -> None:
    try:
        if path and path.exists():
            readline.read_history_file(path)
    except OSError:
        pass


def write_history(path: Optional[Path]) -> None:
    try:
        if path:
            path.parent.mkdir(parents=True, exist_ok=True)
            readline.set_history_length(2000)
            readline.write_history_file(path)
    except OSError:
        pass


def read_at_terminal(prompt: Prompt) -> None:
    """The loop at a terminal: line editing and history; Ctrl-C at the prompt drops the line."""
    folder = state_folder()
    path = folder / "history" if folder else None
    read_history(path)
    readline.set_completer(prompt.complete)
    readline.set_completer_delims(" \t\n")
    readline.parse_and_bind("tab: complete")
    put(INTRODUCTION)
    is_last = False
    while not is_last:
        try:
            with INTERRUPTS.allowed():
                typed = typed_line(prompt.explorer.prompt)
        except EOFError:
            put("")
            is_last = prompt.end()
        except KeyboardInterrupt:
            put("^C")
            prompt.repeated = ""
        else:
            is_last = prompt.at_terminal(typed)
    write_history(path)


def read_lines(prompt: Prompt) -> None:
    """Lines from a file or a pipe. With echo each is shown before what it gives."""
    is_last = False
    while not is_last:
        with INTERRUPTS.allowed():
            line = sys.stdin.buffer.readline()
        text = sessions.without_end(line).decode(errors="surrogateescape")
        shown = text if text.startswith("#") else f"{PROMPT}{text}"
        if text.strip(BLANKS):
            put(shown) if prompt.echo else LINES.note(shown)
        is_last = not line or prompt.onecmd(text)
    file = prompt.explorer.machine.file
    if file is not None and file.fault and not line:
        prompt.end()
