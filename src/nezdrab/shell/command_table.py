"""The table of explore's own commands. The module of a command is read when it is typed."""
from collections.abc import MutableMapping
from importlib import import_module
from typing import Iterator

from ..analysis.command import READ, Command
from ..core.language import OF_LANGUAGE

HELP = ("help", "?")
ENDS = frozenset(("quit", "q", "exit"))  # the words that end explore
# Which module has which commands, in the order in which the manual page shows them.
MODULES = {
    **{"analysis.compare": "compare diff", "shell.console": "console"},
    **{"shell.edits": "undo redo drop"},
    **{"analysis.listing": "list", "analysis.dump": "dump", "analysis.profile": "profile"},
    **{"shell.load": "load symbols names", "export.covered": "covered"},
    **{"export.simh_state": "export", "analysis.script": "events save type expect"},
    **{"export.web_session": "page", "analysis.screen": "screen"},
    **{"analysis.search": "until next first where", "analysis.stepping": "step back run"},
    "analysis.calls": "calls finish reverse-finish over reverse-over",
    "analysis.breakpoints": "break watch rwatch catch breakpoints delete continue reverse-continue",
    **{"analysis.changes": "changes writers", "analysis.follow": "follow"},
    **{"analysis.accesses": "accesses", "analysis.moved_cells": "moves"},
    **{"analysis.lost": "lost", "analysis.sweep": "sweep"},
    **{"analysis.matters": "matters", "analysis.readers": "readers", "analysis.seeing": "see show"},
    **{"analysis.reduce": "reduce", "analysis.branches": "branches"},
    **{"analysis.extremes": "extremes"},
    **{"analysis.why": "why", "shell.images": "core disk", "shell.simh": "import"},
    "shell.display": "define undefine defines display undisplay",
    **{"shell.do_file": "do", "shell.log": "log"},
}


class Commands(MutableMapping[str, Command]):
    """The commands by their names."""

    def __init__(self) -> None:
        self.modules = {it: name for name, words in MODULES.items() for it in words.split()}

    def __getitem__(self, name: str) -> Command:
        if name not in READ and name in self.modules:
            import_module(f"nezdrab.{self.modules[name]}")
        return READ[name]

    def __setitem__(self, name: str, command: Command) -> None:
        self.modules.setdefault(name, "")
        READ[name] = command

    def __delitem__(self, name: str) -> None:
        del self.modules[name], READ[name]

    def __contains__(self, name: object) -> bool:
        return name in self.modules

    def __iter__(self) -> Iterator[str]:
        return iter(self.modules)

    def __len__(self) -> int:
        return len(self.modules)


COMMANDS = Commands()
WORDS = frozenset((*HELP, *ENDS, *COMMANDS, *OF_LANGUAGE))  # that lines begin with
