"""Help by topic: which lines belong together."""
from typing import Iterable, Iterator

from ..core.language import FINDING, SUMMARIES, form_of
from ..core.values import dataclass
from .command_table import COMMANDS


@dataclass(frozen=True)
class Topic:
    """What a topic is about, its commands of explore, and what else is to be said."""

    title: str
    words: tuple[str, ...]
    remark: str = ""


# A command that no topic names belongs to `asking`.
ASKING = "asking"
TOPICS = {
    "moving": Topic(
        "from turn to turn, and to where something happens",
        ("step", "back", "over", "reverse-over", "finish", "reverse-finish", "until", "first")
        + ("next", "where", "continue", "reverse-continue", "run"),
        "Lines of searches find turns too: first, latest, change, when. See help searches.",
    ),
    ASKING: Topic(
        "what a turn did, what the machine was",
        ("show", "see", "accesses", "moves", "branches", "calls", "screen", "events", "compare")
        + ("follow", "lost", "why", "profile", "extremes"),
        "Lines of the session language ask too: regs, mem, dsk, text, last, trail, devices, pages. "
        "See help session.",
    ),
    "data": Topic(
        "words and instructions",
        ("dump", "list", "diff", "changes", "writers", "readers"),
        "Lines for it are mem, dsk, last, find, translate and others: see help session and "
        "help searches.",
    ),
    "causes": Topic(
        "what a value is made of, what became of an event, which events matter",
        ("why", "moves", "follow", "lost", "changes", "readers", "accesses", "matters", "reduce"),
    ),
    "edits": Topic(
        "other programs, keys and events, and back",
        ("core", "type", "drop", "undo", "redo", "load", "import", "events"),
        "Lines of the session language: core, uncore, disk, tape, delay, at, alter, drop and "
        "version. See help session.",
    ),
    "keys": Topic("sit at the console, type", ("console", "type", "expect", "screen")),
    "breakpoints": Topic(
        "stops of your own",
        ("break", "watch", "rwatch", "catch", "breakpoints", "delete", "continue")
        + ("reverse-continue",),
    ),
    "scripts": Topic(
        "files of lines, words of your own",
        ("do", "expect", "type", "define", "undefine", "defines", "display", "undisplay", "log"),
    ),
    "files": Topic(
        "what is read and written",
        ("load", "import", "symbols", "names", "save", "export", "core", "disk", "page", "log")
        + ("sweep", "do", "covered"),
    ),
    "trying": Topic("an event at many turns, two pasts", ("sweep", "matters", "reduce", "compare")),
}
SHOWING = ("moving", ASKING, "data")
NAMED = {word for topic in TOPICS.values() for word in topic.words}
# Topics of the program's lines and of rules; `all` has everything.
SESSION, SEARCHES = "session", "searches"
LINES = {
    SESSION: "lines of the session language (docs/LANGUAGE.md)",
    SEARCHES: "lines of searches (docs/LANGUAGE.md)",
}


def only_shows(word: str) -> bool:
    """Whether a command shows or finds something, and does nothing else."""
    return word not in NAMED or any(word in TOPICS[it].words for it in SHOWING)


def commands_of(topic: str) -> list[str]:
    """The commands of a topic, in its order; the further ones of `asking` come last."""
    others = sorted(COMMANDS.keys() - NAMED) if topic == ASKING else []
    return [it for it in (*TOPICS[topic].words, *others) if it in COMMANDS]


def forms_in_lines(form: str) -> Iterator[str]:
    yield from (f"  {part}" for part in form.split("  or  "))


def command_lines(words: Iterable[str]) -> Iterator[str]:
    """The forms of commands, and what each is for."""
    for word in words:
        yield from forms_in_lines(COMMANDS[word].form)
        yield f"      {COMMANDS[word].summary}"


def language_lines(version: int) -> Iterator[str]:
    for word, text in SUMMARIES.items():
        yield f"  {form_of(word, version)}"
        yield f"      {text}"


def search_lines() -> Iterator[str]:
    for line in FINDING:
        yield f"  {line.form}"
        yield f"      {line.summary}"
