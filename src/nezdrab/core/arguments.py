"""What the methods of a machine take: options, keys and events, and questions."""
from __future__ import annotations

import functools
import os
from pathlib import Path
from typing import TYPE_CHECKING, Any, Callable, Optional, SupportsIndex, TypeVar, Union

from .options import FILES, NUMBERS, Options, options_of_words, words_of_options
from .questions import Question, decimal, octal

if TYPE_CHECKING:
    from inspect import Signature

    from typing_extensions import Concatenate, ParamSpec

    from .machine import Machine

    Asked = ParamSpec("Asked")

Answer = TypeVar("Answer")
StrPath = Union[str, "os.PathLike[str]"]
Option = Union[StrPath, SupportsIndex]
Key = Union[SupportsIndex, str, bytes]
LARGEST_KEY = 0o377


class Shown:
    """What `help` shows of a method that asks: its own arguments, and its answer in place of a
    question. The signature is made when it is asked for."""

    def __init__(self, of: Callable[..., Any]):
        self.of = of

    @property
    def __signature__(self) -> Signature:
        from inspect import Parameter, signature  # which takes a while to read

        found = signature(self.of)
        itself = Parameter("self", Parameter.POSITIONAL_ONLY)
        return found.replace(
            parameters=[itself, *found.parameters.values()],
            return_annotation=found.return_annotation[len("Question[") : -1],
        )


def asks(
    of: Callable[Asked, Question[Answer]]
) -> Callable[Concatenate[Machine, Asked], Answer]:
    """The method that asks the question which this function makes."""

    @functools.wraps(of)
    def ask(machine: Machine, /, *words: Asked.args, **named: Asked.kwargs) -> Answer:
        return machine.ask(of(*words, **named))

    setattr(ask, "__wrapped__", Shown(of))
    return ask


def path_of(name: str, value: Any) -> str:
    """The path that an option is. A TypeError if it is bytes, such as those of the file."""
    path = os.fspath(value)
    if not isinstance(path, str):
        raise TypeError(f"{name} is the path of a file, a str, and not {len(path)} bytes")
    return path


def options_in_words(given: dict[str, Option]) -> Options:
    """The options of the program, as texts. Paths become absolute. A name that is none is a
    TypeError."""
    found: Options = {}
    for name, value in given.items():
        if name in FILES:
            found[name] = path_of(name, value)
        elif name in NUMBERS:
            number: Any = value
            found[name] = octal(number) if name == "start" else decimal(number)
        else:
            raise TypeError(f"a machine has no option {name!r}: {', '.join((*FILES, *NUMBERS))}")
    return options_of_words(words_of_options(found), "Machine", Path.cwd())


def key_in_octal(key: Key) -> str:
    """The byte of a key, which is a number, or one character of Latin-1."""
    if isinstance(key, (str, bytes)):
        if len(key) != 1:
            raise ValueError(f"a key is one character, and {key!r} has {len(key)}")
        key = ord(key)
        if key > LARGEST_KEY:
            raise ValueError(f"a key is a byte, and no byte of Latin-1 is {chr(key)!r}")
    return octal(key)


def event_text(event: str, key: Optional[Key], switches: Optional[SupportsIndex]) -> str:
    """An event in the words of the language; empty if none is given."""
    texts = [event] if event else []
    texts += [] if key is None else [f"key {key_in_octal(key)}"]
    texts += [] if switches is None else [f"switches {octal(switches)}"]
    if len(texts) > 1:
        raise TypeError(f"one event is given, and here are {len(texts)}: {', '.join(texts)}")
    return "".join(texts)
