"""The classes of values, beside those that Python's dataclasses makes of the same text."""
import copy
import dataclasses
import pickle
import typing
from typing import Any

from nezdrab.core import values

from .machine_case import Case

TEXT = '''
@dataclass(frozen=True)
class Place:
    """A place."""
    address: int
    name: str = "none"

@dataclass
class Log:
    count: int
    lines: list[str] = field(default_factory=list)
    limit: ClassVar[int] = 3

    def __post_init__(self) -> None:
        self.twice = 2 * self.count

@dataclass(frozen=True)
class Named(Place):
    kind: str = "a"
    name: str = "other"

@dataclass
class Odd:
    value: int
    cls: int = 1
    given: int = 2
    named: int = 3

@dataclass(frozen=True)
class Own:
    words: dict[str, int]

    def __hash__(self) -> int:
        return len(self.words)

    def __repr__(self) -> str:
        return "own"
'''


def classes_by(module: Any) -> dict[str, Any]:
    found = {"dataclass": module.dataclass, "field": module.field, "ClassVar": typing.ClassVar}
    exec(TEXT, {"__name__": __name__, **found}, found)
    return found


OURS, THEIRS = classes_by(values), classes_by(dataclasses)
Place = OURS["Place"]  # where pickle looks for it
# What is done with the classes. Both have the same results, or both an error of the same kind.
CALLS = [
    *('Place(1)', 'Place(1, "a")', 'Place(name="a", address=2)', "Place()", "Place(1, 2, 3)"),
    *('Place(1, address=2)', "Place(1, other=2)", 'Place(1) == Place(1, "none")'),
    *('Place(1) == Place(2)', 'Place(1) == (1, "none")', "{Place(1): 1}[Place(1)]"),
    *('setattr(Place(1), "name", "b")', 'delattr(Place(1), "name")', "Place.__match_args__"),
    *('Place(1).name', "Place.name", "Place.__doc__", "Log(1)", 'Log(2, ["a"]).lines'),
    *('Log(1).lines is Log(1).lines', "Log(3).twice", "Log.limit", "hash(Log(1))", "Log.lines"),
    *('setattr(Log(1), "count", 5)', 'Log(1) == Log(1, [])', 'Log(1, limit=2)', 'Own({"a": 1})'),
    *('hash(Own({"a": 1}))', 'Own({"a": 1}) == Own({"a": 1})', "asdict(Log(1, [2]))"),
    *('astuple(Place(1))', 'replace(Place(1), name="b")', 'replace(Place(1), other="b")'),
    *('[it.name for it in fields(Log)]', "is_dataclass(Own)", 'copy.copy(Place(1, "c"))'),
    *("Named(1)", 'Named(1, "b", "c")', 'Named(1, kind="c")', "Named(1) == Place(1)", "Named()"),
    *("[it.name for it in fields(Named)]", "asdict(Named(2))", 'setattr(Named(1), "kind", "x")'),
    *("Odd(1)", "Odd(value=1, cls=2, given=3, named=4)", "Odd(1, named=5)", "Odd(1, 2, value=3)"),
    *('copy.deepcopy(Log(1, ["a"])).lines', "copy.deepcopy(Place(4)) == Place(4)"),
]


class Values(Case):
    def test_as_dataclasses_has_them(self) -> None:
        functions = {it: getattr(dataclasses, it) for it in ("asdict", "astuple", "replace")}
        functions.update(fields=dataclasses.fields, is_dataclass=dataclasses.is_dataclass)
        for call in CALLS:
            with self.subTest(call):
                found = [self.result(call, {**it, **functions}) for it in (OURS, THEIRS)]
                self.assertEqual(*found)

    @staticmethod
    def result(call: str, names: dict[str, Any]) -> str:
        try:
            return repr(eval(call, {"copy": copy, **names}))
        except (TypeError, AttributeError) as error:
            return (TypeError if isinstance(error, TypeError) else AttributeError).__name__

    def test_replaced(self) -> None:
        self.assertEqual(values.replace(Place(1), name="b"), Place(1, "b"))
        odd = OURS["Odd"]
        self.assertEqual(values.replace(odd(1), value=4, cls=5), odd(4, 5))
        with self.assertRaises(TypeError):
            values.replace(Place(1), other="b")

    def test_kept(self) -> None:
        self.assertEqual(pickle.loads(pickle.dumps(Place(5, "d"))), Place(5, "d"))
