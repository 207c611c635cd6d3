"""Breakpoints of an editor, as breakpoints of explore: `breakpoints` in the console lists them."""
import os
import re
from typing import Callable, Iterator

from ..analysis.breakpoints import Breakpoint, condition_sought, set_break, set_catch
from ..analysis.breakpoints import set_watch
from ..analysis.explorer import Explorer
from ..core.errors import ExploreError
from ..core.expressions import Before
from ..core.hardware import INTERRUPTS, TRAPS
from ..core.places import register_of
from ..core.replies import SPACES, Mode
from ..core.values import dataclass, field, replace
from .conditional import Conditional, Counted, check_hit
from .sources import Place, Sources, source
from .wire import Fields, Object

LINES, FUNCTIONS, INSTRUCTIONS = "breakpoint", "function breakpoint", "instruction breakpoint"
DATA, VECTORS = "data breakpoint", "exception"  # groups are named by the reasons of a stop
# Of each kind of access the breakpoints that it takes: whether each is at reads.
ACCESSES = {"write": (False,), "read": (True,), "readWrite": (False, True)}
NAMED = re.compile(r"(?:(user|kernel)[ \t]+)?(.*)", re.DOTALL)


def filters() -> Iterator[Object]:
    """What an editor offers as exceptions: interrupts and traps by their vectors."""
    for kind, vectors in (("vector", INTERRUPTS), ("trap", TRAPS)):
        for vector, name in vectors.items():
            title = "interrupt" if kind == "vector" else "trap"
            yield {
                "filter": f"{kind} {vector:o}",
                "label": f"{title} {vector:03o}: {name}",
                "supportsCondition": True,
                "conditionDescription": "what holds before the turn, such as R0 = 5 and user",
            }


def with_hits(point: Breakpoint, hit: str) -> Breakpoint:
    """One that holds at those hits alone, if there is a condition of them."""
    if not hit.strip():
        return point
    named = point.number, f"{point.text}, hits {hit.strip()}", point.sought, point.address
    return Counted(*named, point.is_read, point.message, of=point, hit=hit)


@dataclass
class Points:
    """Which breakpoints are of which group, and of which breakpoint of the editor each is one: a
    line may have several addresses. The editor's have the number of their first one."""

    explorer: Explorer
    sources: Sources
    groups: dict[int, str] = field(default_factory=dict)
    editors: dict[int, int] = field(default_factory=dict)
    paths: dict[int, str] = field(default_factory=dict)

    def clear(self, group: str, path: str = "") -> None:
        """Takes away those of a group; of lines those of one file."""
        points, key = self.explorer.breakpoints.points, os.path.realpath(path)
        gone = {it for it, of in self.groups.items() if of == group and self.paths[it] == key}
        points[:] = [it for it in points if it.number not in gone]

    def added(self, point: Breakpoint, group: str, path: str = "") -> Breakpoint:
        """Notes a new one."""
        self.groups[point.number], self.paths[point.number] = group, os.path.realpath(path)
        self.editors[point.number] = point.number
        return point

    def at(self, place: Place, condition: str, group: str, path: str = "") -> Breakpoint:
        mode = place.mode.value if place.mode in SPACES and place.mode else ""
        condition = condition.strip(" \t")
        return self.added(set_break(self.explorer, place.address, mode, condition), group, path)

    def with_condition(self, point: Breakpoint, condition: str, sought: str) -> None:
        """Puts one that holds under a condition in the place of this one, if there is one."""
        if sought:
            points, text = self.explorer.breakpoints.points, f"{point.text} if {condition}"
            named = point.number, text, point.sought, point.address, point.is_read
            points[points.index(point)] = Conditional(*named, condition=sought)

    def made(self, fields: Fields, make: Callable[[Fields], Object]) -> Object:
        """What the editor gets to know of a new one, which may count its hits and log."""
        hit, message = fields.text("hitCondition", ""), fields.text("logMessage", "")
        explorer, before = self.explorer, self.explorer.breakpoints.count
        if hit.strip():
            check_hit(hit)
        Before(explorer.machine, explorer.symbols, explorer.turn).filled(message)
        shown, points = make(fields), explorer.breakpoints.points
        added = [at for at, it in enumerate(points) if it.number > before]
        if hit.strip() and len(added) > 1:
            del points[added[0] :]
            raise ExploreError("hitCondition: it has several places or accesses, each with hits")
        for at in added:
            points[at] = with_hits(replace(points[at], message=message), hit)
        return shown

    # What the requests set. Each sets one, and returns what the editor gets to know of it.

    def of_line(self, path: str, fields: Fields, to_machine: int) -> Object:
        """At the line that the editor has, or at the next one with words."""
        asked = fields.number("line") + to_machine
        line, places = self.sources.from_line(path, asked)
        if not places:
            raise ExploreError("no listing has words at this line or behind it")
        condition = fields.text("condition", "")
        points = [self.at(it, condition, LINES, path) for it in places]
        self.editors.update((it.number, points[0].number) for it in points)
        return {"id": points[0].number, "line": line - to_machine, "source": source(path)}

    def of_function(self, fields: Fields) -> Object:
        """A name is of the mode that alone has it; `user NAME` and `kernel NAME` name one."""
        mode, name = NAMED.findall(fields.text("name").strip())[0]
        symbols = self.explorer.symbols
        modes = [it for it, names in symbols.numbers.items() if name in names]
        only = Mode(mode) if mode else modes[0] if len(modes) == 1 else None
        place = Place(only, symbols.number(name, only))
        return {"id": self.at(place, fields.text("condition", ""), FUNCTIONS).number}

    def of_instruction(self, fields: Fields, place: Place) -> Object:
        return {"id": self.at(place, fields.text("condition", ""), INSTRUCTIONS).number}

    def of_data(self, fields: Fields) -> Object:
        """A write or a read of a word of core, at the address in `dataId`. Of both explore has two
        breakpoints, and the editor one."""
        address = re.fullmatch(r"core ([0-7]{1,6})", fields.text("dataId"))
        if address is None:
            raise ExploreError(f"'{fields.text('dataId')}' is no dataId of dataBreakpointInfo")
        access, condition = fields.text("accessType", "write"), fields.text("condition", "")
        if access not in ACCESSES:
            raise ExploreError(f"'{access}' is no accessType: {', '.join(ACCESSES)}")
        sought = condition_sought(self.explorer, [condition]) if condition else ""
        place = register_of(self.explorer.machine, int(address[1], 8))
        numbers: list[int] = []
        for is_read in ACCESSES[access]:
            it = self.added(set_watch(self.explorer, place, is_read), DATA)
            numbers.append(it.number)
            self.with_condition(it, condition, sought)
        self.editors.update((it, numbers[0]) for it in numbers)
        return {"id": numbers[0]}

    def of_vector(self, name: str, condition: str = "") -> Object:
        if name not in {it["filter"] for it in filters()}:
            raise ExploreError(f"there is no filter '{name}'")
        sought = condition_sought(self.explorer, [condition]) if condition else ""
        kind, vector = name.split()
        point = self.added(set_catch(self.explorer, kind, int(vector, 8)), VECTORS)
        self.with_condition(point, condition, sought)
        return {"id": point.number}

    # What a stop says

    def group(self, point: Breakpoint) -> str:
        """The console's own are as those of lines."""
        return self.groups.get(point.number, LINES)

    def editors_numbers(self, points: list[Breakpoint]) -> list[int]:
        return list(dict.fromkeys(self.editors.get(it.number, it.number) for it in points))
