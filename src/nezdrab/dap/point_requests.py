"""Requests that set breakpoints."""
from typing import Callable, Iterator, Optional

from ..analysis.explorer import Explorer
from ..core.errors import ExploreError
from ..core.places import REGISTERS, is_register, place_of
from . import memory
from .client import Client, request
from .evaluate import before
from .points import ACCESSES, DATA, FUNCTIONS, INSTRUCTIONS, LINES, VECTORS
from .sources import Place
from .frames import Scope, variables
from .wire import Fields, Object


def each_set(
    client: Client, items: Iterator[Fields], make: Callable[[Fields], Object]
) -> Object:
    """Sets breakpoints. One that can't be set isn't verified, and says why."""
    shown: list[Object] = []
    for it in items:
        try:
            shown.append({"verified": True, **client.it.points.made(it, make)})
        except ExploreError as error:
            line = {"line": it.values["line"]} if type(it.values.get("line")) is int else {}
            shown.append({"verified": False, "message": str(error), **line})
    return {"breakpoints": shown}


@request("setBreakpoints")
def set_breakpoints(client: Client, fields: Fields) -> Object:
    points, path = client.it.points, fields.inside("source").path("path", "")
    moved = 1 - client.first_line
    points.clear(LINES, path)
    return each_set(
        client, fields.objects("breakpoints"), lambda it: points.of_line(path, it, moved)
    )


@request("setFunctionBreakpoints")
def set_function_breakpoints(client: Client, fields: Fields) -> Object:
    points = client.it.points
    points.clear(FUNCTIONS)
    return each_set(client, fields.objects("breakpoints"), points.of_function)


@request("setInstructionBreakpoints")
def set_instruction_breakpoints(client: Client, fields: Fields) -> Object:
    points = client.it.points
    points.clear(INSTRUCTIONS)

    def make(it: Fields) -> Object:
        place = memory.moved_place(it, "instructionReference")
        shown = memory.reference(*place)
        return {**points.of_instruction(it, place), "instructionReference": shown}

    return each_set(client, fields.objects("breakpoints"), make)


@request("setDataBreakpoints")
def set_data_breakpoints(client: Client, fields: Fields) -> Object:
    points = client.it.points
    points.clear(DATA)
    return each_set(client, fields.objects("breakpoints"), points.of_data)


@request("setExceptionBreakpoints")
def set_exception_breakpoints(client: Client, fields: Fields) -> Object:
    points = client.it.points
    points.clear(VECTORS)
    named = [Fields({"filterId": it}, fields.request) for it in fields.texts("filters")]
    items = iter([*named, *fields.objects("filterOptions")])
    return each_set(
        client,
        items,
        lambda it: points.of_vector(it.text("filterId"), it.text("condition", "")),
    )


@request("dataBreakpointInfo")
def data_breakpoint_info(client: Client, fields: Fields) -> Object:
    """Whether accesses to what is named can be found: those of words of core and of registers on
    the bus can."""
    name, core = fields.text("name"), None
    at_turn = before(client.explorer, client.explorer.turn)
    try:
        place = register_named(client.explorer, name)
        if place is not None:
            core, name = place, name.upper()
        elif fields.has("variablesReference"):
            scope = client.named_as(fields.number("variablesReference"), Scope)
            found = variables(client.explorer, scope)
            core = next((it.core for it in found if it.name == name), None)
        elif fields.truth("asAddress", False):
            core = at_turn.core_of_expression(in_words(memory.place_of(name)))
        else:
            core = at_turn.core_of_expression(name)
    except ExploreError as error:
        return {"dataId": None, "description": f"{name}: {error}"}
    if core is None:
        described = f"{name} is no word of core, whose accesses can be found"
        return {"dataId": None, "description": described}
    where = f"{'register' if is_register(core) else 'core'} {core:06o}"
    return {
        "dataId": f"core {core:o}",
        "description": where if where.endswith(name) else f"{name}, {where}",
        "accessTypes": list(ACCESSES),
        "canPersist": True,
    }


def register_named(explorer: Explorer, name: str) -> Optional[int]:
    """The place of a register on the bus with this name."""
    if name.upper() not in REGISTERS:
        return None
    found = place_of(explorer.machine, explorer.symbols, name)
    return found if is_register(found) else None


def in_words(place: Place) -> str:
    return f"{place.mode.value if place.mode else 'core'} {place.address:o}"


@request("breakpointLocations")
def breakpoint_locations(client: Client, fields: Fields) -> Object:
    moved, first = 1 - client.first_line, fields.number("line")
    last = fields.number("endLine", first)
    path = fields.inside("source").path("path", "")
    lines = client.it.sources.lines_between(path, first + moved, last + moved)
    return {"breakpoints": [{"line": it - moved} for it in lines]}


@request("exceptionInfo")
def exception_info(client: Client, fields: Fields) -> Object:
    found = [it for it in client.stop.points if client.it.points.group(it) == VECTORS]
    if not found:
        raise ExploreError("it didn't stop at an interrupt or a trap")
    title = found[0].text.partition(" ")[2]
    return {"exceptionId": title, "description": title, "breakMode": "always"}
