"""Requests for what is shown at a stop, and for what is typed there."""
from functools import partial

from ..shell.prompt import Ended
from . import memory
from .client import Client, request
from .evaluate import done, targets, watched
from .frames import SCOPES, Frame, Scope, edit_for, shown, variables
from .running import Stop
from .wire import Fields, Object


@request("stackTrace")
def stack_trace(client: Client, fields: Fields) -> Object:
    debuggee = client.it
    found, is_cut = debuggee.frames()
    first, levels = max(0, fields.number("startFrame", 0)), fields.number("levels", 0)
    chosen = found[first : first + levels] if levels > 0 else found[first:]
    explorer, sources, moved = debuggee.explorer, debuggee.sources, 1 - client.first_line
    frames = [shown(explorer, sources, it, client.name(it)) for it in chosen]
    for it in frames:
        it["line"] = it["line"] - moved if it["line"] else 0
    if is_cut:
        client.say("there may be more frames: 256 words of a stack were looked at")
    return {"stackFrames": frames, "totalFrames": len(found)}


def turn_of(client: Client, fields: Fields) -> int:
    """The turn of the frame that a request names, or the current one."""
    if not fields.has("frameId"):
        return client.explorer.turn
    frame: Frame = client.named_as(fields.number("frameId"), Frame)
    return frame.turn


@request("scopes")
def scopes(client: Client, fields: Fields) -> Object:
    frame: Frame = client.named_as(fields.number("frameId"), Frame)
    shown: list[Object] = []
    for title in SCOPES:
        is_registers = title == "Registers"
        number = client.name(Scope(title, frame.turn))
        hint = {"presentationHint": "registers"} if is_registers else {}
        it = {"name": title, "variablesReference": number, "expensive": not is_registers, **hint}
        shown.append(it)
    return {"scopes": shown}


@request("variables")
def variables_request(client: Client, fields: Fields) -> Object:
    scope = client.named_as(fields.number("variablesReference"), Scope)
    found = variables(client.explorer, scope)
    first, count = max(0, fields.number("start", 0)), fields.number("count", 0)
    chosen = found[first : first + count] if count > 0 else found[first:]
    return {"variables": [it.shown() for it in chosen]}


@request("setVariable")
def set_variable(client: Client, fields: Fields) -> Object:
    scope = client.named_as(fields.number("variablesReference"), Scope)
    name, value = fields.text("name"), fields.text("value")
    edit = edit_for(client.explorer, scope, name, value)
    done(client.it.prompt, edit, client.explorer.turn)
    client.say(edit)
    after = next(it for it in variables(client.explorer, scope) if it.name == name)
    tell_of_edits(client)
    return {"value": after.value}


@request("readMemory")
def read_memory(client: Client, fields: Fields) -> Object:
    return memory.read(client.explorer, fields)


@request("disassemble")
def disassemble(client: Client, fields: Fields) -> Object:
    found = list(memory.disassembled(client.explorer, client.it.sources, fields))
    for it in found:
        if "line" in it:
            it["line"] -= 1 - client.first_line
    return {"instructions": found}


# What is typed


@request("evaluate")
def evaluate(client: Client, fields: Fields) -> Object:
    text, explorer = fields.text("expression"), client.explorer
    if fields.text("context", "repl") != "repl":
        return watched(explorer, text, turn_of(client, fields))
    before = {it.number for it in explorer.breakpoints.points}
    turn, frame = explorer.turn, client.named.get(fields.number("frameId", 0))
    of_frame = frame.turn if isinstance(frame, Frame) else turn
    shown, ends = "", []
    try:
        shown = done(client.it.prompt, text, of_frame)
    except Ended as ended:
        ends = [partial(client.terminated, ended.is_dropped)]
    finally:
        tell_of_breakpoints(client, before)
        if not tell_of_edits(client) and explorer.turn != turn:
            client.later.append(partial(client.stopped, Stop(explorer.turn, "goto")))
    client.later += ends
    return {"result": shown, "variablesReference": 0}


def tell_of_edits(client: Client) -> bool:
    """Has the editor know once the past was edited."""
    if client.it.is_changed():
        client.later.append(client.stale)
        return True
    return False


def tell_of_breakpoints(client: Client, before: set[int]) -> None:
    """Has the editor know of breakpoints that a line of the console has set and taken away."""
    points = client.explorer.breakpoints.points
    now = {it.number: it.text for it in points}
    for number in sorted(before - now.keys()):
        gone = {"id": client.it.points.editors.get(number, number), "verified": False}
        client.later.append(
            partial(client.event, "breakpoint", reason="removed", breakpoint=gone)
        )
    for number in sorted(now.keys() - before):
        new = {"id": number, "verified": True, "message": now[number]}
        client.later.append(partial(client.event, "breakpoint", reason="new", breakpoint=new))


@request("completions")
def completions(client: Client, fields: Fields) -> Object:
    column = fields.number("column") - client.first_column
    found = list(targets(client.explorer, fields.text("text"), max(0, column)))
    for it in found:
        it["start"] += client.first_column
    return {"targets": found}
