"""Requests by which a session of an editor begins and ends, and those that go on and back."""
import itertools

from ..analysis.command import SEARCHED_TURNS
from ..core.engine import LAST_TURN
from ..core.errors import ExploreError
from . import running
from .client import THREAD, Client, Debuggee, request
from .frames import Frame
from .launch import launched
from .points import filters
from .running import Stop
from .sources import source
from .wire import Fields, Object

SUPPORTED = """
    ConfigurationDoneRequest FunctionBreakpoints ConditionalBreakpoints EvaluateForHovers StepBack
    SetVariable RestartFrame GotoTargetsRequest CompletionsRequest ExceptionFilterOptions
    ExceptionInfoRequest LoadedSourcesRequest TerminateRequest DataBreakpoints ReadMemoryRequest
    DisassembleRequest CancelRequest BreakpointLocationsRequest SteppingGranularity
    InstructionBreakpoints DelayedStackTraceLoading HitConditionalBreakpoints LogPoints
""".split()


@request("initialize")
def initialize(client: Client, fields: Fields) -> Object:
    if client.is_initialized:
        raise ExploreError("initialize came already")
    if fields.text("pathFormat", "path") != "path":
        raise ExploreError("paths are taken as pathFormat path alone")
    client.is_initialized, client.capabilities = True, fields.values
    client.first_line = int(fields.truth("linesStartAt1", True))
    client.first_column = int(fields.truth("columnsStartAt1", True))
    capabilities = {f"supports{it}": True for it in SUPPORTED}
    return {**capabilities, "exceptionBreakpointFilters": list(filters())}


@request("launch")
def launch(client: Client, fields: Fields) -> None:
    if client.debuggee is not None:
        raise ExploreError("launch came already: one run is debugged at a time")
    found = launched(fields, client.programs)
    client.stops_on_entry = fields.truth("stopOnEntry", True)
    client.debuggee = Debuggee(found, client.say)

    def tell() -> None:
        for line in found.said:
            client.say(line)
        client.event("initialized")

    client.later.append(tell)


@request("attach")
def attach(client: Client, fields: Fields) -> None:
    raise ExploreError("a recorded run is launched, and not attached to: request is launch")


@request("configurationDone")
def configuration_done(client: Client, fields: Fields) -> None:
    if client.is_configured:
        raise ExploreError("configurationDone came already")
    debuggee, client.is_configured = client.it, True
    if client.stops_on_entry:
        client.later.append(lambda: client.stopped(Stop(debuggee.explorer.turn, "entry")))
    else:
        client.start(running.ahead(debuggee.explorer, debuggee.end))


@request("terminate")
def terminate(client: Client, fields: Fields) -> None:
    client.later.append(client.terminated)


@request("disconnect")
def disconnect(client: Client, fields: Fields) -> None:
    client.later.append(client.terminated)
    client.is_over = True


@request("cancel")
def cancel(client: Client, fields: Fields) -> None:
    """What is long at work was ended when this came, if anything was."""


@request("threads")
def threads(client: Client, fields: Fields) -> Object:
    return {"threads": [{"id": THREAD, "name": f"PDP-11/40 before turn {client.explorer.turn}"}]}


@request("loadedSources")
def loaded_sources(client: Client, fields: Fields) -> Object:
    return {"sources": [source(it) for it in client.it.sources.paths]}


@request("source")
def source_text(client: Client, fields: Fields) -> None:
    raise ExploreError("sources are the files of the listings, which an editor reads itself")


@request("continue")
def continue_request(client: Client, fields: Fields) -> Object:
    client.start(running.ahead(client.explorer, client.it.end))
    return {"allThreadsContinued": True}


@request("reverseContinue")
def reverse_continue(client: Client, fields: Fields) -> None:
    client.start(running.back(client.explorer))


@request("next")
def next_request(client: Client, fields: Fields) -> None:
    client.start(running.step_over(client.explorer, client.it.end))


@request("stepIn")
def step_in(client: Client, fields: Fields) -> None:
    client.start(running.step_in(client.explorer, client.it.end))


@request("stepOut")
def step_out(client: Client, fields: Fields) -> None:
    client.start(running.step_out(client.explorer, client.it.end, client.say))


@request("stepBack")
def step_back(client: Client, fields: Fields) -> None:
    is_instruction = fields.text("granularity", "") == "instruction"
    client.start(running.step_back(client.explorer, is_instruction, client.say))


@request("pause")
def pause(client: Client, fields: Fields) -> None:
    turn = client.explorer.turn
    client.check_configured()
    client.run = None
    client.later.append(lambda: client.stopped(Stop(turn, "pause")))


@request("restartFrame")
def restart_frame(client: Client, fields: Fields) -> None:
    frame: Frame = client.named_as(fields.number("frameId"), Frame)
    client.start(running.restart(frame))


@request("gotoTargets")
def goto_targets(client: Client, fields: Fields) -> Object:
    """The turn at which a line is reached next, and the one at which it was reached last, as far as
    they are in a million turns after the current one and before it."""
    explorer, moved = client.explorer, 1 - client.first_line
    path, asked = fields.inside("source").path("path", ""), fields.number("line") + moved
    line, places = client.it.sources.from_line(path, asked)
    turn, end = explorer.turn, min(explorer.turn + SEARCHED_TURNS, client.it.end)
    before = range(max(0, turn - SEARCHED_TURNS), turn)
    ways = (("first", "next", range(turn + 1, end)), ("latest", "last", before))
    found: list[Object] = []
    for place, (word, which, turns) in itertools.product(places, ways):
        mode = f" {place.mode.value}" if place.mode else ""
        sought = f"at {place.address:o}{mode}"
        at = explorer.machine.found(word, turns, sought) if turns else None
        if at is not None:
            label = f"turn {at}: the {which} time here"
            found.append({"id": at + 1, "label": label, "line": line - moved})
    return {"targets": found}


@request("goto")
def goto(client: Client, fields: Fields) -> None:
    """Goes to a turn; the number of a target is the turn's, from 1 on."""
    turn = fields.number("targetId") - 1
    if not 0 <= turn <= LAST_TURN:
        raise ExploreError(f"{turn + 1} is no target of gotoTargets")
    client.start(running.at_once(Stop(turn, "goto")))
