"""An editor for the tests: a client of the Debug Adapter Protocol that checks each message, by the
shapes below and, where python3-pydevd is installed, by the protocol's schema in that package."""
import importlib
import inspect
import json
import os
import select
import subprocess
from types import ModuleType
from typing import Any, Optional

from .explore_case import SECONDS, Case

Object = dict[str, Any]
SCHEMA_FOLDER = "_pydevd_bundle._debug_adapter"
TYPES: dict[str, Any] = {
    "string": str,
    "integer": int,
    "boolean": bool,
    "array": list,
    "object": dict,
    "number": (int, float),
}

# Shapes: a type, a set of texts, a list with the shape of its items, or the fields of an object, of
# which those with ? may be missing.
SOURCE = {"name": str, "path": str}
BREAKPOINT = {
    "id?": int,
    "verified": bool,
    "line?": int,
    "message?": str,
    "source?": SOURCE,
    "instructionReference?": str,
}
BREAKPOINTS = {"breakpoints": [BREAKPOINT]}
FRAME = {
    "id": int,
    "name": str,
    "line": int,
    "column": int,
    "source?": SOURCE,
    "canRestart": bool,
    "instructionPointerReference": str,
    "presentationHint": {"normal", "subtle"},
}
SCOPE = {"name": str, "variablesReference": int, "expensive": bool, "presentationHint?": str}
VARIABLE = {
    "name": str,
    "value": str,
    "variablesReference": int,
    "evaluateName?": str,
    "memoryReference?": str,
}
INSTRUCTION = {
    "address": str,
    "instruction": str,
    "instructionBytes?": str,
    "symbol?": str,
    "location?": SOURCE,
    "line?": int,
    "presentationHint?": {"invalid"},
}
NOTHING: Object = {}
BODIES: dict[str, Any] = {
    "initialize": dict,
    "setBreakpoints": BREAKPOINTS,
    "setFunctionBreakpoints": BREAKPOINTS,
    "setInstructionBreakpoints": BREAKPOINTS,
    "setDataBreakpoints": BREAKPOINTS,
    "setExceptionBreakpoints": BREAKPOINTS,
    "dataBreakpointInfo": {
        "dataId": (str, type(None)),
        "description": str,
        "accessTypes?": [{"read", "write", "readWrite"}],
        "canPersist?": bool,
    },
    "breakpointLocations": {"breakpoints": [{"line": int}]},
    "exceptionInfo": {"exceptionId": str, "description": str, "breakMode": {"always"}},
    "continue": {"allThreadsContinued": bool},
    "gotoTargets": {"targets": [{"id": int, "label": str, "line": int}]},
    "threads": {"threads": [{"id": int, "name": str}]},
    "stackTrace": {"stackFrames": [FRAME], "totalFrames": int},
    "scopes": {"scopes": [SCOPE]},
    "variables": {"variables": [VARIABLE]},
    "setVariable": {"value": str},
    "evaluate": {"result": str, "variablesReference": int, "memoryReference?": str},
    "readMemory": {"address": str, "unreadableBytes": int, "data?": str},
    "disassemble": {"instructions": [INSTRUCTION]},
    "loadedSources": {"sources": [SOURCE]},
    "completions": {"targets": [{"label": str, "text": str, "start": int, "length": int}]},
}
EVENTS: dict[str, Any] = {
    "initialized": NOTHING,
    "terminated": NOTHING,
    "exited": {"exitCode": int},
    "output": {"category": {"console", "stderr"}, "output": str},
    "invalidated": {"areas": [{"all"}]},
    "breakpoint": {"reason": {"new", "removed"}, "breakpoint": BREAKPOINT},
    "stopped": {
        "reason": str,
        "description": str,
        "threadId": int,
        "allThreadsStopped": bool,
        "text?": str,
        "hitBreakpointIds?": [int],
    },
}
REASONS = {
    *("entry", "step", "pause", "goto", "restart", "breakpoint", "exception"),
    *("function breakpoint", "instruction breakpoint", "data breakpoint"),
}


def fault_of(value: Any, shape: Any, where: str) -> str:
    """How a value hasn't its shape, or an empty text."""
    if isinstance(shape, set):
        return "" if value in shape else f"{where} is {value!r}, none of {sorted(shape)}"
    if isinstance(shape, list):
        if not isinstance(value, list):
            return f"{where} is no list"
        found = (fault_of(it, shape[0], f"{where}[{at}]") for at, it in enumerate(value))
        return next(filter(None, found), "")
    if isinstance(shape, dict):
        return fault_of_object(value, shape, where)
    is_right = isinstance(value, shape) and not (shape is int and isinstance(value, bool))
    return "" if is_right else f"{where} is {value!r}, no {shape}"


def fault_of_object(value: Any, shape: Object, where: str) -> str:
    if not isinstance(value, dict):
        return f"{where} is no object"
    shapes = {name.rstrip("?"): it for name, it in shape.items()}
    unknown = sorted(value.keys() - shapes.keys())
    missing = [it for it in shape if it[-1] != "?" and it not in value]
    if unknown or missing:
        return f"{where} lacks {missing}, and has {unknown} besides"
    found = (fault_of(it, shapes[name], f"{where}.{name}") for name, it in value.items())
    return next(filter(None, found), "")


class Schema:
    """The protocol's schema, as python3-pydevd has it: a class for each object."""

    def __init__(self) -> None:
        self.classes: Optional[ModuleType] = None
        self.kinds: dict[tuple[str, str], Any] = {}
        try:
            self.classes = importlib.import_module(f"{SCHEMA_FOLDER}.pydevd_schema")
            base = importlib.import_module(f"{SCHEMA_FOLDER}.pydevd_base_schema")
        except ImportError:
            return
        self.kinds = {
            **{("response", name): it for name, it in base._responses_to_types.items()},
            **{("event", name): it for name, it in base._event_to_types.items()},
        }

    def faults_of_message(self, message: Object) -> list[str]:
        name = str(message.get("command") or message.get("event"))
        found = self.kinds.get((message["type"], name))
        if self.classes and message["type"] == "response" and not message["success"]:
            found = self.classes.ErrorResponse
        return [] if found is None else self.faults(found, message, name)

    def faults(self, kind: Any, value: Object, where: str) -> list[str]:
        """How an object isn't one of this class. Fields younger than it are passed over."""
        needed = [
            name
            for name, it in inspect.signature(kind.__init__).parameters.items()
            if it.default is inspect.Parameter.empty and it.kind != it.VAR_KEYWORD
        ]
        found = [f"{where}.{it} is missing" for it in needed if it not in (*value, "self")]
        for name, rule in kind.__props__.items():
            if name in value:
                found += self.faults_of_field(rule, value[name], f"{where}.{name}")
        return found

    def faults_of_field(self, rule: Object, value: Any, where: str) -> list[str]:
        kind = rule.get("type")
        if isinstance(kind, dict):  # a reference to another class
            return self.faults_of_reference(kind, value, where)
        wanted = TYPES.get(kind) if isinstance(kind, str) else None
        if wanted and not isinstance(value, wanted):
            return [f"{where} is {value!r}, no {kind}"]
        if rule.get("enum") and value not in rule["enum"]:
            return [f"{where} is {value!r}, none of {rule['enum']}"]
        items, fields = rule.get("items", {}), rule.get("properties", {})
        found = [f"{where}.{it} is missing" for it in rule.get("required", []) if it not in value]
        for name in fields.keys() & value.keys() if fields else ():
            found += self.faults_of_field(fields[name], value[name], f"{where}.{name}")
        for at, it in enumerate(value if items and isinstance(value, list) else []):
            found += self.faults_of_reference(items, it, f"{where}[{at}]")
        return found

    def faults_of_reference(self, rule: Object, value: Any, where: str) -> list[str]:
        name = rule.get("$ref", "").split("/")[-1]
        kind = getattr(self.classes, name, None)
        if not getattr(kind, "__props__", None):  # a text out of some
            return []
        if not isinstance(value, dict):
            return [f"{where} is no object"]
        return self.faults(kind, value, where)


SCHEMA = Schema()


class Editor:
    """A client of an adapter on pipes or on a socket, and all that it was told."""

    def __init__(self, case: Case, given: int, written: int):
        self.case, self.given, self.written = case, given, written
        self.data, self.sent, self.told = b"", 0, 0
        self.events: list[Object] = []
        self.is_launched = self.is_over = False
        self.stops_due = 0

    # Messages

    def send_bytes(self, data: bytes) -> None:
        while data:
            data = data[os.write(self.written, data) :]

    def send(self, message: Object) -> None:
        body = json.dumps(message).encode()
        self.send_bytes(b"Content-Length: %d\r\n\r\n%s" % (len(body), body))

    def request(self, command: str, **arguments: Any) -> int:
        """Sends a request, and returns its number."""
        self.sent += 1
        self.send({"seq": self.sent, "type": "request", "command": command, "arguments": arguments})
        return self.sent

    def more(self) -> bool:
        """Reads a part; false at the end."""
        ready, _, _ = select.select([self.given], [], [], SECONDS)
        self.case.assertTrue(ready, "the adapter says nothing")
        part = os.read(self.given, 65_536)
        self.data += part
        return part != b""

    def message(self) -> Optional[Object]:
        """The next message, checked; None at the end."""
        while b"\r\n\r\n" not in self.data:
            if not self.more():
                self.case.assertEqual(self.data, b"")
                return None
        head, _, self.data = self.data.partition(b"\r\n\r\n")
        name, _, length = head.partition(b": ")
        self.case.assertEqual(name, b"Content-Length")
        while len(self.data) < int(length):
            self.case.assertTrue(self.more(), "a message is cut")
        body, self.data = self.data[: int(length)], self.data[int(length) :]
        message: Object = json.loads(body)
        self.check(message)
        return message

    def check(self, message: Object) -> None:
        """That a message is one of the protocol, in its order."""
        case = self.case
        self.told += 1
        case.assertEqual(message["seq"], self.told)
        case.assertEqual(SCHEMA.faults_of_message(message), [])
        if message["type"] == "event":
            shape = {"seq": int, "type": str, "event": str, "body": EVENTS[message["event"]]}
            case.assertEqual(fault_of(message, shape, message["event"]), "")
            self.check_event(message["event"], message["body"])
        else:
            case.assertEqual(message["type"], "response")
            error = {"error": {"id": int, "format": str, "showUser": bool}}
            body = BODIES.get(message["command"]) if message["success"] else error
            fields = {"seq": int, "type": str, "request_seq": int, "command": str, "success": bool}
            shape = {**fields, **({} if message["success"] else {"message": str})}
            shape.update({} if body is None else {"body": body})
            case.assertEqual(fault_of(message, shape, message["command"]), "")

    def check_event(self, name: str, body: Object) -> None:
        self.case.assertFalse(self.is_over and name != "output", f"{name} after terminated")
        if name == "stopped":
            self.case.assertIn(body["reason"], REASONS)
            self.case.assertGreater(self.stops_due, 0, "it stops, and nothing runs")
            self.stops_due -= 1
        if name in ("initialized", "stopped"):
            self.case.assertTrue(self.is_launched, f"{name} before launch")
        self.is_over = self.is_over or name == "terminated"

    # Requests and their replies

    def reply_to(self, number: int) -> Object:
        """The reply to a request; the events before it are kept."""
        while True:
            message = self.message()
            assert message is not None, "the adapter has ended"
            if message["type"] == "response":
                self.case.assertEqual(message["request_seq"], number)
                self.is_launched |= message["command"] == "launch" and message["success"]
                return message
            self.events.append(message)

    def ask(self, command: str, **arguments: Any) -> Object:
        """The body of the reply to a request, which is done."""
        reply = self.reply_to(self.request(command, **arguments))
        self.case.assertTrue(reply["success"], reply.get("message"))
        body: Object = reply.get("body") or {}
        return body

    def refused(self, command: str, **arguments: Any) -> str:
        """Why a request isn't done."""
        reply = self.reply_to(self.request(command, **arguments))
        self.case.assertFalse(reply["success"], command)
        message: str = reply["message"]
        return message

    def until(self, name: str) -> Object:
        """The body of the next event of this name."""
        while True:
            at = next((at for at, it in enumerate(self.events) if it["event"] == name), None)
            if at is not None:
                body: Object = self.events.pop(at)["body"]
                return body
            message = self.message()
            assert message is not None and message["type"] == "event", message
            self.events.append(message)

    def go(self, command: str, **arguments: Any) -> tuple[int, str]:
        """The turn at which a request stops, and the reason."""
        self.stops_due += 1
        self.ask(command, **{"threadId": 1, **arguments})
        return self.stop()

    def until_the_end(self) -> None:
        """Reads all that comes until the adapter has ended."""
        while self.message() is not None:
            pass

    def complaint(self) -> str:
        """The next line of the debug console that complains."""
        while True:
            told = self.until("output")
            if told["category"] == "stderr":
                return str(told["output"])

    def stop(self) -> tuple[int, str]:
        body = self.until("stopped")
        self.hit = body.get("hitBreakpointIds", [])
        self.text = body.get("text", "")
        return int(body["description"].split()[1]), body["reason"]

    def type(self, line: str) -> str:
        """What a line of the debug console shows that stays at its turn."""
        result: str = self.ask("evaluate", expression=line, context="repl")["result"]
        return result

    def goes_by(self, line: str) -> tuple[int, str]:
        """Where a line of the debug console goes to."""
        self.stops_due += 1
        self.type(line)
        return self.stop()

    # Sessions

    def begin(self, capabilities: Optional[Object] = None, **launch: Any) -> None:
        """As an editor begins, up to where breakpoints are set."""
        self.ask("initialize", adapterID="nezdrab", **(capabilities or {}))
        self.ask("launch", **launch)
        self.until("initialized")

    def enter(self, **launch: Any) -> None:
        """Up to the first stop."""
        self.begin({"supportsInvalidatedEvent": True}, **launch)
        turn = launch.get("turn", 0)
        self.case.assertEqual(self.go("configurationDone"), (turn, "entry"))

    def names(self) -> list[str]:
        return [it["name"] for it in self.ask("stackTrace", threadId=1)["stackFrames"]]

    def values(self, scope: str, frame: int = 0) -> dict[str, str]:
        """The variables of a scope of a frame."""
        found = self.ask("stackTrace", threadId=1)["stackFrames"][frame]
        scopes = self.ask("scopes", frameId=found["id"])["scopes"]
        number = {it["name"]: it["variablesReference"] for it in scopes}[scope]
        shown = self.ask("variables", variablesReference=number)["variables"]
        return {it["name"]: it["value"] for it in shown}


class WithEditors(Case):
    """A test with editors, each with an adapter of its own, which leaves no traceback."""

    def adapter(self, *words: str) -> "subprocess.Popen[bytes]":
        program, *options = self.command()
        pipe = subprocess.PIPE
        process = subprocess.Popen(
            [program, "dap", *options, *words],
            cwd=self.folder,
            env=self.environment(),
            stdin=pipe,
            stdout=pipe,
            stderr=pipe,
        )
        self.addCleanup(self.ended, process)
        return process

    def editor(self, *words: str) -> Editor:
        self.process = self.adapter(*words)
        assert self.process.stdin and self.process.stdout
        return Editor(self, self.process.stdout.fileno(), self.process.stdin.fileno())

    def ended(
        self, process: "subprocess.Popen[bytes]", status: int = 0, said: bytes = b""
    ) -> None:
        """That an adapter whose editor has gone ends so, and says this on standard error."""
        assert process.stdin and process.stdout and process.stderr
        if process.stderr.closed:
            return  # it was looked at already
        process.stdin.close()
        process.stdout.close()
        try:
            ended = process.wait(timeout=SECONDS)
            self.assertEqual((ended, process.stderr.read()), (status, said))
        finally:
            process.kill()
            process.wait()
            process.stderr.close()
