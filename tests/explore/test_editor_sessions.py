"""How a session with an editor begins, goes wrong and ends, by `explore dap`."""
import json
import os
import random
import subprocess
import time
import unittest
from typing import Any

from nezdrab.dap.adapter import WHILE_RUNNING
from nezdrab.dap.client import REQUESTS

from .editor import SCHEMA, Editor, Object
from .explore_case import ROOT, SECONDS
from .test_calls import core
from .test_editors import OF_LEDGER, OfEditors

EXAMPLES = ROOT / "examples" / "editors"
INVALIDATED: Object = {"supportsInvalidatedEvent": True}
STOPPED = b"explore: stopped\n"
# INC R0 and BR to it, so that each turn is another one for ever.
COUNTING = core("5200 776")


class Schema(unittest.TestCase):
    def test_the_protocols_schema(self) -> None:
        if not SCHEMA.kinds:
            self.skipTest("python3-pydevd, which has the protocol's schema, isn't installed")
        self.assertGreater(len(SCHEMA.kinds), 50)
        good: Object = {"seq": 1, "type": "event", "event": "stopped", "body": {"reason": "step"}}
        self.assertEqual(SCHEMA.faults_of_message(good), [])
        for body in ({}, {"reason": 5}, {"reason": "step", "threadId": "1"}):
            self.assertNotEqual(SCHEMA.faults_of_message({**good, "body": body}), [], body)


class Order(OfEditors):
    def test_what_comes_when(self) -> None:
        editor = self.editor()
        self.assertIn("before initialize", editor.refused("launch"))
        self.assertIn("pathFormat", editor.refused("initialize", pathFormat="uri"))
        capabilities = editor.ask("initialize", adapterID="nezdrab")
        named = "HitConditionalBreakpoints", "LogPoints", "StepBack", "ConditionalBreakpoints"
        for name in (*named, "DataBreakpoints", "DisassembleRequest"):
            self.assertIs(capabilities[f"supports{name}"], True)
        self.assertIn("already", editor.refused("initialize", adapterID="nezdrab"))
        for command in ("threads", "stackTrace", "setBreakpoints", "configurationDone", "pause"):
            self.assertIn("launch comes first", editor.refused(command, source={}), command)
        self.assertIn("launch comes first", editor.refused("goto", targetId=1))
        self.assertIn("not attached to", editor.refused("attach"))
        wrong: list[tuple[Object, str]] = [
            ({"session": "missing.session"}, "no such file"),
            ({"session": 5}, "'session' isn't a text"),
            ({"turn": 9, "end": 8}, "turn is 0 up to end"),
            ({"end": 1_000_000_001}, "is above 1000000000"),
            ({"units": 32}, "units"),
            ({"start": "1001"}, "an address, octal and even"),
            ({"symbols": ["missing.sym"]}, "missing.sym"),
            ({"symbols": [5]}, "no path and no object"),
            ({"listings": ["missing.lst"]}, "No such file"),
            ({"listings": [{"path": "x", "mode": "super"}]}, "kernel or user"),
        ]
        for launch, why in wrong:
            self.assertIn(why, editor.refused("launch", **launch), launch)
        editor.ask("launch", **OF_LEDGER, stopOnEntry=True)
        editor.until("initialized")
        self.assertIn("one run is debugged", editor.refused("launch", **OF_LEDGER))
        for command in ("continue", "stepIn", "pause"):
            self.assertIn("configurationDone comes first", editor.refused(command, threadId=1))
        self.assertIn("is no request", editor.refused("moveMountains"))
        self.assertEqual(editor.go("configurationDone"), (0, "entry"))
        self.assertIn("came already", editor.refused("configurationDone"))
        self.stays(editor, 0, "no turn comes before", "stepBack")
        self.stays(editor, 0, "no turn comes before", "reverseContinue")
        editor.ask("terminate")
        editor.until("terminated")
        self.assertIn("has ended", editor.refused("threads"))
        self.assertIn("has ended", editor.refused("goto", targetId=1))
        editor.ask("terminate")
        editor.ask("disconnect")
        editor.until_the_end()

    def test_numbers_of_an_earlier_stop(self) -> None:
        editor = self.editor()
        editor.enter(**OF_LEDGER)
        frame = editor.ask("stackTrace", threadId=1)["stackFrames"][0]["id"]
        scope = editor.ask("scopes", frameId=frame)["scopes"][0]["variablesReference"]
        editor.ask("variables", variablesReference=scope)
        editor.go("stepIn")
        for command, field, number in (
            ("scopes", "frameId", frame),
            ("variables", "variablesReference", scope),
            ("restartFrame", "frameId", 99),
        ):
            self.assertIn("earlier stop", editor.refused(command, **{field: number}))
        editor.ask("disconnect")

    def test_lines_and_columns_from_0(self) -> None:
        """An editor may count from 0."""
        shown = []
        for first in (0, 1):
            editor = self.editor()
            counts = {"linesStartAt1": bool(first), "columnsStartAt1": bool(first)}
            editor.begin(counts, **OF_LEDGER, turn=18_262)
            self.assertEqual(editor.go("configurationDone"), (18_262, "entry"))
            frame = editor.ask("stackTrace", threadId=1)["stackFrames"][0]
            target = editor.ask("completions", text="unti", column=4 + first)["targets"][0]
            path = OF_LEDGER["listings"][0]["path"]
            point = editor.ask(
                "setBreakpoints", source={"path": path}, breakpoints=[{"line": frame["line"]}]
            )["breakpoints"][0]
            self.assertEqual(point["line"], frame["line"])
            shown.append((frame["line"], target["start"]))
            editor.ask("disconnect")
        self.assertEqual([it + 1 for it in shown[0]], list(shown[1]))


class Edits(OfEditors):
    def counting(self, capabilities: Object, **launch: Any) -> Editor:
        path = self.folder / "counting.session"
        path.write_text("".join(f"{it}\n" for it in COUNTING))
        editor = self.editor()
        editor.begin(capabilities, session=str(path), **launch)
        return editor

    def test_all_is_stale_after_an_edit(self) -> None:
        editor = self.counting(INVALIDATED, turn=40)
        editor.go("configurationDone")
        self.assertEqual(editor.values("Registers")["R0"], "000024")
        frame = editor.ask("stackTrace", threadId=1)["stackFrames"][0]["id"]
        for line, wanted in (("core 1000 5300", "177754"), ("undo", "000024"), ("redo", "177754")):
            editor.type(line)
            self.assertEqual(editor.until("invalidated"), {"areas": ["all"]})
            self.assertIn("earlier stop", editor.refused("scopes", frameId=frame))
            self.assertEqual(editor.values("Registers")["R0"], wanted)
        for line, why in (("core 1001 5", "refused 3"), ("see x", "the form is"), ("run 5 x", "")):
            if why:
                self.assertIn(why, editor.refused("evaluate", expression=line, context="repl"))
        both = editor.refused("evaluate", expression="R0\ncore 1\nR1", context="repl")
        self.assertEqual(both.split("\n")[0], "177754")
        self.assertEqual([it["event"] for it in editor.events], [])
        editor.ask("disconnect")

    def test_an_editor_without_the_event_is_told_that_it_stopped(self) -> None:
        editor = self.counting({}, turn=40)
        editor.go("configurationDone")
        editor.stops_due += 1
        editor.type("core 1000 5300")
        self.assertEqual((editor.stop(), editor.text), ((40, "goto"), "the past was edited"))
        editor.ask("disconnect")

    def test_breakpoints_of_the_console(self) -> None:
        editor = self.counting(INVALIDATED, end=1_000)
        editor.go("configurationDone")
        self.assertEqual(editor.type("break 1002 if R0 = 5"), "breakpoint 1: break 1002 if R0 = 5")
        told = editor.until("breakpoint")
        self.assertEqual((told["reason"], told["breakpoint"]["id"]), ("new", 1))
        self.assertEqual(editor.go("continue"), (9, "breakpoint"))
        self.assertEqual(editor.hit, [1])
        editor.type("delete 1")
        told = editor.until("breakpoint")
        self.assertEqual((told["reason"], told["breakpoint"]["id"]), ("removed", 1))
        self.assertEqual(editor.go("continue"), (1_000, "pause"))
        editor.ask("disconnect")

    def test_variables_that_an_edit_stands_for(self) -> None:
        """Words of core before turn 0, and the switches."""
        editor = self.counting(INVALIDATED)
        editor.go("configurationDone")
        editor.type("core 0 5")
        editor.until("invalidated")
        number = {it["name"]: it["variablesReference"] for it in self.scopes(editor)}
        asked = {"variablesReference": number["Stack"], "name": "000000", "value": "7"}
        shown = editor.ask("setVariable", **asked)
        self.assertEqual(shown, {"value": "000007"})
        editor.until("invalidated")
        self.assertEqual(editor.type("mem 0 0 1"), "mem 000007")
        number = {it["name"]: it["variablesReference"] for it in self.scopes(editor)}
        for scope, name, why in (
            ("Registers", "R0", "R0 before turn 0 is what power-up makes it"),
            ("Registers", "PC", "what power-up makes it: `start` of launch is another"),
            ("Devices", "SWR", "what power-up makes it: at 0 switches 7 sets it in turn 0"),
        ):
            asked = {"variablesReference": number[scope], "name": name, "value": "7"}
            self.assertTrue(editor.refused("setVariable", **asked).endswith(why))
        self.assertIn("output", {it["event"] for it in editor.events})
        editor.goes_by("show 30")
        number = {it["name"]: it["variablesReference"] for it in self.scopes(editor)}
        shown = editor.ask(
            "setVariable", variablesReference=number["Devices"], name="SWR", value="12"
        )
        self.assertEqual(shown, {"value": "000012"})
        self.assertEqual(editor.values("Devices")["SWR"], "000012")
        number = {it["name"]: it["variablesReference"] for it in self.scopes(editor)}
        for scope, name, value, why in (
            ("Registers", "R0", "5", "R0 before turn 30 is what the turns before made it"),
            ("Stack", "000000", "5", "before turn 0 a word of core can be set"),
            ("Devices", "SWR", "9", "is no word"),
            ("Devices", "SWR", "200000", "is no word"),
            ("Devices", "XYZ", "1", "has no 'XYZ'"),
        ):
            asked = {"variablesReference": number[scope], "name": name, "value": value}
            self.assertIn(why, editor.refused("setVariable", **asked))
        editor.ask("disconnect")

    def scopes(self, editor: Editor) -> list[Object]:
        frame = editor.ask("stackTrace", threadId=1)["stackFrames"][0]["id"]
        found: list[Object] = editor.ask("scopes", frameId=frame)["scopes"]
        return found

    def test_pause(self) -> None:
        """It runs part by part: meanwhile breakpoints can be set, and a pause is heard."""
        editor = self.counting(INVALIDATED, stopOnEntry=False)
        editor.ask("configurationDone")
        self.assertIn("it is running", editor.refused("stackTrace", threadId=1))
        self.assertIn("it is running", editor.refused("evaluate", expression="R0"))
        self.assertEqual(len(editor.ask("threads")["threads"]), 1)
        turn, reason = editor.go("pause", threadId=1)
        self.assertEqual(reason, "pause")
        registers = editor.values("Registers")
        self.assertEqual(int(registers["R0"], 8), (turn + 1) // 2 % 65_536)
        self.assertEqual(editor.go("pause", threadId=1), (turn, "pause"))
        editor.ask("continue", threadId=1)
        shown = editor.ask("setFunctionBreakpoints", breakpoints=[{"name": "1002"}])
        self.assertTrue(shown["breakpoints"][0]["verified"])
        editor.stops_due += 1
        self.assertEqual(editor.stop()[1], "function breakpoint")
        editor.ask("disconnect")

    def test_long_work_is_stopped(self) -> None:
        """A line at work for minutes ends soon after pause, and after the editor has gone."""
        editor = self.counting(INVALIDATED)
        editor.go("configurationDone")
        line = "first 0 1000000000 at 2"
        number = editor.request("evaluate", expression=line, context="repl")
        begun = time.monotonic()
        pause = editor.request("pause", threadId=1)
        reply = editor.reply_to(number)
        self.assertEqual(reply["message"], "it was stopped; the edits are all there")
        editor.stops_due += 1
        self.assertTrue(editor.reply_to(pause)["success"])
        self.assertEqual(editor.stop(), (0, "pause"))
        self.assertEqual(editor.values("Registers")["R0"], "000000")
        editor.request("evaluate", expression=line, context="repl")
        self.ended(self.process)
        self.assertLess(time.monotonic() - begun, SECONDS)

    def test_quit_in_the_console(self) -> None:
        editor = self.counting(INVALIDATED)
        editor.go("configurationDone")
        editor.type("core 1000 5300")
        editor.type("quit!")
        editor.until("terminated")
        editor.ask("disconnect")
        self.assertEqual(list((self.folder / "state").rglob("*.journal")), [])

    def test_lines_of_which_the_last_is_quit(self) -> None:
        """Where they went and what they changed is told first."""
        for lines, turn in (("show 9\nquit", 9), ("core 1000 5300\nquit!", 0)):
            editor = self.counting({})
            editor.go("configurationDone")
            self.assertEqual(editor.goes_by(lines), (turn, "goto"))
            editor.until("terminated")
            editor.ask("disconnect")

    def test_edits_that_were_not_saved_are_kept(self) -> None:
        """Also if the editor vanishes."""
        for is_told in (True, False):
            editor = self.counting(INVALIDATED)
            editor.go("configurationDone")
            editor.type("core 1000 5300")
            if is_told:
                editor.ask("disconnect")
                editor.until("terminated")
                said = [it["body"]["output"] for it in editor.events if it["event"] == "output"]
                self.assertIn("the past isn't saved: ./explore --resume takes up 1 edit\n", said)
            self.ended(self.process)
            shown = self.explore("mem 0 1000 1\nquit!\n", "--resume")
            self.assertIn("1 edit taken up", shown)
            self.assertIn("mem 005300", shown)

    def test_what_needs_a_terminal(self) -> None:
        editor = self.counting(INVALIDATED)
        editor.go("configurationDone")
        said = editor.refused("evaluate", expression="console", context="repl")
        self.assertIn("don't come from a terminal", said)
        editor.ask("disconnect")


class Broken(OfEditors):
    """Whatever an editor sends, each request has a reply, and nothing hangs."""

    def test_messages_that_are_none(self) -> None:
        editor = self.editor()
        for body in (b"{", b"[]", b"5", b'{"seq": 1}', b"\xff\xfe", b'{"type":"request","seq":1}'):
            editor.send_bytes(b"Content-Length: %d\r\n\r\n%s" % (len(body), body))
            self.assertIn("a message is no", editor.complaint())
        editor.send({"seq": "x", "type": "request", "command": "threads"})
        self.assertIn("no seq", editor.complaint())
        editor.send_bytes(b"X-Other: 1\r\ncontent-length: 2\r\n\r\n{}")
        self.assertIn("no request", editor.complaint())
        editor.send({"seq": 1, "type": "request", "command": "initialize", "arguments": [5]})
        self.assertEqual(editor.reply_to(1)["message"], "initialize: the arguments are no object")
        editor.begin(**OF_LEDGER)
        editor.ask("disconnect")

    def test_headings_that_are_none(self) -> None:
        """Where the next message begins isn't known then: the session ends, and says why."""
        headings = (
            b"hello\r\n\r\n",
            b"POST /a:b HTTP/1.1\r\nContent-Length: 2\r\n\r\n{}",
            b"Content-Length: x\r\n\r\n{}",
            b"\r\n\r\n",
            b"Content-Length: 99999999999999\r\n\r\n{}",
            b"Content-Length: 999999999\r\n\r\n{}",
            b"Content-Length: -5\r\n\r\n{}",
            b"x" * 10_000,
        )
        for at, data in enumerate(headings):
            editor, is_launched = self.editor(), at == 0
            if is_launched:
                editor.enter(**OF_LEDGER)
            editor.send_bytes(data)
            self.assertNotEqual(editor.complaint(), "")
            if is_launched:
                editor.until("terminated")
            editor.until_the_end()

    def test_an_editor_that_vanishes(self) -> None:
        path = self.folder / "counting.session"
        path.write_text("".join(f"{it}\n" for it in COUNTING))
        for data in (b"", b"Content-Le", b"Content-Length: 500\r\n\r\n{", None):
            editor = self.editor()
            if data != b"":
                editor.begin(session=str(path), stopOnEntry=False)
            if data is None:
                editor.ask("configurationDone")  # it runs
            editor.send_bytes(data or b"")
            self.ended(self.process)
        self.process.wait(timeout=SECONDS)

    def test_a_full_disk(self) -> None:
        program, *options = self.command()
        with open("/dev/full", "w") as full:
            ended = subprocess.run(
                [program, "dap", *options],
                input=b"Content-Length: 2\r\n\r\n{}",
                env=self.environment(),
                stdout=full,
                stderr=subprocess.PIPE,
                timeout=SECONDS,
            )
        said = b"explore: the output can't be written: No space left on device\n"
        self.assertEqual((ended.returncode, ended.stderr), (1, said))

    def values(self, chosen: random.Random) -> Any:
        """Something that may stand in a field, rightly or not."""
        return chosen.choice(
            [
                *(None, True, 0, 1, 2, -1, 10**12, 1.5, "", "x", "R0", "0x200", "1000", [], [5]),
                *({}, {"path": "x"}, [{}], [{"line": 3}], [{"name": "1000"}], "\ud800\0\n"),
                *([{"dataId": "core 1000"}], [{"instructionReference": "0x200"}], ["vector 60"]),
            ]
        )

    def test_any_fields(self) -> None:
        """Each request with fields of any kind, some hundred times in all."""
        fields = (
            *("source", "breakpoints", "filters", "filterOptions", "name", "frameId", "offset"),
            *("variablesReference", "dataId", "memoryReference", "count", "instructionCount"),
            *("instructionOffset", "line", "endLine", "column", "text", "expression", "context"),
            *("levels", "startFrame", "targetId", "value", "granularity", "start", "threadId"),
        )
        chosen = random.Random(11)
        editor = self.editor()
        editor.enter(**{**OF_LEDGER, "end": 20_000})
        names = sorted(REQUESTS.keys() - {"disconnect", "terminate", "launch"})
        self.assertTrue({*WHILE_RUNNING} <= REQUESTS.keys())
        self.assertGreater(len(names), 30)
        for _ in range(15):
            for name in names:
                editor.stops_due += 1
                given = {it: self.values(chosen) for it in fields if chosen.random() < 0.6}
                reply = editor.reply_to(editor.request(name, **given))
                self.assertNotIn("a fault of explore", reply.get("message", ""), (name, given))
        number = editor.request("disconnect")
        self.assertTrue(editor.reply_to(number)["success"])


class Files(OfEditors):
    """The files in examples/editors/."""

    def test_launches_of_the_examples(self) -> None:
        """What launch.json has is what launch takes: the hunt in the ledger begins."""
        text = (EXAMPLES / "launch.json").read_text()
        configuration = json.loads(text.replace("${workspaceFolder}", str(ROOT)))
        (launch,) = configuration["configurations"]
        self.assertEqual((launch["type"], launch["request"]), ("nezdrab", "launch"))
        editor = self.editor()
        editor.enter(**launch)
        self.assertEqual(editor.names(), ["BUSY+4", "CLERK+16 (user): EMT 2 in turn 127851"])
        editor.ask("disconnect")
        extension = json.loads((EXAMPLES / "vscode" / "package.json").read_text())
        (debugger,) = extension["contributes"]["debuggers"]
        self.assertEqual(debugger["type"], launch["type"])
        attributes = debugger["configurationAttributes"]["launch"]["properties"]
        own = {"type", "request", "name"}
        self.assertLessEqual(launch.keys() - own, attributes.keys())
        self.assertTrue(os.access(EXAMPLES / "vscode" / debugger["program"], os.X_OK))
