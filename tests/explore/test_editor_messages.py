"""Requests of any kind to `explore dap`, in any order and with any fields: each has its reply, a
refusal says why, and nothing is a fault."""
import random
from typing import Any, Iterator

from nezdrab.dap.adapter import FIRST
from nezdrab.dap.client import REQUESTS

from .editor import Editor, Object
from .test_editors import LISTING, OF_LEDGER, OfEditors

MESSAGES, SEED = 2_000, 1
BEGIN = ("initialize", "launch", "configurationDone")
TEXTS = (
    *("", "x", "\ud800", "\0", "\n", "\u2028x", "-1", "9" * 30, "R0", "SWR", "1000", "R0 = 5"),
    *("0x200", "0x3000010", "core 1000", "vector 60", "trap 30", "user 0", "write", "readWrite"),
    *("regs 5", "show 9", "over", "break 1000", "core 0 5", "undo", "show 7\ncore 0 7\nquit!"),
    *("repl", "watch", "instruction", str(LISTING)),
)
NUMBERS = (0, 1, 2, 3, 10, 60, 5_000, -1, -2, 1 << 31, 1 << 63, -(10**30), 10**31)
OTHERS: tuple[Any, ...] = (None, True, 1.5, float("nan"), [], {}, [[]], [{}], {"path": 5})
# The fields that requests have, and the kind of each: a type, a list of one, or an object.
SOURCE = {"path": str, "name": str}
POINT = {
    **{"line": int, "condition": str, "name": str, "dataId": str, "accessType": str},
    **{"instructionReference": str, "offset": int},
}
FIELDS: Object = {
    **{"source": SOURCE, "breakpoints": [POINT], "filters": [str], "name": str, "value": str},
    **{"filterOptions": [{"filterId": str, "condition": str}], "frameId": int, "targetId": int},
    **{"variablesReference": int, "line": int, "endLine": int, "column": int, "text": str},
    **{"expression": str, "context": str, "levels": int, "startFrame": int, "granularity": str},
    **{"start": int, "count": int, "memoryReference": str, "offset": int, "asAddress": bool},
    **{"instructionOffset": int, "instructionCount": int, "threadId": int, "stopOnEntry": bool},
}
OF_LAUNCH: Object = {
    **{"session": str, "cwd": str, "core": str, "disk": str, "start": str, "stride": int},
    **{"symbols": [{"path": str, "at": str}], "listings": [{"path": str, "first": str}]},
    **{"turn": int, "units": int},
}


def leaves(value: Any) -> Iterator[Any]:
    """The texts and numbers in a reply."""
    if isinstance(value, (list, dict)):
        for it in value if isinstance(value, list) else value.values():
            yield from leaves(it)
    elif isinstance(value, (str, int)):
        yield value


class Messages(OfEditors):
    def setUp(self) -> None:
        super().setUp()
        self.chosen = random.Random(SEED)
        self.told: list[Any] = [""]  # what replies had, of which requests may speak

    def value(self, kind: Any) -> Any:
        """A value of a kind, and now and then of another."""
        chosen = self.chosen
        if chosen.random() < 0.05:
            return chosen.choice((*OTHERS, *TEXTS, *NUMBERS))
        if isinstance(kind, list):
            return [self.value(kind[0]) for _ in range(chosen.randrange(3))]
        if isinstance(kind, dict):
            return self.fields(kind)
        told = chosen.choice(self.told)
        if type(told) is kind and chosen.random() < 0.6:
            return told
        return chosen.choice({str: TEXTS, int: NUMBERS, bool: (True, False)}[kind])

    def fields(self, kinds: Object) -> Object:
        return {it: self.value(kind) for it, kind in kinds.items() if self.chosen.random() < 0.7}

    def given(self, name: str) -> Object:
        if name == "initialize":
            return {"supportsInvalidatedEvent": self.chosen.random() < 0.5}
        if name == "launch":
            other = self.chosen.choice([*OF_LAUNCH, *[""] * len(OF_LAUNCH)])
            changed = {other: self.value(OF_LAUNCH[other])} if other else {}
            return {**OF_LEDGER, "end": 20_000, **changed}
        return self.fields(FIELDS)

    def ask(self, editor: Editor, name: str) -> bool:
        """Sends a request; returns whether it was done."""
        given = self.given(name)
        reply = editor.reply_to(editor.request(name, **given))
        if reply["success"] and name != "completions":  # no command that writes a file comes so
            self.told = [*self.told, *leaves(reply.get("body"))][-40:]
        elif not reply["success"]:
            self.assertNotEqual(reply["message"], "", (name, given))
            self.assertNotIn("a fault of explore", reply["message"], (name, given))
        return bool(reply["success"])

    def test_any_messages(self) -> None:
        """Some hundred to each adapter, up to where a line of the console ends what is debugged."""
        done, names, sent = set(), sorted(REQUESTS.keys() - {*FIRST}), 0
        while sent < MESSAGES:
            editor, left, first = self.editor(), list(BEGIN), sent
            editor.stops_due = MESSAGES
            while sent < min(first + MESSAGES // 4, MESSAGES) and not editor.is_over:
                is_next = left and self.chosen.random() < 0.5
                name = left.pop(0) if is_next else self.chosen.choice(names)
                if self.ask(editor, name):
                    done.add(name)
                sent += 1
            editor.ask("disconnect")
            editor.until_the_end()
        self.assertGreater(len(done), 25, done)
