"""What an editor is told by `explore dap`, against what explore itself says of the same turns."""
import base64
import random
from typing import Any

from nezdrab.analysis.explorer import Explorer
from nezdrab.analysis.levels import Stacks
from nezdrab.core.replies import Mode
from nezdrab.shell.command_table import COMMANDS

from .editor import Editor, Object, WithEditors
from .explore_case import ROOT
from .machines import LEDGER, OnMachine
from .test_calls import HANOI, VECTORS, core

FOLDER = ROOT / "examples" / "ledger"
LISTING = FOLDER / "ledger.lst"
OF_LEDGER: Object = {
    "session": str(FOLDER / "ledger.session"),
    "symbols": [
        {"path": str(FOLDER / "kernel.sym"), "mode": "kernel"},
        {"path": str(FOLDER / "user.sym"), "mode": "user"},
    ],
    "listings": [
        {"path": str(LISTING), "mode": "kernel", "last": "17777"},
        {"path": str(LISTING), "mode": "user", "first": "20000", "moved": "-20000"},
    ],
}
LAST, BALANCE = 238_613, 0o30000  # the last turn of the ledger, and the word


class OfEditors(OnMachine, WithEditors):
    """Editors, and an explorer of this process with the same edits."""

    def hanoi(self) -> tuple[Explorer, Object]:
        edits = [*VECTORS, *core(HANOI)]
        path = self.folder / "hanoi.session"
        path.write_text("".join(f"{it}\n" for it in edits))
        return self.explorer("", edits), {"session": str(path)}

    def ledger(self) -> Explorer:
        explorer = self.explorer(LEDGER)
        for name in ("kernel", "user"):
            list(COMMANDS["names"].lines(explorer, f"{FOLDER}/{name}.sym {name}"))
        return explorer

    def to(self, editor: Editor, turn: int) -> None:
        """Goes to a turn by the console."""
        if self.turn_of(editor) != turn:
            self.assertEqual(editor.goes_by(f"show {turn}"), (turn, "goto"))

    def stays(self, editor: Editor, turn: int, why: str, command: str, **arguments: Any) -> None:
        """That a request which can't go anywhere stops where it is, and says why. It isn't refused:
        dap-mode, once it has asked, takes it to run."""
        self.assertEqual(editor.go(command, **arguments), (turn, "pause"))
        self.assertIn(why, editor.text)
        self.assertEqual(editor.complaint(), f"{editor.text}\n")

    def turn_of(self, editor: Editor) -> int:
        name: str = editor.ask("threads")["threads"][0]["name"]
        return int(name.split()[-1])


class Shown(OfEditors):
    """What is shown at a stop."""

    def frames(self, explorer: Explorer, turn: int) -> list[tuple[int, str]]:
        """PC and what `calls` says of each level, the innermost first."""
        found = [(explorer.machine.registers(turn).pc, "")]
        for level in Stacks(explorer.machine).levels(turn):
            call = level.call
            found.append((call.pc, f": {call.kind} in turn {call.turn}"))
        return found

    def compare_stacks(self, explorer: Explorer, launch: Object, turns: list[int]) -> None:
        editor = self.editor()
        editor.enter(**launch)
        for turn in turns:
            self.to(editor, turn)
            shown = editor.ask("stackTrace", threadId=1)
            wanted = self.frames(explorer, turn)
            frames = shown["stackFrames"]
            self.assertEqual(shown["totalFrames"], len(wanted), turn)
            for frame, (pc, made) in zip(frames, wanted):
                address = int(frame["instructionPointerReference"], 16)
                in_user_mode = "(user)" in frame["name"]
                self.assertEqual((address & 0xFFFF, address >> 25), (pc, int(in_user_mode)))
                self.assertTrue(frame["name"].endswith(made), (turn, frame["name"], made))
            can_restart = [it["canRestart"] for it in frames]
            self.assertEqual(can_restart, [True] * (len(wanted) - 1) + [False])
            part = editor.ask("stackTrace", threadId=1, startFrame=1, levels=2)["stackFrames"]
            self.assertEqual([it["name"] for it in part], [it["name"] for it in frames[1:3]])
        before, edit = editor.names(), "core 1014 4"  # four disks of Hanoi
        editor.type(edit)
        self.assertEqual(explorer.machine.ask(edit), "ok")
        after = editor.names()
        wanted = self.frames(explorer, turns[-1])
        self.assertEqual([it.partition(":")[2] for it in after], [made[1:] for _, made in wanted])
        self.assertNotEqual(before, after)
        editor.ask("disconnect")

    def test_stack_is_what_calls_says(self) -> None:
        explorer, launch = self.hanoi()
        turns = random.Random(3).sample(range(1, 6_000), 25)
        self.compare_stacks(explorer, launch, [*turns, 2_000])
        turns = random.Random(4).sample(range(18_000, 130_000), 10)
        turns = [*turns, 18_262, 128_066]
        self.compare_stacks(self.ledger(), {**OF_LEDGER, "turn": 17_000}, turns)

    def test_registers_and_devices_are_those_of_each_frame(self) -> None:
        explorer, editor = self.ledger(), self.editor()
        editor.enter(**OF_LEDGER)
        for turn in (1, 18_262, 128_066):
            self.to(editor, turn)
            calls = [it.call.turn for it in Stacks(explorer.machine).levels(turn)]
            for frame, of_frame in enumerate([turn, *calls]):
                registers = explorer.machine.registers(of_frame)
                shown = editor.values("Registers", frame)
                words = {it: int(shown[it].split()[0], 8) for it in registers.words}
                self.assertEqual(words, registers.words)
                self.assertEqual(shown["PS"], f"{registers.ps:06o}  {registers.status()}")
                self.assertEqual((shown["state"], shown["turn"]), (registers.state, str(of_frame)))
                devices = {it: int(word, 8) for it, word in editor.values("Devices", frame).items()}
                self.assertEqual(devices, explorer.machine.devices(of_frame).words)
        pages = explorer.machine.pages(128_066)
        mapping = editor.values("Mapping")
        for mode in (Mode.KERNEL, Mode.USER):
            for page in range(8):
                par, pdr = pages.addresses[mode][page], pages.descriptors[mode][page]
                wanted = f"PAR {par:06o}  PDR {pdr:06o}"
                self.assertEqual(mapping[f"{mode.value} page {page}"], wanted)
        self.assertEqual(editor.values("Console")["line 2"], "A2 A1 A3 A2 =000110")
        stack = list(editor.values("Stack").items())
        self.assertEqual(stack[1], ("000774", "000020"))
        editor.ask("disconnect")

    def test_source_lines(self) -> None:
        """Each instruction of a sample is at the line of the listing that has its address."""
        explorer, editor = self.ledger(), self.editor()
        editor.enter(**OF_LEDGER)
        lines = LISTING.read_text().splitlines()
        for turn in random.Random(5).sample(range(LAST), 12):
            self.to(editor, turn)
            frame = editor.ask("stackTrace", threadId=1, levels=1)["stackFrames"][0]
            registers = explorer.machine.registers(turn)
            moved = 0o20000 if registers.mode == Mode.USER else 0
            self.assertEqual(lines[frame["line"] - 1][:6], f"{registers.pc + moved:06o}")
            self.assertEqual(frame["source"]["path"], str(LISTING))
        sources = editor.ask("loadedSources")["sources"]
        self.assertEqual(sources, [{"name": "ledger.lst", "path": str(LISTING)}])
        editor.ask("disconnect")

    def test_memory_and_instructions(self) -> None:
        explorer, editor = self.ledger(), self.editor()
        editor.enter(**{**OF_LEDGER, "turn": 128_066})
        read = editor.ask("readMemory", memoryReference="0x200", offset=1, count=600)
        words = [it for at in (0o1000, 0o2000) for it in explorer.machine.words(128_066, at, 256)]
        wanted = b"".join(it.to_bytes(2, "little") for it in words)[1:601]
        self.assertEqual((base64.b64decode(read["data"]), read["address"]), (wanted, "0x201"))
        place = explorer.machine.pages(128_066).addresses[Mode.USER][1] << 6
        read = editor.ask("readMemory", memoryReference="0x3002000", count=4)
        words = explorer.machine.words(128_066, place, 2)
        self.assertEqual(
            base64.b64decode(read["data"]), b"".join(it.to_bytes(2, "little") for it in words)
        )
        # the last page of core, and what isn't there behind it
        for reference, count, left in (("0x3dffe", 4, 2), ("0x3e000", 6, 6), ("0x1002000", 8, 8)):
            read = editor.ask("readMemory", memoryReference=reference, count=count)
            self.assertEqual(read["unreadableBytes"], left, reference)
        far = editor.ask("readMemory", memoryReference="0x200", offset=-(10**30), count=10**31)
        self.assertEqual(far["unreadableBytes"], 10**31)
        listed = list(COMMANDS["list"].lines(explorer, "kernel 1232 40 at 128066"))
        for moved, first, count in ((0, 0, 40), (5, 5, 9), (-7, 0, 12)):
            at = 0x29A if moved >= 0 else int(listed[7][:6], 8)
            shown = editor.ask(
                "disassemble",
                memoryReference=f"0x{0x1000000 + at:x}",
                instructionOffset=moved,
                instructionCount=count,
            )["instructions"]
            lines = [f"{int(it['address'], 16) & 0xFFFF:06o}  {it['instruction']}" for it in shown]
            wanted_lines = [
                f"{line[:6]}  {line[30:58].rstrip()}" for line in listed[first : first + count]
            ]
            self.assertEqual(lines, wanted_lines)
        asked = {"memoryReference": "0x200", "instructionCount": -5}
        why = "instructionCount is -5, less than 0"
        self.assertEqual(editor.refused("disassemble", **asked), why)
        asked["instructionCount"] = 10_001
        self.assertIn("10000 instructions at most", editor.refused("disassemble", **asked))
        nothing = editor.ask("disassemble", memoryReference="0x1004000", instructionCount=2)
        self.assertEqual({it["presentationHint"] for it in nothing["instructions"]}, {"invalid"})
        editor.ask("disconnect")

    def test_what_is_guessed_before_an_address(self) -> None:
        """Of what may end there the longest: MOV #100,@#177546, and not the word 177546."""
        _, launch = self.hanoi()
        editor = self.editor()
        editor.enter(**launch)
        asked = {"memoryReference": "0x20a", "instructionOffset": -2, "instructionCount": 2}
        shown = editor.ask("disassemble", **asked)["instructions"]
        self.assertEqual([it["address"] for it in shown], ["0x200", "0x204"])
        editor.ask("disconnect")

    def test_expressions(self) -> None:
        explorer, editor = self.ledger(), self.editor()
        editor.enter(**{**OF_LEDGER, "turn": 128_066})
        frame = editor.ask("stackTrace", threadId=1)["stackFrames"][1]["id"]
        machine = explorer.machine
        here, caller = machine.registers(128_066), machine.registers(127_851)
        balance = f"{machine.word(128_066, BALANCE):06o}"
        for expression, of_frame, wanted in (
            ("R3", False, f"{here.words['R3']:06o}"),
            ("pc", True, f"{caller.pc:06o}"),
            ("PC", False, f"{here.pc:06o}"),
            ("TKB", False, "000066"),
            ("BALANCE", False, balance),
            ("core 30000", False, balance),
            ("user 20000", False, balance),
            ("START", False, "012706"),
            ("mem $turn 30000 1", True, f"mem {machine.word(127_851, BALANCE):06o}"),
        ):
            more = {"frameId": frame} if of_frame else {}
            shown = editor.ask("evaluate", expression=expression, context="watch", **more)
            self.assertEqual(shown["result"], wanted, expression)
        for expression, why in (
            ("nothing", "'nothing' is no register"),
            ("core 1", "1 is odd"),
            ("kernel 40000", "no address of core before turn 128066"),
            ("core 30000 5", "can't be displayed"),
            ("type x", "can't be displayed"),
        ):
            said = editor.refused("evaluate", expression=expression, context="hover")
            self.assertIn(why, said)
        self.assertEqual(editor.type("R3"), "000101")
        typed = editor.ask("evaluate", expression="PC", context="repl", frameId=frame)
        self.assertEqual(typed["result"], f"{caller.pc:06o}")
        self.assertEqual(editor.type("PC"), f"{here.pc:06o}")
        self.assertIn("kernel 001476 (BUSY+4)", editor.type("calls"))
        found = editor.ask("completions", text="until PC TIC", column=13)["targets"]
        self.assertEqual(found, [{"label": "TICK", "text": "TICK", "start": 10, "length": 3}])
        editor.ask("disconnect")
