"""A bank that no other test has: three lines find its lost deposit, and the program says so too."""
import re
import subprocess
from typing import Sequence

from .explore_case import BUILT
from .terminal import AtTerminal

# The slips come on the tape, a clerk at the console deposits digits by his own. The balance is in
# core, at 2000, and each second slip writes it to the disk. The reader's clerk takes the balance at
# 1042 and puts it back at 1052: what the other one deposits meanwhile is overwritten.
BANK = """\
tape 1 2 3 4 5 6 7 10
delay reader 30
delay disk 60
core 60 1300
core 62 340
core 2000 100
core 1000 MOV #1000,SP
core 1004 MOV #100,@#177560
core 1012 CLR R3
core 1014 MOV #1,@#177550
core 1022 TST @#177550
core 1026 BMI 1072
core 1030 TSTB @#177550
core 1034 BPL 1022
core 1036 MOVB @#177552,R2
core 1042 MOV @#2000,R1
core 1046 ADD R2,R1
core 1050 INC R3
core 1052 MOV R1,@#2000
core 1056 BIT #1,R3
core 1062 BNE 1014
core 1064 JSR PC,@#1200
core 1070 BR 1014
core 1072 JSR PC,@#1200
core 1076 BR 1076
core 1200 CLR @#177412
core 1204 MOV #2000,@#177410
core 1212 MOV #177400,@#177406
core 1220 MOV #3,@#177404
core 1226 TSTB @#177404
core 1232 BPL 1226
core 1234 RTS PC
core 1300 MOV R0,-(SP)
core 1302 MOVB @#177562,R0
core 1306 SUB #60,R0
core 1312 ADD R0,@#2000
core 1316 MOV (SP)+,R0
core 1320 RTI
at 20 key 61
at 90 key 62
at 170 key 71
at 334 key 64
save bank
"""
END, SLIPS = 1000, 0o44
DEPOSITS = {1: 1, 2: 2, 3: 9, 4: 4}  # by event
LOST, ITS_TURN = 4, 334
BALANCE = f"dsk {END} 0 1"


class Bank(AtTerminal):
    """The hunt at a terminal, and by sessions of their own."""

    def setUp(self) -> None:
        super().setUp()
        self.explore(BANK)
        lines = (self.folder / "bank").read_text().splitlines()
        self.past = [it for it in lines if it and not it.startswith("#")]
        self.begin("bank")

    def said(self, line: str, end: bytes) -> str:
        """What a line shows up to these bytes."""
        self.type(f"{line}\n")
        return self.wait_for(end)

    def replies(self, *lines: str) -> list[str]:
        """What a session of its own replies to these lines after the past, line by line."""
        text = "\n".join([*self.past, *lines, ""])
        ended = subprocess.run(
            [BUILT.program], input=text, capture_output=True, text=True, check=True
        )
        return ended.stdout.splitlines()[len(self.past) :]

    def balance(self, *edits: str) -> int:
        return int(self.replies(*edits, BALANCE)[-1].split()[1], 8)

    def moved(self, shift: int) -> int:
        """The balance with the lost deposit's key moved."""
        return self.balance(f"alter {LOST} {ITS_TURN + shift} key 64")

    def test_three_lines_find_the_lost_deposit(self) -> None:
        why = self.said(f"why disk 0 at {END}", b"changes of disk")
        missing = re.search(r"\nmade of events [-0-9, ]+, not of (\d+)\r\n", why)
        assert missing is not None, why
        event = int(missing[1])
        self.assertEqual(event, LOST)
        follow = self.said(f"follow {event} to {END}", b"disk none")
        overwritten = r"turn (\d+): core 002000 is overwritten, with nothing of it: (.*)"
        found = re.search(overwritten, follow)
        assert found is not None, follow
        self.assertEqual(found[2].strip(), "kernel 001052 MOV R1,@#2000")
        matters = self.said(f"matters {event} within 9: {BALANCE}", b"1 event\r\n")
        row = re.search(r"\n +4 +334 +key 64 +same +by (\d+): (\d+) +by (\d+): (\d+)", matters)
        assert row is not None, matters
        self.end()
        self.check_overwriting(int(found[1]))
        self.check_moves(int(row[1]), int(row[3]), {int(row[2], 8), int(row[4], 8)})
        self.check_others()

    def check_overwriting(self, turn: int) -> None:
        """With another key the balance is another one before the turn, and the same after it."""
        other = f"alter {LOST} {ITS_TURN} key 65"
        asked = (f"mem {turn} 2000 1", f"mem {turn + 1} 2000 1", f"trail {turn + 1} 1")
        before, after, _, act = self.replies(*asked)
        self.assertEqual(act, f"{turn} 001052 instr")
        before_other, after_other, _, _ = self.replies(other, *asked)[1:]
        self.assertNotEqual(before, before_other)
        self.assertEqual(after, after_other)

    def check_moves(self, earlier: int, later: int, balances: set[int]) -> None:
        """The nearest moves bring the deposit back, and none before them does anything."""
        whole = 0o100 + SLIPS + sum(DEPOSITS.values())
        self.assertEqual(balances, {whole})
        self.assertEqual({self.moved(-earlier), self.moved(later)}, {whole})
        nearer: Sequence[int] = [*range(1 - earlier, 0), *range(later)]
        self.assertEqual({self.moved(it) for it in nearer}, {whole - DEPOSITS[LOST]})

    def check_others(self) -> None:
        """What is lost is that deposit alone."""
        balance = self.balance()
        for event, amount in DEPOSITS.items():
            left = balance if event == LOST else balance - amount
            self.assertEqual(self.balance(f"drop {event}"), left, event)
