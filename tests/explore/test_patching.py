"""Instructions as patches of core, `core A INSTRUCTION`."""
import sys

from .explore_case import SECONDS, Case
from .terminal import AtTerminal

# A disassembler that has no instruction but HALT.
HALTS = """#!{python}
import sys
for line in sys.stdin:
    print("000000" if line.endswith(" HALT\\n") else "bad line: no", flush=True)
"""


class Patched(Case):
    """Instructions at the prompt."""

    def test_a_program_with_symbols(self) -> None:
        (self.folder / "my.symbols").write_text("LOOP 1004\nHALT 2000\n")
        lines = (
            "symbols my.symbols\ncore 1000 MOV #3,R0\ncore LOOP DEC R0\ncore loop+2 BNE Loop\n"
            "core 1010 halt\nregs 9\npatches\ncore 1010 LOOP\ncore 1010 5\n"
        )
        written = self.explore(lines).splitlines()
        self.assertEqual(
            written[1:5],
            [
                "001000  012700 000003         MOV #3,R0",
                "001004  005300                DEC R0",
                "001006  001376                BNE 1004",
                "001010  000000                HALT",
            ],
        )
        self.assertRegex(written[5], "^R0 000000 .* PC 001012 .*halted$")
        self.assertEqual(written[6], "patches 5")
        self.assertEqual(written[12:], ["refused 10 BadLine", *written[13:14], "ok"])

    def test_labels_of_the_line(self) -> None:
        lines = "core 1000 1$: SOB R0,1$\ncore 1000 LOOP:BR LOOP\ncore 1000 A:\ncore 1000 1:\n"
        self.assertEqual(
            self.explore(lines).splitlines(),
            [
                "001000  077001                SOB R0,1000",
                "001000  000777                BR 1000",
                "core: the instruction is missing",
                "refused 10 BadLine",
                "  core A W: W, a word, is octal, and '1:' has ':'",
            ],
        )

    def test_undo_takes_all_words(self) -> None:
        lines = "core 1002 7\ncore 1000 MOV #5,@#2000\nundo\npatches\nredo\npatches\n"
        written = self.explore(lines).splitlines()
        step = "core 1000 MOV #5,@#2000 (3 edits)"
        self.assertEqual(
            written[2:],
            [
                f"taken back: {step}",
                "patches 1",
                "core 001002 000007",
                f"made again: {step}",
                "patches 3",
                "core 001002 000005",
                "core 001000 012737",
                "core 001004 002000",
            ],
        )

    def test_the_place(self) -> None:
        for line, said in (
            ("core 1001 NOP", "core: the address 1001 is odd"),
            (
                "core 37774 MOV #5,@#6",
                "core: the instruction goes on to 40001, and core ends at 37777",
            ),
            ("core 37774 MOV #5,R0", "037774  012700 000005         MOV #5,R0"),
            ("core! 37776 NOP", "037776  000240                NOP"),
        ):
            written = self.explore(f"{line}\npatches\n", "--units", "2").splitlines()
            self.assertEqual(written[0], said)
            self.assertEqual(written[1] == "patches 0", said.startswith("core: "))
        high = self.explore("core 200000 BR 10\nmem 0 200000 1\n").splitlines()
        self.assertEqual(high, ["200000  000403                BR 10", "mem 000403"])

    def test_an_instruction_that_the_disassembler_has_not(self) -> None:
        stand_in = self.folder / "stand-in"
        stand_in.write_text(HALTS.format(python=sys.executable))
        stand_in.chmod(0o755)
        lines = "core 1000 HALT\ncore 1000 WAIT\ncore 1002 CLR 4\npatches\n"
        written = self.explore(lines, "--disassembler", str(stand_in)).splitlines()
        self.assertEqual(
            written,
            [
                "001000  000000                HALT",
                "core: no instruction at 1000 is 'WAIT'",
                "core: no instruction at 1002 is 'CLR 4'",
                "patches 1",
                "core 001000 000000",
            ],
        )

    def test_what_is_the_line_of_the_language(self) -> None:
        for line, said in (
            ("core 1000 7", "ok"),
            ("core 1000", "W is missing"),
            ("core 1000 7 NOP", "'NOP' is too much"),
            ("core 1000 8", "'8' has '8'"),
            ("core 1008 NOP", "'1008' has '8'"),
            ("core 12345670123 NOP", "A, an address of core, has 11 digits, more than 10"),
            ("core 1000 .WORD 5", "'.WORD' has '.'"),
            ("core my file at 6", "stands in quotes, 'single' or \"double\""),
        ):
            self.assertTrue(self.explore(f"{line}\n").endswith(f"{said}\n"), line)

    def test_no_disassembler(self) -> None:
        written = self.explore("core 1000 NOP\npatches\n", "--disassembler", "none")
        said = "without the program disassemble no instruction can be assembled"
        self.assertEqual(written, f"core: {said}\npatches 0\n")


class AtThePrompt(AtTerminal):
    """Instructions that are typed."""

    def test_edits_are_one_step_and_looked_at(self) -> None:
        self.begin("examples/first-run.session")
        self.type("regs 40\n")
        self.type("core 1000 MOV #5,R0\n")  # as it is
        self.wait_for(b"001000  012700 000005         MOV #5,R0\r\n")
        self.wait_for(b"with these 2 edits the old run again from turn 0 on\r\n")
        self.type("quit\n")
        self.assertEqual(self.child.wait(SECONDS), 0)
        written = self.explore("undo\npatches\n", "--resume").splitlines()
        self.assertEqual(written[1], "taken back: core 1000 MOV #5,R0 (2 edits)")
