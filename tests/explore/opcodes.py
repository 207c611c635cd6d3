"""What each word is, made from the handbook's table of opcodes and nothing of explore's. In an
opcode S and D are operand specifiers (SS is a source), R a register, N six bits, X eight bits."""
from typing import Iterator

# MUL to ASHC, XOR and SOB are the extended instructions of the PDP-11/40, MFPI and MTPI those of
# memory management.
TABLE = """
000000 HALT
000001 WAIT
000002 RTI
000003 BPT
000004 IOT
000005 RESET
000006 RTT
0001DD JMP
00020R RTS
0003DD SWAB
0004XXX BR
0010XXX BNE
0014XXX BEQ
0020XXX BGE
0024XXX BLT
0030XXX BGT
0034XXX BLE
004RDD JSR
0050DD CLR
0051DD COM
0052DD INC
0053DD DEC
0054DD NEG
0055DD ADC
0056DD SBC
0057DD TST
0060DD ROR
0061DD ROL
0062DD ASR
0063DD ASL
0064NN MARK
0065SS MFPI
0066DD MTPI
0067DD SXT
01SSDD MOV
02SSDD CMP
03SSDD BIT
04SSDD BIC
05SSDD BIS
06SSDD ADD
070RSS MUL
071RSS DIV
072RSS ASH
073RSS ASHC
074RDD XOR
077RNN SOB
1000XXX BPL
1004XXX BMI
1010XXX BHI
1014XXX BLOS
1020XXX BVC
1024XXX BVS
1030XXX BCC
1034XXX BCS
1040XXX EMT
1044XXX TRAP
1050DD CLRB
1051DD COMB
1052DD INCB
1053DD DECB
1054DD NEGB
1055DD ADCB
1056DD SBCB
1057DD TSTB
1060DD RORB
1061DD ROLB
1062DD ASRB
1063DD ASLB
11SSDD MOVB
12SSDD CMPB
13SSDD BITB
14SSDD BICB
15SSDD BISB
16SSDD SUB
"""
# The condition code operators, by their low five bits. 000260 names no code.
CODES = {0o240: "NOP", 0o257: "CCC", 0o277: "SCC"}
REGISTERS = ["R0", "R1", "R2", "R3", "R4", "R5", "SP", "PC"]
MODES = ["{0}", "({0})", "({0})+", "@({0})+", "-({0})", "@-({0})", "{1}({0})", "@{1}({0})"]
OF_PC = {2: "#{0}", 3: "@#{0}"}


class Operands:
    """Takes the words that follow, one by one, and makes texts of specifiers."""

    def __init__(self, address: int, following: tuple[int, int]):
        self.next, self.following = address + 2, list(following)

    def word(self) -> int:
        self.next += 2
        return self.following.pop(0)

    def text(self, specifier: int) -> str:
        mode, register = divmod(specifier, 8)
        if register == 7 and mode in OF_PC:
            return OF_PC[mode].format(f"{self.word():o}")
        if register == 7 and mode >= 6:
            index = self.word()
            return ("@" if mode == 7 else "") + f"{(self.next + index) % 0o200000:o}"
        offset = f"{self.word():o}" if mode >= 6 else ""
        return MODES[mode].format(REGISTERS[register], offset)


def rows() -> Iterator[tuple[str, str]]:
    for line in TABLE.split("\n"):
        if line:
            pattern, name = line.split()
            yield pattern, name


def words_of(pattern: str) -> range:
    """The words of a row, which follow one another."""
    if "X" in pattern:  # the first four digits, of which the last has two bits, and eight bits
        first = int(pattern[:4], 8) << 6
        return range(first, first + 0o400)
    free = sum(1 for it in pattern if not it.isdigit())
    first = int("".join(it if it.isdigit() else "0" for it in pattern), 8)
    return range(first, first + 8**free)


def operands_of(
    pattern: str, word: int, address: int, following: tuple[int, int]
) -> tuple[int, list[str]]:
    """How many words the instruction takes, and the texts of its operands."""
    found = Operands(address, following)
    low, high = word & 0o77, word >> 6 & 0o77
    register = REGISTERS[high & 7]
    letters = pattern.lstrip("01234567")
    if letters == "SSDD":
        source = found.text(high)
        texts = [source, found.text(low)]
    elif letters == "RSS":  # the register comes second
        texts = [found.text(low), register]
    elif letters == "RDD":
        texts = [register, found.text(low)]
    elif letters in ("DD", "SS"):
        texts = [found.text(low)]
    elif letters == "R":
        texts = [REGISTERS[word & 7]]
    elif letters == "NN":
        texts = [f"{low:o}"]
    elif letters == "RNN":
        texts = [register, f"{(address + 2 - 2 * low) % 0o200000:o}"]
    elif letters == "XXX" and pattern[:3] == "104":
        texts = [f"{word & 0o377:o}"]
    elif letters == "XXX":
        offset = (word & 0o177) - (word & 0o200)
        texts = [f"{(address + 2 + 2 * offset) % 0o200000:o}"]
    else:
        texts = []
    return 3 - len(found.following), texts


def code_text(word: int) -> str:
    """CLN to CLC or SEN to SEC, the highest bit first."""
    if word in CODES:
        return CODES[word]
    verb = "SE" if word & 0o20 else "CL"
    return " ".join(
        verb + name for bit, name in ((8, "N"), (4, "Z"), (2, "V"), (1, "C")) if word & bit
    )


def expected(address: int, following: tuple[int, int]) -> dict[int, str]:
    """Count and text of each word at this address."""
    found = {word: f"1 .WORD {word:06o}" for word in range(0o200000)}
    for pattern, name in rows():
        for word in words_of(pattern):
            count, texts = operands_of(pattern, word, address, following)
            found[word] = f"{count} {name} {','.join(texts)}".rstrip()
    for word in range(0o240, 0o300):
        if code_text(word):
            found[word] = f"1 {code_text(word)}"
    return found
