"""make media FOLDER: writes the files of examples/media/ into a folder: a program that prints
HELLO, as a paper tape of the absolute loader (hello.lda) with its listing (hello.lst), as an a.out
of Unix V7 (hello.aout), and what each of their bytes is (hello.bytes)."""
import struct
import sys
from pathlib import Path

ORIGIN, TEXT = 0o1000, 0o26  # where the tape's program is, and how far in it has its text
PRINTED = b"HELLO\r\n\0"
# The words of the program in octal, with `text` for the address of its text; label, and source.
PROGRAM = [
    ("012700 text", "START:", "MOV #TEXT,R0"),
    ("112001", "LOOP:", "MOVB (R0)+,R1     ; the next byte"),
    ("001406", "", "BEQ DONE          ; 0 is the end"),
    ("105737 177564", "WAIT:", "TSTB @#TPS        ; is the printer ready?"),
    ("100375", "", "BPL WAIT"),
    ("110137 177566", "", "MOVB R1,@#TPB     ; print it"),
    ("000770", "", "BR LOOP"),
    ("000000", "DONE:", "HALT"),
]
Group = tuple[bytes, str]  # some bytes, and what they are
CONSTANTS = [("TPB", 0o177566), ("TPS", 0o177564)]
TAPE, AOUT = "hello.lda, a paper tape of the absolute loader", "hello.aout, an a.out of Unix V7"


def words(origin: int) -> list[list[int]]:
    """The words of each line, with the text that follows the program of this origin."""
    place = f"{origin + TEXT:06o}"
    return [[int(it, 8) for it in line.replace("text", place).split()] for line, _, _ in PROGRAM]


def code(origin: int) -> bytes:
    return b"".join(struct.pack("<H", word) for line in words(origin) for word in line)


def labels(origin: int) -> list[tuple[str, int]]:
    """The address of each label."""
    address, found = origin, []
    for line, (_, label, _) in zip(words(origin), PROGRAM):
        if label:
            found.append((label.rstrip(":"), address))
        address += 2 * len(line)
    return [*found, ("TEXT", address)]


def block(address: int, data: bytes, what: str) -> list[Group]:
    """A block of the absolute loader: its bytes, each group with what it is."""
    size, place = struct.pack("<H", 6 + len(data)), struct.pack("<H", address)
    checksum = bytes([-(1 + sum(size) + sum(place) + sum(data)) % 256])
    groups = [
        (b"\1\0", "begin of a block"),
        (size, f"count: {6 + len(data)} bytes before the checksum"),
        (place, f"address {address:06o}" if data else f"transfer address {address:06o}"),
        (data, what),
        (checksum, "checksum: with it the sum of the block is 0, modulo 256"),
    ]
    return [it for it in groups if it[0]]


def tape() -> list[Group]:
    leader = (bytes(8), "leader, blank tape; that of a real tape is longer")
    return [
        leader,
        *block(ORIGIN, code(ORIGIN), "the program, the low byte of each word first"),
        (bytes(2), "blank tape"),
        *block(ORIGIN + TEXT, PRINTED, "the text"),
        *block(ORIGIN, b"", ""),
        (bytes(8), "trailer"),
    ]


def aout() -> list[Group]:
    symbols = [
        (struct.pack("<8sHH", name.lower().encode(), kind, value), f"symbol {name.lower()}: {what}")
        for name, value in labels(0)
        for kind, what in [(3, "3, data") if name == "TEXT" else (2, "2, text")]
    ]
    text = code(0)
    size = sum(len(it) for it, _ in symbols)
    head = [
        (0o407, "0407: data follows text at once"),
        (len(text), f"{len(text)} bytes of text"),
        (len(PRINTED), f"{len(PRINTED)} bytes of data"),
        (0, "no bss"),
        (size, f"{size} bytes of symbols: a name of 8 bytes, type, value"),
        (0, "entry: 0"),
        (0, "not used"),
        (1, "there is no relocation"),
    ]
    return [
        *((struct.pack("<H", word), what) for word, what in head),
        (text, "text: the program, for address 0"),
        (PRINTED, f"data, at {TEXT:o}"),
        *symbols,
    ]


def explained(title: str, groups: list[Group]) -> list[str]:
    """A line for each eight bytes: the number of the first, the bytes in octal, what they are."""
    lines, at = ["", title], 0
    for data, what in groups:
        for first in range(0, len(data), 8):
            part = " ".join(f"{it:03o}" for it in data[first : first + 8])
            lines.append(f"{at:>5}  {part:<31}  {what if first == 0 else ''}".rstrip())
            at += len(data[first : first + 8])
    return lines


def listing() -> list[str]:
    """The layout is that of MACRO-11: number, address, words, source; at the end the symbols."""
    lines = ["HELLO   in the layout of MACRO-11, by tools/make media", "", ""]
    source = [("", f"{it:06o}", f"{name} = {it:o}") for name, it in CONSTANTS]
    source += [("", "", ".ASECT"), ("", f"{ORIGIN:06o}", f". = {ORIGIN:o}")]
    address = ORIGIN
    for line, (_, label, text) in zip(words(ORIGIN), PROGRAM):
        octal = " ".join(f"{it:06o}" for it in line)
        source.append((f"{address:06o}", octal, f"{label:<8}{text}"))
        address += 2 * len(line)
    for first in range(0, len(PRINTED), 3):
        octal = " ".join(f"{it:>6}" for it in (f"{it:03o}" for it in PRINTED[first : first + 3]))
        text = f"{'TEXT:':<8}.ASCIZ /HELLO/<15><12>" if first == 0 else ""
        source.append((f"{address + first:06o}", octal, text))
    source.append(("", f"{ORIGIN:06o}", f"{'':<8}.END START"))
    lines += [
        f"{number:>8} {address:<6} {octal:<20} {text}".rstrip()
        for number, (address, octal, text) in enumerate(source, 1)
    ]
    lines += ["", "", "Symbol table", ""]
    table = [f"{name:<6}= {value:06o}   " for name, value in CONSTANTS]
    table += [f"{name:<6}  {value:06o}   " for name, value in labels(ORIGIN)]
    table.sort()
    lines += ["   ".join(table[at : at + 4]).rstrip() for at in range(0, len(table), 4)]
    end = ORIGIN + TEXT + len(PRINTED)
    return [*lines, "", f". ABS.  {end:06o}    000", "Errors detected:  0"]


def main() -> int:
    if len(sys.argv) != 2 or sys.argv[1] in ("--help", "-h"):
        print(__doc__)
        return 0 if sys.argv[1:] in (["--help"], ["-h"]) else 2
    folder = Path(sys.argv[1])
    (folder / "hello.lda").write_bytes(b"".join(it for it, _ in tape()))
    (folder / "hello.aout").write_bytes(b"".join(it for it, _ in aout()))
    heading = "The bytes of the two media, in octal. On the left is the number of the first byte."
    lines = [heading, *explained(TAPE, tape()), *explained(AOUT, aout())]
    (folder / "hello.bytes").write_text("".join(f"{it}\n" for it in lines))
    (folder / "hello.lst").write_text("".join(f"{it}\n" for it in listing()))
    return 0


if __name__ == "__main__":
    sys.exit(main())
