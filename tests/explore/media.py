"""Files that people bring into core, as the tests make them, and tests that read such files."""
import struct
from typing import Iterable, Optional

from .explore_case import Case

FAULT = "a fault of explore"


def block(address: int, data: bytes, wrong: int = 0) -> bytes:
    """A block of the absolute loader, with a checksum that is wrong by so much."""
    body = struct.pack("<BBHH", 1, 0, 6 + len(data), address) + data
    return body + bytes([(-sum(body) + wrong) % 256])


def tape(*parts: tuple[int, bytes], start: int = 0o1000) -> bytes:
    blocks = b"".join(block(address, data) + bytes(3) for address, data in parts)
    return bytes(20) + blocks + block(start, b"") + bytes(20)


def words(*found: int) -> bytes:
    return struct.pack(f"<{len(found)}H", *found)


def program(
    magic: int = 0o407, text: bytes = b"", data: bytes = b"", bss: int = 0, entry: int = 0,
    symbols: bytes = b"", relocation: Optional[bytes] = None, names: bytes = b"",
) -> bytes:  # fmt: skip
    sizes = (len(text), len(data), bss, len(symbols), entry, 0, relocation is None)
    return words(magic, *sizes) + text + data + (relocation or b"") + symbols + names


def symbol(name: str, kind: int, value: int) -> bytes:
    return struct.pack("<8sHH", name.encode(), kind, value)


PROGRAM = program(
    text=words(0o12700, 5, 0),
    data=words(0o101, 0o102),
    bss=4,
    symbols=symbol("start", 0o42, 0) + symbol("_data", 0o43, 6) + symbol("_end", 0o44, 0o12),
)
TAPE = tape((0o1000, words(0o12700, 5, 0)), (0o2000, b"ABC"), start=0o1000)


class Media(Case):
    """A folder with files, which lines of explore read."""

    def put(self, name: str, data: bytes) -> str:
        (self.folder / name).write_bytes(data)
        return name

    def loads(self, data: bytes, lines: str, *options: str, how: str = "") -> list[str]:
        """What the lines give after a load of this file, and what the load gave."""
        self.put("it", data)
        written = self.explore(f"load it{how}\n{lines}", *options)
        self.assertEqual(self.error, "")
        return written.splitlines()

    def refuses(self, data: bytes, *said: str, how: str = "") -> None:
        """That the file isn't loaded, for a reason that is told."""
        first, *others = self.loads(data, "patches\nregs 0\n", how=how)
        self.assertTrue(first.startswith(("load: it: ", "load: it is ")), first)
        for it in said:
            self.assertIn(it, first)
        self.assertEqual(others[0], "patches 0")
        self.assertIn("PC 001000", others[1])

    def all_are_refused(self, files: Iterable[bytes]) -> list[str]:
        """That none of these files is loaded, in one run; returns the reasons."""
        names = [self.put(f"file{at}", data) for at, data in enumerate(files)]
        lines = "".join(f"load {it}\n" for it in names)
        written = self.explore(f"{lines}patches\nregs 0\n").splitlines()
        self.assertEqual(self.error, "")
        self.assertEqual(len(written), len(names) + 2, written)
        for name, line in zip(names, written):
            self.assertTrue(line.startswith(f"load: {name}: "), line)
            self.assertNotIn(FAULT, line)
        self.assertEqual(written[-2], "patches 0")
        self.assertIn("PC 001000", written[-1])
        return written[:-2]
