"""What a terminal shows of a text, against a terminal that takes it byte by byte."""
import random
import time
import unittest

from nezdrab.analysis.screen import in_characters, lines_of

BYTES = b"ab c\r\n\b\t\x1b\x00\x7f\x80\xff"
WEIGHTS = (20, 20, 5, 20, 8, 8, 8, 4, 1, 1, 1, 1, 1)


class ByteByByte:
    """Lines of a terminal, and where the next character goes."""

    def __init__(self) -> None:
        self.lines: list[list[str]] = [[]]
        self.column = 0

    def take(self, byte: int) -> None:
        if byte == 0o12:
            self.lines.append([])
        elif byte == 0o15:
            self.column = 0
        elif byte == 0o10:
            self.column = max(0, self.column - 1)
        elif byte == 0o11:
            self.column += 8 - self.column % 8
        else:
            for character in in_characters(byte):
                line = self.lines[-1]
                line.extend(" " * (self.column - len(line)))
                line[self.column : self.column + 1] = [character]
                self.column += 1

    def shown(self) -> list[str]:
        lines = ["".join(it).rstrip() for it in self.lines]
        return lines if lines[-1] else lines[:-1]


class Screen(unittest.TestCase):
    def test_as_byte_by_byte(self) -> None:
        chance = random.Random(61)
        for _ in range(2000):
            text = bytes(chance.choices(BYTES, WEIGHTS, k=chance.randrange(80)))
            slow = ByteByByte()
            for byte in text:
                slow.take(byte)
            self.assertEqual(lines_of(text), slow.shown(), text)

    def test_a_flood(self) -> None:
        """It takes about a second of processor time, and byte by byte some thirty."""
        flood, begun = b"." * 50_000_000, time.process_time()
        self.assertEqual(lines_of(flood + b"\rx\n")[0], "x" + "." * 49_999_999)
        self.assertLess(time.process_time() - begun, 15)
