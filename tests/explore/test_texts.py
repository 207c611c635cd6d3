"""The texts of all words, against a table of their own."""
import subprocess

from . import opcodes
from .explore_case import BUILT, SECONDS, Case


class Texts(Case):
    """The program disassemble on each of the 65,536 words."""

    def texts(self, address: int, following: tuple[int, int]) -> None:
        words = range(0o200000)
        lines = (f"{address:o} {it:o} {following[0]:o} {following[1]:o}\n" for it in words)
        ended = subprocess.run(
            [BUILT.disassembler],
            input="".join(lines),
            capture_output=True,
            text=True,
            timeout=SECONDS,
        )
        got, wanted = ended.stdout.splitlines(), opcodes.expected(address, following)
        self.assertEqual(len(got), len(wanted))
        wrong = [f"{it:06o}: {got[it]}, not {wanted[it]}" for it in words if got[it] != wanted[it]]
        self.assertEqual(wrong, [])

    def test_all_words(self) -> None:
        self.texts(0o1000, (0o10, 0o177777))

    def test_all_words_where_addresses_wrap(self) -> None:
        self.texts(0o177774, (0o100000, 0o20))

    def test_each_word_is_of_one_row(self) -> None:
        seen = [word for pattern, _ in opcodes.rows() for word in opcodes.words_of(pattern)]
        self.assertEqual(len(seen), len(set(seen)))
