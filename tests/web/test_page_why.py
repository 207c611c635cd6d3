"""What words of core and of drives are made of: each line beside explore's."""
import struct
from pathlib import Path
from typing import ClassVar, Sequence

from .explored import Explored
from .page_case import LEDGER, ROOT, OpenCase, ledger_lines, replies_of
from .test_made import LINES, STEPS, MadeCase

SESSION = LEDGER / "ledger.session"
PAST = ledger_lines()[:-2]
CURSOR, END = 126_967, 238_614
LEFT = 113
# The turn to which each line leads, or -1.
TURNS = (
    "[...document.querySelectorAll('#reasons .account li')].map(it =>"
    " Number(it.querySelector('.link')?.title.replace('Go to turn ', '') ?? -1))"
)
PLACES = (
    "[...document.querySelectorAll('.path circle')].map(it =>"
    " Number(it.getAttribute('cx')) + it.closest('svg').getBoundingClientRect().x)"
)


class WhyCase(MadeCase):
    def why(self, word: str, turn: int) -> None:
        self.go(turn)
        self.ask(word)

    def is_as_told(self, explored: Explored, word: str, turn: int) -> None:
        """All that is shown is what explore shows."""
        line = f"why {word.removeprefix('core ')} at {turn} steps {STEPS}"
        self.is_as_explored(explored, line)
        self.assertEqual(self.lines()[0], (1, explored.lines(line)[0]))
        self.assertEqual(self.browser.text("#why-turn"), f"before turn {turn}")

    def turns(self) -> list[int]:
        """The turns to which the lines lead, -1 where there is none."""
        return [int(it) for it in self.browser.value(TURNS)]


class Why(WhyCase, OpenCase):
    turn_at_first = CURSOR
    explored: ClassVar[Explored]

    @classmethod
    def setUpClass(cls) -> None:
        super().setUpClass()
        cls.explored = Explored(SESSION)
        cls.addClassCleanup(cls.explored.close)

    def test_words_that_keys_made(self) -> None:
        """A balance: on the drive, in the buffers of both clerks, and as it was written back."""
        for word, turn in ("core 30000", END), ("core 40000", 128_700), ("disk 0", 128_700):
            self.why(word, turn)
            self.is_as_told(self.explored, word, turn)
            self.assertIn("event 2: key 62", str(self.lines()))

    def test_changes_that_left_nothing_are_told(self) -> None:
        self.why("the ledger", END)
        self.is_as_told(self.explored, "disk 0", END)
        said = "Changes of disk 0000000 that left nothing in it: turn 127636 (000130 to 000136)."
        self.assertEqual(self.sentences()[-1], said)

    def test_words_from_power_up(self) -> None:
        for word in "core 1472", "core 400", "disk 7":
            self.why(word, CURSOR)
            self.is_as_told(self.explored, word, CURSOR)
        edit = "disk 7 101"
        self.type_line(edit)
        explored = Explored(SESSION, [edit])
        self.addCleanup(explored.close)
        self.why("disk 7", CURSOR)
        self.is_as_told(explored, "disk 7", CURSOR)
        self.assertIn("disk 0000007, 000101 since power-up (a patch)", self.lines()[1][1])
        self.why("1472", 0)
        self.is_as_told(explored, "core 1472", 0)

    def test_each_step_leads_to_its_turn(self) -> None:
        self.why("the ledger", 128_700)
        turns = self.turns()
        self.assertEqual(turns[0], 128_700)
        for at in range(1, 4):
            self.assertIn(f"turn {turns[at]}", self.lines()[at][1])
            self.browser.click(f"#reasons .account li:nth-child({at + 1}) .link")
            self.assertEqual(self.turn(), turns[at])
            self.wait_still()

    def test_the_path_is_drawn_and_taken_away(self) -> None:
        """Each step that has a turn is a circle there."""
        self.why("the ledger", 128_700)
        self.browser.click("button[data-key='0']")
        self.wait_still()
        left, first, span, width = self.browser.value(
            "(() => { const box = document.querySelector('#timeline').getBoundingClientRect();"
            "const words = new URLSearchParams(location.hash.slice(1));"
            "return [box.x, Number(words.get('from')), Number(words.get('turns')), box.width]; })()"
        )
        drawn = [
            round(first + (it - left - LEFT) / (width - LEFT - 11) * span)
            for it in self.browser.value(PLACES)
        ]
        wanted = [it for it in self.turns() if it >= 0]
        self.assertEqual(len(drawn), len(wanted))
        for found, turn in zip(drawn, wanted):
            self.assertAlmostEqual(found, turn, delta=span / width)
        lines = "document.querySelectorAll('.path polyline').length"
        self.assertEqual(self.browser.value(lines), len(wanted) - 1)
        self.browser.click("#why-none")
        self.assertEqual(self.browser.value(PLACES), [])

    def test_a_word_is_asked_about_where_it_is_shown(self) -> None:
        self.browser.value(
            "document.querySelector('#inspect-space').value = 'user';"
            "document.querySelector('#inspect-from').value = '20000';"
            "document.querySelector('#inspect-form').requestSubmit()"
        )
        self.browser.click("#inspected .words button")
        (place,) = replies_of([*PAST, f"translate {CURSOR} user 20000"])[-1:]
        self.wait_text("#reasons", f"core {place.split()[1]} before turn {CURSOR}: ")

    def test_another_past_is_asked_again(self) -> None:
        self.why("the ledger", 128_700)
        edit = "alter 15 127165 key 66"
        self.type_line(edit)
        self.wait_answer()
        explored = Explored(SESSION, [edit])
        self.addCleanup(explored.close)
        self.is_as_told(explored, "disk 0", 128_700)

    def test_what_is_no_word_is_told(self) -> None:
        said = (
            ("xyz", "a word is named as"),
            ("disk 1 0", "disk 1 0000000: there is one drive."),
            ("2001", "OddAddress"),
            ("777570", "OutsideCore"),
        )
        for name, part in said:
            self.ask(name)
            self.assertIn(part, self.browser.text("#reasons"))


class Sessions(WhyCase):
    """Words of other sessions, each opened with the files beside it."""

    def told(self, session: Path, asked: Sequence[tuple[str, int]]) -> list[str]:
        """Opens a session, and asks about words. Returns the lines of each answer as one text."""
        files = (session.with_suffix(it) for it in (".args", ".disk", ".core"))
        self.give(session, *(it for it in files if it.exists()))
        self.wait_text("#session-name", session.stem)
        self.wait_still()
        explored = Explored(session)
        self.addCleanup(explored.close)
        texts = []
        for word, turn in asked:
            self.why(word, turn)
            self.is_as_told(explored, word, turn)
            texts.append("\n".join(text for _, text in self.browser.value(LINES)))
        return texts

    def example(self, name: str, *asked: tuple[str, int]) -> list[str]:
        return self.told(ROOT / "examples" / f"{name}.session", asked)

    def own(self, lines: str, *asked: tuple[str, int], core: Sequence[int] = ()) -> list[str]:
        path = self.folder() / "own.session"
        path.write_text(lines)
        if core:
            path.with_suffix(".core").write_bytes(struct.pack(f"<{len(core)}H", *core))
        return self.told(path, asked)

    def test_a_word_that_a_transfer_brought(self) -> None:
        asked = [("core 2000", 40), ("disk 0", 40), ("core 2002", 40), ("core 2000", 9)]
        first, *_ = self.example("who-wrote-this-word", *asked)
        self.assertIn("copied by the disk in turn 9, <- disk 0000000, 000100 since", first)
        brought, same = self.example("disk-over-the-program", ("core 1022", 13), ("disk 0", 13))
        self.assertIn("copied by the disk in turn 12", brought)
        self.assertNotIn("turn 12", same)

    def test_words_of_eight_drives(self) -> None:
        asked = [("disk 2 1", 200), ("disk 2 374", 100), ("disk 1 400", 60), ("core 2000", 60)]
        copied, *_ = self.example("copy-of-a-pack", *asked)
        self.assertIn("disk 2 0000001, copied by the disk in turns", copied)

    def test_words_of_an_image(self) -> None:
        asked = [("core 2002", 1_000), ("disk 1", 600), ("core 7000", 600)]
        brought, there, _ = self.example("text-from-disk", *asked)
        for told in brought, there:
            self.assertIn("since power-up (the image of --disk, or 0 after its end)", told)
        image = "#! --core own.core\ncore 1004 7\nregs 1\n"
        asked = [("core 1002", 1), ("core 1004", 1), ("core 2000", 1)]
        held, patched, _ = self.own(image, *asked, core=[0] * 0o400 + [0o777, 0o123])
        self.assertIn("core 001002, 000123 since power-up (the image of --core", held)
        self.assertIn("core 001004, 000007 since power-up (a patch)", patched)

    def test_words_of_a_booted_disk(self) -> None:
        self.example("moved-keys", ("core 0", 200_000), ("core 776", 200_000), ("core 774", 5_000))

    def test_words_that_a_key_the_switches_and_a_tape_made(self) -> None:
        lines = "core 1000 13737\ncore 1002 177562\ncore 1004 2000\n"
        lines += "core 1006 13737\ncore 1010 177570\ncore 1012 2002\n"
        lines += "core 1014 52737\ncore 1016 1\ncore 1020 177550\n"
        lines += "core 1022 240\ncore 1024 113737\ncore 1026 177552\ncore 1030 2005\n"
        lines += "tape 123\ndelay reader 1\nat 0 key 101\nat 1 switches 54321\nregs 6\n"
        asked = [("core 2000", 6), ("core 2002", 6), ("core 2004", 6), ("core 2006", 6)]
        key, switches, tape, none = self.own(lines, *asked)
        self.assertIn("event 1: key 101", key)
        self.assertIn("event 2: switches 54321", switches)
        self.assertIn("a byte of the tape", tape)
        self.assertIn("core 002006, 000000 since power-up", none)

    def test_what_is_not_followed_is_told(self) -> None:
        """A pointer that the switches are: what it was written by isn't known."""
        path = self.folder() / "own.session"
        path.write_text(
            "core 1000 12700\ncore 1002 5\ncore 1004 10071\ncore 1006 177570\n"
            "at 0 switches 2000\nregs 2\n"
        )
        self.give(path)
        self.wait_still()
        self.why("core 2000", 2)
        self.assertEqual(self.lines(), [(1, "core 002000 before turn 2: 000005")])
        (said,) = self.sentences()
        self.assertRegex(said, "^Turn 1 takes its code or a pointer from a register at 777570")
