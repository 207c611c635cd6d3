"""What registers and printed bytes are made of: each line beside explore's."""
import re
from typing import ClassVar

from .explored import Explored
from .page_case import LEDGER, ROOT, OpenCase, PageCase, ledger_lines, replies_of

SESSION = LEDGER / "ledger.session"
PAST = ledger_lines()[:-2]
CURSOR, END, STEPS = 127_500, 238_614, 500
LINES = (
    "[...document.querySelectorAll('#reasons .account li')].map(it =>"
    " [Number(it.ariaLevel), it.textContent])"
)
SENTENCES = (
    "[...document.querySelectorAll('#reasons > p')].map(it => it.firstChild.textContent.trim())"
)
EVENT = re.compile(r"key (\d+)(?:  (\S+)| '([^']+)')(?=, turn)")
IMAGE = re.compile(r" \(the image of [^)]*, or 0 after its end\)")


def plain(line: str) -> str:
    """A line of either, with events as both have them."""
    return EVENT.sub(lambda it: f"key {it[1]}", line)


def sentence(line: str) -> str:
    """A line of explore as the page has it, a sentence."""
    text = line.strip().removeprefix(".. ").replace(", which `steps C` sets", "")
    return f"{text[0].upper()}{text[1:]}."


def levels_of(lines: list[str]) -> list[tuple[int, str]]:
    """The levels of explore's lines, and their texts."""
    return [(1 + (len(it) - len(it.lstrip())) // 2, plain(it.strip())) for it in lines]


class MadeCase(PageCase):
    """A page that is asked what something is made of."""

    def ask(self, name: str) -> None:
        self.browser.value(
            f"document.querySelector('#why-word').value = {name!r};"
            "document.querySelector('#why-form').requestSubmit()"
        )
        self.wait_answer()

    def wait_answer(self) -> None:
        self.wait_still()
        self.browser.wait(
            "document.querySelector('#reasons').textContent !== ''"
            " && !document.querySelector('#reasons .at-work')"
        )

    def go(self, turn: int) -> None:
        self.fill("#turn", str(turn))
        self.browser.key("Enter")
        self.wait_still()

    def lines(self) -> list[tuple[int, str]]:
        """The lines with their levels."""
        return [(int(level), plain(text)) for level, text in self.browser.value(LINES)]

    def sentences(self) -> list[str]:
        return [str(it) for it in self.browser.value(SENTENCES)]

    def is_as_explored(self, explored: Explored, line: str) -> None:
        """All that is shown is what explore shows for a line, except the first line, and from which
        image a word is."""
        told = explored.lines(line)
        begin = next(at for at, it in enumerate(told) if it.startswith(("made of", "  .. ")))
        found = [(level, IMAGE.sub("", text)) for level, text in self.lines()[1:]]
        self.assertEqual(found, levels_of(told[1:begin]), line)
        said = [IMAGE.sub("", it) for it in self.sentences()]
        self.assertEqual(said, [sentence(it) for it in told[begin:]], line)


class Made(MadeCase, OpenCase):
    turn_at_first = CURSOR
    explored: ClassVar[Explored]

    @classmethod
    def setUpClass(cls) -> None:
        super().setUpClass()
        cls.explored = Explored(SESSION)
        cls.addClassCleanup(cls.explored.close)

    def test_registers(self) -> None:
        for name, turn in ("R2", 127_500), ("R0", 127_170), ("N", 127_500), ("SP", 3_400):
            self.go(turn)
            self.ask(name)
            self.is_as_explored(self.explored, f"why {name} at {turn} steps {STEPS}")
            (first,) = self.explored.lines(f"why {name} at {turn} steps 1")[:1]
            self.assertEqual(self.lines()[0], (1, first))
            self.assertEqual(self.browser.text("#why-turn"), f"before turn {turn}")

    def test_printed_bytes(self) -> None:
        for number in (3, 111):
            self.ask(f"byte {number}")
            (printed,) = replies_of([*PAST, f"when {number}"])[-1:]
            turn = int(printed.split()[1])
            self.is_as_explored(self.explored, f"why text 1 at {turn + 1} steps {STEPS}")
            (text,) = replies_of([*PAST, f"text {turn + 1} from {number}"])[-1:]
            said = f"byte {number} of the text, '{text[-1]}', was printed in turn {turn}"
            self.assertEqual(self.lines()[0], (1, said))

    def test_a_limit_is_said_and_more_is_followed(self) -> None:
        self.ask("KSP")
        self.is_as_explored(self.explored, f"why KSP at {CURSOR} steps {STEPS}")
        self.browser.value("document.querySelector('#reasons p button').click()")
        self.wait_answer()
        self.is_as_explored(self.explored, f"why KSP at {CURSOR} steps {4 * STEPS}")

    def test_a_register_is_touched(self) -> None:
        self.browser.click("#registers dl div:nth-child(3) .link")
        self.wait_answer()
        self.is_as_explored(self.explored, f"why R2 at {CURSOR}")
        self.assertEqual(self.browser.value("document.querySelector('#why-word').value"), "R2")
        seen = self.browser.value(
            "(() => { const it = document.querySelector('#why-panel').getBoundingClientRect();"
            "return it.top >= 0 && it.top < innerHeight; })()"
        )
        self.assertTrue(seen)
        names = "[...document.querySelectorAll('#registers div .link')].length"
        self.assertEqual(self.browser.value(names), 9, "all but PC")

    def test_each_step_leads_to_its_turn(self) -> None:
        for at, turn in (2, 127_167), (3, 126_967), (1, CURSOR):
            self.go(CURSOR)
            self.ask("R2")
            self.browser.click(f"#reasons .account li:nth-child({at}) .link")
            self.assertEqual(self.turn(), turn)
            self.wait_still()

    def test_the_path_is_drawn(self) -> None:
        """From the value to the operation, and from that to the key, each in its lane."""
        self.ask("R2")
        found = self.browser.value(
            "[...document.querySelectorAll('.path circle')].map(it =>"
            " [Number(it.getAttribute('cx')), Number(it.getAttribute('cy'))])"
        )
        lines = self.browser.value(
            "[...document.querySelectorAll('.path polyline')].map(it =>"
            " it.getAttribute('points').split(' ').map(at => at.split(',').map(Number)))"
        )
        self.assertEqual(len(found), 3)
        self.assertEqual(lines, [[found[0], found[1]], [found[1], found[2]]])
        (value, operation, key) = found
        self.assertEqual(value[1], operation[1], "kernel PC")
        self.assertLess(key[1], operation[1], "events")
        self.assertLess(key[0], operation[0])
        self.assertLess(operation[0], value[0])
        self.browser.click("#why-none")
        self.assertEqual(self.browser.value("document.querySelector('.path').textContent"), "")
        self.assertEqual(self.browser.value("document.querySelectorAll('.path circle').length"), 0)

    def test_what_is_asked_in_vain_is_told(self) -> None:
        self.ask("byte 5000")
        said = f"byte 5000 isn't printed before turn {END}."
        self.assertEqual(self.browser.text("#reasons"), said)
        self.ask("R9")
        self.assertIn("a word is named as", self.browser.text("#reasons"))

    def test_another_past_is_asked_again(self) -> None:
        self.ask("R2")
        edit = "alter 15 127165 key 67"
        self.type_line(edit)
        self.wait_answer()
        explored = Explored(SESSION, [edit])
        self.addCleanup(explored.close)
        self.is_as_explored(explored, f"why R2 at {CURSOR}")
        self.assertIn("event 14: key 62", str(self.lines()))


class Text(MadeCase, OpenCase):
    """A character of the console's text is asked about where it stands."""

    turn_at_first = CURSOR

    def bytes_of(self, part: str) -> int:
        """The number of the last byte of a part, the last of its kind."""
        (text,) = replies_of([*PAST, f"text {END}"])[-1:]
        octal = re.compile(r"\\\d{3}")
        before = octal.sub("#", text.partition(":")[2]).rindex(part)
        return before + len(part) - 1

    def middle_of(self, part: str) -> list[float]:
        """The middle of the last character of a part of the text."""
        self.browser.look_at("#text")
        return list(
            self.browser.value(
                "(() => { const it = document.querySelector('#text'), node = it.firstChild;"
                f"it.normalize(); const at = it.textContent.lastIndexOf({part!r});"
                "it.scrollIntoView({block: 'center'}); it.scrollTop = it.scrollHeight;"
                "const range = document.createRange();"
                f"range.setStart(it.firstChild, at + {len(part) - 1});"
                f"range.setEnd(it.firstChild, at + {len(part)});"
                "const {x, y, width, height} = range.getBoundingClientRect();"
                "return [x + width / 2, y + height / 2]; })()"
            )
        )

    def test_a_click_on_a_character(self) -> None:
        for part in "=000137", "=00":
            x, y = self.middle_of(part)
            self.browser.click_at(x + 2, y)
            self.wait_answer()
            name = f"byte {self.bytes_of(part)}"
            found = self.browser.value("document.querySelector('#why-word').value")
            self.assertEqual(found, name)
            said = f"{name} of the text, '{part[-1]}', was printed in turn "
            self.assertTrue(self.lines()[0][1].startswith(said), self.lines()[0])

    def test_a_character_is_chosen_by_keys(self) -> None:
        (text,) = replies_of([*PAST, f"text {END}"])[-1:]
        count = int(text.split()[1].partition(":")[0])
        self.browser.look_at("#text")
        self.browser.value("document.querySelector('#text').focus()")
        for _ in range(3):
            self.browser.key("ArrowLeft")
        self.browser.key("ArrowRight")
        said = self.browser.text("#text-said")
        number = int(re.findall(r"Byte (\d+), ", said)[0])
        self.assertLess(count - number, 5)
        self.assertEqual(len(self.browser.value("getSelection().toString()")), 1)
        self.browser.key("Enter")
        self.wait_answer()
        self.assertIn(f"byte {number} of the text", self.lines()[0][1])

    def test_a_part_that_is_selected_asks_nothing(self) -> None:
        self.browser.value("document.querySelector('#why-none').click()")
        x, y = self.middle_of("=000137")
        self.browser.mouse("mouseMoved", x - 40, y)
        self.browser.mouse("mousePressed", x - 40, y, button="left", buttons=1, clickCount=1)
        self.browser.mouse("mouseMoved", x, y, button="left", buttons=1)
        self.browser.mouse("mouseReleased", x, y, button="left", clickCount=1)
        self.wait_still()
        self.assertGreater(len(self.browser.value("getSelection().toString()")), 2)
        self.assertEqual(self.browser.text("#reasons"), "")


class Ends(MadeCase):
    """Where the way back ends: at an image, and at the tape."""

    def asked(self, name: str) -> None:
        """The first byte that an example prints is as explore tells it."""
        session = ROOT / "examples" / f"{name}.session"
        disk = session.with_suffix(".disk")
        self.give(session, *([disk] if disk.exists() else []))
        self.wait_text("#session-name", name)
        self.wait_still()
        self.ask("byte 0")
        explored = Explored(session)
        self.addCleanup(explored.close)
        (printed,) = explored.machine.printed_in([0])
        self.is_as_explored(explored, f"why text 1 at {printed + 1} steps {STEPS}")

    def test_an_image(self) -> None:
        self.asked("text-from-disk")
        said = r"disk \d{7}, \d{6} since power-up \(the image of --disk, or 0 after its end\)"
        self.assertRegex(str(self.lines()), said)

    def test_the_tape(self) -> None:
        self.asked("tape-to-console")
        self.assertIn("a byte of the tape", str(self.lines()))
