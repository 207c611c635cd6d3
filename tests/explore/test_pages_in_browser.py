"""A browser shows the page that `page` wrote, and what it tells is what explore replies."""
import re
from typing import NamedTuple

from tests.web.page_case import InChromium, the_browser

from .explore_case import Case
from .pages import held_in
from .systems import KEYS, LEDGER

SYMBOLS = "symbols examples/ledger/kernel.sym kernel\nsymbols examples/ledger/user.sym user\n"
QUESTIONS = (
    "regs {0},mem {0} 1000 64,mem {0} 2000 16,dsk {0} 0 9,devices {0},pages {0},last {0} 2000,"
    "trail {0} 5,text {1},setup,patches,events"
)
# An event in both forms of a list, without its number, which may be another in the page; and how
# often the program keeps a state.
EVENT, STRIDE = re.compile("([0-9]+) +(key|tick)(?: 0*([0-7]+))?"), " stride [0-9]+"
WORDS = "[...document.querySelectorAll('#memory tr')].map(it => it.innerText.split('\\t'))"


class System(NamedTuple):
    """The words of explore's command line, lines that are typed, a turn, and the last one."""

    words: tuple[str, ...]
    lines: str
    turn: int
    end: int


class InBrowser(InChromium, Case):
    @classmethod
    def setUpClass(cls) -> None:
        cls.browser = the_browser()

    def replies(self, system: System) -> dict[str, str]:
        """What explore replies to each question about a system. It has written its page."""
        asked = QUESTIONS.format(system.turn, system.end).split(",")
        lines = f"{system.lines}page it.html to {system.end}\n" + "\n".join([*asked, ""])
        written = self.explore(lines, "--echo", *system.words)
        parts = re.split(r"^explore> (.*)\n", written, flags=re.M)
        found = {line: said.rstrip("\n") for line, said in zip(parts[1::2], parts[2::2])}
        self.assertNotIn("refused", " ".join(found.values()))
        return {it: found[it] for it in asked}

    def check(self, system: System) -> None:
        replies = self.replies(system)
        path = self.folder / "it.html"
        self.browser.size(1280, 1000)
        self.browser.open(f"{path.as_uri()}#turn={system.turn}")
        self.wait_still()
        self.check_panels(system, replies)
        for line, reply in replies.items():
            said = self.type_line(line).partition(": ")[2].lstrip("\n")
            if line == "events":
                self.assertEqual(EVENT.findall(said), EVENT.findall(reply))
                self.assertGreater(len(EVENT.findall(said)), 0)
            else:
                self.assertEqual(*(re.sub(STRIDE, "", it) for it in (said, reply)))
        self.check_saved()
        self.assertEqual(self.browser.messages, [])
        asked = {it.partition(":")[0] for it in self.browser.requests}
        self.assertEqual(asked - {"file", "blob", "data"}, set())

    def check_panels(self, system: System, replies: dict[str, str]) -> None:
        """They are of the turn in the address, and show what explore replies."""
        self.assertTrue(self.browser.value("document.querySelector('#refused').hidden"))
        turn = self.browser.value("document.querySelector('#turn').value")
        self.assertEqual(turn, str(system.turn))
        name = self.browser.text("#session-name")
        self.assertEqual(name, system.words[-1].rpartition("/")[2])
        words = replies[f"regs {system.turn}"].split()[:-1]
        shown = self.browser.text("#registers")
        for register, word in zip(words[::2], words[1::2]):
            self.assertIn(f"{register}{word}", shown)
        self.open_tab("memory")
        memory = replies[f"mem {system.turn} 2000 16"].split()[1:]
        rows = [it[:2] for it in self.browser.value(WORDS) if it[0].isdigit()]
        self.assertEqual(rows, [[f"{0o2000 + 2 * at:06o}", it] for at, it in enumerate(memory)])
        self.open_tab("console")
        text = replies[f"text {system.end}"].partition(":")[2].replace("\\015\\012", "\n")
        self.assertEqual(self.browser.text("#text").rstrip("\n"), text.rstrip("\n"))

    def check_saved(self) -> None:
        """The page itself saves the session that explore has put into it."""
        folder = self.folder / "saved"
        folder.mkdir()
        path = self.saved_in(folder, "#save-page")
        self.assertEqual(held_in(path), held_in(self.folder / "it.html"))

    def test_a_kernel_with_symbols_and_names(self) -> None:
        edits = "alter 15 127165 key 66\ndrop 4\nat 131000 tick\ncore 2000 7\ndisk 0 101\n"
        self.check(System(LEDGER, f"{SYMBOLS}{edits}", 128_066, 238_614))
        self.open_tab("machine")
        self.assertIn("BUSY+4", self.browser.text("#instructions"))
        self.wait_text("#words", "the ledger (disk 0000000)")
        self.fill("#watch", "2000")
        self.browser.key("Enter")
        self.wait_text("#words", "QUEUE (core 002000)")

    def test_a_mapped_program(self) -> None:
        words = ("examples/page-somewhere-else.session",)
        self.check(System(words, "core 1014 77406\ncore 4000 123\nat 3 tick\n", 6, 40))

    def test_an_image_and_options(self) -> None:
        self.check(System(KEYS, "alter 4 3000 key 101\ndelay printer 40\n", 200_000, 300_000))
