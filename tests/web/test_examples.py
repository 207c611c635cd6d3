"""The examples in the page, each beside the program, and a disk of the user that is booted."""
import base64
import json
import struct
from pathlib import Path

from .page_case import ROOT, PageCase, packed_page, replies_of

EXAMPLES = ROOT / "examples"
ASKED = ("regs 999", "text 1000", "mem 1000 1000 20")

SPAN = "Number(new URLSearchParams(location.hash.slice(1)).get('turns'))"


def bytes_of_tape(tape: bytes) -> dict[int, int]:
    """What the blocks of a tape of the absolute loader put into core."""
    found: dict[int, int] = {}
    at = tape.index(b"\1\0")
    while True:
        _, count, address = struct.unpack_from("<3H", tape, at)
        if count == 6:
            return found
        found.update(enumerate(tape[at + 6 : at + count], address))
        at = tape.index(b"\1\0", at + count + 1)


def bytes_of_aout(held: bytes) -> dict[int, int]:
    """The text and the data of an a.out, from address 0 on."""
    _, text, data = struct.unpack_from("<3H", held)
    return dict(enumerate(held[16 : 16 + text + data]))


class Examples(PageCase):
    def setUp(self) -> None:
        super().setUp()
        if packed_page().startswith("http"):
            self.skipTest("the page isn't packed")

    def is_as(self, lines: list[str], *words: str) -> None:
        """The page replies as the program does after these lines."""
        replies = replies_of([*lines, *ASKED], *words)[-len(ASKED) :]
        for line, reply in zip(ASKED, replies):
            self.assertEqual(self.type_line(line), f"{line}: {reply}")

    def test_sessions_are_opened(self) -> None:
        for key, name, last in (
            ("keys", "moved-keys", "text 300000"),
            ("reader", "tape-to-console", "text 1000"),
            ("boot", "boot-rk0", "text 1000"),
        ):
            self.open_example(key)
            lines = (EXAMPLES / f"{name}.session").read_text().splitlines()
            disk = EXAMPLES / f"{name}.disk"
            words = ["--start", "2000", "--disk", str(disk)] if disk.exists() else []
            self.is_as(lines[: lines.index(last) + 1], *words)
            self.assertFalse(self.browser.value("document.querySelector('#own').hidden"))
        self.browser.reload()
        self.assertEqual(self.browser.text("#session-name"), "boot-rk0.session")
        self.open_example("ledger")
        self.wait_text("#balance", "137")
        self.assertTrue(self.browser.value("document.querySelector('#own').hidden"))

    def test_a_forth_is_sat_at(self) -> None:
        """It boots at the page's console, and takes lines there."""
        self.open_example("forth")
        self.open_tab("console")
        self.browser.click("#terminal-run")
        self.wait_text("#terminal", "ok")
        self.browser.type("1 2 + .")
        self.browser.key("Enter")
        self.wait_text("#terminal", "1 2 + . 3  ok")

    def test_a_note_is_lost(self) -> None:
        """The words that the example's listing and its blocks define are known by their names."""
        self.open_example("note")
        self.wait_text("#text", "CALL ADA AT NOON ok")
        self.assertIn("dsk 2450000 25000 1: dsk 000000", self.type_line("dsk 2450000 25000 1"))
        self.fill("#turn", "2133530")
        self.browser.key("Enter")
        if not self.browser.value("document.querySelector('#calls').open"):
            self.browser.click("#calls summary")
        self.wait_text("#call-list", "COUNTING")

    def test_the_lost_note_comes_back(self) -> None:
        """By the drag that its story tells; then the page shows where the note went."""
        session = EXAMPLES / "forth/long/lost-note.session"
        lines = session.read_text().splitlines()
        (target,) = (it.split()[3:6] for it in lines if it.startswith("# story target "))
        asked = next(it.split(" ", 3)[3] for it in lines if it.startswith("# story ask "))
        self.open_example("note")
        self.wait_text("#verdict", "note 21 is empty")
        self.browser.drag(f'[data-event="{target[0]}"]', 850)
        self.wait_text("#verdict", "CALL ADA AT NOON is there")
        self.browser.wait("document.querySelectorAll('#edits li').length === 1")
        turns = [2_129_400, int(self.edits()[0].split()[2]), *map(int, target[1:])]
        more = [it for turn in turns for it in (f"alter {target[0]} {turn} key 15", asked)]
        words = ["--start", "2000", "--disk", str(EXAMPLES / "forth/forth.disk")]
        empty, *there = replies_of([*lines, *more], *words)[1 - len(more) :: 2]
        self.assertEqual(empty, "dsk" + 8 * " 000000")
        note = [a | b << 8 for a, b in zip(b"CL D TNO", b"ALAAA ON")]
        self.assertEqual(there, 3 * ["dsk" + "".join(f" {it:06o}" for it in note)])
        self.browser.click("#next button")
        self.wait_text("#reasons", "event 48: key 114")

    def test_programs_are_what_their_files_hold(self) -> None:
        for key, placed, start, after in (
            ("tape", bytes_of_tape((EXAMPLES / "media/hello.lda").read_bytes()), "1000", "TEXT"),
            ("aout", bytes_of_aout((EXAMPLES / "media/hello.aout").read_bytes()), "0", "text"),
        ):
            words = {at: placed[at] | placed.get(at + 1, 0) << 8 for at in placed if not at % 2}
            self.open_example(key)
            self.is_as([f"core {at:o} {word:o}" for at, word in words.items()], "--start", start)
            self.fill("#turn", "1000")
            self.browser.key("Enter")
            self.wait_text("#instructions", after)

    def drop(self, selector: str, path: Path) -> None:
        held = base64.b64encode(path.read_bytes()).decode()
        self.browser.value(
            "(() => { const data = new DataTransfer();"
            f"const bytes = Uint8Array.from(atob({json.dumps(held)}), it => it.charCodeAt(0));"
            f"data.items.add(new File([bytes], {json.dumps(path.name)}));"
            "const event = new DragEvent('drop',"
            "{dataTransfer: data, bubbles: true, cancelable: true});"
            f"document.querySelector('{selector}').dispatchEvent(event); }})()"
        )

    def test_a_disk_of_ones_own_is_booted(self) -> None:
        """By the chooser, and by a drop; an image that is none is told, and nothing is opened."""
        lines = (EXAMPLES / "boot-rk0.session").read_text().splitlines()
        disk = EXAMPLES / "moved-keys.disk"
        self.browser.give_files("#boot-file", [str(disk)])
        self.wait_text("#reply", "Booted: moved-keys.disk")
        self.wait_text("#text", "COUNTS THE KEYS OF A LINE")
        self.wait_still()
        self.is_as(lines, "--start", "2000", "--disk", str(disk))
        self.drop("#boot", EXAMPLES / "boot-rk0.disk")
        self.wait_text("#reply", "Booted: boot-rk0.disk")
        self.wait_text("#text", "BOOTED FROM RK0")
        odd = self.folder() / "odd.disk"
        odd.write_bytes(b"abc")
        self.browser.give_files("#boot-file", [str(odd)])
        self.wait_text("#reply", "odd.disk has 3 bytes, and an image has an even number of them.")
        self.assertEqual(self.browser.text("#session-name"), "boot-rk0.disk")
        self.browser.give_files("#boot-file", [str(EXAMPLES / "first-run.session")])
        self.wait_text("#reply", "what begins here is one image of a disk")

    def test_the_first_view_is_where_it_runs(self) -> None:
        """A disk of HALTs stops after a few turns of the bootstrap: these are drawn."""
        disk = self.folder() / "halts.disk"
        disk.write_bytes(bytes(512))
        self.browser.give_files("#boot-file", [str(disk)])
        self.wait_text("#reply", "Booted: halts.disk")
        self.browser.wait(f"{SPAN} < 1000")
        lines = (EXAMPLES / "boot-rk0.session").read_text().splitlines()
        asked = [f"regs {it}" for it in range(40)]
        replies = replies_of([*lines, *asked], "--start", "2000", "--disk", str(disk))
        turn = [it.split()[-1] for it in replies[-40:]].index("halted")
        self.assertTrue(turn < self.browser.value(SPAN) < 2 * turn, turn)
        self.browser.click("[data-key='0']")
        self.browser.wait(f"{SPAN} === 1000000")

    def test_a_disk_or_a_program_is_chosen_in_the_header(self) -> None:
        self.browser.call("Page.setInterceptFileChooserDialog", enabled=True)
        self.browser.click("#boot")
        self.browser.call("Page.setInterceptFileChooserDialog", enabled=False)
        self.assertIn("RK05", self.browser.value("document.querySelector('#boot').title"))

    def test_the_page_is_small(self) -> None:
        packed = Path(packed_page().removeprefix("file://"))
        self.assertLess(packed.stat().st_size, 1_000_000)
