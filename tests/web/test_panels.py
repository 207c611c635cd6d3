"""What the panels show is what the program replies."""
import re

from .page_case import ROOT, PageCase, ledger_lines, replies_of

TURN = 127_163


class Panels(PageCase):
    fragment = f"#turn={TURN}&from=126300&turns=2600&core=30000"

    def replies(self, *lines: str) -> list[str]:
        return replies_of([*ledger_lines()[:-2], *lines])[-len(lines) :]

    def test_registers(self) -> None:
        self.wait_text("#registers", "kernel")
        shown = re.sub(r"\s+", "", self.browser.text("#registers dl")).replace("*", "")
        (reply,) = self.replies(f"regs {TURN}")
        self.assertEqual(shown, "".join(reply.split()[:-1]))
        changed = self.browser.value(
            "[...document.querySelectorAll('#registers .changed dt')].map(it => it.textContent)"
        )
        old, now = (it.split() for it in self.replies(f"regs {TURN - 1}", f"regs {TURN}"))
        differ = [name for name, a, b in zip(now[::2], old[1::2], now[1::2]) if a != b]
        self.assertEqual(changed, differ)

    def test_devices(self) -> None:
        self.wait_text("#devices", "RKCS")
        shown = re.sub(r"\s+", "", self.browser.text("#devices dl"))
        (reply,) = self.replies(f"devices {TURN}")
        self.assertEqual(shown, "".join(reply.split()[1:]))

    def test_memory_and_who_wrote_it(self) -> None:
        self.wait_text("#memory", "030036")
        (words, last) = self.replies(f"mem {TURN} 30000 1", f"last {TURN} 30000")
        first = self.browser.text("#memory tbody tr")
        self.assertIn(words.split()[1], first)
        _, turn, writer, _ = last.split()
        self.assertIn(f"{writer}, turn {turn}", first)

    def test_a_word_is_changed_as_of_power_up(self) -> None:
        self.wait_text("#memory", "030036")
        self.browser.click("#memory tbody tr td:nth-child(2) .link")
        line = self.browser.value("document.querySelector('#line').value")
        self.assertRegex(line, "^core 30000 [0-7]{6}$")
        selected = self.browser.value("getSelection().toString()")
        self.assertEqual(selected, line.split()[-1])

    def test_instructions_with_symbols(self) -> None:
        shown = self.wait_text("#instructions", "next")
        self.assertIn("127162user000002interrupt 060 keyboardCLERK+2", shown)
        self.assertIn("kernel001232MOV R0,-(SP)KEY", shown)

    def test_the_word_that_ran_after_a_transfer(self) -> None:
        """In turn 12 the disk writes a HALT over the BR that was there before the turn."""
        path = self.folder() / "halted.session"
        lines = (ROOT / "examples" / "disk-over-the-program.session").read_text().splitlines()
        path.write_text("\n".join([*lines[: lines.index("disk 0 777")], ""]))
        self.give(path)
        self.fill("#turn", "12")
        self.browser.key("Enter")
        shown = self.wait_text("#instructions", "\u25b6 nextkernel001022HALT")
        self.assertIn("11kernel001022BR 1022", shown)
        self.fill("#turn", "13")
        self.browser.key("Enter")
        self.wait_text("#instructions", "12kernel001022HALT")

    def test_pages_in_words(self) -> None:
        (reply,) = self.replies(f"pages {TURN}")
        begin = int(reply.partition("UPAR ")[2].split()[1], 8) << 6
        shown = f"core {begin:06o} to {begin + 0o7777:06o}, read and write"
        self.wait_text("#pages", shown)

    def test_a_word_is_drawn_and_taken_away(self) -> None:
        self.fill("#watch", "1520")
        self.browser.key("Enter")
        self.browser.wait("document.querySelector('#words').textContent.includes('core 001520')")
        self.wait_still()
        self.browser.click("#words tr:last-child button")
        self.browser.wait("!document.querySelector('#words').textContent.includes('core 001520')")

    def test_what_is_in_sight_is_a_table_too(self) -> None:
        first, end = 126_300, 128_900
        self.wait_still()
        self.browser.look_at("#sight")
        self.browser.value("document.querySelector('#sight summary').focus()")
        self.browser.key("Enter")
        self.wait_text("#sight", "core 030000")
        found = self.browser.value(
            "[...document.querySelectorAll('#sight tbody tr')].map(it =>"
            "[...it.cells].map(cell => cell.textContent))"
        )

        def rows(name: str) -> list[tuple[int, str]]:
            return [(int(turn), what) for turn, lane, what in found if lane == name]

        lines = [it.split(maxsplit=2) for it in ledger_lines() if it.startswith("at ")]
        events = [(int(it[1]), it[2]) for it in lines if first <= int(it[1]) <= end]
        shown = [(turn, what.split(": ")[1].split(" '")[0]) for turn, what in rows("event")]
        self.assertEqual(shown, events)

        trails = [
            f"trail {min(it + 64, end)} {min(64, end - it)}" for it in range(first, end, 64)
        ]
        asked = [f"writes {first} {end} 30000", *trails]
        said = "\n".join(replies_of([*ledger_lines()[:-2], *asked]))
        writes = re.findall(r"^(\d+) (cpu|disk) ([0-7]{6})$", said, re.MULTILINE)
        wanted = [(int(turn), f"{word}, written by {who}") for turn, who, word in writes]
        self.assertEqual(rows("core 030000")[1:], wanted)
        turns = re.findall(r"^(\d+) [0-7]{6} irq ([0-7]{3})$", said, re.MULTILINE)
        interrupts = [(int(turn), vector) for turn, vector in turns]
        self.assertEqual([(it[0], it[1][:3]) for it in rows("interrupt")], interrupts)
        self.assertGreater(len(rows("disk")), 2)
        for begin, what in rows("disk"):
            ends = int(what.split()[-1])
            asked = [f"devices {it}" for it in (begin, begin + 1, ends, ends + 1)]
            states = [int(it.split("RKCS ")[1][:6], 8) >> 7 & 1 for it in self.replies(*asked)]
            self.assertEqual(states, [1, 0, 0, 1], what)
