"""What is drawn can be touched: the pointer, the focus and keys tell it, and a click goes there."""
import re

from .page_case import KEY, PageCase, ledger_lines, replies_of

PAST = ledger_lines()[:-2]
FIRST, SPAN = 126_300, 2_600
LEFT, RIGHT = 112, 10
# the middles of lanes, from the timeline's top on
LANES = {"kernel": 113, "disk": 209, "interrupts": 239, "clerk B": 344, "ledger": 384}
TIP = "document.querySelector('#tip')"


def replies(*lines: str) -> list[str]:
    return replies_of([*PAST, *lines])[-len(lines) :]


class Things(PageCase):
    def setUp(self) -> None:
        super().setUp()
        self.wait_still()

    def place(self, lane: str, turn: float) -> tuple[float, float]:
        left, top, width = self.browser.value(
            "(({left, top, width}) => [left, top, width])"
            "(document.querySelector('#timeline canvas').getBoundingClientRect())"
        )
        x = left + LEFT + (turn - FIRST) / SPAN * (width - LEFT - RIGHT)
        return x, top + LANES[lane]

    def hover(self, lane: str, turn: float, part: str) -> str:
        self.browser.mouse("mouseMoved", *self.place(lane, turn))
        self.browser.wait(f"!{TIP}.hidden")
        return self.wait_text("#tip", part)

    def click(self, lane: str, turn: float) -> int:
        self.browser.click_at(*self.place(lane, turn))
        return self.turn()

    def test_a_write_by_the_processor_is_told(self) -> None:
        """Turn, value and writer, and the symbol of its instruction."""
        (writes,) = re.findall(r"^(\d+) cpu (\d+)$", "\n".join(self.writes(40000)), re.MULTILINE)
        turn, word = int(writes[0]), writes[1]
        said = self.hover("clerk B", turn, " at ")
        begin = f"turn {turn}: clerk B's balance core 040000 is {word}, written by the processor"
        self.assertTrue(said.startswith(begin), said)
        trail, registers = replies(f"trail {turn + 1} 1", f"regs {turn}")
        pc = trail.split()[-2] if trail.startswith("trail") else trail.split()[1]
        mode = "user" if int(registers.split()[-2], 8) >> 14 == 3 else "kernel"
        self.assertTrue(said.endswith(f"({mode} {pc})"), said)
        self.assertEqual(self.click("clerk B", turn), turn)

    def writes(self, address: int) -> list[str]:
        return replies_of([*PAST, f"writes {FIRST} {FIRST + SPAN} {address}"])[-2:]

    def test_a_write_by_the_disk_leads_to_its_transfer(self) -> None:
        change = int(replies(f"change {FIRST} {FIRST + SPAN} 0")[0].split()[1])
        said = self.hover("ledger", change, "by a transfer begun in turn")
        found = re.search(r"begun in turn (\d+)", said)
        assert found
        begin = int(found[1])
        before, after = replies(f"devices {begin}", f"devices {begin + 1}")
        ready = [int(it.split("RKCS ")[1][:6], 8) >> 7 & 1 for it in (before, after)]
        self.assertEqual(ready, [1, 0])
        self.assertEqual(self.click("ledger", change), begin)
        self.wait_text("#instructions", "next")

    def test_what_is_drawn_in_other_lanes_is_told(self) -> None:
        self.assertIn("interrupt 100 clock", self.hover("interrupts", 127_131, "turn 127131: "))
        self.assertIn("to core 030000", self.hover("disk", 127_000, "read of 256 words"))
        turn = 126_500
        (registers,) = replies(f"regs {turn}")
        pc = registers.split("PC ")[1][:6]
        told = self.hover("kernel", turn + 0.5, "kernel PC")
        found = re.match(r"turn (\d+): kernel PC ([0-7]{6}) \w+", told)
        assert found
        (registers,) = replies(f"regs {found[1]}")
        pc = registers.split("PC ")[1][:6]
        self.assertEqual(found[2], pc)
        self.browser.mouse("mouseMoved", 5, 5)
        self.browser.wait(f"{TIP}.hidden")

    def test_a_click_goes_to_what_is_there(self) -> None:
        self.assertEqual(self.click("interrupts", 127_128), 127_131)
        between = self.click("ledger", 127_850)
        self.assertTrue(127_840 < between < 127_860, between)

    def test_the_focus_tells_an_event(self) -> None:
        self.browser.value(f"document.querySelector('{KEY}').focus()")
        self.browser.wait(f"!{TIP}.hidden")
        self.assertEqual(self.browser.text("#tip"), "Event 15, key 66 '6', turn 126967")

    def test_keys_go_from_thing_to_thing(self) -> None:
        told = "document.querySelector('#turns').ariaValueText"
        self.browser.value("document.querySelector('#turns').focus()")
        self.browser.key("n")
        self.assertGreater(self.turn(), 126_967)
        for _ in range(12):
            self.browser.key("ArrowDown")
        self.assertIn("lane the ledger", self.browser.value(told))
        turns = [int(replies("change 126967 128900 0")[0].split()[1])]
        turns.append(int(replies(f"change {turns[0] + 1} 128900 0")[0].split()[1]))
        for value in ("000136", "000132"):
            self.browser.key("n")
            self.browser.wait(f"{told}.includes('{value}')")
            self.assertRegex(self.browser.value(told), "written by the disk, by a transfer begun")
        seen = re.findall(r"turn (\d+): the ledger", self.browser.value(told))
        self.assertEqual(seen, [str(turns[1])])
        self.browser.key("p")
        self.browser.wait(f"{told}.includes('000136')")
        self.assertIn(f"turn {turns[0]}: ", self.browser.value(told))
