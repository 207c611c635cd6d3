"""Play: the timeline, the lights, the terminal and the panels go on together at a chosen rate; a
pause is the cursor. And the console, one click from the top."""
import time

from .page_case import OpenCase, PageCase, ledger_lines, replies_of

PAST = ledger_lines()[:-2]
BEGIN, END = 126_967, 238_614
PLAYING = "document.querySelector('#play').ariaPressed === 'true'"
# notes at each frame the turns that are shown
WATCH = """((...names) => {
  window.seen = [];
  const look = () => {
    seen.push([document.querySelector('#turns').ariaValueNow,
      ...names.map(it => document.querySelector(it).textContent)]);
    requestAnimationFrame(look);
  };
  look();
})"""


class Play(PageCase):
    def rate(self, turns: int) -> None:
        self.browser.value(f"document.querySelector('#play-rate').value = '{turns}'")

    def wait_beyond(self, turn: int) -> None:
        self.browser.wait(f"Number(document.querySelector('#turns').ariaValueNow) > {turn}")

    def test_all_goes_on_together(self) -> None:
        self.browser.look_at("#front")
        self.browser.click("#front summary")
        self.wait_still()
        self.rate(100)
        said = "'#registers-turn', '#front-turn', '#turn-said'"
        self.browser.value(f"{WATCH}({said})")
        began = time.monotonic()
        self.browser.click("#play")
        self.wait_beyond(BEGIN + 300)
        self.browser.click("#play")
        took = time.monotonic() - began
        self.wait_still()
        turn = self.turn()
        self.assertLess(turn - BEGIN, 100 * took + 100)
        for name in ("registers", "front"):
            self.assertEqual(self.browser.text(f"#{name}-turn"), f"before turn {turn}")
        self.assertEqual(self.browser.text("#turn-said"), f"turn {turn}")
        seen = self.browser.value("seen")
        turns = [int(it[0]) for it in seen]
        self.assertEqual(turns, sorted(turns))
        self.assertGreater(len(set(turns)), 2)
        # each of its turns was shown before it went on
        shown = {it[1] for it in seen}
        for at in set(turns) - {turn}:
            self.assertIn(f"before turn {at}", shown)

    def test_the_terminal_goes_with_it(self) -> None:
        self.browser.click("#tab-console")
        self.wait_still()
        self.rate(250_000)
        self.browser.click("#play")
        self.browser.wait(f"!({PLAYING})")
        self.assertEqual(self.turn(), END)
        self.wait_still()
        (text,) = replies_of([*PAST, f"text {END}"])[-1:]
        last = text.split(":", 1)[1].replace("\\015\\012", "\n")
        self.assertEqual(self.browser.text("#terminal"), last)

    def test_space_and_a_step_by_hand(self) -> None:
        self.rate(10)
        self.browser.value("document.querySelector('#turns').focus()")
        self.browser.key(" ")
        self.assertTrue(self.browser.value(PLAYING))
        self.wait_beyond(BEGIN)
        self.browser.key(" ")
        self.assertFalse(self.browser.value(PLAYING))
        self.browser.key(" ")
        self.browser.key("ArrowLeft")
        self.assertFalse(self.browser.value(PLAYING))
        turn = self.turn()
        self.wait_text("#registers-turn", f"before turn {turn}")
        self.assertEqual(self.turn(), turn)

    def test_by_touch_and_an_edit_goes_on(self) -> None:
        self.browser.size(400, 800)
        self.rate(10)
        x, y = self.browser.middle("#play")
        self.browser.touch("touchStart", (x, y))
        self.browser.touch("touchEnd")
        self.browser.wait(PLAYING)
        self.wait_beyond(BEGIN + 3)
        x, y = self.browser.middle("#play")
        self.browser.touch("touchStart", (x, y))
        self.browser.touch("touchEnd")
        self.browser.wait(f"!({PLAYING})")


class Console(OpenCase):
    turn_at_first = 127_500

    def test_one_click_from_the_top(self) -> None:
        for width, height in ((1280, 800), (1920, 1080), (400, 800)):
            with self.subTest(width=width):
                self.browser.size(width, height)
                self.browser.value("scrollTo(0, 0)")
                self.browser.click("#sit")
                self.assertEqual(self.browser.value("document.activeElement.id"), "terminal")
                left, top, bottom, wide = self.browser.value(
                    "(it => [it.left, it.top, it.bottom, it.width])"
                    "(document.querySelector('#terminal').getBoundingClientRect())"
                )
                self.assertTrue(0 <= top and bottom <= height, (top, bottom))
                self.assertGreater(bottom - top, 280 if width == 400 else 440)
                # nothing lies over it
                for y in (top + 12, bottom - 12):
                    found = f"document.elementFromPoint({left + 50}, {y}).closest('#terminal')"
                    self.assertTrue(self.browser.value(f"{found} !== null"), y)
                # 80 columns of 9 pixels
                self.assertTrue(width == 400 or wide > 740, wide)

    def test_it_shows_what_was_printed_before_the_cursor(self) -> None:
        self.browser.click("#sit")
        for turn in (127_500, 130_000):
            self.fill("#turn", str(turn))
            self.browser.key("Enter")
            self.wait_text("#terminal-status", f"before turn {turn}, ")
            (text,) = replies_of([*PAST, f"text {turn}"])[-1:]
            shown = text.split(":", 1)[1].replace("\\015\\012", "\n")
            self.assertEqual(self.browser.text("#terminal"), shown)
