"""Which turns are in sight: a box selects them, and the strip of the whole run moves them."""
from .browser import SHIFT
from .page_case import PageCase

FIRST, SPAN, WHOLE = 126_300, 2_600, 238_614
LEFT, RIGHT = 112, 10
VIEW = (
    "['from', 'turns'].map(it => Number(new URLSearchParams(location.hash.slice(1)).get(it)))"
)
# how blue the strip is where a turn is: 0 if it was never looked at
LOOKED = """(turn => {
  const canvas = document.querySelector('#minimap canvas');
  const x = 112 + turn / 238614 * (canvas.width - 122);
  const {data} = canvas.getContext('2d').getImageData(x, 10, 1, 1);
  return data[3] > 0 && data[2] > data[0] + 40 ? data[3] : 0;
})"""


class Views(PageCase):
    def setUp(self) -> None:
        super().setUp()
        self.wait_still()

    def box(self, selector: str) -> tuple[float, float, float]:
        left, top, width = self.browser.value(
            "(({left, top, width}) => [left, top, width])"
            f"(document.querySelector('{selector}').getBoundingClientRect())"
        )
        return left, top, width

    def drag(self, x: float, to: float, y: float, modifiers: int = 0) -> None:
        more = {"button": "left", "modifiers": modifiers}
        self.browser.mouse("mouseMoved", x, y)
        self.browser.mouse("mousePressed", x, y, buttons=1, clickCount=1, **more)
        for step in range(1, 6):
            self.browser.mouse("mouseMoved", x + (to - x) * step / 5, y, buttons=1, **more)
        self.browser.mouse("mouseReleased", to, y, clickCount=1, **more)

    def test_a_box_zooms_to_its_turns(self) -> None:
        left, top, width = self.box("#timeline canvas")

        def x(turn: int) -> float:
            return left + LEFT + (turn - FIRST) / SPAN * (width - LEFT - RIGHT)

        cursor = self.turn()
        self.drag(x(127_600), x(127_100), top + 150, SHIFT)
        self.browser.wait(f"{VIEW}[1] < 600")
        first, span = self.browser.value(VIEW)
        self.assertAlmostEqual(first, 127_100, delta=4)
        self.assertAlmostEqual(span, 500, delta=6)
        self.assertEqual(self.turn(), cursor)
        self.assertTrue(self.browser.value("document.querySelector('.box').hidden"))

    def test_the_strip_moves_what_is_in_sight(self) -> None:
        left, top, width = self.box("#minimap canvas")
        inside = width - LEFT - RIGHT
        self.browser.click_at(left + LEFT + inside / 4, top + 13)
        self.browser.wait(f"{VIEW}[0] < 100000")
        first, span = self.browser.value(VIEW)
        self.assertAlmostEqual(first + span / 2, WHOLE / 4, delta=WHOLE / inside * 2)
        self.assertEqual(span, SPAN)
        self.drag(left + LEFT + inside / 4, left + LEFT + inside / 2, top + 13)
        self.browser.wait(f"{VIEW}[0] > 100000")

    def test_the_strip_is_moved_by_keys(self) -> None:
        told = "document.querySelector('#minimap').ariaValueText"
        self.browser.value("document.querySelector('#minimap').focus()")
        self.assertEqual(self.browser.value(told), f"turns {FIRST} to {FIRST + SPAN} of {WHOLE}")
        cursor = self.turn()
        self.browser.key("ArrowRight")
        self.browser.wait(f"{told}.startsWith('turns {FIRST + SPAN // 4} ')")
        self.browser.key("Home")
        self.browser.wait(f"{told}.startsWith('turns 0 ')")
        self.assertEqual(self.turn(), cursor)

    def test_the_strip_shows_what_was_looked_at(self) -> None:
        """Also an edit makes it another past, of which nothing was looked at yet."""
        self.assertGreater(self.browser.value(f"{LOOKED}({FIRST + SPAN / 2})"), 100)
        self.assertEqual(self.browser.value(f"{LOOKED}(60000)"), 0)
        self.browser.click('[data-key="0"]')
        self.wait_text("#sampled", "PC and mode: the first of each ")
        self.wait_still()
        self.browser.wait(f"{LOOKED}(60000) > 0")
        samples, whole = (self.browser.value(f"{LOOKED}({it})") for it in (60_000, 127_600))
        self.assertTrue(0 < samples < whole, (samples, whole))
        self.follow_fragment("#turn=50000&from=50000&turns=2000")
        self.wait_still()
        self.type_line("at 60000 switches 1")
        self.wait_still()
        self.browser.wait(f"{LOOKED}(150000) === 0")
