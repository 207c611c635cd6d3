"""Turns and places: steps, zoom, links, back and forward."""
from .browser import SHIFT
from .page_case import PageCase

SPAN = "Number(new URLSearchParams(location.hash.slice(1)).get('turns'))"


class Steps(PageCase):
    def setUp(self) -> None:
        super().setUp()
        self.browser.value("document.querySelector('#turns').focus()")
        self.browser.wait(SPAN)

    def test_arrows_step(self) -> None:
        first = self.turn()
        self.browser.key("ArrowRight")
        self.assertEqual(self.turn(), first + 1)
        self.browser.key("ArrowRight", SHIFT)
        self.assertEqual(self.turn(), first + 65)
        self.browser.key("ArrowLeft")
        self.assertEqual(self.turn(), first + 64)

    def test_a_screen_and_the_ends(self) -> None:
        first, span = self.turn(), self.browser.value(SPAN)
        self.browser.key("PageDown")
        self.assertEqual(self.turn(), first + span)
        self.browser.key("PageUp")
        self.assertEqual(self.turn(), first)
        self.browser.key("Home")
        self.assertEqual(self.turn(), 0)
        self.browser.key("End")
        self.assertEqual(self.turn(), 238_614)

    def test_zoom_down_to_one_turn(self) -> None:
        for _ in range(14):
            self.browser.key("+")
        self.browser.wait(f"{SPAN} === 1")
        self.wait_still()

    def test_zoom_up_to_all_turns(self) -> None:
        self.browser.key("0")
        self.browser.wait(f"{SPAN} === 238614")
        self.wait_still()
        self.wait_text("#sampled", "PC and mode: the first of each ")

    def test_the_wheel_zooms_about_the_pointer(self) -> None:
        x, y = self.browser.middle("#timeline canvas")
        before = self.browser.value(SPAN)
        self.browser.mouse("mouseWheel", x, y, deltaX=0, deltaY=-100)
        self.browser.wait(f"{SPAN} < {before}")

    def test_two_fingers_zoom(self) -> None:
        x, y = self.browser.middle("#timeline canvas")
        before = self.browser.value(SPAN)
        self.browser.touch("touchStart", (x - 50, y))
        self.browser.touch("touchStart", (x - 50, y), (x + 50, y))
        for apart in (70, 100, 150, 200):
            self.browser.touch("touchMove", (x - apart, y), (x + apart, y))
        self.browser.touch("touchEnd")
        self.browser.wait(f"{SPAN} < {before} / 3")

    def test_a_click_puts_the_cursor_there(self) -> None:
        x, y = self.browser.middle("#timeline canvas")
        self.browser.click_at(x, y + 20)
        self.browser.wait("document.querySelector('#turn').value !== '126967'")
        self.assertTrue(127_400 < self.turn() < 127_800, self.turn())


class Fragments(PageCase):
    fragment = "#turn=127163&from=127000&turns=400&core=30000"

    def test_a_link_is_a_place(self) -> None:
        self.assertEqual(self.turn(), 127_163)
        self.assertEqual(self.browser.value("document.querySelector('#address').value"), "30000")
        self.wait_still()
        self.wait_text("#memory", "030000")

    def test_who_wrote_a_word_and_back(self) -> None:
        self.wait_text("#memory", "disk, turn 127125")
        self.browser.click("#memory td:last-child .link")
        self.browser.wait("location.hash.startsWith('#turn=127125')")
        self.assertEqual(self.turn(), 127_125)
        self.browser.value("history.back()")
        self.browser.wait("document.querySelector('#turn').value === '127163'")
        self.browser.value("history.forward()")
        self.browser.wait("document.querySelector('#turn').value === '127125'")
        self.fill("#address", "40000")
        self.browser.key("Enter")
        self.wait_text("#memory", "040000")
        self.browser.value("history.back()")
        self.wait_text("#memory", "030000")

    def test_view_and_cursor_come_back(self) -> None:
        """Also if the cursor isn't in sight, and if the view was changed just before."""
        link = "document.querySelector('#memory td:last-child .link')"
        zoom = "document.querySelector('#turns').dispatchEvent("
        zoom += "new KeyboardEvent('keydown', {key: '+', bubbles: true}))"
        pause = "new Promise(it => setTimeout(it, 400))"
        self.wait_text("#memory", "disk, turn 127125")
        place = "#turn=127163&from=5000.25&turns=400.5&core=30000"
        self.follow_fragment(place)
        self.wait_still()
        self.browser.value(f"{zoom}; {link}.click()")
        self.browser.wait("location.hash.startsWith('#turn=127125')")
        self.browser.value("history.back()")
        self.browser.wait("document.querySelector('#turn').value === '127163'")
        self.browser.value(pause)
        zoomed = "#turn=127163&from=5100.375&turns=200.25&core=30000&tab=memory"
        self.assertEqual(self.browser.value("location.hash"), zoomed)

    def test_a_fragment_that_names_nothing(self) -> None:
        self.follow_fragment("#turn=x&from=-1&turns=99999999999&core=9")
        self.assertEqual(self.turn(), 127_163)
