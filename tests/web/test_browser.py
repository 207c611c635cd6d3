"""The tests' own click: as a user, it waits until what it presses is there and can be pressed."""
from tests import counted

from .driven import BrowserError
from .page_case import the_browser

PAGE = (
    "data:text/html,<!DOCTYPE html><html data-state='ready'>"
    "<button style='position: relative'>Press</button>"
    "<div hidden style='position: fixed; inset: 0'></div>"
)
# What keeps a button from being pressed while `isKept` holds, and what is told of it.
KEPT = (
    ("button.hidden = isKept", "it isn't shown"),
    ("button.style.visibility = isKept ? 'hidden' : 'visible'", "it isn't shown"),
    ("button.style.left = `${isKept ? frame % 50 : 0}px`", "it moves"),
    ("button.disabled = isKept", "it is disabled"),
    ("document.querySelector('div').hidden = !isKept", "this lies over it: <div"),
)
KEEP = """(() => {{
  const button = document.querySelector('button');
  window.isKept = true;
  window.pressed = [];
  button.onclick = () => window.pressed.push(isKept);
  let frame = 0;
  const keep = () => {{
    {};
    frame += 1;
    requestAnimationFrame(keep);
  }};
  keep();
}})()"""

# Twice, as the pointer comes, another button takes the place of the first one.
MOVES = """(() => {
  const button = document.querySelector('button'), other = button.cloneNode(true);
  window.pressed = [];
  button.onclick = () => window.pressed.push('button');
  other.onclick = () => window.pressed.push('other');
  let times = 0;
  addEventListener('mousemove', () => times++ < 2 && (times % 2 ? button.before(other)
    : other.remove()));
})()"""


class Pressing(counted.InBrowser):
    def page_says(self) -> str:
        return the_browser().says()

    def test_a_click_waits_until_the_element_can_be_pressed(self) -> None:
        browser = the_browser()
        for act, told in KEPT:
            with self.subTest(act):
                browser.open(PAGE)
                browser.value(KEEP.format(act))
                with self.assertRaisesRegex(BrowserError, told):
                    browser.middle("button", 0)
                browser.value("setTimeout(() => { isKept = false; }, 200)")
                browser.click("button")
                browser.wait("pressed.length")
                self.assertEqual(browser.value("pressed"), [False])

    def test_a_click_that_the_page_moves_away_is_made_again(self) -> None:
        browser = the_browser()
        browser.open(PAGE)
        browser.value(MOVES)
        browser.click("button:last-of-type")
        browser.wait("pressed.length")
        self.assertEqual(browser.value("pressed"), ["button"])

    def test_what_the_page_says_is_told(self) -> None:
        browser = the_browser()
        browser.open(PAGE)
        browser.value("console.error('something'); document.querySelector('button').focus()")
        said = browser.says()
        for part in ('"state": "ready"', "<button", "its console: something"):
            self.assertIn(part, said)
        self.assertNotIn("session", said)

    def test_what_is_not_there_is_told(self) -> None:
        browser = the_browser()
        browser.open(PAGE)
        with self.assertRaisesRegex(BrowserError, "it isn't there"):
            browser.middle("input", 0)
