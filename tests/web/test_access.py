"""WCAG 2.2 AA, by checks of this project's own: what is drawn, in both looks. Names of controls and
the sizes of targets are in test_looks."""
import json
from pathlib import Path
from typing import Any

from .browser import SHIFT
from .page_case import TABS, OpenCase

CHECKS = Path(__file__).with_name("access.js").read_text()
WIDTHS = (320, 400, 640, 1280)
# The colours of lines and marks on the canvas, by their names in the style.
MARKS = ("ink", "counter", "cpu", "disk", "interrupt", "key", "ghost", "bad", "accent")
# What tells the user something later than at the press of a key.
MESSAGES = (
    ["reply", "verdict", "find-said", "step-said", "inspect-said", "sweep-said", "sweep-chosen"]
    + ["link", "linked", "difference", "reasons", "edits-kept", "session-kept"]
    + ["drives-said"]
)
# Each check, with what makes a page of which it must say something.
WRONG = {
    "lowTexts()": "document.querySelector('#does').style.color = '#aaa'",
    "lowEdges()": "document.querySelector('#undo').ariaDisabled = 'false';"
    "document.querySelector('#undo').style.borderColor = '#eee'",
    f"lowMarks({json.dumps(MARKS)})": "document.documentElement.style"
    ".setProperty('--cpu', '#fafafa')",
    "headings()": "document.querySelector('main h2').outerHTML = '<h6>Lower</h6>'",
    "pictures()": "document.body.append(document.createElement('img'))",
    "lost()": "document.querySelector('#save').style.width = '3000px';"
    "document.querySelector('#save').style.maxWidth = 'none'",
    f"untold({json.dumps(MESSAGES)})": "document.querySelector('#reply').role = 'note'",
}

BUTTONS = "[...document.querySelectorAll('button:enabled')].filter(it => it.checkVisibility())"
STOPS = (
    "[...document.querySelectorAll('button, input, select, summary, [tabindex]')]"
    ".filter(it => it.tabIndex >= 0 && !it.disabled && it.checkVisibility())"
)


class Access(OpenCase):
    turn_at_first = 126_967

    def setUp(self) -> None:
        self.browser.size(1280, 1000)
        super().setUp()
        self.browser.value(f"(() => {{ {CHECKS} }})()")

    def found(self, check: str) -> Any:
        return self.browser.value(f"access.{check}")

    def test_contrast(self) -> None:
        for is_dark in (False, True):
            self.browser.size(1280, 1000, is_dark)
            self.browser.wait(
                f"(document.documentElement.dataset.look === 'dark') === {str(is_dark).lower()}"
            )
            for name in TABS:
                self.open_tab(name)
                self.browser.value("document.querySelector('#help').open = true")
                self.assertEqual(self.found("lowTexts()"), [], name)
                self.assertEqual(self.found("lowEdges()"), [], name)
                self.browser.value("document.querySelector('#help').open = false")
            self.assertEqual(self.found(f"lowMarks({json.dumps(MARKS)})"), [])

    def test_language_headings_and_pictures(self) -> None:
        self.assertEqual(self.browser.value("document.documentElement.lang"), "en")
        for name in TABS:
            self.open_tab(name)
            self.assertEqual(self.found("headings()"), [], name)
            self.assertEqual(self.found("pictures()"), [], name)

    def test_nothing_is_lost_in_a_narrow_page(self) -> None:
        """640 pixels are those of 1280 at 200 percent, 320 those at 400 percent."""
        shown = "document.querySelector('#keys').checkVisibility()"
        for width in WIDTHS:
            self.browser.size(width, 800)
            for name in TABS:
                self.open_tab(name)
                self.assertEqual(self.found("lost()"), [], (width, name))
            self.browser.click("#help summary")
            self.assertTrue(self.browser.value(shown), width)
            self.assertEqual(self.found("lost()"), [], width)
            self.browser.key("Escape")
            self.assertFalse(self.browser.value(shown), width)

    def test_messages_are_told(self) -> None:
        self.assertEqual(self.found(f"untold({json.dumps(MESSAGES)})"), [])

    def test_nothing_moves_if_that_is_asked(self) -> None:
        begin = "document.querySelector('.mark').className = 'mark wanted'"
        count = f"({begin}, document.getAnimations().length)"
        features = [{"name": "prefers-reduced-motion", "value": "no-preference"}]
        self.browser.call("Emulation.setEmulatedMedia", features=features)
        self.assertGreater(self.browser.value(count), 0)
        features[0]["value"] = "reduce"
        self.browser.call("Emulation.setEmulatedMedia", features=features)
        self.assertEqual(self.browser.value(count), 0)

    def test_forced_colours_hide_nothing(self) -> None:
        """The cursor, the pulse of the key that is to be moved, and lights that are on."""
        self.browser.value(
            "document.querySelector('#front').open = true; document.activeElement.blur()"
        )
        self.wait_still()
        # the pulse begins anew: it ends after some seconds
        beat = (
            "(it => { it.style.animation = 'none'; it.getAnimations(); it.style.animation = '';"
            "const [pulse] = it.getAnimations(); pulse.pause(); pulse.currentTime = %d; })"
            "(document.querySelector('.mark.wanted'))"
        )
        hide = "document.querySelector('.cursor').style.visibility = '%s'"
        light = "document.querySelector('#front-run').classList.toggle('on', %s)"
        for is_dark in (False, True):
            self.browser.size(1280, 1000, is_dark, is_forced=True)
            for seen, before, after in (
                (".cursor", hide % "", hide % "hidden"),
                (".mark.wanted", beat % 0, beat % 600),
                ("#front-run", light % "true", light % "false"),
            ):
                with self.subTest(seen, is_dark=is_dark):
                    self.browser.value(f"document.querySelector('{seen}').scrollIntoView()")
                    self.browser.value(before)
                    first = self.browser.screenshot()
                    self.browser.value(after)
                    self.assertTrue(self.browser.screenshot() != first, "it can't be seen")
        type(self).is_open = False

    def test_the_keyboard_goes_through_all(self) -> None:
        """In the order of the page, without a trap, and what has the focus is marked."""
        count = 0
        for name in TABS:
            self.open_tab(name)
            self.browser.key("Tab")
            all_of_them = int(self.found("beginFocus()"))
            self.assertGreater(all_of_them, 30)
            seen: list[int] = []
            wrong: list[str] = []
            for _ in range(all_of_them):
                at, faults = self.found("focusNow()")
                seen.append(at)
                wrong += faults
                self.browser.key("Tab")
            self.assertEqual(seen, list(range(all_of_them)), name)
            self.assertEqual(wrong, [], name)
            count += all_of_them - 30
        self.assertGreater(count, 30)

    def test_a_list_is_one_stop_with_arrows(self) -> None:
        """Tab comes to one button of each list, and arrows to all others."""
        self.open_tab("past")
        stops, all_of_them = self.browser.value(f"[{STOPS}, {BUTTONS}].map(it => it.length)")
        self.assertGreater(all_of_them, 120)
        self.assertLess(stops, 60)
        rows = int(self.browser.value("document.querySelectorAll('#events tbody tr').length"))
        self.fill("#event-value", "A")
        for _ in range(2):
            self.browser.key("Tab")
        for keys, row, name in (
            ((), 1, "turn of 1"),
            (("ArrowDown",) * 2, 3, "turn of 3"),
            (("ArrowRight",) * 2, 3, "take out 3"),
            (("ArrowUp",), 2, "take out 2"),
            (("End",), rows, f"take out {rows}"),
            (("Home",), 1, "turn of 1"),
        ):
            for key in keys:
                self.browser.key(key)
            self.assertEqual(self.browser.value("document.activeElement.dataset.name"), name, keys)
        self.browser.key("ArrowDown")
        self.browser.key("Tab")
        self.browser.key("Tab", SHIFT)
        self.assertEqual(self.browser.value("document.activeElement.dataset.name"), "turn of 2")
        self.open_tab("machine")
        self.browser.value("document.querySelector('#instructions .link').focus()")
        self.browser.key("ArrowDown")
        self.browser.key("Enter")
        self.wait_text("#registers-turn", "before turn 126962")
        self.wait_still()
        self.assertTrue(self.browser.value("document.activeElement.matches('#instructions .link')"))
        self.browser.value("document.querySelector('[data-event=\"14\"]').focus()")
        self.browser.key("ArrowRight")
        self.assertEqual(self.browser.value("document.activeElement.dataset.event"), "15")

    def test_keys_after_a_click_in_a_list_are_those_of_the_timeline(self) -> None:
        self.browser.click("#instructions .link")
        before = self.turn()
        self.browser.key("ArrowRight")
        self.assertEqual(self.turn(), before + 1)

    def test_a_focus_that_is_not_marked_is_found(self) -> None:
        self.found("beginFocus()")
        self.browser.value("document.activeElement.style.outline = 'none'")
        self.assertEqual(len(self.found("focusNow()")[1]), 1)
        self.browser.value("document.activeElement.style.outline = ''")

    def test_each_check_can_fail(self) -> None:
        for check, change in WRONG.items():
            with self.subTest(check=check):
                self.browser.open(self.address)
                self.wait_still()
                self.browser.value(f"(() => {{ {CHECKS} }})()")
                before = self.found(check)
                self.browser.value(change)
                self.assertGreater(len(self.found(check)), len(before))
        type(self).is_open = False
