"""The first minute: what the page is, where the key is to be dropped, what comes of it there."""
import re

from .browser import ALT, SHIFT
from .page_case import KEY, LOST, SAFE, PageCase, ledger_lines, replies_of

PAST = ledger_lines()[:-2]
END, KEY_TURN = 238_614, 126_967
CARRIED = "document.querySelector('.carried')"
# notes at each frame what the moved key carries, and the balance
WATCH = f"""(() => {{
  window.seen = [];
  const look = () => {{
    const text = name => document.querySelector(name).textContent;
    if (!{CARRIED}.hidden) window.seen.push([text('.carried'), text('#balance')]);
    requestAnimationFrame(look);
  }};
  look();
}})()"""
# how green the lane of events is in a column of the canvas
GREEN = """(x => {
  const canvas = document.querySelector('#timeline canvas');
  const {data} = canvas.getContext('2d').getImageData(x, 70, 1, 1);
  return data[3] > 0 && data[1] > data[0];
})"""


def balances(turns: list[int]) -> dict[int, str]:
    """The fourth balance with the key in each of these turns, by the program; '' if none."""
    asked = [it for turn in turns for it in (f"alter 15 {turn} key 66", f"text {END}")]
    texts = replies_of([*PAST, *asked])[-2 * len(turns) :][1::2]
    found = [[it.lstrip("0") for it in re.findall("=([0-7]{6})", text)] for text in texts]
    return {turn: (it[3:4] or [""])[0] for turn, it in zip(turns, found)}


def story() -> dict[str, int]:
    """Where the session says that the event is safe, and the tick before that."""
    found = [it.split()[3:] for it in ledger_lines() if it.startswith("# story target ")]
    return dict(zip(("event", "from", "to", "tick"), map(int, found[0])))


class Said(PageCase):
    def test_what_it_is_and_what_a_turn_is(self) -> None:
        self.browser.click("#help summary")
        said = re.sub(r"\s+", " ", self.browser.value("document.body.innerText"))
        self.assertIn("A recorded day of a small bank's computer", said)
        self.assertIn("some 240,000 steps of the processor", said)
        self.assertIn("A turn is one step of the machine", said)
        turns = max(int(it.split()[1]) for it in ledger_lines() if it.startswith(("at", "text")))
        self.assertTrue(235_000 < turns < 245_000)

    def test_words_have_the_names_that_the_session_gives(self) -> None:
        self.wait_text("#words", "clerk A's balance (core 030000)")
        self.assertIn("the ledger (disk 0000000)", self.browser.text("#words"))

    def test_a_word_without_a_name_is_called_as_its_symbol(self) -> None:
        self.fill("#watch", "2000")
        self.browser.key("Enter")
        self.wait_text("#words", "QUEUE (core 002000)")


class Target(PageCase):
    def test_it_is_where_nothing_is_lost(self) -> None:
        safe = story()
        inside = [safe["from"], safe["to"], *range(safe["from"], safe["to"], 97)]
        outside = [safe["from"] - 1, safe["to"] + 1, *range(KEY_TURN, safe["from"], 7)]
        found = balances(inside + outside)
        self.assertEqual({found[it] for it in inside}, {SAFE})
        self.assertNotIn(SAFE, {found[it] for it in outside})
        trail = replies_of([*PAST, f"trail {safe['tick'] + 1} 1"])[-1]
        self.assertRegex(trail, rf"^{safe['tick']} [0-7]{{6}} irq 100$")
        self.assertTrue(KEY_TURN < safe["tick"] < safe["from"])

    def column(self, turn: int) -> float:
        """Where a turn is on the canvas, as a pair of marks has it."""
        name = "document.querySelector('[data-event=\"{}\"]').style.left"
        places = [
            float(self.browser.value(f"parseFloat({name.format(it)})")) for it in (14, 15)
        ]
        first, second = 126_830, KEY_TURN
        return places[0] + (turn - first) / (second - first) * (places[1] - places[0])

    def is_drawn(self, turn: int) -> bool:
        return bool(self.browser.value(f"{GREEN}({self.column(turn):.0f})"))

    def test_it_is_drawn_as_soon_as_the_key_is_taken(self) -> None:
        self.wait_still()
        safe = story()["from"]
        self.assertFalse(self.is_drawn(safe + 400))
        x, y = self.browser.middle(KEY)
        self.browser.mouse("mouseMoved", x, y)
        self.browser.mouse("mousePressed", x, y, button="left", buttons=1, clickCount=1)
        self.browser.wait(f"{GREEN}({self.column(safe + 400):.0f})")
        self.assertFalse(self.is_drawn(safe - 40))
        self.assertEqual(self.browser.text(".carried"), f"turn {KEY_TURN}")
        self.browser.mouse("mouseReleased", x, y, button="left", clickCount=1)
        self.browser.wait(f"{CARRIED}.hidden")
        self.browser.value("document.activeElement.blur()")
        self.browser.wait(f"!{GREEN}({self.column(safe + 400):.0f})")

    def test_it_is_drawn_for_the_keys_too(self) -> None:
        self.wait_still()
        self.browser.value(f"document.querySelector('{KEY}').focus()")
        self.browser.wait(f"{GREEN}({self.column(story()['from'] + 400):.0f})")
        self.browser.key("ArrowRight", ALT | SHIFT, is_up=False)
        said = self.wait_text(".carried", f"turn {KEY_TURN + 64}: ")
        self.assertEqual(said.split(": ")[1], f"{LOST}, to the right")
        self.browser.key("Escape")

    def test_another_edit_takes_it_away(self) -> None:
        self.type_line("delay clock 900")
        self.wait_still()
        self.browser.value(f"document.querySelector('{KEY}').focus()")
        self.wait_still()
        self.assertFalse(self.is_drawn(story()["from"] + 400))


class Carried(PageCase):
    def test_no_outcome_of_another_turn_is_shown(self) -> None:
        """At each frame of a drag what is shown is what the program says of that very turn."""
        self.wait_still()
        self.browser.value(WATCH)
        self.browser.drag(KEY, 110, steps=60, is_let_go=False)
        self.balance(SAFE)
        self.browser.drag_on(KEY, -60, steps=30)
        self.balance(LOST)
        seen = self.browser.value("seen")
        turns = sorted({int(text.split()[1].rstrip(":")) for text, _ in seen})
        self.assertGreater(len(turns), 20)
        wanted = balances(turns)
        shown = 0
        for text, balance in seen:
            turn = int(text.split()[1].rstrip(":"))
            said = text.partition(": ")[2]
            self.assertIn(balance, ("..", wanted[turn]) if turn != KEY_TURN else ("..", LOST))
            self.assertIn(said[:3], ("", wanted[turn]))
            shown += bool(said)
        self.assertGreater(shown, 2)
        self.browser.key("Escape")

    def test_what_comes_of_each_past(self) -> None:
        """Moved past the fourth `=` the deposit is in the fifth balance. The last balance is told,
        if it is another one than the session says."""
        safe = story()
        lost = "a deposit of 6 is lost; it should be 145; "
        for line, said in (
            (f"alter 15 {safe['from'] - 1} key 66", f"{lost}move it right"),
            (f"alter 15 {KEY_TURN - 60} key 66", f"{lost}move it right"),
            ("alter 15 150000 key 66", "nothing is lost: the rest came later"),
            (f"alter 15 {safe['from']} key 66", "\u2713 nothing is lost"),
            ("alter 19 155337 key 64", "the last balance is 172, not 176; try another turn"),
            (f"alter 15 {KEY_TURN} key 66", "the last balance is 164, not 176; move it right"),
        ):
            self.type_line(line)
            self.wait_text("#verdict", said)
            last = replies_of([*PAST, *self.edits(), f"dsk {END} 0 1"])[-1].split()[-1]
            told = re.search("last balance is ([0-7]+)", self.browser.text("#verdict"))
            wanted = 0o170 if lost in said else 0o176
            self.assertEqual(int(told[1], 8) if told else wanted, int(last, 8), line)

    def test_a_finger_at_400_pixels(self) -> None:
        """The way to the target is short, and all of it is in sight, with the balance."""
        self.browser.size(400, 800)
        self.browser.open(self.address)
        self.balance(LOST)
        self.wait_still()
        x, y = self.browser.middle(KEY)
        self.browser.touch("touchStart", (x, y))
        for by in range(2, 33, 5):
            self.browser.touch("touchMove", (x + by, y))
        self.wait_text(".carried", "nothing is lost")
        place = "document.querySelector('.carried').getBoundingClientRect()"
        left, right, top, bottom = self.browser.value(
            f"(({{left, right, top, bottom}}) => [left, right, top, bottom])({place})"
        )
        self.assertTrue(left >= 0 and right <= 400 and top >= 0 and bottom <= 800)
        self.browser.touch("touchEnd")
        self.balance(SAFE)
        self.browser.wait("document.querySelectorAll('#edits li').length === 1")


class Happened(PageCase):
    STEPS = "[...document.querySelectorAll('#steps li')].map(it => it.textContent)"

    def steps(self) -> list[str]:
        self.browser.wait("document.querySelectorAll('#steps li').length")
        return list(self.browser.value(self.STEPS))

    def test_four_steps(self) -> None:
        """Each is what the program says of that turn."""
        steps = self.steps()
        turns = [int(it.split()[-1]) for it in steps]
        read, tick, first, second = turns
        asked = [f"last {read + 1} 30000", f"trail {tick + 1} 1"]
        asked += [f"dsk {turn} 0 1" for turn in (first, first + 1, second, second + 1)]
        last, _, trail, *words = replies_of([*PAST, *asked])[-7:]
        self.assertEqual(last, f"last {read} disk 000130")
        self.assertRegex(trail, rf"^{tick} [0-7]{{6}} irq 100$")
        self.assertEqual([it.lstrip("dsk 0") for it in words], ["130", "136", "136", "132"])
        self.assertEqual(turns, sorted(turns))
        self.assertEqual(
            [it.rsplit(" turn", 1)[0] for it in steps],
            [
                "clerk A read 130",
                "the tick of the clock came",
                "clerk B read 130 and wrote 136",
                "clerk A wrote 132 over it",
            ],
        )

    def test_in_another_past_the_heading_says_so(self) -> None:
        self.steps()
        self.assertEqual(self.browser.text("#happened-title"), "What happened")
        self.type_line("alter 15 127165 key 66")
        self.balance(SAFE)
        self.wait_text("#happened-title", "In another past")
        self.browser.click("#undo")
        self.browser.wait("document.querySelector('#happened-title').textContent"
                          " === 'What happened'")

    def test_a_step_is_a_place(self) -> None:
        turn = int(self.steps()[1].split()[-1])
        self.browser.click("#steps li:nth-child(2) .link")
        self.browser.wait(f"document.querySelector('#turn').value === '{turn}'")
        self.assertEqual(self.turn(), turn)
        self.wait_text("#registers-turn", f"before turn {turn}")


class Data(PageCase):
    """A story is data of the session: any session may tell one."""

    LINES = (
        "# story title Caf\u00e9 <b>day</b>",
        "# story step *Strike [A]* now",
        "# story turns 0 60 7",
        "# story ask mem 40 2000 1",
        "# story shows 1 The word",
        "# story verdict good 1 5: it is {1}",
        "# story verdict bad 1 any: it is {1}, not 5",
        "# name core 2000 the word",
        "# note 9 here",
        "core 1000 12737",
        "core 1002 5",
        "core 1004 2000",
        "regs 40",
    )

    def open_lines(self, *more: str) -> str:
        path = self.folder() / "day.session"
        path.write_text("\n".join((*self.LINES, *more)) + "\n")
        self.give(path)
        self.wait_still()
        return self.browser.text("#reply")

    def test_what_it_shows(self) -> None:
        self.open_lines()
        self.assertEqual(self.browser.text("#story-title"), "Caf\u00e9 <b>day</b>")
        marked = self.browser.value("document.querySelector('#sentences').innerHTML")
        self.assertEqual(marked, "<li><strong>Strike <kbd>A</kbd></strong> now</li>")
        self.assertEqual(self.turn(), 7)
        self.assertEqual(self.browser.text("#balance-label"), "The word")
        self.balance("5")
        self.assertEqual(self.browser.text("#verdict"), "\u2713 it is 5")
        self.assertIn("the word (core 002000)", self.browser.text("#words"))
        self.assertIn("here", self.browser.text("#steps"))
        self.type_line("core 1002 7")
        self.wait_text("#verdict", "there are other edits: see the list")

    def test_it_is_saved_with_its_session(self) -> None:
        self.open_lines()
        lines = self.saved("#save").read_text().splitlines()
        told = [it for it in lines if it.startswith(("# story", "# name", "# note"))]
        self.assertEqual(sorted(told), sorted(it for it in self.LINES if it.startswith("#")))

    def test_a_line_that_cannot_be_read_is_told(self) -> None:
        for line in ("# story turns 5", "# story verdict fine 1 5: x", "# story colour red"):
            self.assertIn(f"can't be read: {line}.", self.open_lines(line))
        self.balance("5")

    def test_it_asks_no_edit_and_no_turn_beyond_the_session(self) -> None:
        for line in ("at 5 key 101", "core 1002 7", "regs 1000000000"):
            said = self.open_lines(f"# story ask {line}")
            self.assertIn(f"can't be read: # story ask {line}.", said)
            self.assertTrue(self.browser.value("document.querySelector('#outcome').hidden"))
            self.wait_still()
            self.assertEqual(self.type_line("events"), "events: events 0")
            self.assertIn("mem 000005", self.type_line("mem 40 2000 1"))
