"""Help by topic, as wide and as high as the terminal."""
import fcntl
import re
import struct
import termios

from nezdrab.core.language import FORMS, LISTS, SEARCHES
from nezdrab.shell import prompt, wrapping  # noqa: F401, which adds the commands
from nezdrab.shell.command_table import COMMANDS
from nezdrab.shell.topics import ASKING, LINES, NAMED, SHOWING, TOPICS, commands_of

from .explore_case import Case
from .terminal import AtTerminal

COLUMNS, ROWS = 40, 10
MARK = "| "


class Topics(Case):
    def test_each_command_has_a_topic_and_each_word_is_a_command(self) -> None:
        self.assertEqual({it for topic in TOPICS for it in commands_of(topic)}, {*COMMANDS})
        self.assertEqual(NAMED - COMMANDS.keys(), set())
        self.assertIn(ASKING, SHOWING)

    def test_a_command_without_a_topic_is_one_that_asks(self) -> None:
        COMMANDS["another"] = COMMANDS["see"]
        self.addCleanup(COMMANDS.pop, "another")
        self.assertEqual(commands_of(ASKING)[-1], "another")
        self.assertNotIn("another", commands_of("moving"))

    def test_each_topic_shows_its_lines(self) -> None:
        topics = [*TOPICS, *LINES, *prompt.RULES, "all"]
        written = self.explore("".join(f"help {it}\nregs 0\n" for it in topics))
        shown = written.split("R0 000000 ")
        parts = dict(zip(topics, [shown[0], *(it.partition("\n")[2] for it in shown[1:])]))
        for topic in TOPICS:
            # what the command of this name does comes first
            parts[topic] = parts[topic][parts[topic].index(f"{topic}: {TOPICS[topic].title}\n") :]
            for word in commands_of(topic):
                self.assertIn(f"\n  {word}", parts[topic])
        for word in (*FORMS, *SEARCHES, *LISTS):
            self.assertIn(f"\n  {word}", parts["session" if word in FORMS else "searches"])
        for topic, part in parts.items():
            self.assertIn(part.strip(), parts["all"], topic)
        self.assertEqual(len(parts), len(topics))

    def test_help_alone_names_the_topics(self) -> None:
        written = self.explore("help\n")
        for topic in (*TOPICS, *LINES, *prompt.RULES, "all"):
            self.assertIn(f"\n  {topic} ", written)
        self.assertLess(len(written.splitlines()), 24)

    def test_a_topic_that_is_a_command_too_shows_both(self) -> None:
        written = self.explore("help breakpoints\n")
        self.assertIn("Lists the breakpoints with their numbers.", written)
        self.assertIn("\n  watch A\n", written)

    def test_odd_words(self) -> None:
        for word in ("nothing", "step x", "\u20ac", "'", "-h", "step 5"):
            self.assertEqual(
                self.explore(f"help {word}\n"),
                f"there is no command '{word}'; help lists the topics\n",
            )


class Paragraphs(Case):
    def test_lines_that_stand_for_themselves_stay(self) -> None:
        detail = "Puts it there. What it is,\nits bytes tell:\na tape;\notherwise words. "
        found = wrapping.paragraphs_of(f"{detail}{'x' * 70}\nA word more.")
        self.assertEqual(
            found,
            ["Puts it there. What it is, its bytes tell:", "a tape;"]
            + [f"otherwise words. {'x' * 70} A word more."],
        )
        lines = ["  deeper", "    than", "    before"]
        self.assertEqual(wrapping.wrap("  deeper than before", 12), lines)
        self.assertEqual(wrapping.wrap("", 12), [""])


class AtPrompt(AtTerminal):
    """A terminal of 40 columns and 10 rows, and a pager that marks each line."""

    pager = f"sed 's/^/{MARK}/'"

    def environment(self) -> dict[str, str]:
        return {**super().environment(), "PAGER": self.pager}

    def begin_at(self, columns: int, rows: int) -> None:
        self.begin()
        self.wait_for(b"explore> ")
        size = struct.pack("HHHH", rows, columns, 0, 0)
        fcntl.ioctl(self.ours, termios.TIOCSWINSZ, size)
        self.seen = b"explore> "

    def test_it_fits_and_has_the_pager_of_the_system(self) -> None:
        self.begin_at(COLUMNS, ROWS)
        self.type("log shown\n")
        self.type("help all\n")
        self.wait_for(b"help all\r\n")
        shown = re.sub(r"\r( +\r)?|explore> ", "", self.wait_for(b"explore> "))
        lines = shown.strip("\n").split("\n")
        self.assertEqual([it for it in lines if it[:2] != MARK], [])
        self.assertLessEqual(max(map(len, lines)), COLUMNS + len(MARK))
        text = "".join(f"{it[2:]}\n" for it in lines)
        self.assertIn("moving: from turn to turn", text)
        self.seen = b"explore> "
        self.end()
        self.assertIn(text, (self.folder / "shown").read_text())

    def test_what_fits_is_shown_at_once(self) -> None:
        self.begin_at(COLUMNS, ROWS)
        self.type("help step\n")
        self.assertNotIn(MARK, self.wait_for(b"explore> "))
        self.seen = b"explore> "
        # so are lines of a paste
        self.type("help moving\x16\nmem 0 1000 1\n")
        self.assertNotIn(MARK, self.wait_for(b"mem 000000"))
        self.end()

    def test_ctrl_c_is_the_pagers(self) -> None:
        self.pager = "trap '' INT; cat; echo ENDED; sleep 1; true"
        self.begin_at(COLUMNS, ROWS)
        self.type("help all\n")
        self.wait_for(b"ENDED")
        for _ in range(2):
            self.interrupt()
        self.assertNotIn("stopped", self.wait_for(b"explore> "))
        self.seen = b"explore> "
        self.type("mem 0 1000 1\n")
        self.assertNotIn("stopped", self.wait_for(b"mem 000000"))
        self.end()
