"""Lines undo and redo in a session: the past is the one that the program search has after it."""
import random

from .machine_case import Case, replies

EDITS = ["core 1000 {}", "at {} key 101", "drop {}", "alter {} 9 tick", "delay disk {}", "tape 101"]
STEPS = ["undo", "redo", "undo", "undo 1"]
PAST = ["setup", "patches", "events"]


def lines_of(seed: int) -> list[str]:
    """A stride, and edits, of which some are refused, with undo and redo between them."""
    chance = random.Random(seed)
    kinds = [*EDITS, *STEPS, *STEPS, "version 2", "regs 3"]
    lines = [chance.choice(kinds).format(chance.randint(1, 7)) for _ in range(30)]
    return ["#! --stride 100", *lines]


class Steps(Case):
    def test_the_past_is_that_of_search(self) -> None:
        for seed in range(24):
            path = self.folder / f"{seed}.session"
            path.write_text("".join(f"{it}\n" for it in lines_of(seed)))
            machine = self.of_session(str(path), skips_refused=True)
            with self.subTest(seed=seed):
                self.assertEqual(machine.ask_all(PAST), replies(path, PAST))
