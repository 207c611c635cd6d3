"""Calls as a tree, by a walk over a range of turns: under which calls each turn was."""
from typing import Optional

from ..core.errors import ExploreError
from ..core.register_rows import PLACE, STATE, STATUS
from ..core.replies import INTERRUPT, MODES, Mode
from ..core.values import dataclass, field
from .call_steps import CallStep, Known, steps_of
from .counting import Place
from .explorer import Explorer
from .finder import batches_of
from .levels import NEAR_BYTES, Stacks
from .routines import Label, Labels

MOST_LEVELS, MOST_NODES = 500, 1_000_000
IDLE = "idle"


class Node:
    """A routine with the calls that it was reached by: its own turns, and how often it was entered
    in these turns from its parent, by a call at the site, or, without a site, by a jump."""

    __slots__ = ("label", "parent", "site", "level", "turns", "entries", "children")

    def __init__(self, label: Label, parent: "Optional[Node]", site: Optional[Place]):
        self.label, self.parent, self.site = label, parent, site
        self.level: int = 0 if parent is None else parent.level + 1
        self.turns = self.entries = 0
        self.children: dict[tuple[Optional[Place], Label], Node] = {}

    def is_within(self, label: Label) -> bool:
        """Whether the routine stands in one of these names already."""
        node = self.parent
        while node is not None and node.label is not label:
            node = node.parent
        return node is not None


@dataclass
class Frame:
    """A call that hasn't returned: the word that it pushed last, and its routine."""

    slot: int
    node: Node
    below: "Optional[Frame]"


@dataclass
class CallTree:
    """The walk: the tree so far; the innermost of the calls that are open on the stack of kernel
    mode, and on the other; and such stacks that SP was loaded away from, by its value."""

    explorer: Explorer
    labels: Labels
    turns: range
    nodes: list[Node] = field(default_factory=list)
    tops: list[Optional[Frame]] = field(default_factory=lambda: [None, None])
    aside: dict[tuple[int, int], Optional[Frame]] = field(default_factory=dict)
    believed: int = 0  # of the calls that the first turn stands in
    loads: int = 0  # of SP that led to another stack
    is_cut: bool = False  # calls were deeper than MOST_LEVELS

    def __post_init__(self) -> None:
        self.root = Node(Label(None, None, ""), None, None)
        self.since = self.turns.start
        self.others: dict[str, Label] = {}

    @classmethod
    def of(cls, explorer: Explorer, turns: range) -> "CallTree":
        """The tree of all these turns."""
        machine = explorer.machine
        tree = cls(explorer, Labels.of(explorer, turns), turns)
        tree.begin()
        known = Known.of(machine, turns)
        for batch in batches_of(machine, turns):
            for step in steps_of(machine, batch, tree.labels, known):
                tree.take(step, step.turn in known.traps)
            last = batch.registers[-2]
            stack = int(MODES[int(last[STATUS], 8) >> 2] is not Mode.KERNEL)
            tree.spend(batch.turns.stop, stack, tree.labels[last[PLACE]])
        return tree

    def begin(self) -> None:
        """The calls that the first turn stands in, as `calls` finds them."""
        levels = list(Stacks(self.explorer.machine).levels(self.turns.start))
        node = self.root
        for level in reversed(levels):
            call = level.call
            site, stack = Place(call.mode, call.pc), int(call.inside is not Mode.KERNEL)
            node = self.inside(node, self.labels.at(site))
            node = self.child(node, site, self.labels.at(Place(call.inside, call.routine)))
            self.tops[stack] = Frame(call.slot, node, self.tops[stack])
            self.believed += bool(level.doubt)

    # The tree

    def child(self, node: Node, site: Optional[Place], label: Label) -> Node:
        """The node of a routine below this one. Below the deepest level all are side by side."""
        while node.level >= MOST_LEVELS and node.parent is not None:
            node, self.is_cut = node.parent, True
        found = node.children.get((site, label))
        if found is None:
            found = node.children[site, label] = Node(label, node, site)
            self.nodes.append(found)
            if len(self.nodes) > MOST_NODES:
                raise ExploreError(f"these turns have more than {MOST_NODES} stacks; take fewer")
        return found

    def inside(self, node: Node, label: Label) -> Node:
        """The node of a routine that the one of this node was left for without a call."""
        return node if node.label is label else self.child(node, None, label)

    def base(self, stack: int) -> Node:
        """The node of the routine that was called last, of those that are open."""
        frame = self.tops[stack]
        return self.root if frame is None else frame.node

    def current(self, stack: int, label: Label) -> Node:
        return self.inside(self.base(stack), label)

    def spend(self, turn: int, stack: int, label: Label) -> None:
        """The turns up to this one, without it, were in this routine."""
        if turn > self.since:
            self.current(stack, label).turns += turn - self.since
            self.since = turn

    # The walk

    def take(self, step: CallStep, is_trap: bool) -> None:
        before, after = step.before, step.after
        is_call = is_trap or step.is_call()
        is_plain = step.other is None and not is_call
        if is_plain and before.label is after.label and not self.is_other_stack(step):
            return
        self.spend(step.turn + (step.other is None), before.stack, before.label)
        node: Node = self.current(before.stack, before.label)
        site: Optional[Place] = Place(before.mode, before.pc)
        if step.other is not None:
            node, site = self.child(node, None, self.other(step)), None
            node.entries, node.turns, self.since = node.entries + 1, node.turns + 1, step.turn + 1
        if is_call or step.other is not None and step.other.act != IDLE:
            self.enter(step, node, site)
        elif not self.leave(step) and before.label is not after.label:
            self.jump(after.stack, after.label)

    def is_other_stack(self, step: CallStep) -> bool:
        """Whether SP has passed a call, or is far below where it was."""
        return any(
            step.pushed(stack) > NEAR_BYTES or frame is not None and sp > frame.slot
            for stack, (sp, frame) in enumerate(zip(step.after.pointers, self.tops))
        )

    def jump(self, stack: int, label: Label) -> None:
        """Another routine goes on, without a call and without a return."""
        node = self.current(stack, label)
        node.entries += node is not self.base(stack)

    def other(self, step: CallStep) -> Label:
        """What a turn did that began no instruction."""
        assert step.other is not None
        if step.other.act == IDLE:
            what = "halted" if step.before.reply[STATE] == b"halted" else "waits"
        else:
            is_interrupt = step.other.act == INTERRUPT
            what = step.other.interrupt() if is_interrupt else f"{step.other.act} trap"
        return self.others.setdefault(what, Label(None, None, f"({what})"))

    def enter(self, step: CallStep, node: Node, site: Optional[Place]) -> None:
        after = step.after
        routine = self.child(node, site, after.label)
        routine.entries += 1
        slot = after.pointers[after.stack]
        self.pop(after.stack, slot)
        self.tops[after.stack] = Frame(slot, routine, self.tops[after.stack])

    def leave(self, step: CallStep) -> bool:
        """Whether calls have returned by this turn: SP is above what they pushed."""
        was_left = False
        for stack, sp in enumerate(step.after.pointers):
            frame = self.tops[stack]
            is_passed = frame is not None and sp > frame.slot
            if step.is_load and (is_passed or step.pushed(stack) > NEAR_BYTES):
                self.switch(stack, step.before.pointers[stack], sp)
            self.pop(stack, sp)
            was_left = was_left or is_passed
        return was_left

    def pop(self, stack: int, sp: int) -> None:
        frame = self.tops[stack]
        while frame is not None and sp > frame.slot:
            frame = frame.below
        self.tops[stack] = frame

    def switch(self, stack: int, before: int, sp: int) -> None:
        """SP was loaded. If it was loaded away from there before, the calls of that stack go on."""
        self.loads += 1
        self.aside[stack, before] = self.tops[stack]
        if (stack, sp) in self.aside:
            self.tops[stack] = self.aside.pop((stack, sp))
