"""A range of turns by routines, lines and calls: for callgrind's viewers, and as stacks."""
from collections import Counter
from typing import Iterator, Optional, Sequence

from ..analysis.call_tree import MOST_LEVELS, CallTree, Node
from ..analysis.counting import Place
from ..analysis.explorer import Explorer
from ..analysis.profile import counted_profile
from ..analysis.routines import Label
from ..core.in_words import counted, span
from ..core.values import dataclass, field
from .covered import Listing

UNKNOWN = "???"  # what callgrind's viewers know as a file that isn't known
EVENT = "Turns"


@dataclass
class Edge:
    """The calls of one routine by another at one place: how often, and the turns in them."""

    calls: int = 0
    turns: int = 0


EdgeKey = tuple[Label, Optional[Place], Label]


@dataclass
class Costs:
    """What the routines took. All turns of a routine are its own ones here."""

    own: dict[Label, Counter[Optional[Place]]] = field(default_factory=dict)
    edges: dict[EdgeKey, Edge] = field(default_factory=dict)

    def add(self, label: Label, place: Optional[Place], count: int) -> None:
        self.own.setdefault(label, Counter())[place] += count

    @property
    def total(self) -> int:
        return sum(sum(it.values()) for it in self.own.values())


def costs_of(explorer: Explorer, tree: CallTree) -> Costs:
    """Instructions are those that the program has counted, place by place; what the walk alone
    knows are the turns that begin none."""
    costs = Costs()
    for place, count in counted_profile(explorer.machine, tree.turns).counts.items():
        costs.add(tree.labels.at(place), place, count)
    totals = totals_of(tree)
    for node in tree.nodes:
        if node.label.mode is None and node.turns:
            costs.add(node.label, None, node.turns)
        if node.parent is not None and node.parent is not tree.root and totals[node]:
            key = node.parent.label, node.site, node.label
            edge = costs.edges.setdefault(key, Edge())
            edge.calls += node.entries
            edge.turns += 0 if node.is_within(node.label) else totals[node]
    return costs


def totals_of(tree: CallTree) -> dict[Node, int]:
    """The turns of each node with those below it. A node comes after its parent."""
    totals = {it: it.turns for it in tree.nodes}
    for node in reversed(tree.nodes):
        if node.parent in totals:
            totals[node.parent] += totals[node]
    return totals


def remarks(tree: CallTree) -> Iterator[str]:
    """What isn't known, but believed."""
    if tree.believed:
        levels = counted(tree.believed, "level")
        yield f"believed of the calls that the first turn stands in: {levels}; see calls"
    if tree.loads:
        yield f"SP was loaded {counted(tree.loads, 'time')} away from calls: stacks are believed"
    if tree.is_cut:
        yield f"calls deeper than {MOST_LEVELS} levels are shown at that level"


@dataclass
class Callgrind:
    """The lines of a file for callgrind's viewers."""

    tree: CallTree
    costs: Costs
    listings: Sequence[Listing]

    def __post_init__(self) -> None:
        self.numbers = {
            Place(it.mode, line.address): (str(it.path.resolve()), number)
            for it in self.listings
            for number, line in enumerate(it.lines, 1)
            if line.address is not None
        }
        self.calls: dict[Label, list[tuple[EdgeKey, Edge]]] = {}
        for key, edge in self.costs.edges.items():
            self.calls.setdefault(key[0], []).append((key, edge))

    def file(self, label: Label) -> str:
        """The listing that a routine is in: that of its first address, or of one that ran."""
        places = [begin_of_label(label), *self.costs.own.get(label, ())]
        found = (self.numbers[it][0] for it in places if it in self.numbers)
        return next(found, UNKNOWN)

    def position(self, place: Optional[Place], label: Label) -> str:
        """Address and line of a place; without one, those of the routine's begin."""
        at = place or begin_of_label(label)
        if at is None:
            return "0x0 0"
        path, number = self.numbers.get(at, ("", 0))
        return f"{at.address:#x} {number if path == self.file(label) else 0}"

    def lines(self) -> Iterator[str]:
        yield "# callgrind format"
        yield "version: 1"
        yield "creator: Nezdrab's explore"
        yield f"desc: Range: {span(self.tree.turns)}, {len(self.tree.turns)} turns"
        yield from (f"desc: Believed: {it}" for it in remarks(self.tree))
        yield "positions: instr line"
        yield f"event: {EVENT} : turns of the machine"
        yield f"events: {EVENT}"
        yield f"summary: {self.costs.total}"
        for label in sorted(self.labels(), key=order):
            yield from self.routine(label)

    def labels(self) -> set[Label]:
        return {*self.costs.own, *self.calls}

    def routine(self, label: Label) -> Iterator[str]:
        yield ""
        yield f"ob={ob_of(label)}"
        yield f"fl={self.file(label)}"
        yield f"fn={label.name}"
        own = self.costs.own.get(label, Counter())
        for place, count in sorted(own.items(), key=lambda it: of_place(it[0])):
            yield f"{self.position(place, label)} {count}"
        for (_, site, callee), edge in sorted(self.calls.get(label, []), key=by_site):
            yield f"cob={ob_of(callee)}"
            yield f"cfi={self.file(callee)}"
            yield f"cfn={callee.name}"
            yield f"calls={edge.calls} {self.position(None, callee)}"
            yield f"{self.position(site, label)} {edge.turns}"


def begin_of_label(label: Label) -> Optional[Place]:
    return Place(label.mode, label.begin) if label.mode and label.begin is not None else None


def ob_of(label: Label) -> str:
    """The object of a routine: its mode."""
    return label.mode.value if label.mode else "machine"


def order(label: Label) -> tuple[str, int, str]:
    return ob_of(label), -1 if label.begin is None else label.begin, label.name


def of_place(place: Optional[Place]) -> tuple[str, int]:
    return ("", 0) if place is None else (place.mode.value, place.address)


def by_site(pair: tuple[EdgeKey, Edge]) -> tuple[tuple[str, int], tuple[str, int, str]]:
    (_, site, callee), _ = pair
    return of_place(site), order(callee)


def stacks_of(tree: CallTree) -> Counter[str]:
    """The turns of each stack, by the names of its routines, the outermost first."""
    found: Counter[str] = Counter()
    names = {tree.root: ""}
    for node in tree.nodes:
        above = names[node.parent] if node.parent is not None else ""
        names[node] = f"{above};{node.label.in_mode()}" if above else node.label.in_mode()
        found[names[node]] += node.turns
    return +found
