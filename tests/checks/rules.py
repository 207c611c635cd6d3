"""rules [RULE]: follows each numbered rule of docs/MACHINE.md to the definitions that state
it and to the sessions that show it.

With a number, as 4.12, it prints the rule, each definition under crates/ in whose comment the
number stands in brackets, and each session in tests/sessions/ that has it at its head.

Without one it checks that each rule has both, or ends with `(shown by 3.2, 3.4)`, which names rules
that have both; that no number is given twice, and a section's numbers are 1 to N in any order; that
each number in brackets is a rule; and that [P] stands in crates/ only in comments of definitions
and in public docstrings, as far as form tells. The last line is 'N passed, M failed': it counts
rules, sections, and files that have a number in brackets or [P]."""
import os
import re
import sys
from collections import Counter, defaultdict
from pathlib import Path
from typing import Iterator, NamedTuple, Optional

from tests import stored_sessions as sessions

ROOT = Path(os.path.normpath(os.path.join(os.path.dirname(os.path.abspath(__file__)), "..", "..")))
MACHINE = "docs/MACHINE.md"
# What a rule begins with: an item of a list, the first cell of a row, or a paragraph.
HEAD = re.compile(r"(?:- |\d+\. |\| |\*\*)(\d+\.\d+)\b")
SHOWN_BY = re.compile(r"\(shown by (\d+\.\d+(?:, \d+\.\d+)*)\)\.?( \|)?$")
NUMBER = re.compile(r"\[(\d+\.\d+)\]")
PROFILE = "[P]"
SESSIONS = (".transcript", ".session", ".search-transcript", ".search")
GENERATED = "crates/DEFINITIONS.md"

# An item that only its crate or module sees: its docstring isn't public.
PRIVATE = re.compile(
    r"pub\(|(?:const |unsafe |async )*(?:fn|struct|enum|union|trait|type|static|mod|use|impl) "
    r"|const \w+:|let |macro_rules"
)
NAME = re.compile(
    r"(?:pub(?:\(\w+\))? |abbrev |unfoldable |const |record |data |fn |struct |enum |trait |type )*"
    r"([^\s:(<{,=;]+)"
)


class Rule(NamedTuple):
    """A rule of MACHINE.md: number, line there, the first row of its table if it has one, text."""

    number: str
    line: int
    table: str
    text: str


class Comment(NamedTuple):
    """Lines of comment in a file under crates/: the first line, the text, and what follows it."""

    line: int
    text: str
    item: str


class Place(NamedTuple):
    """Where a number stands in brackets: a path, a line, and the name of what is there."""

    path: str
    line: int
    name: str


def rules_of(document: str) -> list[Rule]:
    """The rules of a document: each from its number to the next rule or to the end of its block."""
    rules: list[Rule] = []
    lines: list[str] = []
    table = ""
    for count, line in enumerate([*document.splitlines(), ""], 1):
        head = HEAD.match(line)
        table = (table or line) if line.startswith("|") else ""
        if lines and (head or not line.strip() or line.startswith(("|", "- ", "#", "```"))):
            rules[-1] = rules[-1]._replace(text="\n".join(lines))
            lines = []
        if head:
            rules.append(Rule(head.group(1), count, table, ""))
        if head or lines:
            lines.append(line)
    return rules


def others_of(rule: Rule) -> list[str]:
    """The rules by which a rule is shown, as it says at its end."""
    end = SHOWN_BY.search(rule.text)
    return end.group(1).split(", ") if end else []


def mark_of(line: str) -> str:
    """What a line of comment begins with, if it is one: `--`, `//!`, `///` or `//`."""
    found = re.match(r"\s*(--|//!|///|//)", line)
    return found.group(1) if found else ""


def comments_of(text: str) -> Iterator[Comment]:
    """The comments of a file that are whole lines, each with the first line of code after it."""
    held: list[str] = []
    first, mark = 0, ""
    for count, line in enumerate([*text.splitlines(), ""], 1):
        now = mark_of(line)
        if held and now != mark and not line.lstrip().startswith("#["):
            yield Comment(first, "\n".join(held), line.strip())
            held = []
        if now and not held:
            first, mark = count, now
        if now:
            held.append(line)


def files_below(root: Path, folders: tuple[str, ...]) -> Iterator[tuple[str, str]]:
    """The text files below some folders, each with its path in the tree; not what is built."""
    for folder in folders:
        for path in sorted((root / folder).rglob("*")):
            name = path.relative_to(root).as_posix()
            if path.is_file() and "/out/" not in name and name != GENERATED:
                yield name, path.read_text("utf-8", "replace")


def head_of(session: str) -> str:
    """The lines of comment with which a session begins."""
    found = re.match(r"(?:#.*\n?)*", session)
    return found.group() if found else ""


def name_of(item: str) -> str:
    """The name of a definition or an item; of a file, if its head is what the comment is."""
    found = NAME.match(item)
    return found.group(1) if found and not item.startswith(("use ", "ghost use ")) else "its head"


def definitions_of(root: Path) -> dict[str, list[Place]]:
    """By each number where in comments of crates/ it stands in brackets."""
    found: dict[str, list[Place]] = defaultdict(list)
    for path, text in files_below(root, ("crates",)):
        for comment in comments_of(text) if path.endswith((".antt", ".rt")) else ():
            for number in dict.fromkeys(NUMBER.findall(comment.text)):
                found[number].append(Place(path, comment.line, name_of(comment.item)))
    return found


def sessions_of(root: Path) -> dict[str, list[Place]]:
    """By each number which sessions of tests/sessions/ have it at their heads."""
    found: dict[str, list[Place]] = defaultdict(list)
    for path, text in files_below(root, ("tests/sessions",)):
        if path.endswith(SESSIONS):
            for number in dict.fromkeys(NUMBER.findall(head_of(text))):
                found[number].append(Place(path, 1, ""))
    return found


def is_public(comment: Comment) -> bool:
    """Whether [P] may stand in a comment: it is of a definition, or a docstring that isn't of a
    private item. A comment at the head of a file is of the whole module."""
    mark = mark_of(comment.text)
    if mark == "//":
        return False
    if mark == "///":
        return not PRIVATE.match(comment.item)
    return True


def wrong_profile(path: str, text: str) -> Iterator[str]:
    """Each place in a file of crates/ where [P] may not stand."""
    is_source = path.endswith((".antt", ".rt")) and "/proofs/" not in path
    allowed = 0
    for comment in comments_of(text) if is_source else ():
        if is_public(comment):
            allowed += comment.text.count(PROFILE)
        elif PROFILE in comment.text:
            yield f"{path}:{comment.line}: [P] in a comment of what isn't public"
            allowed += comment.text.count(PROFILE)
    if text.count(PROFILE) > allowed:
        yield f"{path}: [P] stands outside the comments of definitions"


def wrong_numbers(path: str, text: str, known: set[str]) -> Iterator[str]:
    """Each number in brackets in a file that is no rule."""
    for count, line in enumerate(text.splitlines(), 1):
        for number in NUMBER.findall(line):
            if number not in known:
                yield f"{path}:{count}: [{number}] is no rule of {MACHINE}"


def wrong_file(path: str, text: str, known: set[str]) -> Optional[list[str]]:
    """What is wrong in a file; None if it has neither a number in brackets nor [P]."""
    is_of_crates = path.startswith("crates/")
    if not NUMBER.search(text) and not (is_of_crates and PROFILE in text):
        return None
    profile = wrong_profile(path, text) if is_of_crates else iter(())
    return [*wrong_numbers(path, text, known), *profile]


def wrong_section(section: str, numbers: list[str]) -> list[str]:
    """Whether the numbers of a section are 1 to N, each once."""
    counts = Counter(int(it.split(".")[1]) for it in numbers)
    twice = [f"{section}.{it} is given twice" for it, count in sorted(counts.items()) if count > 1]
    lacks = [f"{section}.{it} is lacking" for it in range(1, max(counts)) if it not in counts]
    return [f"{MACHINE}: rule {it}" for it in [*twice, *lacks]]


class Rules(NamedTuple):
    """The rules of a tree, with what states and what shows each."""

    rules: list[Rule]
    definitions: dict[str, list[Place]]
    sessions: dict[str, list[Place]]

    def lacks(self, number: str) -> list[str]:
        """What a rule lacks of a definition and a session."""
        lacks = [] if self.definitions.get(number) else ["no definition has it"]
        return lacks + ([] if self.sessions.get(number) else ["no session shows it"])

    def wrong(self, rule: Rule) -> list[str]:
        """What is wrong with a rule: what it lacks, or what the rules lack by which it is shown."""
        others, known = others_of(rule), {it.number for it in self.rules}
        said = [it for it in self.lacks(rule.number) if not others]
        for other in others:
            told = self.lacks(other) if other in known else ["there is no such rule"]
            said += [f"it is shown by {other}: {it}" for it in told]
        return [f"{MACHINE}:{rule.line}: rule {rule.number}: {it}" for it in said]


def read(root: Path) -> Rules:
    document = (root / MACHINE).read_text("utf-8")
    return Rules(rules_of(document), definitions_of(root), sessions_of(root))


def facts(root: Path) -> Iterator[list[str]]:
    """For each fact that is counted what is wrong with it."""
    found = read(root)
    known = {it.number for it in found.rules}
    sections: dict[str, list[str]] = defaultdict(list)
    for rule in found.rules:
        sections[rule.number.split(".")[0]].append(rule.number)
        yield found.wrong(rule)
    for section, numbers in sections.items():
        yield wrong_section(section, numbers)
    for path, text in files_below(root, ("crates", "tests/sessions")):
        wrong = wrong_file(path, text, known)
        if wrong is not None:
            yield wrong


def shown(found: Rules, number: str) -> list[str]:
    """The lines that show a rule, its definitions and its sessions; none for another number."""
    lines: list[str] = []
    for rule in (it for it in found.rules if it.number == number):
        lines += [f"{MACHINE}:{rule.line}", *filter(None, [rule.table]), *rule.text.splitlines()]
        places = found.definitions.get(number, [])
        lines += [f"{it.path}:{it.line}: {it.name}" for it in places] or ["no definition has it"]
        lines += [it.path for it in found.sessions.get(number, [])] or ["no session shows it"]
        lines += [line for other in others_of(rule) for line in shown(found, other)]
    return lines


def show(root: Path, number: str) -> int:
    lines = shown(read(root), number)
    if not lines:
        print(f"check: {MACHINE} has no rule {number}", file=sys.stderr)
        return 2
    print("\n".join(lines))
    return 0


def check(root: Path) -> int:
    told = list(facts(root))
    wrong = [it for it in told if it]
    for said in wrong:
        print("\n".join(said))
    print(f"{len(told) - len(wrong)} passed, {len(wrong)} failed")
    return int(bool(wrong))


def main() -> int:
    parser = sessions.parser_of(__doc__)
    parser.add_argument("rule", nargs="?", metavar="RULE", help="the number of a rule, as 4.12")
    rule = parser.parse_args().rule
    return check(ROOT) if rule is None else show(ROOT, rule)


if __name__ == "__main__":
    sys.exit(main())
