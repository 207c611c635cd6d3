"""names: looks at the names of the types in src/ and of the definitions in specs/.

It prints each type whose name stands in two crates, each definition whose name stands in two
modules of specs/, and each definition that is named by a bare participle: a function is named for
what it gives (`rk_completed`, `signed_value`). Fields of records, clauses, `where` functions and
modules are not looked at. The last line is 'N passed, M failed', and N and M count names."""
import glob
import os
import re
import sys
from collections import defaultdict
from typing import Iterator

from tests import stored_sessions as sessions

ROOT = os.path.join(os.path.dirname(os.path.abspath(__file__)), "..", "..")

# A type is an item of a file or of a module in it; an associated type has no generics or `;`.
TYPE = re.compile(r"^ *(?:pub(?:\(\w+\))? )?(?:struct|enum|trait|union) (\w+)", re.M)
# A definition stands at the head of a line; what is below it, as a field, is indented.
DEFINITION = re.compile(r"^(?:abbrev |unfoldable )?(?:pub )(?:record |data )?([\w-]+)", re.M)
NO_DEFINITION = {"mod", "use"}

REGULAR = re.compile(r"[a-z]{2,}ed")
IRREGULAR = set(
    """begun bent born bound broken brought built caught chosen come cut dealt done drawn driven
    eaten fallen felt found frozen given gone grown had heard held hidden hit hung kept known laid
    led left lent lost made meant met overwritten paid put read rewritten run said seen sent set
    shown shut spent split spoken spun stuck struck sunk swept taken taught thought thrown told torn
    undone unread unseen unwritten withdrawn won worn wound written""".split()
)
# Names that look like a participle and are none, each with the reason.
EXCEPTIONS = {
    "red": "the red zone of the kernel's stack",
    "run": "a run of phases: the noun",
}


def texts(crate: str, folder: str, ending: str) -> Iterator[tuple[str, str]]:
    """The files of a crate's folder, each with its module's name and its text."""
    top = os.path.join(ROOT, "crates", crate, folder)
    for path in sorted(glob.glob(os.path.join(top, "**", f"*{ending}"), recursive=True)):
        module = os.path.relpath(path, top)[: -len(ending)].replace(os.sep, ".")
        with open(path, encoding="utf-8") as file:
            yield module, file.read()


def crates() -> list[str]:
    """The names of the crates from the bottom up."""
    with open(os.path.join(ROOT, "crates.txt"), encoding="utf-8") as file:
        return [line.split(":")[0] for line in file if line.strip() and not line.startswith("#")]


def types() -> dict[str, list[str]]:
    """The crates in which each type's name stands."""
    found = defaultdict(list)
    for crate in crates():
        named = {it for _, text in texts(crate, "src", ".rt") for it in TYPE.findall(text)}
        for name in sorted(named):
            found[name].append(crate)
    return found


def definitions() -> dict[str, list[str]]:
    """The modules of specs/ in which the name of each definition stands."""
    found = defaultdict(list)
    for crate in crates():
        for module, text in texts(crate, "specs", ".antt"):
            for name in sorted(set(DEFINITION.findall(text)) - NO_DEFINITION):
                found[name].append(f"{crate} {module}")
    return found


def is_participle(name: str) -> bool:
    if name in EXCEPTIONS:
        return False
    return bool(REGULAR.fullmatch(name)) or name in IRREGULAR


def main() -> int:
    sessions.parser_of(__doc__).parse_args()
    found = 0
    wrong: list[list[str]] = []
    for what, places in (("type", types()), ("definition", definitions())):
        found += len(places)
        for name, where in sorted(places.items()):
            said = []
            if len(where) > 1:
                said.append(f"{what} {name}: stands in {', '.join(where)}")
            if what == "definition" and is_participle(name):
                said.append(f"{what} {name}: is a bare participle, in {', '.join(where)}")
            wrong += [said] if said else []
    for said in wrong:
        print("\n".join(said))
    print(f"{found - len(wrong)} passed, {len(wrong)} failed")
    return int(bool(wrong))


if __name__ == "__main__":
    sys.exit(main())
