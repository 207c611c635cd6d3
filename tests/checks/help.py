"""help [--make]: compares the table of lines in src/nezdrab/core/line_table.py with what `search
--lines` prints, row by row, and with the lines that the --help of pdp11 and of search show: the
same forms in the same order with the same texts, and of a session's lines a question exactly if its
text says 'before turn N'. It also compares what ./pdp11 --help and ./search --help show while there
is no program. The last line is 'N passed, M failed'.

With --make it makes that file, and the stored help in tests/sessions/rules, of what the programs
print: after a change of a line, before tools/web --tables and tools/make manual."""
import itertools
import os
import re
import shutil
import subprocess
import sys
import tempfile
from pathlib import Path
from typing import Iterator, Optional

from nezdrab.core.line_table import ROWS
from page import table_of_lines
from tests import stored_sessions as sessions, under_test


ROOT = os.path.join(os.path.dirname(os.path.abspath(__file__)), "..", "..")
# What ./pdp11 --help and ./search --help need if nothing is built and there is no release file.
UNBUILT = ["tools/start", "tools/program", "tools/build", "tools/sources-sum", "crates.txt"]
# The help of pdp11 once more: it wins over a number that can't be read.
WITH_A_BAD_NUMBER = f"{sessions.RULES}/program/help-and-a-bad-number.expected"
# By program: where its help is stored, and the heads of its lines, each with the table that it
# shows.
OF_SESSIONS = ("Lines of a session", sessions.LANGUAGE)
OF_SEARCHES = ("Lines of searches", sessions.SEARCHES)
PROGRAMS = {
    "pdp11": (f"{sessions.RULES}/program/help.expected", [OF_SESSIONS]),
    "search": (f"{sessions.RULES}/searches/help.expected", [OF_SESSIONS, OF_SEARCHES]),
}
# A form begins in the third column, and its text two or more spaces behind it. A further line of
# the text is indented deeper.
ROW = re.compile(r"  (\S.*?)  +(\S.*)")


def lines_shown(text: str, head: str) -> list[tuple[str, str]]:
    """The forms that a help shows below this head for lines, each with its text."""
    rows = text.partition(f"\n{head}")[2].partition("\n\n")[0].splitlines()[1:]
    shown: list[tuple[str, str]] = []
    for row in rows:
        begun = ROW.fullmatch(row)
        if begun:
            shown.append((begun[1], begun[2]))
        elif shown:
            shown[-1] = (shown[-1][0], f"{shown[-1][1]} {row.strip()}")
    return shown


def kind_shown(text: str) -> str:
    return "question" if "before turn N" in text else "no question"


def differences(
    shown: list[tuple[str, str]], table: list[sessions.Line]
) -> Iterator[Optional[str]]:
    """What is wrong at each line of the language, or None."""
    for row, line in itertools.zip_longest(shown, table):
        if row is None:
            yield f"{line.form}: --help doesn't show it"
        elif line is None:
            yield f"{row[0]}: the table lacks it"
        elif row[0] != line.form:
            yield f"--help shows '{row[0]}' in the place of the table's '{line.form}'"
        elif row[1] != line.summary:
            yield f"{line.form}: --help says '{row[1]}', the table '{line.summary}'"
        elif line.language != "session":
            yield None
        elif (line.kind == sessions.QUESTION) != (kind_shown(row[1]) == "question"):
            yield f"{line.form}: the table has {line.kind}, --help has {kind_shown(row[1])}"
        else:
            yield None


def unbuilt_help(name: str, stored: str) -> bytes:
    """What the program's --help writes in a copy of the repository that has no program."""
    with tempfile.TemporaryDirectory() as copy:
        for it in [name, stored, *UNBUILT]:
            os.makedirs(os.path.dirname(os.path.join(copy, it)), exist_ok=True)
            shutil.copy(os.path.join(ROOT, it), os.path.join(copy, it))
        command = [os.path.join(copy, name), "--help"]
        return subprocess.run(command, stdin=subprocess.DEVNULL, capture_output=True).stdout


def printed(program: str, option: str) -> bytes:
    """What a program prints with an option, which it must take."""
    ended = subprocess.run([program, option], stdout=subprocess.PIPE)
    if ended.returncode:
        sys.exit(f"help: {program} {option} ended with status {ended.returncode}")
    return ended.stdout


def wrong_rows(table: str) -> Iterator[Optional[str]]:
    """What is wrong with each row of the table: in itself, or compared with what is held."""
    for row, held in itertools.zip_longest(table.splitlines(), ROWS.splitlines()):
        line = sessions.Line(*(row or held).split("\t"))
        if row != held:
            yield f"search --lines has '{row}', line_table.py has '{held}'"
        elif sum(map(str.isupper, line.form.split())) != len(line.arguments.split()):
            yield f"{line.form}: it hasn't as many arguments as kinds, '{line.arguments}'"
        elif (line.kind == sessions.QUESTION) != (line.turns != "none"):
            yield f"{line.form}: a {line.kind}, and it asks of the turns '{line.turns}'"
        else:
            yield None


def make() -> int:
    """Makes what is stored of the programs' lines."""
    programs = {name: under_test.by_its_name(name) for name in PROGRAMS}
    table = printed(programs["search"], "--lines").decode("ascii")
    table_of_lines.MODULE.write_text(table_of_lines.as_python(table), encoding="ascii")
    for name, (stored, _) in PROGRAMS.items():
        Path(ROOT, stored).write_bytes(printed(programs[name], "--help"))
    Path(ROOT, WITH_A_BAD_NUMBER).write_bytes(printed(programs["pdp11"], "--help"))
    return 0


def failures(name: str, program: str) -> Iterator[Optional[str]]:
    """What is wrong with the help of a program, for each line of its language, or None."""
    stored, heads = PROGRAMS[name]
    text = printed(program, "--help")
    for head, table in heads:
        for wrong in differences(lines_shown(text.decode(), head), table):
            yield wrong and f"{name}: {wrong}"
    if unbuilt_help(name, stored) == text:
        yield None
    else:
        yield f"./{name} --help shows something else while there is no program"


def main() -> int:
    parser = sessions.parser_of(__doc__)
    parser.add_argument("--make", action="store_true", help="make the table and the stored help")
    if parser.parse_args().make:
        return make()
    found = [it for name in PROGRAMS for it in failures(name, under_test.by_its_name(name))]
    found += wrong_rows(printed(under_test.by_its_name("search"), "--lines").decode("ascii"))
    wrong = [it for it in found if it is not None]
    print("".join(f"{it}\n" for it in wrong), end="")
    print(f"{len(found) - len(wrong)} passed, {len(wrong)} failed")
    return int(len(wrong) > 0)


if __name__ == "__main__":
    sys.exit(main())
