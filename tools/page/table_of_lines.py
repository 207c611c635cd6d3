"""The table of lines, of what `search --lines` prints: as the module of the Python package that has
it, which `tools/check help --make` makes, and as the page's, which `tools/web --tables` makes of
that."""
import json
import textwrap
from pathlib import Path

from nezdrab.core import sessions

ROOT = Path(__file__).resolve().parents[2]
MODULE = ROOT / "src" / "nezdrab" / "core" / "line_table.py"
WIDTH = 96
PYTHON = '''\
"""The lines of the program search, as its option --lines prints them: the columns are those of Line
in sessions.py. `tools/check help --make` makes this file of the program; change the rows in the
crates pdp_program and search."""

ROWS = """\\
{}"""
'''
JAVASCRIPT = """\
// Made of src/nezdrab/core/line_table.py by tools/web --tables: change the rows in the crates
// pdp_program and search, make that file by tools/check help --make, and make this one again.

/**
 * A line of the program search: the columns of `search --lines` that the page asks for.
 * @typedef {{form: string, language: string, kind: string, reply: string, turns: string}} Line
 */

/** @type {Line[]} */
export const LINES = [
ROWS_OF_LINES].map(([form, language, kind, reply, turns]) =>
  ({ form, language, kind, reply, turns }));
"""


def as_python(table: str) -> str:
    """The text of src/nezdrab/core/line_table.py, of this table: each row has a line of its
    columns, and below it what the line does."""
    rows = []
    for row in table.splitlines():
        *columns, summary = row.split("\t")
        below = textwrap.wrap(summary, WIDTH, break_long_words=False, break_on_hyphens=False)
        rows.append("".join(f"{it}\\t" for it in columns) + "\\\n" + " \\\n".join(below) + "\n")
    return PYTHON.format("".join(rows))


def as_module() -> str:
    """The text of web/lines.js."""
    table = ((it.form, it.language, it.kind, it.reply, it.turns) for it in sessions.TABLE)
    rows = map(json.dumps, table)
    return JAVASCRIPT.replace("ROWS_OF_LINES", "".join(f"  {it},\n" for it in rows))
