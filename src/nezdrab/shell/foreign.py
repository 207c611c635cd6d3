"""Lines of other debuggers and simulators, gdb, rr and SIMH, and the lines for them here."""
import re
from typing import Optional

from ..analysis.explorer import Explorer
from ..core.engine import LAST_TURN
from ..core.errors import ExploreError
from ..core.replies import SPACES, Mode
from ..core.symbols import ADDRESS

DUMPED = "`dump A C` shows C words from A on, `dump A C instructions` as many instructions"
INSTRUCTIONS = "`list` shows the instructions at PC, `list A C` C instructions from A on"
DISPLAYED = "`display list` shows the instructions at PC after each step"
STEP = "`step` shows the turn after the current one, be it an instruction or an interrupt"
BACK = "`back` shows the turn before the current one"
BREAK = "`break A` sets a breakpoint, `continue` goes on to it; `until PC A` finds the first turn"
STAYS = "it stays until `delete N`"
CONTINUE = "`continue` goes on to the next turn at a breakpoint"
BACKWARDS = "`reverse-continue` goes back to the last turn at a breakpoint"
OVER = "`over` steps over a call, `step` into it"
OVER_BACK = "`reverse-over` steps back over a call, `back` into it"
OUT = "`finish` goes on to where the current routine has returned"
CALLS = "`calls` lists the calls, interrupts and traps that the current turn stands in"
READS = "`rwatch A` sets a breakpoint at reads, `watch A` at writes; `readers A` lists the reads"
REGISTERS = "`show` has the registers, `pages N` the mapping, `devices N` the devices"
DEPOSIT = "`core A W` sets the word at A from power-up on: it changes the past"
RUN = "each turn is there already: `show N`, `text N`; `until PC A` finds the turn that comes to A"
KEPT = "no state has to be kept: `show N` shows any turn, and `save FILE` saves the past"
RECORDED = "each turn is recorded: `back`, `reverse-over` and `reverse-continue` go back"
SHELL = "no line runs a command of the shell; `log FILE` and `save FILE` write files for others"
BOOT = "at power-up one sits down by `console from 0`; examples/boot-rk0.session has a bootstrap"
LINES = "`do FILE` does the lines of FILE, `define NAME LINE` makes a word of your own"
ATTACH = "a disk is the option --disk FILE of explore; `import FILE` takes over commands of SIMH"
VIEWERS = "`export FILE.vcd from N to M` writes turns for GTKWave, `help export` has other viewers"
CALLER = f"{CALLS}; `reverse-finish` goes back to the call of the current routine"
CONDITIONS = "`break A if R0 > 5` sets a breakpoint that holds under a condition"
GONE = "breakpoint N goes by `delete N`, all by `delete`; `breakpoints` lists them"
EXPECT = "`expect TEXT` goes on to where TEXT has been printed"
ROUTINES = "`profile N M` shows in which routines the turns were"
EVALUATE = "`list A 1` shows the word at A as an instruction"
COMES = "`until PC {a}` finds the turn that comes there"
NO_REGISTER = (
    "no line sets a register in a turn; `core A INSTRUCTION` patches the program, and"
    " `core A W` a word, from power-up on"
)
NO_BREAKPOINT = (
    "no breakpoint is at a register: `until R0 != 5` finds the turn before which R0 isn't 5"
)
PAST = "`see {until} {turns}`; nothing has to be switched on for it"
PARTS = "the registers are in `show`, the calls in `calls`, the breakpoints in `breakpoints`"
SAME = {"R6": "SP", "R7": "PC", "PSW": "PS", "SR": "SWR"}  # as gdb or SIMH names registers
ALL_REGISTERS = "`show` has all registers"
WORD = "{register} is {value:06o} before turn {turn}"

NAMING = ("watch", "rwatch", "display")  # a register is typed after these without $ too
# Each sentence has lines of explore, in `such quotes`; with one that it begins with, the word does
# that line. A command of explore comes before a word here.
FOREIGN = {
    **dict.fromkeys(("b", "br"), BREAK),
    **dict.fromkeys(("tb", "tbreak"), f"{BREAK}; {STAYS}"),
    **dict.fromkeys(("c", "cont"), CONTINUE),
    "rc": BACKWARDS,
    **dict.fromkeys(("s", "si", "stepi"), STEP),
    **dict.fromkeys(("rs", "rsi", "reverse-step", "reverse-stepi"), BACK),
    **dict.fromkeys(("n", "ni", "nexti"), OVER),
    **dict.fromkeys(("rn", "rni", "reverse-next", "reverse-nexti"), OVER_BACK),
    "fin": OUT,
    **dict.fromkeys(("bt", "backtrace"), CALLS),
    "awatch": READS,
    **dict.fromkeys(("i", "info"), f"{REGISTERS}; `breakpoints` lists breakpoints"),
    **dict.fromkeys(("p", "print"), f"`dump A 1` shows the word at A; {REGISTERS}"),
    **dict.fromkeys(("x", "e", "ex", "exam", "examine"), f"{DUMPED}; {REGISTERS}"),
    **dict.fromkeys(("l", "disas", "disassemble"), INSTRUCTIONS),
    "d": f"{DEPOSIT}; `delete N` takes away a breakpoint",
    **dict.fromkeys(("dep", "deposit"), DEPOSIT),
    "set": f"{DEPOSIT}; `delay L N` sets how long a device takes; `define NAME LINE` makes a word",
    "goto": "`show N` goes to turn N; `until PC A` finds the turn that comes to A",
    "commands": "`display LINE` shows LINE after each move, also at each breakpoint",
    **dict.fromkeys(("shell", "!"), SHELL),
    "record": RECORDED,
    "echo": "`# TEXT` is a comment in a script, and in the file of `log FILE`",
    "apropos": "all commands and lines are in `help all`, `help WORD` says what one does",
    "history": "`see N C` shows the C turns before turn N; nothing has to be switched on for it",
    **dict.fromkeys(("gprof", "perf"), ROUTINES),
    "gcov": "`covered FILE` shows a listing with how often each line ran",
    **dict.fromkeys(("callgrind", "lcov", "vcd", "gtkwave", "flamegraph"), VIEWERS),
    **dict.fromkeys(("r", "g", "go", "ru", "j", "jump", "start", "advance", "u"), RUN),
    **dict.fromkeys(("f", "frame", "up", "down"), CALLER),
    **dict.fromkeys(("cond", "condition", "ignore"), CONDITIONS),
    **dict.fromkeys(("nobr", "nobreak", "clear", "enable", "disable"), GONE),
    **dict.fromkeys(("layout", "tui"), DISPLAYED),
    **dict.fromkeys(("ev", "eval", "evaluate"), EVALUATE),
    "exp": EXPECT,
    "sh": REGISTERS,
    **dict.fromkeys(("checkpoint", "restart", "restore", "rest"), KEPT),
    **dict.fromkeys(("boot", "reset"), BOOT),
    **dict.fromkeys(("attach", "att", "detach", "det"), ATTACH),
    **dict.fromkeys(("source", "alias", "macro"), LINES),
    "logging": "`log FILE` writes what is typed and shown to FILE too",
    "send": "`type TEXT` strikes keys from the current turn on, or behind the last event",
    "h": "`help` lists the topics, `help WORD` says what one does",
}
# `x/20i A` of gdb: how many, and the letters of the format.
EXAMINED = r"(?:x|p|print|e|ex|examine)/([0-9]{0,4})([a-z]{0,2})"
FORMATS = {"i": "instructions", "b": "bytes", "c": "text", "d": "words", "u": "words"}
OF_BYTES = ("bytes", "text")
# What stands for a word that is still to be typed.
PLACES = r"(?<![^ ])(A|C|M|N|V|W|X|FILE|LINE|NAME|TEXT|WORD)(?![^ ])"
VIRTUAL = "`dump user A C` takes an address of a program, as `dump kernel A C` does"
# Lines with arguments: the first words, what follows them, and the sentence, with what follows.
REGISTER = r"\$?(?:r[0-7]|[ku]?sp|pc|psw?)"
A = rf"[*&]*(?P<a>0x[0-9a-f]{{1,5}}|{ADDRESS})"
N = "(?P<n>[0-9]{1,9})"
NAMED = rf"(?P<register>{REGISTER})"
DEVICE = "(?P<register>(?:rk|tk|tp|pr|pp|lk)[a-z]+|sw?r)"
PRINTED = r"(?:\*(?=[0-7])|(?=[a-z_.]))(?P<a>0x[0-9a-f]{1,5}|[\w.]+)"
TO = "(?P<a>[0-7]{1,6})(?:-(?P<last>[0-7]{1,6})|/(?P<bytes>[0-7]{1,6}))?"
PRINT = "p print output"
STOP, EXAMINE, DEPOSIT_WORDS = "b br bre break", "e ex exam examine", "dep deposit d set"
OF_ADDRESSES = frozenset(f"x {EXAMINE} {PRINT}".split())
LINES_WITH_ARGUMENTS = [
    (STOP, rf"{A}(?P<more> if .+)?", "`break {a}{more}`, then `continue`"),
    ("tb tbreak", rf"{A}(?P<more> if .+)?", f"`break {{a}}{{more}}`, then `continue`; {STAYS}"),
    ("until", "", OVER),
    ("until", A, "`until PC {a}`"),
    ("g go u advance", A, COMES),
    ("ru j jump", A, f"each turn is there already: {COMES}"),
    ("goto", N, "`show {n}` shows turn {n}, and makes it the current one"),
    ("goto", A, COMES),
    ("s si step stepi", N, "`step {n}`"),
    ("n ni nexti", N, "`over {n}`"),
    ("c cont", N, "`continue {n}`"),
    ("rs rsi reverse-step reverse-stepi", N, "`back {n}`"),
    ("rn rni reverse-next reverse-nexti", N, "`reverse-over {n}`"),
    ("rc", N, "`reverse-continue {n}`"),
    ("watch rwatch", REGISTER, NO_BREAKPOINT),
    ("watch rwatch", A, "`{word} {a}`, then `continue`"),
    ("awatch", A, "reads and writes have a breakpoint each: `rwatch {a}`, `watch {a}`"),
    ("disas disassemble l", f"{A}(?:,.*)?", "`list {space} {a} 16`"),
    ("display", REGISTER, "`display show` shows all registers after each move"),
    ("display", A, "`display dump {a} 1` shows the word after each move"),
    (f"{EXAMINE} {PRINT}", NAMED, f"{WORD}; {ALL_REGISTERS}"),
    (EXAMINE, "st|state|cpu.*", ALL_REGISTERS),
    (PRINT, PRINTED, "`dump {a} 1`"),
    (EXAMINE, TO, "`dump {a} {count}`"),
    (EXAMINE, f"-m {TO}", "`list {a} {count}`"),
    (EXAMINE, A, "`dump {a} 1`"),
    (f"{EXAMINE} {PRINT}", DEVICE, f"{WORD}; `devices {{turn}}` has all registers of devices"),
    ("d", N, "`delete {n}`"),
    (DEPOSIT_WORDS, rf"(?:var )?\$?(?:pc|r7)[ =]+{A}", "the start is the option --start; " + COMES),
    (DEPOSIT_WORDS, rf"(?:var )?{REGISTER}[ =].+", NO_REGISTER),
    (DEPOSIT_WORDS, "sw?r (?P<w>[0-7]{1,6})", "`at {turn} switches {w}` sets them in turn {turn}"),
    (
        DEPOSIT_WORDS,
        rf"(?:-m |var )?(?:\{{\w+\}})?{A}(?: *= *| +)(?P<w>.+)",
        "`core {a} {w}`, from power-up on: it changes the past",
    ),
    ("delete", "br?[a-z]*(?P<more> [0-9]{1,9})?", "`delete{more}` takes breakpoints away"),
    ("set show sh info i", "(?:cpu +)?hi[a-z]*[ =]*(?P<turns>[0-9]{0,6})", PAST),
    ("history", "(?P<turns>[0-9]{1,6})", PAST),
    ("set", "cpu.*", "core has the size of --units N, in units of 8 KB; `setup` shows it"),
    ("show sh info i", "(?:dev|tt|rk).*", "`devices {turn}`"),
    ("show sh info i", "(?:cpu|cl).*", "`setup`"),
    ("show sh info i", "(?:br?|wa)[a-z]*", "`breakpoints`"),
    ("show sh info i", "mem.*", "`pages {turn}`"),
    ("info i", "(?:r|all-r).*", "`show`"),
    ("info i", "(?:f|frame|sta?c?k?)", "`calls`"),
    ("info i", "d[a-z]*", "`display`"),
    ("info i", f"(?:sy|li)[a-z]* {A}", "`list {a} 1` has the symbol beside the address"),
    ("info i", "(?:sy|li).*", "`list A 1` has the symbol beside the address"),
    ("info i", "fu.*", ROUTINES),
    ("info i", "va.*", "`symbols FILE` reads names, and `dump A 1` shows the word at one"),
    ("info i", ".+", PARTS),
    ("exp", "(?P<more>.+)", "`expect {more}`"),
    ("send", "(?P<more>.+)", "`type {more}`"),
    ("next", "", OVER),
    ("where", "", CALLS),
]


# The words of explore for lists that the language has other lines for, by the words of these.
BESIDE_LANGUAGE = {"reads": "readers", "writes": "writers"}


def list_of(word: str, rest: str) -> str:
    """What to type for `reads A`, or an empty text: in the language two turns stand before A."""
    has_turns = all(it[:1].isdigit() for it in [*rest.split(), ""][:2])
    if word not in BESIDE_LANGUAGE or has_turns:
        return ""
    line = f"{BESIDE_LANGUAGE[word]} {rest or 'A'}"
    return f"`{line}` lists them; `{word} N M A` is a line of searches"


class Value(str):
    """A sentence that tells a value, and leads to no line."""


def register_of(explorer: Explorer, text: str) -> Optional[int]:
    """The word of a register of the processor as gdb or SIMH names it, such as `$r0` and `psw`."""
    registers, name = explorer.machine.registers(explorer.turn), text.lstrip("$").upper()
    return {**registers.words, "SP": registers.sp}.get(SAME.get(name, name))


def word_of(explorer: Explorer, text: str) -> Optional[int]:
    """The same also of a register of a device, such as `rkcs`."""
    name, found = text.lstrip("$").upper(), register_of(explorer, text)
    devices = explorer.machine.devices(explorer.turn) if found is None else None
    return devices.words.get(SAME.get(name, name)) if devices else found


def number_of(explorer: Explorer, text: str) -> str:
    """An address or a word as it is typed here, or an empty text: `0x200` is 1000, `$pc` and `pc`
    are the word that PC has. A symbol must be known."""
    if re.fullmatch("0x[0-9a-f]+", text, re.I):
        return f"{int(text, 16):o}"
    word = register_of(explorer, text)
    if word is not None:
        return f"{word:o}"
    try:
        explorer.symbols.number(text)
    except ExploreError:
        return ""
    return text


def space_of(explorer: Explorer) -> str:
    """The mode whose pages a program's address is looked up in."""
    mode = explorer.machine.registers(explorer.turn).mode
    return (mode if mode in SPACES else Mode.KERNEL).value


def filled(explorer: Explorer, word: str, found: "re.Match[str]", said: str) -> str:
    """The sentence with these arguments, or an empty text if it names an unknown symbol."""
    parts = {name: it or "" for name, it in found.groupdict().items()}
    turn, last, size = explorer.turn, parts.get("last"), parts.get("bytes")
    if "a" in parts:
        parts["a"] = number_of(explorer, parts["a"])
    if re.match("0x", parts.get("w", ""), re.I):
        parts["w"] = number_of(explorer, parts["w"])
    value = word_of(explorer, parts["register"]) if "register" in parts else 0
    if parts.get("a") == "" or value is None:
        return ""
    length = int(last, 8) - int(parts["a"], 8) if last else int(size or "1", 8) - 1
    turns = parts.setdefault("turns", "") or "20"
    named = {**parts, "turns": turns, "until": turn or turns, "count": max(1, length // 2 + 1)}
    text = said.format(word=word, turn=turn, space=space_of(explorer), value=value, **named)
    return Value(text) if "register" in parts else text


def led_on(explorer: Explorer, word: str, rest: str) -> str:
    """What to type in place of a line with these arguments, or an empty text. SIMH takes capital
    letters too."""
    name, place = word.lower(), rest.lstrip("*&")
    if "/" in name and name.startswith("display"):
        name = name.partition("/")[0] if not name.endswith("i") and rest else "layout"
    elif "/" in name or name == "x" and rest:
        return looked_at(explorer, name if "/" in name else "x/1", rest)
    if name == "layout":
        return DISPLAYED
    rows = (it for it in LINES_WITH_ARGUMENTS if name in it[0].split())
    matches = ((re.fullmatch(pattern, rest, re.I), said) for _, pattern, said in rows)
    sentences = (filled(explorer, name, found, said) for found, said in matches if found)
    said = next(filter(None, sentences), "") or worked_out(explorer, name, rest)
    if not said and name in OF_ADDRESSES and re.fullmatch(r"[A-Za-z_.][\w.$]*", place):
        raise ExploreError(f"there is no symbol '{place}'; symbols FILE reads them")
    return said


def looked_at(explorer: Explorer, word: str, rest: str) -> str:
    """The same of `p/x $r0`, and of `x/4 $sp+2`, whose address is a program's."""
    name, _, how = word.partition("/")
    value, place = worked_out(explorer, name, rest, how), rest.lstrip("*&")
    if value or not re.search(r"\$|0x", place, re.I):
        return value or examined(word, rest)
    address = number_of(explorer, place) or octal_of(explorer, place)
    line = line_of(examined(word, address)) if address else ""
    return line and f"`{line.replace('dump', f'dump {space_of(explorer)}', 1)}`"


def worked_out(explorer: Explorer, word: str, text: str, how: str = "") -> str:
    """What an expression comes to that gdb prints, or an empty text."""
    if word not in PRINT.split():
        return ""
    from .arithmetic import sentence_about  # which few lines need

    said = sentence_about(explorer, text, how)
    return Value(said) if said else ""


def octal_of(explorer: Explorer, text: str) -> str:
    from .arithmetic import Expression  # which few lines need

    number = Expression(explorer, text).value()
    return "" if number is None else f"{number:o}"


def names_register(explorer: Explorer, word: str, rest: str) -> bool:
    """Whether these words name a register as gdb does, `$pc`, and no symbol has this name."""
    found = [it for it in rest.split() if re.fullmatch(REGISTER, it, re.I)]
    named = [it for it in found if it.startswith("$") or word in NAMING and it == rest]
    return not all(map(explorer.symbols.is_named, named))


def examined(word: str, rest: str) -> str:
    """The dump that a word such as `x/20i` asks for, or an empty text. gdb counts bytes, a dump
    words."""
    found = re.fullmatch(EXAMINED, word)
    if found is None:
        return ""
    count = max(1, int(found[1] or 1))
    how = next((FORMATS[it] for it in found[2] if it in FORMATS), "")
    count = (count + 1) // 2 if how in OF_BYTES else count
    is_address = re.fullmatch(ADDRESS, rest) is not None and not rest.startswith("$")
    line = f"dump {rest if is_address else 'A'} {count} {how}".rstrip()
    more = f"; {INSTRUCTIONS}" if how == "instructions" else ""
    return f"`{line}`; {VIRTUAL}{more}"


def sentence(word: str, rest: str = "") -> str:
    """What to type here in place of a line that begins with this word; an empty text if the word
    isn't foreign. SIMH takes capital letters too."""
    if word.isdigit() and int(word) <= LAST_TURN:
        return f"`show {word}` shows turn {word}, and makes it the current one"
    return examined(word, rest) or FOREIGN.get("!" if word[:1] == "!" else word.lower(), "")


def line_of(said: str, rest: str = "") -> str:
    """The line that a sentence begins with, or an empty text if it begins with none, or with one
    that lacks a word which isn't typed."""
    found = re.match("`([^`]+)`", said)
    lacking = set(re.findall(PLACES, found[1])) - set(rest.split()) if found else set()
    return found[1] if found and not lacking else ""
