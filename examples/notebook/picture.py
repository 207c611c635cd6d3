# %% Draws turns 0 to 40 of examples/who-wrote-this-word.session, as docs/USING.md shows them.
# In the clone: PYTHONPATH=src python3 examples/notebook/picture.py > docs/lost-update.svg
from itertools import groupby
from pathlib import Path

from nezdrab import Machine, hardware, questions

TURNS, WORD, WIDTH, LEFT, RIGHT, BOTTOM = range(41), 0o2000, 960, 92, 950, 364
LIGHT = """--ground:#fff;--ink:#656d76;--grid:#d8dee4;--raised:#fdecd2;--cpu:#0b5cad;
--disk:#b45309;--interrupt:#8a3ffc;--key:#1a7f37"""
DARK = """--ground:#0d1117;--ink:#9198a1;--grid:#30363d;--raised:#44300f;--cpu:#6cb6ff;
--disk:#f0a45d;--interrupt:#c297ff;--key:#57c26a"""
KINDS = ("ground", "ink", "raised", "cpu", "disk", "interrupt", "key")
FILLS = "".join(f".{it}{{fill:var(--{it})}}" for it in KINDS)
STYLE = f"""svg{{{LIGHT}}}
@media (prefers-color-scheme:dark){{svg{{{DARK}}}}}
text{{font:11px ui-monospace,Menlo,Consolas,monospace}} {FILLS}
.line{{stroke:var(--grid)}} .run{{stroke:var(--cpu);stroke-width:1.6;fill:none}}
.step{{stroke:var(--ink);stroke-width:1.4;fill:none}}"""
parts = []


def x(turn):
    return round(LEFT + turn * (RIGHT - LEFT) / len(TURNS), 1)


def draw(name, kind, title="", **where):
    at = "".join(f' {key}="{value}"' for key, value in where.items())
    parts.append(f'<{name} class="{kind}"{at}><title>{title}</title></{name}>')


def bar(kind, begin, end, y, height, title):
    wide = round(max(1.5, x(end) - x(begin)), 1)
    draw("rect", kind, title, x=x(begin), y=y, width=wide, height=height)


def text(at, y, inside, kind="ink", anchor="start"):
    parts.append(f'<text class="{kind}" x="{at}" y="{y}" text-anchor="{anchor}">{inside}</text>')


def lane(top, name):
    parts.append(f'<path class="line" d="M{LEFT} {top}H{RIGHT}"/>')
    text(6, top + 15, name)


def steps(kind, values, heights):
    """The values from turns on, each at its height."""
    path = "".join(f"H{x(turn)}V{heights[value]}" for turn, value in values)
    parts.append(f'<path class="{kind}" d="M{LEFT} {heights[values[0][1]]}{path}H{RIGHT}"/>')


# %% What is drawn are answers of the machine.
m = Machine.of_session(Path(__file__).parents[1] / "who-wrote-this-word.session")
m.core[0o1214] = WORD  # the last lines of the session mend the program
registers = m.ask_all([questions.regs(it) for it in TURNS])
trail = m.trail(TURNS.stop, len(TURNS))
transfers = list(m.transfers(until=TURNS.stop))
writes = list(m.writes(WORD, until=TURNS.stop))
words = [(0, m.mem(0, WORD)[0]), *((it.turn, it.word) for it in writes)]
events = [it for it in m.events() if it.turn in TURNS]
m.close()

# %% The lanes, from above.
lane(8, "PC")
counters = [it.pc for it in registers]
low, high = min(counters), max(counters)
for is_raised, group in groupby(TURNS, lambda it: registers[it].priority > 0):
    turns = list(group)
    if is_raised:
        bar("raised", turns[0], turns[-1] + 1, 9, 148, "kernel mode, priority above 0")
        text(x(turns[0]) + 4, 150, "priority above 0")
heights = {it: round(146 - 120 * (it - low) / (high - low), 1) for it in counters}
steps("run", list(enumerate(counters)), heights)
for counter in low, high:
    text(LEFT - 4, heights[counter] + 4, f"{counter:06o}", anchor="end")
lane(158, "disk")
for it in transfers:
    title = f"{it.function}: turn {it.begun} to turn {it.turn}"
    bar("disk", it.begun, it.turn, 168, 3, title)
    text(x(it.begun), 185, it.function, "disk")
lane(194, "interrupts")
for it in trail:
    if it.vector is not None:
        bar("interrupt", it.turn, it.turn, 199, 12, f"turn {it.turn}: {it.interrupt()}")
        text(x(it.turn), 223, hardware.INTERRUPTS[it.vector], "interrupt")
lane(232, f"core {WORD:06o}")
levels = {word: 262 - 11 * at for at, word in enumerate(sorted({word for _, word in words}))}
steps("step", words, levels)
text(LEFT, 277, f"{words[0][1]:o}")
for at, it in enumerate(writes):
    title = f"turn {it.turn}: {it.word:06o} by the {it.writer}"
    draw("circle", it.writer, title, cx=x(it.turn), cy=levels[it.word], r=3)
    text(x(it.turn), 277 + 14 * (at % 2), f"{it.word:o} {it.writer}", it.writer)
lane(300, "events")
for it in events:
    draw("path", "key", f"at {it.turn} {it.text}", d=f"M{x(it.turn)} 304l4 9h-8z")
    text(x(it.turn), 325, it.text, "key")
lane(334, "turn")
for turn in TURNS[::2]:
    text(x(turn), 351, turn, anchor="middle")
size = f'viewBox="0 0 {WIDTH} {BOTTOM}" width="{WIDTH}" height="{BOTTOM}"'
print(f'<svg xmlns="http://www.w3.org/2000/svg" {size}><style>{STYLE}</style>')
print(f'<rect class="ground" width="{WIDTH}" height="{BOTTOM}"/>', *parts, "</svg>", sep="\n")
