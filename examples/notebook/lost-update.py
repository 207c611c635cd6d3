# %% A deposit is missing from the bank of examples/ledger: a hunt, cell by cell.
# In the clone: PYTHONPATH=src python3 examples/notebook/lost-update.py
from pathlib import Path

from nezdrab import Machine, questions

ledger, evening = Path(__file__).parents[1] / "ledger", 238_614
m = Machine.of_session(ledger / "ledger.session")
print(m.text(evening).decode().splitlines()[3], "is printed, and the deposits make it 145")

# %% The balance is word 0 of the disk. Which change takes something away?
turns = list(m.changes(0, until=evening))
before = m.ask_all([questions.dsk(it, 0) for it in turns])
after = m.ask_all([questions.dsk(it + 1, 0) for it in turns])
falls = [at for at in range(len(turns)) if after[at][0] < before[at][0]]
lost, other = turns[falls[0]], turns[falls[0] - 1]
print(f"turn {lost}: {before[falls[0]][0]:o} becomes {after[falls[0]][0]:o}")

# %% Who wrote that word of core, and what had been read there before?
buffer = next(it.address for it in m.transfers(since=lost, until=lost + 1))
wrote = m.last(lost, buffer)
read = m.last(wrote.turn, buffer)
print(f"read in turn {read.turn}, written in turn {wrote.turn}, and the disk changed in {other}")

# %% Between the two came the clock. What if the key of the 6, event 15, had come in another turn?
print("a tick of the clock in turn", m.first(vector=0o100, since=read.turn, until=wrote.turn))
balances = m.sweep(15, range(126_400, 127_400, 100), questions.dsk(131_000, 0))
print(" ".join(f"{turn}:{words[0]:o}" for turn, words in balances))
with m.altered(15, turn=127_300) as saved:
    print(f"in turn 127300 it is safe: {saved.dsk(131_000, 0)[0]:o}")
m.close()
