"""A slip that the rows show by themselves: a store-conditional failed, and nothing read its
answer."""
from __future__ import annotations

from collections import Counter

from ..call.text import counted
from ..recording.rows import STORES, Rows
from .facts import Facts
from .history import History
from .suspect import Suspect

UNREAD = 12                 # what the sign is worth: an address, since the store is taken for done
MOST_READERS = 64           # rows behind a store-conditional that may read its answer


def failed_stores(facts: Facts, history: History) -> list[Suspect]:
    """Store-conditionals that failed unread, to words that are behind the start: the latest of each
    line."""
    rows = facts.rows
    writers = facts.writers
    codes = {ins.at for ins in rows.codes if ins.name.startswith("sc.")}
    failed = [n for n, at in enumerate(rows.code)
              if at in codes and n and not rows.flags[n] & STORES] if codes else []
    nearest = history.words() if failed else {}
    found: dict[str, Suspect] = {}
    times: Counter[str] = Counter()
    for n in reversed(failed):
        word = rows.result_of(writers.first[n])
        if word in nearest and is_unread(rows, n):
            times[facts.line(n)] += 1
            found.setdefault(facts.line(n), Suspect("failed", n, n, nearest[word]))
    for line, suspect in found.items():
        suspect.sign(UNREAD, f"a store-conditional failed here {counted(times[line], 'time')}, "
                     "and nothing read its answer")
    return list(found.values())


def is_unread(rows: Rows, n: int) -> bool:
    """Whether a row's result was written over before its hart read it."""
    register = rows.code_of(n).rd
    for at in range(n + 1, min(n + MOST_READERS, rows.size + 1) if register else 0):
        ins = rows.code_of(at)
        if rows.hart[at] == rows.hart[n] and register in (ins.rs1, ins.rs2, ins.rd):
            return register not in (ins.rs1, ins.rs2)
    return not register
