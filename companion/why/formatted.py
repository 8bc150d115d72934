"""The row of the program's own code that a byte of formatted output came from.

A library's printf takes values apart into letters. Its rows tell nothing of the program: what it
was given does."""
from __future__ import annotations

from ..recording.instruction import ALU
from ..recording.rows import LOADS, STORES
from .facts import Facts

MOST_ROWS = 20000           # are looked at


def begin_at_argument(facts: Facts) -> None:
    """Lets a question of a byte begin at the value that a library got, if the byte came from
    there."""
    facts.places.fetch({ins.pc for ins in facts.rows.codes})
    row = given(facts, [facts.start])
    if row:
        facts.begin_at(row)


def given(facts: Facts, of: list[int]) -> int:
    """Behind the values of these rows, or else behind the addresses of what no row stored: the
    nearest row whose source is here, after some whose source isn't. 0 if there are none."""
    rows = facts.rows
    writers = facts.writers
    todo = [(n, False) for n in of]
    seen = {0}
    addresses = []
    for n, is_past in todo:
        if n in seen or len(seen) > MOST_ROWS:
            continue
        seen.add(n)
        is_own = bool(facts.source(n))
        if is_own and is_past:
            return n
        behind: list[int] = []
        if rows.flags[n] & LOADS:
            behind, rest = writers.stores(n)
            addresses += [writers.first[n]] if rest and not is_own else []
        elif rows.flags[n] & STORES:
            behind = [writers.second[n]]
        elif rows.code_of(n).kind == ALU:
            behind = [writers.before_counting(n), writers.second[n]]
        todo += [(row, is_past or not is_own) for row in behind]
    return given(facts, addresses) if addresses and addresses != of else 0
