"""Harts that wait for locks which others hold, at the end of a run that hangs; and whether they
wait in a circle."""
from __future__ import annotations

import re
from typing import NamedTuple, Optional, Sequence

from ..recording.instruction import AMO
from .facts import Facts, StackFrame
from .lock_words import Setting
from .locks import lock_name
from .loops import Loop

EMPTY = re.compile(r" \| load \w{8}=00000000 \| store ")


class Taken(NamedTuple):
    """How a lock was taken that is still held: by which hart, its calls, and the row, or 0 if that
    isn't among those that were read."""
    hart: int
    frames: Sequence[StackFrame]
    row: int


class LockWait(NamedTuple):
    """A hart whose loop would end once a lock is free, the row that looked at it last, and how it
    was taken. `is_kept`: that was before the loop in which the holder is."""
    hart: int
    lock: int
    row: int
    taken: Taken
    is_kept: bool


def waits_of(facts: Facts, changes: Sequence[Setting]) -> list[LockWait]:
    """The harts at their limit that wait for a lock which is held."""
    holders: dict[int, int] = {}            # {lock: the row that took it last, if it is still held}
    for n, lock, is_set in changes:
        if is_set:
            holders[lock] = n
        else:
            holders.pop(lock, 0)
    found = [wait_of(facts, loop, holders) for loop in facts.loops]
    return [wait for wait in found if wait]


def wait_of(facts: Facts, loop: Loop, holders: dict[int, int]) -> Optional[LockWait]:
    """What would end the loop is a word that isn't 0, and that its holder would set to 0."""
    for item in loop.exits:
        load = item.operands[0].load if item.leads_out and len(item.operands) == 1 else 0
        lock = facts.rows.access(load).address & ~3 if load else 0
        taken = taken_in(facts, holders.get(lock, 0)) or taken_before(facts, load)
        if taken:
            is_kept = all(each.hart != taken.hart or taken.row < each.first for each in facts.loops)
            return LockWait(loop.hart, lock, last_try(facts, loop.hart, lock) or load,
                            taken, is_kept)
    return None


def taken_in(facts: Facts, row: int) -> Optional[Taken]:
    return Taken(facts.rows.hart[row], facts.stack(row, 3).frames, row) if row else None


def taken_before(facts: Facts, load: int) -> Optional[Taken]:
    """What an atomic set from 0 before the rows that were read, and nothing set since. A
    store-conditional's row doesn't tell what was there."""
    stored = facts.earlier_of(load) if load else None
    if not stored or not EMPTY.search(stored.row):
        return None
    return Taken(stored.hart, facts.frames([stored.code.pc, *stored.calls]), 0)


def last_try(facts: Facts, hart: int, lock: int) -> int:
    """The latest row of a hart that tried to take a lock."""
    rows = facts.rows
    for n, address in zip(reversed(rows.accesses), reversed(rows.addresses)):
        if address == lock and rows.hart[n] == hart and rows.code_of(n).kind == AMO:
            return n
    return 0


def in_circle(waits: Sequence[LockWait]) -> list[LockWait]:
    """Those that wait for each other, in their order from the lowest hart on. One that waits for
    itself is a circle, too. A holder that took the lock in its own loop gives it back there: that
    is no circle."""
    by_hart = {wait.hart: wait for wait in waits if wait.is_kept}
    for first in by_hart.values():
        circle: list[LockWait] = []
        wait: Optional[LockWait] = first
        while wait and wait not in circle:
            circle.append(wait)
            wait = by_hart.get(wait.taken.hart)
        if wait == first:
            return circle
    return []


def deadlock_lines(facts: Facts) -> list[str]:
    """Who waits for whom: a circle is one sentence."""
    if len(facts.rows.last) < 2:
        return []
    waits = waits_of(facts, facts.changes)
    circle = in_circle(waits)
    said = ["Deadlock: " + ", ".join(wait_words(facts, wait)
                                     for wait in circle) + "."] * bool(circle)
    return said + [wait_words(facts, wait) + "." for wait in waits if wait not in circle]


def wait_words(facts: Facts, wait: LockWait) -> str:
    """A hart, its place, the lock, who holds it, and since what place. If both places are in one
    function, that takes locks: what called it is told."""
    holder = wait.taken.hart
    frames = facts.stack(wait.row, 3).frames
    here = place_words(frames, wait.taken.frames)
    there = place_words(wait.taken.frames, frames)
    end = facts.log.ends.get(holder)
    ended = f", which ended ({end.reason})" if end and end.reason != "limit" else ""
    owner = "which it holds itself" if holder == wait.hart else f"of hart {holder}"
    return (f"hart {wait.hart} ({here}) waits for {lock_name(facts, wait.lock)} "
            f"{owner} ({there}){ended}")


def place_words(frames: Sequence[StackFrame], others: Sequence[StackFrame]) -> str:
    is_shared = frames[0].function == others[0].function and len(frames) > 1 and frames[0].function
    frame = frames[1 if is_shared else 0]
    return frame.text()
