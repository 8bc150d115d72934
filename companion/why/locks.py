"""A word that harts access while they hold a lock, and once without it. Nothing has to say which
words a lock guards: that shows in what is held at their accesses."""
from __future__ import annotations

from collections import Counter
from typing import Iterable, NamedTuple, Sequence

from ..call.text import number
from ..recording.rows import STORES, Rows
from .facts import Facts
from .history import History
from .lock_words import Setting
from .suspect import Extra, Suspect

LEAST = 3                   # accesses with a lock that make a word one that it guards
RARE = 3                    # those without are so many times rarer: else the lock guards another
UNLOCKED = 12               # what the sign is worth: an address, as it names a rule that was broken


class Held(NamedTuple):
    """An access to a word, and the locks that its hart held."""
    row: int
    locks: frozenset[int]


def accesses(rows: Rows, words: Iterable[int], changes: Sequence[Setting]) -> dict[int, list[Held]]:
    """The accesses to some words."""
    held: dict[int, frozenset[int]] = dict.fromkeys(rows.last, frozenset())
    given_back = {(rows.hart[n], lock) for n, lock, is_set in changes if not is_set}
    found: dict[int, list[Held]] = {word: [] for word in words}
    at = 0
    for n, address in zip(rows.accesses, rows.addresses):
        while at < len(changes) and changes[at].row <= n:
            row, lock, is_set = changes[at]
            hart = rows.hart[row]
            held[hart] = (held[hart] | {lock} if is_set and (hart, lock) in given_back
                          else held[hart] - {lock})
            at += 1
        if address & ~3 in found:
            found[address & ~3].append(Held(n, held[rows.hart[n]]))
    return found


def unlocked(facts: Facts, history: History) -> list[Suspect]:
    """The accesses without a lock to words that are behind the start and that others access with
    one."""
    rows = facts.rows
    if len(rows.last) < 2:
        return []
    nearest = history.words()
    found = []
    changes = facts.changes
    for word, held in accesses(rows,
                               set(nearest) - {each.word for each in changes}, changes).items():
        lock, times = max(Counter(lock for each in held for lock in each.locks).items(),
                          key=lambda item: item[1], default=(word, 0))
        bare = bare_of(rows, held, lock, changes)
        stores = [each for each in bare if rows.flags[each.row] & STORES]
        if lock != word and bare and times >= LEAST and times >= RARE * len(bare):
            guilty = (stores or bare)[-1]
            found.append(suspect_of(facts, guilty.row, [each.row for each in bare], nearest[word]))
            own = ", ".join(lock_name(facts, each) for each in sorted(guilty.locks)) or "none"
            found[-1].sign(UNLOCKED,
                           f"at {number(times)} other accesses to {lock_name(facts, word)} their "
                           f"hart holds {lock_name(facts, lock)}, here {own}")
    return found


def bare_of(rows: Rows, held: Sequence[Held], lock: int, changes: Sequence[Setting]) -> list[Held]:
    """The accesses to a word that have to be guarded, and aren't: until a second hart comes nothing
    has to be, nor once the others don't come again, as after a join. Of a hart that had rows before
    the first, which can have taken the lock, those count that come after it took or gave the
    lock."""
    begun: dict[int, int] = {}
    for row, word, _ in changes:
        if word == lock:
            begun.setdefault(rows.hart[row], row)
    harts = {rows.hart[each.row]: each.row for each in held}        # their last accesses
    came: set[int] = set()
    bare = []
    for each in held:
        hart = rows.hart[each.row]
        came.add(hart)
        is_known = not rows.is_cut(each.row) or begun.get(hart, each.row) < each.row
        comes_again = any(last > each.row for other, last in harts.items() if other != hart)
        if lock not in each.locks and len(came) > 1 and is_known and comes_again:
            bare.append(each)
    return bare


def lock_name(facts: Facts, word: int) -> str:
    return facts.members.name(word) or f"{word:08x}"


def suspect_of(facts: Facts, guilty: int, bare: list[int], cost: int) -> Suspect:
    suspect = Suspect("unlocked", guilty, guilty, cost)
    other = [n for n in bare if facts.line(n) != facts.line(guilty)]
    suspect.extra += [Extra("and so did", n) for n in other[-1:]]
    return suspect
