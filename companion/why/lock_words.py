"""Which words are locks: those that a hart sets from 0 by an atomic instruction, and sets to 0
again. One that atomics add to, or set from one value to another that isn't 0 either, counts
something, and is none."""
from __future__ import annotations

from typing import NamedTuple

from ..recording.instruction import AMO
from ..recording.rows import LOADS, STORES, Rows


class Setting(NamedTuple):
    """A row that set a word from 0 by an atomic instruction, or back to 0."""
    row: int
    word: int
    is_set: bool


def setting(rows: Rows) -> list[Setting]:
    """In the rows' order."""
    found = []
    free = set()
    counts = set()
    stored = iter(rows.stored)
    is_atomic = [ins.kind == AMO for ins in rows.codes]
    adds = [ins.name.startswith("amoadd") for ins in rows.codes]
    for n, address, value in zip(rows.accesses, rows.addresses, rows.words):
        kind = rows.flags[n] & (LOADS | STORES)
        if kind == LOADS | STORES:
            after = next(stored)
            if adds[rows.code[n]] or value and after and after != value:
                counts.add(address)
            elif after and not value:
                found.append(Setting(n, address, True))
        elif is_atomic[rows.code[n]]:
            if kind == STORES:
                if value and address in free:
                    found.append(Setting(n, address, True))
                elif value:
                    counts.add(address)
            elif value:                         # a store-conditional may follow
                free.discard(address)
            else:
                free.add(address)
    found = [each for each in found if each.word not in counts]
    words = {each.word for each in found}
    stored = iter(rows.stored)
    for n, address, value in zip(rows.accesses, rows.addresses, rows.words):
        kind = rows.flags[n] & (LOADS | STORES)
        value = next(stored) if kind == LOADS | STORES else value
        if not value and kind & STORES and address in words:
            found.append(Setting(n, address, False))
    return sorted(found)
