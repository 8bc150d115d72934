"""How memory that functions hand out was used after it was given back.

Both rows of a suspect, a load and the store that it got, have a pointer; each pointer came from a
block that a giver handed out (blocks.py). Whether it is the same block says what went wrong."""
from __future__ import annotations

from collections import Counter

from ..recording.instruction import ALU, SP
from ..recording.rows import LOADS, STORES
from .blocks import Block, Blocks
from .facts import Facts
from .suspect import Extra, Suspect

GIVEN_BACK = 16             # what the sign is worth, over an address: no sound program does it
TWICE = 8                   # what giving back twice costs: it has no way to the fault of its own
MOST_TWICE = 3              # if more are, the function takes something else than memory
MOST_COPIES = 2             # lines that stored copies of a pointer: the report has no room for more


class MemoryUse:
    def __init__(self, facts: Facts) -> None:
        self.facts = facts
        self.rows = facts.rows
        self.writers = facts.writers
        self.blocks = Blocks(facts.trace, facts.elf)
        self.told: set[int] = set()

    def judge(self, item: Suspect) -> list[Suspect]:
        """The suspects that a load and its store are: none, or one of a kind that names the
        call."""
        rows = self.rows
        writers = self.writers
        where = rows.load_of(item.load)
        if where is None or not self.blocks.by_address:
            return []
        address = where.address
        loaded = self.blocks.behind(writers.first[item.load], address)
        if loaded is None:
            return []
        # What is free is the allocator's: it may load from there.
        is_own = self.blocks.is_own(item.load)
        back = [n for n in self.blocks.given_back(loaded, loaded.back, item.load)
                if n < item.store and not is_own]
        if back:
            return self.used_after(item, loaded, back, address)
        stored = self.blocks.behind(writers.first[item.store], address)
        if (stored and stored.giver == loaded.giver and stored.address == loaded.address
                and stored.call > loaded.call):
            return self.given_back(item, loaded, stored)
        return []

    def given_back_twice(self) -> list[Suspect]:
        """Blocks that were given back twice, whatever the history: no sound program does that."""
        found = []
        for first, second in self.blocks.twice():
            suspect = Suspect("twice", first, first, TWICE)
            suspect.sign(GIVEN_BACK, "the memory was given back twice")
            suspect.extra.append(Extra("and again by", second))
            found.append(suspect)
        return found if len(found) <= MOST_TWICE else []

    def suspect(self, item: Suspect, guilty: int, words: str) -> list[Suspect]:
        """A suspect once for each row that is guilty."""
        if guilty in self.told:
            return []
        self.told.add(guilty)
        found = Suspect("back", item.load, item.store, item.cost)
        found.guilty = guilty
        found.sign(GIVEN_BACK, words)
        item.shown = False                      # this one tells of both its rows
        return [found]

    def used_after(self, item: Suspect, block: Block, rows: list[int],
                   address: int) -> list[Suspect]:
        """A pointer that was kept over the call that gave its memory back: the first one after its
        block was given out. The later ones gave back what others had got there since."""
        owner = self.blocks.behind(self.writers.first[item.store], address)
        back = rows[0]
        again = "given out again, and" if owner and owner.call > back else "and"
        found = self.suspect(item, back, f"the memory was given back, {again} still used")
        kept = self.kept_pointer(item.load, back)
        for suspect in found:
            if kept:
                suspect.extra.append(Extra("the pointer is older: it comes from", kept))
            self.add_copy(suspect, block, back)
            if rows[-1] != back:
                suspect.extra.append(Extra("it was given back last in", rows[-1]))
        return found

    def add_copy(self, suspect: Suspect, block: Block, back: int) -> None:
        """Tells of the lines that stored a copy of the pointer least often: nobody may have counted
        it."""
        rows = self.rows
        times: Counter[int] = Counter()
        latest: dict[int, int] = {}
        for n in rows.stores_of_value(block.address, block.call, back):
            times[rows.code[n]] += 1
            latest[rows.code[n]] = n
        rest = sorted((times[at], -n) for at, n in latest.items()
                      if not self.blocks.is_own(n) and rows.code_of(n).rs1 != SP)
        lines = {self.facts.line(-n): -n for _, n in reversed(rest)}
        suspect.extra += [Extra("a copy of the pointer was stored in", n)
                          for n in list(lines.values())[:-MOST_COPIES - 1:-1]]

    def kept_pointer(self, load: int, back: int) -> int:
        """The row that a load's pointer comes from, as it was before a row: copies and spills of it
        are passed."""
        rows = self.rows
        writers = self.writers
        n = self.writers.first[load]
        while n:
            ins = rows.code_of(n)
            before = 0
            if rows.flags[n] & LOADS:
                before = writers.store(n)
                if n < back and not (before and rows.is_spill(n, before)):
                    return n
            elif rows.flags[n] & STORES:
                before = writers.second[n]
            elif ins.kind == ALU:
                if n < back and not ins.move:
                    return n
                before = writers.first[n]
            n = before
        return 0

    def given_back(self, item: Suspect, loaded: Block, stored: Block) -> list[Suspect]:
        """The block that the store used was handed out after the load's, and has the same
        memory."""
        rows = self.blocks.given_back(loaded, loaded.back, stored.call)
        if rows:
            return self.suspect(item, rows[-1],
                                "the memory was given back, given out again, and still used")
        # Nobody gave it back between: it was given back twice before, and so given out twice.
        before = self.blocks.given_back(loaded, 0, loaded.call)
        if len(before) < 2:
            return []
        found = self.suspect(item, before[-2],
                             "the memory was given back twice, and so has two owners")
        for suspect in found:
            suspect.extra.append(Extra("and again by", before[-1]))
        return found
