"""What may be guilty of a crash, likeliest first.

A suspect is a load and the store that it got, or memory that was used after it was given back or
before it was written. It may also be a branch that chose the way, an access without the lock that
others hold, or a function that keeps calling itself. Its score is the cost at which the history of
the fault reached it, less what its signs are worth; the lowest score is the likeliest.

The signs, and what each is worth, were set by looking at few programs: tests/crashes/README.md says
which, and how well they do on others."""
from __future__ import annotations

import math
from typing import AbstractSet, Sequence

from ..call.text import counted, number
from ..recording.instruction import AMO, STORE
from ..recording.log import At
from ..recording.rows import LOADS
from .branches import Ways, branch_suspects
from .facts import Facts
from .history import ADDRESS, History, Pair
from .locks import unlocked
from .memory_use import MemoryUse
from .suspect import Extra, Suspect, rank
from .unread import failed_stores

# What a sign is worth, in steps of a history along values. ADDRESS is 12 of them.
OTHER_HART = 8              # harts share few words, and a value from elsewhere is soon too old
NARROW = 12                 # a word of parts is nearly always in a wrong place
RACE = 6                    # with OTHER_HART, which it never is without, more than an address
OTHER_FUNCTION = 3          # weak: stacks and pools are used again by right programs, too
RARITY = 5                  # for each power of ten: one load in a hundred is nearly an address
COMMON = 10                 # less: a near store that a load always got did no harm before
COMMON_ROWS = 8             # of so many loads: "always" says nothing of fewer
NEAR_STORE = 6              # less: half an address, since the statement before stored most words
CLOSES = 8                  # the store that closed a circle, as strong as another hart's
CLOSE = 3                   # values from the loop to that store's load: it follows no others
AGAIN = 6                   # less, if another tells its line: one beside comes first
NOTHING_NEW = 40            # less, if it tells no new line: no signs make up for it
# A store in a wrong place: its address, and the branch that should have kept it away.
MOST_FOR_PLACE = 6          # of the store's own signs: else all behind it would come before others
GUARD = 2                   # that branch is nearly as near as a value
BEHIND_PLACE = 3            # more than the store costs, so that this comes first
# How many are looked at. Three suspects are told at first, twelve at most.
FOLLOWED_ROWS = 400         # the last rows of a loop: some rounds of one that follows pointers
MOST_COMPARED = 40          # suspects whose lines are compared
FIRST_ONES = 3              # whose stores' addresses are asked of
PLACE_ROWS = 2000           # rows of such a history
MOST_LOOKED_AT = 60         # pairs of loads and stores whose rows are read
SIZES = {1: "bytes", 2: "halves"}, {2: "half", 4: "word"}


class Ranking:
    """found: the suspects, likeliest first."""

    def __init__(self, facts: Facts, history: History, races: AbstractSet[frozenset[At]],
                 recursion: list[Suspect], loop: Sequence[int]) -> None:
        """`races` is pairs of accesses that nothing orders, `recursion` suspects that are known,
        and `loop` the rows that a loop or a recursion follows."""
        self.facts = facts
        self.trace = facts.trace
        self.places = facts.places
        self.rows, self.writers, _ = facts.trace
        self.history = history
        self.races = races
        self.loop = set(loop)
        self.ways = Ways(facts)
        self.loads: dict[int, int] = {}         # a load's code: how many rows
        for pair, times in self.writers.pairs.items():
            self.loads[pair >> 32] = self.loads.get(pair >> 32, 0) + times
        stores = sorted(self.stores(history), key=rank)
        memory = MemoryUse(facts)
        found = [suspect for item in stores[:MOST_LOOKED_AT] for suspect in memory.judge(item)]
        found += memory.given_back_twice() + branch_suspects(facts, history, self.ways)
        found += unlocked(facts, history) + failed_stores(facts, history)
        found = self.own_first(stores + found + recursion)
        self.found = self.once(sorted(found + self.behind_places(found, memory), key=rank))

    def own_first(self, found: list[Suspect]) -> list[Suspect]:
        """Those of which no source is here, nor that of a call over them, are told only if there
        are no others."""
        self.places.fetch({self.facts.pc_of(n) for item in found for n in (item.guilty, item.load)})
        own = [item for item in found if any(map(self.facts.own, item.rows_told()))]
        return sorted(own or found, key=rank)

    def behind_places(self, found: list[Suspect], memory: MemoryUse) -> list[Suspect]:
        """A store of some bytes that a load of more got can be in a place of something else. Then
        it isn't the value that is wrong: what is behind its address, and the branch that should
        have kept it away?"""
        behind = []
        for item in [item for item in found if item.shown][:FIRST_ONES]:
            row = self.writers.first[item.store] if item.misplaced else 0
            if row:
                history = History(self.trace, [row], PLACE_ROWS,
                                  self.history.control, control_cost=GUARD)
                for suspect in [one for one in branch_suspects(self.facts, history, self.ways)
                                + self.stores(history) if not memory.blocks.is_own(one.guilty)
                                and not memory.blocks.is_own(one.load)]:
                    suspect.cost += item.cost
                    suspect.score += max(item.score, -MOST_FOR_PLACE) + BEHIND_PLACE
                    suspect.why.append("it is behind the address of the store in "
                                       f"{self.facts.own_where(item.store)}")
                    behind.append(suspect)
        return behind

    def once(self, found: list[Suspect]) -> list[Suspect]:
        """Of several suspects about one line that stored, the later ones stand further back. One
        that tells of no line that isn't told already is last: its place is for another line, and
        the first one tells of its store."""
        told_lines: set[str] = set()
        stored: dict[str, Suspect] = {}         # {line: the first suspect that stored there}
        for item in [item for item in self.behind_others(found) if item.shown][:MOST_COMPARED]:
            lines = self.lines_of(item)
            line = self.facts.own_line(item.guilty)
            if lines <= told_lines:
                item.score += NOTHING_NEW
                if item.kind == "store" and line in stored and item.store < stored[line].store:
                    stored.pop(line).extra.append(Extra("earlier the same line stored in",
                                                        item.store))
            elif item.kind == "store":
                stored.setdefault(line, item)
            told_lines |= lines | {self.facts.own_line(item.load)}
        return sorted(found, key=rank)

    def lines_of(self, item: Suspect) -> set[str]:
        """The lines that a suspect is about."""
        rows = [item.guilty] + [extra.row for extra in item.extra]
        return {self.facts.own_line(n) for n in rows}

    def behind_others(self, found: list[Suspect]) -> list[Suspect]:
        told: set[str] = set()
        for item in found:
            line = self.facts.own_line(item.guilty)
            if item.kind == "store" and item.shown and line in told:
                item.score += AGAIN
            elif item.shown:
                told.add(line)
        return sorted(found, key=rank)

    def stores(self, history: History) -> list[Suspect]:
        """A suspect for each two source lines of a history's loads and stores, with its signs."""
        rows = self.rows
        writers = self.writers
        places = self.places
        closing = self.closing_pair()
        pairs = dict(history.far)
        if closing.store:
            pairs[closing] = min(CLOSE, pairs.get(closing, CLOSE))
        alike: dict[tuple[int, int, bool], list[Pair]] = {}         # by their instructions
        for pair in pairs:
            key = (rows.code[pair.load], rows.code[pair.store],
                   rows.hart[pair.store] != rows.hart[pair.load])
            alike.setdefault(key, []).append(pair)
        places.fetch({rows.codes[code].pc for key in alike for code in key[:2]}
                     | {rows.code_of(writers.word[store]).pc
                        for store in {store for _, store in pairs} if writers.word[store]})
        lines: dict[tuple[str, str, bool], list[Pair]] = {}
        for (load, store, is_other), some in alike.items():
            lines.setdefault((places.line(rows.codes[load].pc), places.line(rows.codes[store].pc),
                              is_other), []).extend(some)
        groups = []
        for some in lines.values():
            load, store = (closing if closing in some
                           else min(some, key=lambda pair: (pairs[pair], -pair.load)))
            groups.append(Suspect("store", load, store, pairs[Pair(load, store)]))
            groups[-1].rows = len(some)
        for item in groups:
            self.judge(item, history)
            if (item.load, item.store) == closing:
                item.sign(CLOSES, "the latest store that the loop or the calls follow: "
                          "it may have closed a circle")
        return groups

    def closing_pair(self) -> Pair:
        """What a loop or a recursion follows is often a circle: the latest far store in it closed
        it. With its load."""
        latest = self.latest_followed()
        for (load, store), price in self.history.far.items():
            is_later = (store, load) > (latest.store, latest.load)
            if (price <= CLOSE and is_later and self.history.is_far(load, store)
                    and self.history.root(load) in self.loop):
                latest = Pair(load, store)
        return latest

    def latest_followed(self) -> Pair:
        """The latest store of the pointers that a loop follows, and its load."""
        rows = self.rows
        writers = self.writers
        latest = Pair(0, 0)
        for hanging in self.facts.loops:
            loads = [n for n in rows.last_rows(hanging.last, FOLLOWED_ROWS)
                     if rows.flags[n] & LOADS and n >= hanging.first]
            for n in loads:
                pointer = writers.first[n]
                while pointer and rows.code_of(pointer).move:
                    pointer = writers.first[pointer]
                if pointer and rows.code[pointer] == rows.code[n]:
                    before = [Pair(load, store) for load in (n, pointer)
                              for store in writers.stores(load).rows if store < hanging.first]
                    latest = max([latest, *before], key=lambda pair: pair.store)
        return latest

    def judge(self, item: Suspect, history: History) -> None:
        rows = self.rows
        writers = self.writers
        load = item.load
        store = item.store
        if rows.hart[store] != rows.hart[load]:
            item.sign(OTHER_HART, "another hart stored it")
        stored = rows.code_of(store)
        loaded = rows.code_of(load)
        if (stored.kind == STORE and loaded.kind != AMO and stored.width < loaded.width
                and not self.is_copied(load, history)):
            item.misplaced = True
            item.sign(NARROW,
                      f"stored as {SIZES[0][stored.width]}, loaded as a {SIZES[1][loaded.width]}")
        if load in history.decided:
            item.why.append("it decided the way to here")
        self.judge_rarity(item)
        old = writers.word[store]
        if old and stored.kind == STORE:
            where = rows.code_of(old).pc
            if self.places.function(where) != self.places.function(stored.pc):
                item.sign(OTHER_FUNCTION, f"over what {self.places.where(where)} stored")
        pair = frozenset(At(rows.hart[n], rows.count_of(n)) for n in (load, store))
        if pair in self.races:
            item.sign(RACE, "a race: no atomic instruction orders them")
        self.judge_distance(item)

    def is_copied(self, load: int, history: History) -> bool:
        """Whether a load's word was stored again unchanged, as the parts of a copied object do."""
        return load in history.parent and self.rows.code_of(history.parent[load].row).kind == STORE

    def times_of(self, item: Suspect) -> int:
        """How often the load got its word from the line that stored it: a compiler may have made
        several stores of it. 0 if another store gave the rest of the word later."""
        line = self.places.line(self.rows.code_of(item.store).pc)
        stores = self.writers.givers(item.load)
        self.places.fetch({self.rows.codes[at].pc for at in stores})
        return sum(times for at, times in stores.items()
                   if self.places.line(self.rows.codes[at].pc) == line)

    def judge_rarity(self, item: Suspect) -> None:
        rows = self.rows
        times = self.times_of(item)
        whole = self.loads.get(rows.code[item.load], 1)
        if times and whole >= 4 and times * 10 <= whole:
            item.sign(RARITY * math.log10(whole / times),
                      f"rare here: {number(times)} of {number(whole)} loads")
        elif (whole >= COMMON_ROWS and times == whole
              and not self.history.is_far(item.load, item.store)):
            item.sign(-COMMON, f"so in all {number(whole)} loads here")

    def judge_distance(self, item: Suspect) -> None:
        """Near stores are let in on the chain of values, but for a register that its function put
        aside."""
        rows = self.rows
        load = item.load
        store = item.store
        distance = load - store
        if rows.is_spill(load, store):
            item.shown = False
            return
        if self.history.is_far(load, store):
            if rows.hart[load] == rows.hart[store]:
                item.why.append(f"{counted(distance, 'row')} earlier")
            return
        item.shown = item.cost < ADDRESS
        item.sign(-NEAR_STORE, f"{counted(distance, 'row')} earlier")
