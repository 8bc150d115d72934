"""Who wrote what: of each row the rows that wrote its registers and its word. 12 bytes a row."""
from __future__ import annotations

import sys
from array import array
from collections import Counter
from itertools import compress
from typing import NamedTuple

from .rows import KEEPS, LOADS, STORES, Rows

STORE_BITS = 0xffffffff     # of a pair, those that tell its store
# Of so many rows that a search passes one is kept, so that the next one is shorter
KEPT = 16
BESIDE = 64                 # how far from a word another is beside it
LOADING = bytes(flags & LOADS for flags in range(256))


class Stores(NamedTuple):
    """The stores that gave a load its bytes, latest first, and a mask of the bytes that no row
    stored."""
    rows: list[int]
    rest: int


class Writers:
    """first, second   of each row the rows that wrote its first and second register
    word   the row that stored the word that it accesses
    partly {a load whose word a `read` call brought in part: of each byte the row that stored it, or
           0}
    pairs  {load's code << 32 | 1 + store's code, 0 if there is none: how many rows}"""

    def __init__(self, rows: Rows) -> None:
        self.rows = rows
        self.first = array("I", [0])
        self.second = array("I", [0])
        self.word = array("I", [0])
        self.pairs: dict[int, int] = {}
        # {row of a loop's counter: what wrote the value that it began with}
        self.began: dict[int, int] = {}
        # {a store that kept its word: the latest one before that changed it}
        self.kept: dict[int, int] = {}
        # {a store: of each byte of its word the latest store up to it}
        self.lanes: dict[int, tuple[int, ...]] = {}
        self.partly: dict[int, tuple[int, ...]] = {}
        # {a load's code: {a store's code: how many rows}}
        self.stores_of: dict[int, dict[int, int]] = {}

    def count_pairs(self) -> None:
        code = self.rows.code
        loads = list(compress(range(len(code)), self.rows.flags.tobytes().translate(LOADING)))
        pairs = array("I", bytes(8 * len(loads)))
        high = sys.byteorder == "little"
        pairs[high::2] = array("I", map(code.__getitem__, loads))
        pairs[not high::2] = array("I", [code[writer] + 1 if writer else 0
                                         for writer in map(self.word.__getitem__, loads)])
        self.pairs = Counter(memoryview(pairs).cast("B").cast("Q"))

    def givers(self, load: int) -> dict[int, int]:
        """The codes of the stores from which a load's instruction got its words, each with how
        often."""
        if not self.stores_of:
            for pair, times in self.pairs.items():
                stores = self.stores_of.setdefault(pair >> 32, {})
                if pair & STORE_BITS:
                    stores[(pair & STORE_BITS) - 1] = times
        return self.stores_of.get(self.rows.code[load], {})

    def before_counting(self, n: int) -> int:
        """The row that wrote a row's first register. The rounds of a loop that adds a constant to
        it are one step: what counts is the value that it began with."""
        first = self.first
        code = self.rows.code
        began = self.began
        source = first[n]
        passed = array("I")
        if not self.rows.code_of(n).counts:
            return source
        while source and code[source] == code[n]:
            if source in began:
                source = began[source]
                break
            passed.append(source)
            source = first[source]
        began.update(dict.fromkeys(passed[::KEPT], source))
        return source

    def changed_by(self, store: int) -> int:
        """The row that gave a word its value: a store that kept it is passed. 0 if that is before
        all rows."""
        flags = self.rows.flags
        word = self.word
        kept = self.kept
        if not flags[store] & KEEPS:
            return store
        passed = array("I")
        while flags[store] & KEEPS and store not in kept:
            passed.append(store)
            store = word[store]
        store = kept.get(store, store)
        kept.update(dict.fromkeys(passed[::KEPT], store))
        return store

    def stores(self, load: int) -> Stores:
        """An atomic that stored what the word held is passed: what came before it gave the bytes
        their value."""
        latest = self.changed_by(self.word[load])
        if latest and self.rows.code_of(latest).width == 4:
            return Stores([latest], 0)
        need = self.rows.mask(load)
        if latest and not need & ~self.rows.mask(latest):
            return Stores([latest], 0)
        lanes = self.partly.get(load) or self.lanes_of(latest)
        needed = [(lane, row) for lane, row in enumerate(lanes) if need >> lane & 1]
        return Stores(sorted({row for _, row in needed if row}, reverse=True),
                      sum(1 << lane for lane, row in needed if not row))

    def store(self, load: int) -> int:
        """The latest of them, or 0."""
        return next(iter(self.stores(load).rows), 0)

    def lanes_of(self, store: int) -> tuple[int, ...]:
        """Of each byte of a word the latest row up to a store that stored it, or 0. Of a long way
        back some are kept."""
        passed: list[int] = []
        while store and store not in self.lanes and not (passed and self.gives_all(passed[-1])):
            passed.append(store)
            store = self.word[store]
        found = self.lanes.get(store, (0, 0, 0, 0))
        for at, row in enumerate(reversed(passed), 1):
            found = self.lanes_behind(row, found)
            if at % KEPT == 0 or at == len(passed):
                self.lanes[row] = found
        return found

    def lanes_behind(self, store: int, lanes: tuple[int, ...]) -> tuple[int, ...]:
        mask = 0 if self.rows.flags[store] & KEEPS else self.rows.mask(store)
        return tuple(store if mask >> lane & 1 else before for lane, before in enumerate(lanes))

    def store_over(self, store: int, lanes: tuple[int, ...]) -> None:
        """A store to a word that a `read` call brought in part."""
        self.lanes[store] = self.lanes_behind(store, lanes)

    def gives_all(self, store: int) -> bool:
        """Whether a row gave each byte of its word its value."""
        return self.rows.mask(store) == 15 and not self.rows.flags[store] & KEEPS

    def store_before(self, address: int, before: int) -> int:
        """The row that gave a byte its value, as it was before a row, or 0."""
        n = self.rows.last_access(address & ~3, before)
        if any(n < call.row < before and call.address <= address < call.address + call.size
               for call in self.rows.reads):
            return 0
        store = n if self.rows.flags[n] & STORES else self.word[n]
        lanes = self.partly.get(n) or self.lanes_of(store)
        return lanes[address & 3]

    def beside(self, load: int) -> list[int]:
        """The stores by which the same instruction got other words, of the nearest word on each
        side of a load's."""
        rows = self.rows
        codes = self.givers(load)
        place = rows.access(load).address
        before = (0, 0)
        after = (1 << 32, 0)
        for n, address in zip(rows.accesses, rows.addresses):
            if rows.code[n] in codes and rows.flags[n] & STORES and n < load:
                if before[0] <= address < place:
                    before = address, n
                elif place < address <= after[0]:
                    after = address, n
        return [n for address, n in (before, after) if n and abs(address - place) <= BESIDE]
