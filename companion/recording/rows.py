"""What was read: the rows of `joint` as numbers, 10 bytes a row and 12 for each access to memory,
in arrays.

Row numbers begin with 1; 0 is no row."""
from __future__ import annotations

import bisect
from array import array
from typing import NamedTuple, Optional

from .instruction import LOAD, NAMES, SP, Instruction
from .log import Log

# A row's flags. OFFSET: the byte of its word. KEEPS: it stores what the word holds, as a lock's
# spinning does.
OFFSET = 3
LOADS = 4
STORES = 8
FAULTS = 64
KEEPS = 128


class Access(NamedTuple):
    """What a row loaded or stored: where, and the whole word."""
    address: int
    value: int


class Hart:
    """last     its last row
    begins   the rows that follow one of another hart; counts: its counts at these
    is_cut   whether it had rows before the first"""
    __slots__ = ("last", "begins", "counts", "is_cut")

    def __init__(self) -> None:
        self.last = 0
        self.is_cut = False
        self.begins = array("I")
        self.counts = array("Q")

    def begin(self, n: int, count: int) -> None:
        """Its rows begin again, at a count."""
        self.is_cut |= not self.begins and count > 0
        self.begins.append(n)
        self.counts.append(count)


class FaultRow(NamedTuple):
    row: int
    hart: int
    name: str
    value: int
    instruction: Instruction


class ReadCall(NamedTuple):
    """A `read` call that filled so many bytes at an address."""
    row: int
    hart: int
    address: int
    size: int


class Rows:
    """codes    the instructions; code: of each row the place of its own among them
    hart, flags
    values   what it put into its register; silent: the rows of calls that put nothing there
    accesses the rows that access memory; addresses, words: of each what it loaded, or else stored
    updates  the rows of atomics that load and store; stored: of each what it stored
    reads    the `read` calls
    harts    {hart: where its rows are}, of those that have one; last: {hart: its last row}
    final    {hart: its registers at the end}
    fault    or None
    size     how many rows there are; passed: how many before them weren't kept"""

    def __init__(self, log: Log) -> None:
        self.log = log
        self.codes: list[Instruction] = []
        self.code = array("I", [0])
        self.hart = array("B", [0])
        self.flags = array("B", [0])
        self.values = array("I", [0])
        self.silent: set[int] = set()
        self.accesses = array("I")
        self.addresses = array("I")
        self.words = array("I")
        self.updates = array("I")
        self.stored = array("I")
        self.reads: list[ReadCall] = []
        self.harts = {hart: Hart() for hart in range(log.harts)}
        self.last: dict[int, int] = {}
        self.final: dict[int, list[int]] = {}
        self.fault: Optional[FaultRow] = None
        self.size = self.passed = 0

    def code_of(self, n: int) -> Instruction:
        return self.codes[self.code[n]]

    def count_of(self, n: int) -> int:
        """The hart's count at a row."""
        hart = self.harts[self.hart[n]]
        at = bisect.bisect_right(hart.begins, n) - 1
        return hart.counts[at] + n - hart.begins[at]

    def row_of(self, of: int, count: int) -> int:
        """The row of a hart's count, or 0 if the log has none."""
        hart = self.harts.get(of)
        at = bisect.bisect_right(hart.counts, count) - 1 if hart else -1
        if at < 0 or not hart:
            return 0
        n = hart.begins[at] + count - hart.counts[at]
        return n if n <= hart.last and self.hart[n] == of else 0

    def following(self, n: int) -> int:
        """The next row of a row's hart, or 0."""
        hart = self.hart[n]
        if n == self.last[hart]:
            return 0
        return (n + 1 if self.hart[n + 1] == hart
                else self.harts[hart].begins[bisect.bisect_right(self.harts[hart].begins, n)])

    def last_rows(self, n: int, most: int) -> list[int]:
        """The latest rows of a row's hart up to it, in their order."""
        hart = self.hart[n]
        found: list[int] = []
        while n and len(found) < most:
            if self.hart[n] == hart:
                found.append(n)
            n -= 1
        return found[::-1]

    def is_cut(self, n: int) -> bool:
        """Whether a row's hart had calls before its first row, which nothing tells."""
        return self.harts[self.hart[n]].is_cut

    def access(self, n: int) -> Access:
        """What a row loaded, or else stored."""
        at = bisect.bisect_left(self.accesses, n)
        return Access(self.addresses[at], self.words[at])

    def load_of(self, n: int) -> Optional[Access]:
        return self.access(n) if self.flags[n] & LOADS else None

    def store_of(self, n: int) -> Optional[Access]:
        if not self.flags[n] & STORES:
            return None
        found = self.access(n)
        if self.flags[n] & LOADS:
            found = found._replace(value=self.stored[bisect.bisect_left(self.updates, n)])
        return found

    def last_access(self, word: int, before: int) -> int:
        """The latest row before one that accessed a word, or 0."""
        for at in range(bisect.bisect_left(self.accesses, before) - 1, -1, -1):
            if self.addresses[at] & ~3 == word:
                return self.accesses[at]
        return 0

    def stores_of_value(self, value: int, after: int, before: int) -> list[int]:
        """The rows between two others after whose stores a word held a value."""
        low, high = (bisect.bisect_left(self.accesses, n) for n in (after + 1, before))
        rows = zip(self.accesses[low:high], self.words[low:high])
        return [n for n, word in rows if word == value and self.flags[n] & STORES]

    def result_of(self, n: int) -> Optional[int]:
        """What a row put into its register, or None."""
        has_result = (n and self.code_of(n).rd and not self.flags[n] & FAULTS
                      and n not in self.silent)
        return self.values[n] if has_result else None

    def mask(self, n: int) -> int:
        """Which bytes of its word a row accesses."""
        return ((1 << self.code_of(n).width) - 1) << (self.flags[n] & OFFSET) & 15

    def is_spill(self, load: int, store: int) -> bool:
        """Whether a load takes back the register that a store put aside on the stack."""
        taken = self.code_of(load)
        put = self.code_of(store)
        return (taken.rs1 == put.rs1 == SP and taken.kind == LOAD and taken.rd == put.rs2
                and self.hart[load] == self.hart[store])

    def text(self, n: int) -> str:
        """A row as `joint` prints it."""
        return " | ".join([f"{self.hart[n]} {self.count_of(n)} {self.code_of(n).row}",
                           *self.told(n)])

    def told(self, n: int) -> list[str]:
        """What a row did, as it is told there."""
        if self.flags[n] & FAULTS and self.fault:
            return [f"fault {self.fault.name} {self.fault.value:08x}"]
        result = self.result_of(n)
        load = self.load_of(n)
        store = self.store_of(n)
        said = [f"{NAMES[self.code_of(n).rd]}={result:08x}"] if result is not None else []
        said += [f"load {load.address:08x}={load.value:08x}"] if load else []
        return said + ([f"store {store.address:08x}={store.value:08x}"] if store else [])
