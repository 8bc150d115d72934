"""The ways of a hart through two runs, compared as their rows come. What a hart did while it waited
is no difference."""
from __future__ import annotations

from array import array
from collections import deque
from typing import Deque, Generator, Iterable, Iterator, NamedTuple

from ..recording.chunks import row_at
from ..recording.cut import count_of, pc_of
from ..recording.instruction import AMO, LOAD
from .waiting import MOST_LOOP, Loops, waited_addresses

PIECE = 4096            # rows that are compared at once: a slice is compared by C
MOST_SKIPS = 1000       # of waits that were passed over: the last ones are told
LOOKED_BACK = 16        # rows before a piece that stay known, as the way to where two part


class HartWay:
    """The rows of a hart that are still to be compared.

    pcs     their addresses; first: the count of the first one; before: the addresses of the last
            rows before it
    ended   whether no more come; stopped: because another hart or the limit ended them"""

    def __init__(self, hart: int) -> None:
        self.pcs = array("I")
        self.before = array("I")
        self.first = 0
        self.ended = False
        self.stopped = False
        self.hart = hart

    def add(self, text: bytes) -> None:
        self.pcs += waited_addresses(text, self.hart)

    def pass_by(self, text: bytes) -> None:
        """Takes rows that are the same in both runs."""
        at = text.rfind(b"\n%d " % self.hart)
        if at >= 0:
            row = row_at(text, at + 1)
            self.first = count_of(row) + 1
            self.before = array("I", [pc_of(row)])

    def drop(self, rows: int) -> None:
        if rows:
            self.before = (self.before + self.pcs[max(0, rows - LOOKED_BACK):rows])[-LOOKED_BACK:]
            self.first += rows
            del self.pcs[:rows]


class Skip(NamedTuple):
    """A place at which a hart had gone another way, but only to wait: the counts of both runs
    there."""
    good: int
    bad: int
    is_bad: bool                # whether it waited in BAD


def common(one: memoryview, other: memoryview) -> int:
    """How many rows from the first on are the same, by halves."""
    low = 0
    high = min(len(one), len(other))
    if one[:high] == other[:high]:
        return high
    while low + 1 < high:
        middle = (low + high) // 2
        low, high = (middle, high) if one[low:middle] == other[low:middle] else (low, middle)
    return low


class Lane:
    """A hart in GOOD and in BAD.

    parted   whether it went another way; if so, the ways stand at the first rows that aren't the
             same
    is_over  whether no more rows are looked at
    waits    whether it waited until a run ended, in which it had gone another way to do so
    skips    the last places at which it waited longer in one run than in the other"""

    def __init__(self, hart: int, loops: Loops) -> None:
        self.hart = hart
        self.loops = loops
        self.good = HartWay(hart)
        self.bad = HartWay(hart)
        self.parted = self.is_over = self.waits = False
        self.skips: Deque[Skip] = deque(maxlen=MOST_SKIPS)
        self.steps = self.compare()

    def advance(self) -> None:
        if not self.is_over:
            self.is_over = next(self.steps, True)

    def compare(self) -> Iterator[bool]:
        good = self.good
        bad = self.bad
        while True:
            with memoryview(good.pcs) as one, memoryview(bad.pcs) as other:
                same = common(one, other)
            good.drop(same)
            bad.drop(same)
            if good.pcs and bad.pcs:
                yield from self.skip_waits(bad, True)
                if self.differs():
                    yield from self.skip_waits(good, False)
                if self.waits or self.differs():
                    self.parted = True
                    return
            elif good.ended and not good.pcs or bad.ended and not bad.pcs:
                self.parted = len(good.pcs) != len(bad.pcs)
                return
            else:
                yield False

    def differs(self) -> bool:
        return bool(self.good.pcs and self.bad.pcs) and self.good.pcs[0] != self.bad.pcs[0]

    def skip_waits(self, way: HartWay, is_bad: bool) -> Iterator[bool]:
        """Leaves out rounds of a loop that waits, until a hart goes as in the other run, or does
        something else."""
        skip = Skip(self.good.first, self.bad.first, is_bad)
        begin = way.first
        target = (self.good if is_bad else self.bad).pcs[0]
        while self.differs():
            rows = yield from self.waited(way, target, way.first > begin)
            if not rows:
                break
            way.drop(rows + (self.repeated(way, rows) if way.pcs[rows - 1] == way.before[-1]
                             else 0))
            while not way.pcs and not way.ended:
                yield False
            self.waits = not way.pcs and way.stopped
        if way.first > begin:
            self.skips.append(skip)

    def repeated(self, way: HartWay, size: int) -> int:
        """How many rows are the first so many again and again."""
        with memoryview(way.pcs) as pcs, pcs[size:] as behind:
            return common(pcs, behind) // size * size

    def waited(self, way: HartWay, target: int, has_waited: bool) -> Generator[bool, None, int]:
        """How many rows do nothing but wait, else 0. They lead back to the branch at which the ways
        parted, or to the row with which the other run continued. Then one of them loads again what
        had been loaded for the branch."""
        looked = 0
        branch = way.before[-1]
        addresses: dict[int, None] = {}
        while True:
            part = way.pcs[looked:looked + PIECE]
            ends = [part.index(address) + more
                    for address, more in ((branch, 1), (target, 0)) if address in part]
            addresses.update(dict.fromkeys(part[:min(ends)] if ends else part))
            if len(addresses) > MOST_LOOP:
                return 0
            if ends:
                rows = looked + min(ends)
                is_round = way.pcs[rows - 1] == branch
                return (rows if self.loops.is_waiting(tuple(addresses))
                        and (is_round or self.loads_again(way, addresses)) else 0)
            looked += len(part)
            if looked == len(way.pcs):
                if way.ended:
                    self.waits = (has_waited and way.stopped
                                  and self.loops.is_waiting((*addresses, branch)))
                    if self.waits:
                        del way.pcs[:]
                    return 0
                yield False

    def loads_again(self, way: HartWay, addresses: Iterable[int]) -> bool:
        """Whether one of these instructions is the load behind the branch, or a copy of it
        elsewhere."""
        *before, branch = map(self.loops.code, way.before)
        load = next((code for code in reversed(before)
                     if code.rd in (branch.rs1, branch.rs2) and code.rd), branch)
        return load.kind in (LOAD, AMO) and any(self.loops.code(address).word == load.word
                                                for address in addresses)
