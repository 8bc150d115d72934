"""What a hart that came to its limit was doing: its loop, since when, what would have ended it, and
what stopped before.

The rows of such a hart end with rows of few places, again and again. A stay among these places is
taken for the hang if no earlier one was half as long: a loop that ends in time isn't."""
from __future__ import annotations

import sys
from array import array
from collections import Counter
from itertools import compress
from typing import NamedTuple, Sequence

from ..recording.instruction import BRANCH
from ..recording.rows import STORES, Rows
from ..recording.trace import Trace
from .control import load_behind, other_side

AT_ONCE = 1 << 18           # rows between which Ctrl-C is heard
LONGER = 3                  # how many rounds a loop has at least
NO_CODE = -1
MOST_CUTS = 12              # how many sets of places are tried
OFTEN = 3                   # how often a place ran that then stopped
LOW = 0xffffffff            # the bits of one of a pair
LATEST = 6                  # stores of each place that are looked at for words that change
LATEST_ROWS = 50000         # and how far back: a loop of longer rounds isn't seen as one


class Operand(NamedTuple):
    """A value that a branch compares: its register, the row that wrote it, the load that it came
    from, the store that this got. 0 is none."""
    register: int
    row: int
    load: int
    store: int


class Exit(NamedTuple):
    """A branch of a loop that always went the same way: its latest row, how often it ran, whether
    its other side leads out of the loop's places, and what it compares."""
    row: int
    times: int
    leads_out: bool
    operands: list[Operand]


class Stopped(NamedTuple):
    """The last row of a place that ran often and then never again, and how often it ran."""
    row: int
    times: int


class Loop:
    """places    the codes of its instructions; none if no loop is seen
    first     the row with which the stay among them began, and `last` the hart's last row
    size      how many rows the stay has; rounds: how often the rarest place came
    exits     those that lead out first, then the latest
    pairs     how often each instruction of it came after each
    stores    the latest stores of each place
    stopped   latest first"""

    def __init__(self, trace: Trace, hart: int) -> None:
        self.trace, self.rows, self.hart, self.last = trace, trace.rows, hart, trace.rows.last[hart]
        mine = loop_rows(trace.rows, hart)
        self.of_hart = array("I", compress(range(len(mine)), mine))
        self.codes = codes_of(trace.rows, hart)
        self.latest: dict[int, int] = {}        # {code: its last place among the hart's rows}
        for begin in range(0, len(self.codes), AT_ONCE):
            self.latest.update(zip(self.codes[begin:begin + AT_ONCE],
                                   range(begin, len(self.codes))))
        self.places, self.begin = self.find_places()
        stay = self.codes[self.begin:]
        self.first = self.of_hart[self.begin]
        self.size = len(stay)
        self.pairs = pairs_of(stay)
        self.times = code_times(self.pairs) + Counter(stay[-1:])
        self.rounds = min((self.times[at] for at in self.places), default=0)
        self.exits = self.find_exits()
        self.stores = self.find_stores()
        self.stopped = self.find_stopped()

    def find_places(self) -> tuple[set[int], int]:
        """The places, and the beginning of the stay among the hart's rows."""
        end = len(self.codes)
        # Before the first row
        latest = sorted(self.latest.items(), key=lambda item: -item[1]) + [(NO_CODE, -1)]
        cuts = [i for i in range(1, len(latest))
                if end - latest[i][1] >= LONGER * (end - latest[i - 1][1])]
        for i in cuts[:MOST_CUTS]:
            places = {at for at, _ in latest[:i]}
            begin = latest[i][1] + 1
            if self.longest_stay(places, begin) * 2 < end - begin:
                return places, begin
        return set(), end - 1

    def longest_stay(self, places: set[int], before: int) -> int:
        """How many rows the hart stayed at most among these places before."""
        inside = [at in places for at in range(len(self.rows.codes))]
        if not before:
            return 0
        marks = bytes(map(inside.__getitem__, self.codes[:before]))
        return max(map(len, marks.split(b"\0")))

    def find_exits(self) -> list[Exit]:
        rows = self.rows
        trace = self.trace
        where = {self.rows.codes[at].pc for at in self.places}
        ways: dict[int, list[int]] = {}
        for at, following in self.pairs:
            if rows.codes[at].kind == BRANCH and at in self.places:
                ways.setdefault(at, []).append(following)
        found = []
        for at, (following, *more) in ways.items():
            other = other_side(rows.codes[at], rows.codes[following].pc)
            if not more and other is not None:
                row = self.of_hart[self.latest[at]]
                found.append(Exit(row, self.times[at], other not in where, operands_of(trace, row)))
        return sorted(found, key=lambda item: (not item.leads_out, -item.row))

    def find_stores(self) -> list[int]:
        left = {at: LATEST for at in self.places}
        found = []
        for i in range(len(self.codes) - 1, max(self.begin, len(self.codes) - LATEST_ROWS) - 1, -1):
            n = self.of_hart[i]
            if self.rows.flags[n] & STORES and left.get(self.codes[i]):
                left[self.codes[i]] -= 1
                found.append(n)
        return found

    def find_stopped(self) -> list[Stopped]:
        if not self.places:
            return []
        times = counted_codes(self.codes[:self.begin])
        return sorted((Stopped(self.of_hart[i], times[at]) for at, i in self.latest.items()
                       if at not in self.places and times[at] >= OFTEN), reverse=True)


def codes_of(rows: Rows, hart: int) -> array[int]:
    """The codes of a hart's rows."""
    return (rows.code[1:] if len(rows.last) == 1
            else array("I", compress(rows.code, loop_rows(rows, hart))))


def pairs_of(codes: array[int]) -> Counter[tuple[int, int]]:
    """How often each code followed each. Two neighbours are one number of twice as many bytes."""
    found: Counter[int] = Counter()
    for begin in range(0, len(codes), AT_ONCE):
        data = codes[begin:begin + AT_ONCE + 1].tobytes()
        for at in (0, codes.itemsize):
            found.update(array("Q", data[at:at + (len(data) - at) // 8 * 8]))
    first, second = (0, 32) if sys.byteorder == "little" else (32, 0)
    return Counter({(pair >> first & LOW, pair >> second & LOW): times
                    for pair, times in found.items()})


def code_times(pairs: Counter[tuple[int, int]]) -> Counter[int]:
    """How often each code was followed by another."""
    found: Counter[int] = Counter()
    for (at, _), times in pairs.items():
        found[at] += times
    return found


def counted_codes(codes: Sequence[int]) -> Counter[int]:
    found: Counter[int] = Counter()
    for begin in range(0, len(codes), AT_ONCE):
        found.update(codes[begin:begin + AT_ONCE])
    return found


def loop_rows(rows: Rows, hart: int) -> bytes:
    """Of each row whether it is a hart's, as a byte."""
    return b"\0" + rows.hart.tobytes().translate(bytes(at == hart for at in range(256)))[1:]


def operands_of(trace: Trace, row: int) -> list[Operand]:
    """What a branch compares beside 0."""
    ins = trace.rows.code_of(row)
    found = []
    for register, source in ((ins.rs1, trace.writers.first[row]),
                             (ins.rs2, trace.writers.second[row])):
        if register:
            load = load_behind(trace, source)
            found.append(Operand(register, source, load, store_behind(trace, load)))
    return found


def store_behind(trace: Trace, load: int) -> int:
    """The store that gave a load's word its value, or 0."""
    return trace.writers.store(load) if load else 0
