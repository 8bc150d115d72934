"""The rows behind a row: the values that it used, the rows that stored them, and so on.

A search by cost. A step along a value costs 1. A step along an address costs 12: else the walk
through a list or an allocator's own loop buries everything. What decided that the row was reached
at all costs more still."""
from __future__ import annotations

import heapq
from typing import NamedTuple, Optional, Sequence

from ..recording.instruction import AMO, BRANCH, CALL, JUMP
from ..recording.places import Places
from ..recording.rows import FAULTS, LOADS, STORES
from ..recording.trace import Trace
from ..recording.writers import KEPT
from .control import Control

MOST_ROWS = 150000          # the search is cut off there: it keeps two entries a row
# What a step costs, if one along a value costs 1. The sizes were set by looking at few programs
# (tests/crashes/README.md); what each is for:
ADDRESS = 12                # a dozen values come first: most addresses are of tables, lists, stacks
OUTPUT_ADDRESS = 6          # a wrong byte is often a right one from a wrong place
FROM_FILE = 3               # no row stored the word, so its address is all that can be wrong
FILLED = 4                  # a 0 that none stored, to where its neighbours were: a guess
DECISION = 14               # a branch before the start, which may have nothing to do with it
CONTROL = 12                # the branch that decided of a row: each row has one, as an address
OUTPUT_CONTROL = 8          # of a row of an output, which more often is the wrong one to be reached
NEXT_CONTROL = 4            # of a branch: a condition of several terms is several branches
SPARED = 4                  # the branch that spared a word of the object whose value it compared
AWAITED = 4                 # the branch by which another hart didn't store what a loop waits for
# How far it is asked. What is more expensive than these has too many rows to tell one from another.
DECIDING_ROWS = 300         # before the start: farther back other functions ran
MOST_BRANCHES = 24          # of those; each fourth costs 1 more, so the last costs DECISION and 6
DEAREST_CONTROL = 40        # three addresses and a few values from the start
DEAREST_FILLED = 6          # the loads right before the start
DEAREST_SPARED = 16         # an address and a few values
NEAR_LOOP = 3               # what is further from a loop's exit isn't what it waits for
KEPT_ROWS = 50              # a store nearer to its load is of the same statement or round
# How often it is asked: each time rows are read again, and `why` has seconds.
MOST_CONTROL = 2000
MOST_KEPT = 400
MOST_FILLED = 4
MOST_SPARED = 100
MOST_GIVERS = 8             # places that stored what a load loads: a branch may have passed them
WIDENS = "srai", "srli"     # the second of two shifts that widen a value
STORES_ANOTHER = "amoswap", "sc."       # atomics whose stored word owes nothing to the loaded one
FAR = 1000                  # rows from a store to its load: nearer ones are of one computation
MOST_INLINED = 8            # functions inlined in one place that are told: a line has no more room
NO_REGISTER = 0                         # memory
# How the first rows are needed
START = "start"
LOOP = "the loop"
DECIDES = frozenset(("decision", "control", "kept", "spared", "awaited"))
LAST = 0xffffffff           # more than any row


class Pair(NamedTuple):
    """A load and the store that it got."""
    load: int
    store: int


class Step(NamedTuple):
    """A row, and how it is needed by the row before it on the way, or as what the row is needed by
    this one."""
    row: int
    how: str


class Decided(NamedTuple):
    """What a branch decided: at which cost it was reached, a row, and whether that was reached or
    kept its value."""
    cost: int
    row: int
    how: str


class Left(NamedTuple):
    """A register of a hart, or memory, whose value comes from before the rows."""
    hart: int
    register: int


class Line(NamedTuple):
    """The rows of a history that are of one hart and place: how many, the latest, the least
    cost."""
    hart: int
    place: str
    rows: int
    latest: int
    cost: int


class History:
    """cost     {row: the least cost at which it was reached}
    parent   {row: the row that needed it, and how}
    far      {a load and the store that it got: cost}
    before   loads of bytes that no row stored
    decided  the rows that led to the start only by a branch
    branches {a branch that decided of a row: of which}
    cut      whether the search was cut off
    left     loads and registers near to the start whose values come from before a hart's first row,
             and not from the run's start"""

    def __init__(self, trace: Trace, starts: Sequence[int], most: int = MOST_ROWS,
                 control: Optional[Control] = None, is_output: bool = False, hangs: bool = False,
                 control_cost: int = 0) -> None:
        """`starts` are the rows that are asked of; the first is the one that the report is about.
        With `control` the branches that decided of the rows are followed too, at `control_cost` or
        else the usual one. `hangs` says that the starts are of a loop without end."""
        self.rows, self.writers, self.calls = trace
        self.start = starts[0]
        self.most = most
        self.cost: dict[int, int] = {}
        self.copied: dict[int, int] = {}        # {load: the first copied load behind it}
        self.again: dict[tuple[object, ...], tuple[int, list[int], bool]] = {}
        self.roots: dict[int, int] = {}
        self.parent: dict[int, Step] = {}
        self.far: dict[Pair, int] = {}
        self.before: list[int] = []
        self.decided: set[int] = set()
        self.branches: dict[int, Decided] = {}
        self.asked = self.kept = self.filled = self.spared = 0
        self.address = OUTPUT_ADDRESS if is_output else ADDRESS
        self.hangs = hangs
        self.control = control
        self.control_cost = control_cost or (OUTPUT_CONTROL if is_output else CONTROL)
        self.cut = False
        self.left: set[Left] = set()
        self.heap: list[int] = []               # price << 32 | what a row is less than LAST
        for row in starts:
            self.cost[row] = 0
            heapq.heappush(self.heap, LAST - row)
        for row in set(starts) - {self.start}:
            self.parent[row] = Step(self.start, LOOP)
        # The branches just before a byte is stored are those of its text
        if not is_output:
            self.decisions()
        self.search()

    def decisions(self) -> None:
        """The latest branches before the start, one of each instruction."""
        rows = self.rows
        n = self.start - 1
        seen: set[int] = set()
        hart = rows.hart[self.start]
        low = max(1, self.start - DECIDING_ROWS)
        while n >= low and len(seen) < MOST_BRANCHES:
            if rows.hart[n] == hart and rows.code[n] not in seen and rows.code_of(n).kind == BRANCH:
                seen.add(rows.code[n])
                self.step(n, DECISION + len(seen) // 4, self.start, "decision")
            n -= 1

    def step(self, row: int, price: int, source: int, how: str) -> None:
        if row and (row not in self.cost or price < self.cost[row]):
            self.cost[row] = price
            self.parent[row] = Step(source, how)
            if how in DECIDES or source in self.decided:
                self.decided.add(row)
            else:
                self.decided.discard(row)
            heapq.heappush(self.heap, price << 32 | LAST - row)

    def search(self) -> None:
        done = 0
        while self.heap:
            key = heapq.heappop(self.heap)
            price = key >> 32
            n = LAST - (key & LAST)
            if price > self.cost[n]:
                continue
            done += 1
            if done > self.most:
                self.cut = True
                break
            self.visit(n, price)
            if self.control and price <= DEAREST_CONTROL and self.asked < MOST_CONTROL:
                self.asked += 1
                self.deciding(self.control, n, price)

    def visit(self, n: int, price: int) -> None:
        rows = self.rows
        writers = self.writers
        ins = rows.codes[rows.code[n]]
        flag = rows.flags[n]
        if flag & FAULTS:                       # its address is the bad value
            self.step(writers.first[n], price + 1, n, "address")
        elif flag & LOADS and not (ins.kind == AMO and ins.name.startswith(STORES_ANOTHER)
                                   and self.is_for_memory(n)):
            unstored = not self.loaded(n, price)
            if ins.kind == AMO:
                self.step(writers.second[n], price + 1, n, "value")
            self.step(writers.first[n], price + (FROM_FILE if unstored else self.address),
                      n, "address")
        elif flag & STORES:
            self.step(writers.second[n], price + 1, n, "value")
            self.step(writers.first[n], price + self.address, n, "address")
        elif ins.kind not in (CALL, JUMP):
            # A call's result comes from outside, a return address is a constant
            self.step(self.unchanged(n), price, n, "value")
            price += 0 if ins.move else 1
            self.step(writers.before_counting(n), price, n, "value")
            self.step(writers.second[n], price, n, "value")
            for register, writer in ((ins.rs1, writers.first[n]), (ins.rs2, writers.second[n])):
                if register and not writer:
                    self.leave(n, price, register)

    def unchanged(self, n: int) -> int:
        """The row of the value that two shifts widened and left as it was, or 0."""
        rows = self.rows
        writers = self.writers
        source = self.writers.first[n]
        if not source or rows.code_of(n).name not in WIDENS or rows.code_of(source).name != "slli":
            return 0
        before = writers.first[source]
        return before if before and rows.result_of(before) == rows.result_of(n) else 0

    def leave(self, n: int, price: int, register: int) -> None:
        """A row uses what isn't known: memory, or a register."""
        if price < ADDRESS and self.rows.is_cut(n):
            self.left.add(Left(self.rows.hart[n], register))

    def deciding(self, control: Control, n: int, price: int) -> None:
        """The branch that decided that a row was reached."""
        price += NEXT_CONTROL if self.rows.code_of(n).kind == BRANCH else self.control_cost
        self.decide(control.before(n), Decided(price, n, "control"))

    def decide(self, branch: int, decided: Decided) -> None:
        if branch:
            if branch not in self.branches or decided.cost < self.branches[branch].cost:
                self.branches[branch] = decided
            self.step(branch, decided.cost, decided.row, decided.how)

    def is_for_memory(self, n: int) -> bool:
        """Whether a row is needed as the store that a load got."""
        return n in self.parent and self.parent[n].how == "memory"

    def given(self, n: int) -> tuple[int, list[int], bool]:
        """The first copied load behind a load, the stores that it got, and whether they gave all of
        its bytes. Of a store far back it is kept, since the rounds of a loop get the same again."""
        writers = self.writers
        word = self.writers.word[n]
        key = self.rows.code[n], word, self.rows.flags[n], writers.partly.get(n)
        if key in self.again:
            first, found, is_whole = self.again[key]
            return first or n, found, is_whole
        first = self.first_copied(n)
        found, rest = writers.stores(first)
        is_whole = not rest
        if n - word > FAR:
            self.again[key] = 0 if first == n else first, found, is_whole
        return first, found, is_whole

    def loaded(self, n: int, price: int) -> bool:
        """A load, and the stores that it got, if there are any."""
        first, found, is_whole = self.given(n)
        for store in found:
            is_spill = self.rows.is_spill(n, store)
            cost = price if is_spill else price + 1
            self.step(store, cost, n, "memory")
            key = Pair(first, store)
            if cost < self.far.get(key, LAST):
                self.far[key] = cost
            if self.control and price <= DEAREST_CONTROL:
                self.not_stored(self.control, n, key, price, is_spill)
        if not is_whole:
            self.before.append(n)
            self.leave(n, price, NO_REGISTER)
        if (not found and price <= DEAREST_FILLED and self.filled < MOST_FILLED
                and not self.rows.access(n).value):
            self.filled += 1
            for row in self.writers.beside(n):  # why not here?
                self.step(self.writers.first[row], price + FILLED, n, "address")
        return bool(found)

    def not_stored(self, control: Control, n: int, pair: Pair, price: int, is_spill: bool) -> None:
        """The branches by which a word that a row loads wasn't stored again: another hart left what
        a loop waits for, those who store it were passed, or the word was spared."""
        rows = self.rows
        store = pair.store
        if self.hangs and price <= NEAR_LOOP and rows.hart[n] != rows.hart[store]:
            self.decide(control.left(store), Decided(price + AWAITED, n, "awaited"))
        if is_spill:
            return
        if n - store >= KEPT_ROWS and self.kept < MOST_KEPT:
            self.kept += 1
            for at in sorted({rows.code[store], *self.writers.givers(n)})[:MOST_GIVERS]:
                branch = control.kept(n, store, rows.codes[at].pc)
                self.decide(branch, Decided(price + self.control_cost, n, "kept"))
        if price <= DEAREST_SPARED and self.spared < MOST_SPARED:
            self.spared += 1
            self.decide(control.spared(pair.load, store), Decided(price + SPARED, n, "spared"))

    def first_copied(self, load: int) -> int:
        """The load behind a load whose word was copied by its own instruction before, again and
        again: the first copy counts."""
        rows = self.rows
        writers = self.writers
        passed = []
        while load not in self.copied:
            source = writers.second[writers.word[load]]
            if rows.code[source] != rows.code[load] or not rows.flags[source] & LOADS:
                break
            found, rest = writers.stores(load)
            if rest or len(found) > 1 or rows.mask(found[0]) != 15:
                break
            passed.append(load)
            load = source
        else:
            load = self.copied[load]
        if passed:
            self.copied.update(dict.fromkeys(passed[::KEPT], load))
        return load

    def is_far(self, load: int, store: int) -> bool:
        return self.rows.hart[load] != self.rows.hart[store] or load - store > FAR

    def path(self, row: int) -> list[Step]:
        """The rows from the start to a row, as the search went, with how each was needed."""
        steps = []
        while row != self.start and row in self.parent:
            source, how = self.parent[row]
            steps.append(Step(row, how))
            row = source
        steps.append(Step(self.start, START))
        return steps[::-1]

    def words(self) -> dict[int, int]:
        """{address of a word: the least cost of a row that accessed it}"""
        found: dict[int, int] = {}
        for n, price in self.cost.items():
            if self.rows.flags[n] & (LOADS | STORES):
                word = self.rows.access(n).address & ~3
                found[word] = min(price, found.get(word, price))
        return found

    def root(self, row: int) -> int:
        """Which of the rows that the history begins with a row led to."""
        passed = []
        while row in self.parent and self.parent[row].how != LOOP and row not in self.roots:
            passed.append(row)
            row = self.parent[row].row
        row = self.roots.get(row, row)
        self.roots.update((each, row) for each in passed)
        return row

    def lines(self, places: Places) -> list[Line]:
        """The values by source line, nearest first."""
        rows = self.rows
        # {hart and code: how many rows, the latest, the least cost}
        alike: dict[tuple[int, int], tuple[int, int, int]] = {}
        for n, price in self.cost.items():
            if n not in self.decided:
                times, latest, least = alike.get((rows.hart[n], rows.code[n]), (0, 0, LAST))
                alike[rows.hart[n], rows.code[n]] = (times + 1, n if n > latest else latest,
                                                     price if price < least else least)
        groups: dict[tuple[int, str], Line] = {}
        places.fetch({rows.codes[code].pc for _, code in alike})
        for (hart, code), (times, latest, price) in alike.items():
            key = hart, places.chain([rows.codes[code].pc], MOST_INLINED)
            item = groups.get(key, Line(*key, 0, latest, price))
            groups[key] = Line(*key, item.rows + times,
                               max(item.latest, latest), min(item.cost, price))
        return sorted(groups.values(), key=lambda item: (item.cost, -item.latest))
