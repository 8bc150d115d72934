"""Memory that a function hands out and another takes back, recognised by what calls do, without
names.

A *giver* is a function that returns addresses of memory which aren't near its argument (malloc). A
*taker* is the function that is called with such an address before the giver returns it again
(free). A function that returns one address again and again with no such call between is a look-up,
and no giver."""
from __future__ import annotations

import bisect
from collections import Counter
from typing import NamedTuple, Optional, Sequence

from ..recording.elf import WRITABLE, Elf
from ..recording.instruction import JUMP, RA
from ..recording.rows import LOADS, STORES
from ..recording.trace import Trace

LOWEST = 4096               # the first page is no memory: smaller results are numbers or errors
NEAR = 1024                 # a result so near to an argument is a pointer into what was given
LARGEST = 1 << 16           # bytes behind a block's begin that may be its own: its size isn't known
# So many of the latest calls and returns are looked at, which bounds the memory
MOST_JUMPS = 500000
STEPS = 600                 # so many rows are looked at for the block that a pointer came from


class Block:
    """An address that a giver returned."""
    __slots__ = ("call", "back", "giver", "address")

    def __init__(self, call: int, back: int, giver: int, address: int) -> None:
        self.call = call
        self.back = back
        self.giver = giver
        self.address = address


class Given(NamedTuple):
    """A block, and the row that wrote its address into a0."""
    block: Block
    writer: int


class CallWith(NamedTuple):
    """A call with an address as its argument: its row, and the function that is called."""
    row: int
    function: int


class Blocks:
    """by_address   {address: the blocks that were given out there, in order}
    arguments    {address: the calls with it, in order}
    wrote        {row: the blocks whose address it wrote into a0}
    taker        {giver: taker}
    own          the functions that hand out memory and take it back, and not those that call them
                 to do it"""

    def __init__(self, trace: Trace, elf: Elf) -> None:
        self.rows, self.writers, self.calls = trace
        self.elf = elf
        self.by_address: dict[int, list[Block]] = {}
        self.arguments: dict[int, list[CallWith]] = {}
        self.wrote: dict[int, list[Block]] = {}
        self.taker: dict[int, int] = {}
        self.first = max(0, len(self.calls.jumps) - MOST_JUMPS)
        found = self.matched()
        givers = self.givers(found)
        self.collect(found, givers)
        # What a function that takes memory back leaves in its result's register is no memory that
        # it gives out.
        spread = Counter(giver for blocks in self.by_address.values()
                         for giver in {block.giver for block in blocks})
        untrue = {taker for giver, taker in self.taker.items() if spread[giver] > spread[taker] > 0}
        if untrue:
            givers -= untrue
            self.collect(found, givers)
        self.own = self.allocators([given.block for given in found if given.block.giver in givers])
        self.leads = {ins.pc: ins.leads for ins in self.rows.codes if ins.kind == JUMP}
        self.own_nodes: dict[int, bool] = {}

    def collect(self, found: list[Given], givers: set[int]) -> None:
        """The blocks of these givers, and the calls with them."""
        self.by_address = {}
        self.arguments = {}
        self.wrote = {}
        for given in found:
            if given.block.giver in givers:
                self.add(given.block)
                self.wrote.setdefault(given.writer, []).append(given.block)
        self.collect_arguments()
        self.taker = self.takers()

    def add(self, block: Block) -> None:
        """A block replaces those that were given out within its call at the same address, as
        malloc's are in calloc."""
        there = self.by_address.setdefault(block.address, [])
        while there and there[-1].call > block.call:
            there.pop()
        there.append(block)

    def matched(self) -> list[Given]:
        """The blocks of all calls that return an address of data."""
        calls = self.calls
        found = []
        for call, back in zip(calls.paired.calls, calls.paired.backs):
            address = calls.a0[back]
            if call >= self.first and self.is_given(address, calls.a0[call]):
                row = calls.jumps[call]
                block = Block(row, calls.jumps[back], self.entry(row), address)
                found.append(Given(block, calls.writers[back]))
        return found

    def entry(self, call: int) -> int:
        """The called function's first address: the place of its first row."""
        n = self.rows.following(call)
        return self.rows.code_of(n).pc if n else 0

    def is_given(self, address: int, argument: int) -> bool:
        part = self.elf.part_of(address)
        return (address % 4 == 0 and LOWEST <= address < self.rows.log.memory
                and not (part and not part.flags & WRITABLE) and abs(address - argument) >= NEAR)

    def givers(self, found: list[Given]) -> set[int]:
        """The functions whose addresses come again only after a call with them."""
        latest: dict[tuple[int, int], int] = {}
        again: Counter[int] = Counter()
        alone: Counter[int] = Counter()
        calls: dict[int, list[int]] = {}
        for at in range(self.first, len(self.calls.jumps)):
            n = self.calls.jumps[at]
            if self.rows.code_of(n).rd == RA:
                calls.setdefault(self.calls.a0[at], []).append(n)
        for block in (given.block for given in found):
            key = block.giver, block.address
            before = latest.get(key)
            if before is not None:
                rows = calls.get(block.address, [])
                place = bisect.bisect_right(rows, before)
                between = place < len(rows) and rows[place] < block.call
                kind = again if between else alone
                kind[block.giver] += 1
            latest[key] = block.back
        return {giver for giver, _ in latest if alone[giver] <= again[giver]}

    def collect_arguments(self) -> None:
        rows = self.rows
        calls = self.calls
        for at in range(self.first, len(calls.jumps)):
            n = calls.jumps[at]
            if calls.a0[at] in self.by_address and rows.code_of(n).rd == RA:
                self.arguments.setdefault(calls.a0[at], []).append(CallWith(n, self.entry(n)))
        for tail in calls.tails:
            if tail.a0 in self.by_address:
                self.arguments.setdefault(tail.a0,
                                          []).append(CallWith(tail.row, self.entry(tail.row)))
        for made in self.arguments.values():
            made.sort()

    def takers(self) -> dict[int, int]:
        """Of each giver the function that is called most often between two times that it gives an
        address out."""
        votes: dict[tuple[int, int], int] = {}
        for address, blocks in self.by_address.items():
            for first, second in zip(blocks, blocks[1:]):
                for _, function in self.calls_between(address, first.back, second.call):
                    if function != first.giver:
                        key = first.giver, function
                        votes[key] = votes.get(key, 0) + 1
        found = {}
        for (giver, function), _ in sorted(votes.items(), key=lambda item: item[1]):
            found[giver] = function
        return found

    def allocators(self, blocks: list[Block]) -> set[int]:
        """The innermost functions that returned a block and whose blocks somebody takes back, and
        of each the function that got an address last before it was given out again. A function that
        only returns addresses may return its caller's."""
        latest: dict[int, Block] = {}
        last: Counter[tuple[int, int]] = Counter()
        for block in blocks:                    # in the order of their returns: inner calls first
            before = latest.get(block.address)
            if before and before.call > block.call:
                continue
            if before:
                between = self.calls_between(block.address, before.back, block.call)
                last.update((block.giver, call.function) for call in between[-1:])
            latest[block.address] = block
        return {function for giver, _ in last
                for function in (giver, max((times, taker) for (one, taker), times in last.items()
                                            if one == giver)[1])}

    def is_own(self, n: int) -> bool:
        """Whether a row is an allocator's own."""
        tree = self.calls.tree
        node = self.calls.node_of(n)
        passed: list[int] = []
        while node and node not in self.own_nodes:
            passed.append(node)
            node = tree.parent[node]
        for each in reversed(passed):
            self.own_nodes[each] = (self.leads.get(tree.call_pc[each]) in self.own
                                    or self.own_nodes.get(tree.parent[each], False))
        return self.own_nodes.get(self.calls.node_of(n), False)

    def behind(self, row: int, address: int) -> Optional[Block]:
        """The block that a pointer came from, by the row that wrote the pointer and the address
        that it leads to."""
        seen = {row}
        todo = [row]
        best: Optional[Block] = None
        while todo and len(seen) < STEPS:
            n = todo.pop()
            for block in self.wrote.get(n, ()):
                if (0 <= address - block.address < LARGEST
                        and (best is None or self.rank(block) > self.rank(best))):
                    best = block
            if best is not None and n < best.call:
                continue
            for source in self.sources(n):
                if source and source not in seen:
                    seen.add(source)
                    todo.append(source)
        return best

    def rank(self, block: Block) -> tuple[bool, int]:
        """Of the blocks behind a pointer the latest counts, of those that somebody takes back if
        there are any."""
        return block.giver in self.taker, block.call

    def twice(self) -> list[tuple[int, int]]:
        """The calls that gave a block back twice: both rows."""
        found = []
        for blocks in self.by_address.values():
            for block, following in zip(blocks, blocks[1:] + [None]):
                rows = self.given_back(block, block.back,
                                       following.call if following else self.rows.size + 1)
                found += list(zip(rows, rows[1:]))
        return sorted(found)

    def sources(self, n: int) -> list[int]:
        """The rows that a row's value comes from."""
        rows = self.rows
        writers = self.writers
        if rows.flags[n] & LOADS:
            return writers.stores(n).rows
        if rows.flags[n] & STORES:
            return [writers.second[n]]
        return [writers.before_counting(n), writers.second[n]] if rows.code_of(n).rd else []

    def given_back(self, block: Block, low: int, high: int) -> list[int]:
        """The calls of the taker with a block's address between two rows."""
        taker = self.taker.get(block.giver)
        return [n for n, function in self.calls_between(block.address, low, high)
                if function == taker]

    def calls_between(self, address: int, low: int, high: int) -> Sequence[CallWith]:
        """The calls with an address between two rows."""
        calls = self.arguments.get(address, [])
        return calls[bisect.bisect_left(calls, (low + 1,)):bisect.bisect_left(calls, (high,))]
