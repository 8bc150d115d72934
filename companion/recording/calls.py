"""Call stacks, rebuilt from the calls and returns along a hart's rows.

Calls are a tree, which all harts share: a node is the place of a call made in another node; node 0
is the outermost. A return goes to the nearest node whose call it returns behind; one that fits none
changes nothing, and so do longjmp and hand-made returns. A jump to the first address of a function
is a call too, which returns for the function that made it."""
from __future__ import annotations

import bisect
from array import array
from functools import cached_property
from types import MappingProxyType
from typing import Mapping, NamedTuple, Optional

from .elf import FUNCTION, Elf
from .rows import Rows

RESTORES = "__riscv_restore_"
COLD = ".cold"
MASK = (1 << 32) - 1


class Entries:
    """The first addresses of functions: to jump there from another function is a call.

    sizes   {address: the size of the function, 0 if it has none: then it ends with the next one's
            begin}"""

    def __init__(self, sizes: Mapping[int, int] = MappingProxyType({})) -> None:
        self.sizes = sizes
        self.order = sorted(sizes)

    def are_led_to(self, pc: int, target: int) -> bool:
        """Whether a jump leads to a function. One to the first row of its own is a loop."""
        if target not in self.sizes:
            return False
        at = bisect.bisect_right(self.order, pc) - 1
        return at < 0 or self.order[at] != target or 0 < self.sizes[target] <= pc - target


def entries_of(elf: Elf) -> Entries:
    """Those of a program. What takes registers back for a function that ends is a part of it, and
    so is the code that a compiler put elsewhere since it is seldom done."""
    return Entries({symbol.address: symbol.size
                    for symbol in elf.functions if symbol.kind == FUNCTION
                    and not symbol.name.startswith(RESTORES) and not symbol.name.endswith(COLD)})


class Above(NamedTuple):
    """calls   the places of the innermost calls over a node, innermost first
    more    how many calls there are beside these
    first   the place of the outermost one, if it isn't among them"""
    calls: list[int]
    more: int
    first: int


class CallTree:
    """parent, call_pc, depth, and the place of the outermost call: of each node."""

    def __init__(self) -> None:
        self.tails: set[int] = set()            # the nodes of jumps
        self.parent, self.call_pc, self.depth, self.outermost = (array("I", [0]) for _ in range(4))
        self.child: dict[int, int] = {}         # {node above << 32 | place of the call: node}

    def called(self, node: int, pc: int) -> int:
        """The node of a call that is made in a node."""
        key = node << 32 | pc
        found = self.child.get(key)
        if found is None:
            found = self.child[key] = len(self.parent)
            self.parent.append(node)
            self.call_pc.append(pc)
            self.depth.append(self.depth[node] + 1)
            self.outermost.append(self.outermost[node] if node else pc)
        return found

    def went(self, node: int, pc: int) -> int:
        """The node of a jump to a function. Of several in a row the last is kept, so that the tree
        stays small."""
        found = self.called(self.parent[node] if node in self.tails else node, pc)
        self.tails.add(found)
        return found

    def returned(self, node: int, pc: int) -> int:
        """The node behind a return to `pc`."""
        at = node
        while at and self.call_pc[at] != pc - 4:
            at = self.parent[at]
        if not at and node in self.tails and not self.parent[node]:
            at = node                           # its function's call isn't known, and has ended
        return self.parent[at] if at else node

    def calls(self, node: int, most: int) -> Above:
        """The places of so many of a node's calls."""
        found: list[int] = []
        while node and len(found) < most:
            found.append(self.call_pc[node])
            node = self.parent[node]
        return Above(found, self.depth[node], self.outermost[node])


class Tail(NamedTuple):
    """A jump to a function: its row and what a0 was."""
    row: int
    a0: int


class Paired(NamedTuple):
    """Calls and the returns from them, as places among the jumps, in the order of the returns.
    `left` has {hart: its calls that didn't return, outermost first}."""
    calls: array[int]
    backs: array[int]
    left: dict[int, list[int]]


class Calls:
    """How harts were called.

    tree     the calls
    jumps    the rows of calls and returns; a0: what it was there, an argument or a result; writers:
             the rows that wrote it
    tails    the jumps to functions
    goes     {hart: the rows of its jumps}; nodes: {hart: its nodes after them}"""

    def __init__(self, rows: Rows, entries: Optional[Entries] = None) -> None:
        self.rows = rows
        self.tree = CallTree()
        self.entries = entries or Entries()
        self.jumps = array("I")
        self.a0 = array("I")
        self.writers = array("I")
        self.tails: list[Tail] = []
        self.goes = {hart: array("I") for hart in range(rows.log.harts)}
        self.nodes = {hart: array("I", [0]) for hart in range(rows.log.harts)}

    def go(self, n: int, writer: int, a0: int, target: int) -> None:
        """A call, a return, or a jump that can lead to a function. `writer` is the row that wrote
        a0, `target` what its register held."""
        ins = self.rows.code_of(n)
        hart = self.rows.hart[n]
        tree = self.tree
        node = self.nodes[hart][-1]
        if not ins.leads:
            target = target + (ins.word >> 20) - (ins.word >> 31 << 12) & MASK & ~1
            if not (ins.call or ins.ret or self.entries.are_led_to(ins.pc, target)):
                return
        if ins.call or ins.ret:
            self.jumps.append(n)
            self.a0.append(a0)
            self.writers.append(writer)
            node = tree.called(node, ins.pc) if ins.call else tree.returned(node, target)
        else:
            node = tree.went(node, ins.pc)
            self.tails.append(Tail(n, a0))
        self.goes[hart].append(n)
        self.nodes[hart].append(node)

    def node_of(self, n: int) -> int:
        """The node that a row is in."""
        hart = self.rows.hart[n]
        return self.nodes[hart][bisect.bisect_left(self.goes[hart], n)]

    def above(self, n: int, most: int) -> Above:
        """So many of the calls that a row is in."""
        return self.tree.calls(self.node_of(n), most)

    @cached_property
    def paired(self) -> Paired:
        """Once all rows are read. A return is that from the nearest call behind which it leads; one
        that fits none is of none, and calls in one that has returned never will."""
        rows = self.rows
        found = Paired(array("I"), array("I"), {hart: [] for hart in self.goes})
        for at, n in enumerate(self.jumps):
            left = found.left[rows.hart[n]]
            if rows.code_of(n).call:
                left.append(at)
                continue
            following = rows.following(n)
            place = rows.code_of(following).pc - 4 if following else 0
            under = len(left) - 1
            while under >= 0 and rows.code_of(self.jumps[left[under]]).pc != place:
                under -= 1
            if under >= 0:
                found.calls.append(left[under])
                found.backs.append(at)
                del left[under:]
        return found
