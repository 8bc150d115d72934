"""The memory before any row of the latest chunk of `joint`: of all addresses, or of some."""
from __future__ import annotations

import re
from collections import deque
from typing import Deque, Sequence

from .chunks import TOP, words_in
from .cut import last_count
from .elf import Elf
from .log import READ_CALL, Log, SystemCall
from .memory import Memory

# Of a load and a store: few rows have the letter o elsewhere
ACCESS = rb"o(?:ad|re) (%s)=(\w{8})"
EVERYWHERE = ((0, TOP),)
NONE = rb"(?!)"


class Fills:
    """The `read` calls that fill some of the bytes from an address up to another.

    left    {hart: those that are still to come}"""

    def __init__(self, log: Log, first: int, end: int) -> None:
        self.left: dict[int, Deque[SystemCall]] = {}
        for call in log.system_calls():
            if (call.kind == READ_CALL and call.size and call.address < end
                    and first < call.address + call.size):
                self.left.setdefault(call.hart, deque()).append(call)

    def within(self, text: bytes) -> list[tuple[int, SystemCall]]:
        """Those whose rows are in the next chunk, with the places behind their rows' beginnings."""
        found = []
        for hart, fills in self.left.items():
            count = last_count(text, hart)
            at = 0
            while fills and fills[0].count <= count:
                fill = fills.popleft()
                at = text.find(b"\n%d %d " % (hart, fill.count), at)
                if at >= 0:
                    found.append((at + 1, fill))
                at = max(at, 0)
        return sorted(found)


class Begins:
    """Whether each hart has begun. Until then a word can hold what a lost row stored.

    late    what the rows begin with of harts that haven't"""

    def __init__(self, log: Log) -> None:
        self.late = {b"\n%d " % hart for hart in log.late}

    def place(self, text: bytes) -> int:
        """The place in the next chunk from which on all have; its end, if some haven't."""
        found = {head: text.find(head) for head in self.late}
        self.late = {head for head, at in found.items() if at < 0}
        return len(text) if self.late else max(found.values(), default=0)


class Follower:
    """What goes along the rows of chunks, with the `read` calls between them.

    coming   those of the rest of the chunk, with the places behind their rows' beginnings"""

    def __init__(self, fills: Fills) -> None:
        self.fills = fills
        self.text = b""
        self.place = 0
        self.coming: Deque[tuple[int, SystemCall]] = deque()

    def take(self, text: bytes) -> None:
        self.go_to(len(self.text))
        self.text = text
        self.place = 0
        self.coming = deque(self.fills.within(text))

    def go_to(self, place: int) -> None:
        """Takes the rows of the chunk up to a place, which is none before the last one's."""
        while self.coming and self.coming[0][0] <= place:
            at, fill = self.coming.popleft()
            self.tell(at)
            self.place = at
            self.fill(fill)
        self.tell(place)
        self.place = place

    def tell(self, place: int) -> None:
        """Takes the rows from the last place up to another."""

    def fill(self, call: SystemCall) -> None:
        """Takes a `read` call."""


class FollowedMemory(Follower):
    """memory   what the rows up to a place of the latest chunk tell"""

    def __init__(self, log: Log, elf: Elf, is_whole: bool,
                 ranges: Sequence[tuple[int, int]] = EVERYWHERE) -> None:
        """`is_whole`: the run's first row is among those that come. Of other words than those in
        the ranges nothing is told."""
        super().__init__(Fills(log, min(ranges)[0], max(end for _, end in ranges)) if ranges
                         else Fills(log, 0, 0))
        self.memory = Memory(elf, is_whole)
        self.ranges = ranges
        self.accesses = re.compile(ACCESS % (words_in(ranges) or NONE))

    def fill(self, call: SystemCall) -> None:
        for low, high in self.ranges:
            first = max(call.address, low)
            end = min(call.address + call.size, high)
            self.memory.fill(first, max(0, end - first))

    def tell(self, place: int) -> None:
        """Takes what a piece of the chunk says last of each address."""
        found: list[tuple[bytes, bytes]] = self.accesses.findall(self.text, self.place, place)
        last = dict(found)
        # A word is accessed by the addresses of its bytes, too: the latest access is told last
        known = {int(address, 16) & ~3: int(last[address], 16)
                 for address in reversed(dict(reversed(found)))}
        self.memory.known.update(known)
        if self.memory.filled:
            self.memory.filled.difference_update(known)
