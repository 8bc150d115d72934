"""When harts wait: in loops that load, but store and count nothing."""
from __future__ import annotations

import operator
import re
from array import array
from binascii import unhexlify
from itertools import compress
from typing import Iterable, Iterator, NamedTuple, Sequence

from ..recording.elf import Elf
from ..recording.instruction import AMO, CALL, LOAD, OP_AMO, STORE, Instruction

MOST_LOOP = 32              # addresses of a loop that waits
ROUNDS = 3                  # that a wait has at least
# These change the word each time, so a loop with one of them does more than wait
AMO_ADD = 0
AMO_XOR = 4


class Loops:
    """Which loops of a program do nothing but wait."""

    def __init__(self, elf: Elf) -> None:
        self.elf = elf
        self.codes: dict[int, Instruction] = {}
        self.known: dict[tuple[int, ...], bool] = {}

    def code(self, address: int) -> Instruction:
        if address not in self.codes:
            self.codes[address] = Instruction(0, b"%08x %08x x" % (address,
                                                                   self.elf.word(address) or 0))
        return self.codes[address]

    def is_waiting(self, addresses: Iterable[int]) -> bool:
        """Whether a round of these instructions loads, stores nothing, and counts nothing: none of
        its registers tells of the round before."""
        key = tuple(addresses)
        if key not in self.known:
            codes = [self.code(address) for address in key]
            carried: set[int] = set()
            written = {0}
            for code in codes:
                carried |= {code.rs1, code.rs2} - written
                written.add(code.rd)
            loads = any(code.kind in (LOAD, AMO) for code in codes)
            self.known[key] = loads and not any(map(does_more, codes)) and not carried & written
        return self.known[key]


def does_more(code: Instruction) -> bool:
    return (code.kind in (STORE, CALL)
            or code.word & 127 == OP_AMO and code.word >> 27 in (AMO_ADD, AMO_XOR))


def waited_addresses(text: bytes, hart: int) -> array[int]:
    """Those of a hart's rows in a chunk."""
    found = array("I", unhexlify(b"".join(re.findall(rb"\n%d \d+ (\w{8}) " % hart, text))))
    found.byteswap()
    return found


class Wait(NamedTuple):
    """A wait of a hart: its first row and the one behind its last, in the order of `joint`; an
    address in it, and its rows."""
    hart: int
    begin: int
    end: int
    address: int
    rows: int


class Stretch(NamedTuple):
    """Rows of a hart in a chunk, from one up to another, and the address at which its loop
    begins."""
    first: int
    end: int
    address: int


class Waits:
    """The waits in the order of `joint`. What is between two rounds of the same loop, as another
    loop around it, is part of them.

    open   {hart: the wait that may continue, and how many of the hart's rows came since}"""

    def __init__(self, loops: Loops, harts: int, most: int) -> None:
        self.loops = loops
        self.harts = harts
        self.most = most
        self.rows = 0
        self.found: list[Wait] = []
        self.open: dict[int, tuple[Wait, int]] = {}

    def take(self, text: bytes) -> None:
        owners: Sequence[bytes] = ()
        for hart in range(self.harts):
            pcs = waited_addresses(text, hart)
            at = 0
            for stretch in self.stretches(pcs):
                owners = owners or re.findall(rb"\n(\d+) ", text)
                places = list(compress(range(len(owners)), map((b"%d" % hart).__eq__, owners)))
                self.add(hart, stretch, stretch.first - at, self.rows + places[stretch.first],
                         self.rows + places[stretch.end - 1] + 1)
                at = stretch.end
            self.pass_by(hart, len(pcs) - at)
        self.rows += text.count(b"\n")

    def stretches(self, pcs: array[int]) -> Iterator[Stretch]:
        """The rows of loops that come again and again, and of which none does more than wait."""
        first = rounds = 0
        before = -1
        for at in [*compress(range(len(pcs)), map(operator.le, pcs[1:], pcs)), -1]:
            body = pcs[before + 1:at + 1]
            if (0 < len(body) <= MOST_LOOP and before >= 0 and pcs[at] == pcs[before]
                    and self.loops.is_waiting(dict.fromkeys(body))):
                first = first if rounds else before + 1
                rounds += 1
            else:
                if rounds >= ROUNDS:
                    yield Stretch(first, before + 1, pcs[first])
                rounds = 0
            before = at

    def add(self, hart: int, stretch: Stretch, between: int, begin: int, end: int) -> None:
        known, passed = self.open.get(hart, (None, 0))
        if (known and passed + between <= ROUNDS * MOST_LOOP
                and abs(known.address - stretch.address) <= 4 * MOST_LOOP):
            rows = known.rows + passed + between + stretch.end - stretch.first
            self.open[hart] = Wait(hart, known.begin, end, known.address, rows), 0
        else:
            self.close(hart)
            self.open[hart] = (Wait(hart, begin, end, stretch.address, stretch.end - stretch.first),
                               0)

    def pass_by(self, hart: int, rows: int) -> None:
        if hart in self.open:
            self.open[hart] = self.open[hart][0], self.open[hart][1] + rows

    def close(self, hart: int) -> None:
        if hart in self.open and len(self.found) < self.most:
            self.found.append(self.open.pop(hart)[0])

    def all(self) -> list[Wait]:
        for hart in range(self.harts):
            self.close(hart)
        return self.found
