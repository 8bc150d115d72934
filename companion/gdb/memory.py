"""Memory as it is known at a place of the session.

A byte is known in one of four cases, tried in this order:

1. It lies in a read-only segment: no run can change it.
2. A row so far loaded or stored its word, and no `read` call has filled the word since: `debug`
   tells it.
3. The log has dropped nothing, and no row so far touched the word, nor did a `read` call fill a
   byte of it. Then it is what it was at the start: the ELF's bytes, or 0 outside of the segments.
4. All harts have a state, and of the known steps ahead the first that touches its word loads it:
   then the word has that value already.

Case 3 needs the whole past, so it holds for no log that has dropped records. Case 4 needs all steps
in between, so no hart may be in an interval that the log has lost. All else is unknown.
"""
from __future__ import annotations

import bisect
import re
import struct
from typing import Optional

from ..recording.elf import Elf
from ..recording.log import Log
from .fills import StepFills
from .session import Session
from .steps import Steps

LOWEST = 4096  # no address below is mapped
BATCH = 256  # words asked for at once
BLOCK = 4096  # steps that are looked through at once
AHEAD = 16 * BLOCK  # steps in which a word's next access is looked for: farther is unknown
MOST_BLOCKS = 64  # that are kept: those of four such searches
# Of a row's two, the load is first
ACCESS = re.compile(rb"\| (load|store) ([0-9a-f]{8})=([0-9a-f]{8})")


class Future:
    """What the known steps ahead tell: the first access to each word in blocks of them."""

    def __init__(self, steps: Steps, fills: StepFills) -> None:
        self.steps = steps
        self.fills = fills
        # By ends: by word, what its first access tells
        self.blocks: dict[tuple[int, int], dict[int, Optional[int]]] = {}
        steps.when_cut.append(self.forget)

    def forget(self, place: int) -> None:
        self.blocks = {ends: block for ends, block in self.blocks.items() if ends[1] <= place}

    def look(self, start: int, end: int) -> dict[int, Optional[int]]:
        """By word its value before [start, end), if the first step that touches it loads it, else
        None."""
        found: dict[int, Optional[int]] = {}
        fills = dict(self.fills.between(start, end))
        for place, line in enumerate(self.steps.lines.text(start, end).split(b"\n"), start):
            access = ACCESS.search(line)
            if access:
                value = int(access[3], 16) if access[1] == b"load" else None
                found.setdefault(int(access[2], 16) & ~3, value)
            if place in fills:
                address, length = fills[place]
                for word in range(address & ~3, address + length, 4):
                    found.setdefault(word, None)
        return found

    def block(self, start: int, end: int) -> dict[int, Optional[int]]:
        if (start, end) not in self.blocks:
            if len(self.blocks) >= MOST_BLOCKS:
                self.blocks.clear()
            self.blocks[start, end] = self.look(start, end)
        return self.blocks[start, end]

    def word(self, address: int, place: int) -> Optional[int]:
        """The word at an aligned address, or None where the steps ahead don't tell it."""
        limit = min(self.steps.count, place + AHEAD)
        while place < limit:
            end = min(limit, (place // BLOCK + 1) * BLOCK)
            block = self.block(place, end)
            if address in block:
                return block[address]
            place = end
        return None


class SessionMemory:
    """Reads memory for gdb, which takes what is known from an address on."""

    def __init__(self, log: Log, elf: Elf, session: Session) -> None:
        self.session = session
        self.elf = elf
        self.fills = StepFills(session.steps, log)
        self.size = log.memory
        self.is_whole = log.dropped == 0
        self.future = Future(session.steps, self.fills)
        self.borders = sorted({border for part in elf.parts
                               for border in (part.address, part.address + part.size)})

    def first_words(self, first: int, count: int) -> list[int]:
        """The words from an aligned address on as they were at first: the ELF's, or 0 outside."""
        body = bytearray(4 * count)
        for part in self.elf.parts:
            begin = max(first, part.address)
            end = min(first + len(body), part.address + len(part.body))
            if begin < end:
                body[begin - first:end - first] = part.body[begin - part.address:end - part.address]
        return list(struct.unpack(f"<{count}I", body))

    def is_untouched(self, address: int) -> bool:
        """Whether a word that no row touched is what it was at the start."""
        if not self.is_whole or not LOWEST <= address < self.size:
            return False
        return self.fills.find(address, 4, 0, self.session.at) is None

    def words(self, first: int, count: int) -> list[int]:
        """Words from an aligned address on, up to the first that isn't known."""
        found: list[int] = []
        while len(found) < count:
            at = first + 4 * len(found)
            wanted = min(BATCH, count - len(found))
            addresses = range(at, at + 4 * wanted, 4)
            told = self.session.words(addresses)
            first_words = self.first_words(at, wanted)
            for address, value, before in zip(addresses, told, first_words):
                if value is None and self.is_untouched(address):
                    value = before
                if value is None and self.session.all_have_states():
                    value = self.future.word(address, self.session.at)
                if value is None:
                    return found
                found.append(value)
        return found

    def changeable_bytes(self, address: int, length: int) -> bytes:
        """Bytes outside of the read-only segments."""
        found = self.words(address & ~3, ((address & 3) + length + 3) >> 2)
        return struct.pack(f"<{len(found)}I", *found)[address & 3:][:length]

    def next_border(self, address: int, end: int) -> int:
        """The end of the segment that holds an address, or the beginning of the next one."""
        at = bisect.bisect_right(self.borders, address)
        return min([end] + self.borders[at:at + 1])

    def read(self, address: int, length: int) -> bytes:
        """As many bytes as are known from an address on, at most so many."""
        got = b""
        end = min(address + length, 1 << 32)
        while address + len(got) < end:
            at = address + len(got)
            limit = self.next_border(at, end)
            piece = self.elf.read_only_bytes(at, limit - at)
            if piece is None:
                piece = self.changeable_bytes(at, limit - at)
            got += piece
            if len(piece) < limit - at:
                break
        return got
