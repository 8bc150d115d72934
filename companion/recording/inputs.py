"""Bytes of the input that memory holds: `read` calls brought them, and no row stored there
since."""
from __future__ import annotations

from typing import Optional, Sequence

from ..call.text import number
from .chunks import STORE, TOP, few_ranges, row_at, touching_any
from .cut import stored_bytes
from .followed import Fills, Follower
from .log import Log, SystemCall

Numbers = Sequence[Optional[int]]
MOST_RANGES = 16            # of memory, in which stores are looked for


def input_text(numbers: Numbers) -> str:
    """Bytes of the input in words. None is one of which the log doesn't tell which it is."""
    noun = "byte" if len(numbers) == 1 else "bytes"
    known = [each for each in numbers if each is not None]
    if not known:
        return f"unknown {noun} of the input"
    if len(known) > 2 and known[-1] - known[0] == len(known) - 1:
        return f"{noun} {number(known[0])} to {number(known[-1])} of the input"
    return f"{noun} {' and '.join(map(number, known))} of the input"


class InputInMemory(Follower):
    """Which it is, up to a place of the latest chunk."""

    def __init__(self, log: Log) -> None:
        super().__init__(Fills(log, 0, TOP))
        self.log = log
        filled = [(call.address, call.address + call.size)
                  for calls in self.fills.left.values() for call in calls]
        self.stores = touching_any(few_ranges(filled, MOST_RANGES), STORE) if filled else None
        self.is_input = bytearray(log.memory if filled else 0)
        self.done: list[SystemCall] = []

    def fill(self, call: SystemCall) -> None:
        end = min(call.address + call.size, len(self.is_input))
        self.is_input[call.address:end] = b"\1" * max(0, end - call.address)
        self.done.append(call)

    def tell(self, place: int) -> None:
        for found in self.stores.finditer(self.text, self.place, place) if self.stores else ():
            address = int(self.text[found.end() - 9:found.end() - 1], 16)
            width = stored_bytes(row_at(self.text, found.end()))
            self.is_input[address:address + width] = bytes(width)

    def numbers(self, word: int) -> Numbers:
        """Which bytes of the input a word has."""
        return [self.number(at) for at in range(word, word + 4) if any(self.is_input[at:at + 1])]

    def number(self, address: int) -> Optional[int]:
        call = next(each for each in reversed(self.done)
                    if each.address <= address < each.address + each.size)
        first = address - call.address
        return self.log.input_bytes(call.hart, call.count, first, first + 1)[0]
