"""The harts' stacks: how deep they are, what they have run into, and which of their bytes are
whose."""
from __future__ import annotations

import bisect
from typing import List

from ..recording.instruction import RA, SP
from .findings import DEPTH, RETURN, Finding, Findings
from .heap import Heap
from .operation import Operation
from .program import CheckedProgram
from .state import ENDED, GOOD, UNWRITTEN, Event, CheckedHart, TaggedMemory, Thing
from .value import ABSOLUTE

# Of a stack that has nothing else below: so many are its own for certain
OWN_BYTES = 65536
LARGEST = 8 << 20           # bytes, as Linux gives: a stack pointer farther down is another stack's
LARGEST_FRAME = 1 << 20     # bytes: a larger step isn't one of a function that is called
WRITABLE = 2                # a segment's flag


class CheckedStacks:
    """Of a log that lost its beginning the begin of a stack isn't known."""

    def __init__(self, program: CheckedProgram, memory: TaggedMemory, heap: Heap,
                 findings: Findings, harts: List[CheckedHart]) -> None:
        self.program = program
        self.memory = memory
        self.heap = heap
        self.findings = findings
        self.harts = harts
        for hart in harts:
            self.set_limit(hart)

    def grow_or_shrink(self, hart: CheckedHart, new: int, row: bytes, one: Operation) -> None:
        """A constant was added to sp: a frame begins or ends."""
        old = hart.sp
        if new < old:
            self.begin_frame(hart, new, old)
            if new < hart.lowest:
                self.deepen(hart, new, row, one)
        else:
            self.end_frames(hart, old, new)
        hart.sp = new

    def set(self, hart: CheckedHart, new: int, row: bytes, one: Operation) -> None:
        """sp gets a value in another way."""
        old = hart.sp
        if not hart.top or not hart.lowest <= new <= hart.top and not hart.returns:
            hart.top = hart.lowest = new        # the hart begins
            self.set_limit(hart)
            hart.is_own = True
        elif hart.lowest - OWN_BYTES <= new <= hart.top:
            hart.is_away = False
            if hart.is_own and new > old:
                self.end_frames(hart, old, new)
            elif hart.is_own and old - new < LARGEST_FRAME:
                self.begin_frame(hart, new, old)
            if new < hart.lowest:
                self.deepen(hart, new, row, one)
        else:                                   # another stack: of it nothing is known
            hart.is_own = False
            hart.is_away = True
            self.memory.fill(hart.lowest, hart.top, GOOD)
        hart.sp = new

    def begin_frame(self, hart: CheckedHart, low: int, high: int) -> None:
        if hart.is_own and high - low < LARGEST_FRAME:
            self.memory.fill(low, high, UNWRITTEN)

    def end_frames(self, hart: CheckedHart, low: int, high: int) -> None:
        """What is below `high` is no frame's, and pointers into it lead nowhere."""
        if hart.is_own and high - low < LARGEST_FRAME:
            self.memory.fill(low, high, ENDED)
        places = hart.places
        while places and places[-1].begin < high:
            places.pop().end_life(Event(hart.number, 0, ()))

    def keep(self, hart: CheckedHart, thing: Thing) -> None:
        """A pointer to a place of a frame was made: it leads nowhere once the frame has ended."""
        at = len(hart.places)
        while at and hart.places[at - 1].begin < thing.begin:
            at -= 1
        hart.places.insert(at, thing)

    # How deep they are.

    def set_limit(self, hart: CheckedHart) -> None:
        """The address down to which a stack may grow for certain: above what lies below it, or its
        own bytes."""
        below = [each.end if each.end <= hart.top else each.address
                 for each in self.program.sized if each.address < hart.top]
        parts = [part.address + part.size
                 for part in self.program.elf.parts if part.address + part.size <= hart.top]
        hart.limit = max(below + parts + [hart.top - OWN_BYTES, 0])

    def deepen(self, hart: CheckedHart, new: int, row: bytes, one: Operation) -> None:
        if hart.is_away or new < hart.top - LARGEST or new > self.memory.size:
            return
        hart.lowest = new
        hart.lowest_at = hart.event(row, one.pc)
        met = (self.met(hart, new) if new < hart.limit and not hart.has_met and self.heap.is_whole
               else "")
        if met:
            hart.has_met = True
            hart.is_own = False
            self.memory.fill(new, hart.top, GOOD)       # from here on its bytes are others' as well
            self.findings.add((DEPTH, hart.number), Finding(
                DEPTH, f"the stack of hart {hart.number} is {hart.top - new:,} bytes deep, "
                f"and has run into {met}", hart.lowest_at))

    def met(self, hart: CheckedHart, low: int) -> str:
        """What is at a place that a stack has come to, or nothing."""
        there = self.program.object_at(low)
        if there is not None and not there.address <= hart.top - 1 < there.end:
            return there.name
        part = self.program.elf.part_of(low)
        if part is not None and not part.flags & WRITABLE:
            return "the program's code"
        at = bisect.bisect_right(self.heap.begins, low) - 1
        if at >= 0 and low < self.heap.live[self.heap.begins[at]].end:
            return f"a block of {self.heap.live[self.heap.begins[at]].size} bytes"
        other = next((other for other in self.harts
                      if other is not hart and other.lowest <= low < other.top), None)
        return f"the stack of hart {other.number}" if other else ""

    # Returns that fit no call.

    def strayed(self, hart: CheckedHart, to: int, row: bytes, one: Operation) -> None:
        """A return leads to a place behind no call. It is wrong if the address was saved otherwise
        in the frame that has it."""
        loaded = hart.rows[RA] if one.rs1 == RA else None
        if isinstance(loaded, bytes) and b" | load " in loaded and hart.is_own:
            at = int(loaded[-17:-9], 16)
            register, by, saved = self.memory.saved.get(at, (0, 0, b""))
            here = self.program.function_at(one.pc)
            if register == RA and here.first <= by < here.end and saved[-8:] != loaded[-8:]:
                self.findings.add((RETURN, here.first), Finding(
                    RETURN, f"{here.name} returns to {to:08x}: "
                    f"its return address was {saved[-8:].decode()} when it was saved",
                    hart.event(row, one.pc)))
        hart.returns.clear()


def is_frame_move(one: Operation) -> bool:
    """Whether a constant is added to sp, and not to begin a stack."""
    return one.rs1 == SP and one.name == "addi" and not (one.base and one.base.to == ABSOLUTE)
