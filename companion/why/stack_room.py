"""How far each hart's stack went, and whether that was farther than its own memory."""
from __future__ import annotations

import struct
from itertools import compress
from typing import Iterator, NamedTuple, Optional

from ..call.text import counted, number
from ..recording.elf import Elf
from ..recording.instruction import ALU, OP_AUIPC, OP_LUI, SP
from ..recording.trace import Trace
from .facts import Facts

# The machine gives each hart so many bytes at the end of memory, hart 0 the last
HART_BYTES = 65536
NEAR_BYTES = 1024           # so near to the end of a stack it is told how near
ALLOCATED = 2               # the flag of a section that has memory
MOST_SECTIONS = 200         # are looked at, which bounds what a forged file can ask for
# So often a hart's stack is another one: who switches more often has many threads in it
MOST_ROOMS = 1000


class Room(NamedTuple):
    """The memory of a stack, up to `high`, and what it is called, if it isn't at the end of
    memory."""
    name: str
    low: int
    high: int


class Deepest(NamedTuple):
    """The row after which a stack's pointer was lowest in a room, and the pointer."""
    row: int
    pointer: int
    room: Room


def sections(elf: Elf) -> Iterator[Room]:
    """The sections that have memory. What makes no sense is left out."""
    try:
        first, = struct.unpack_from("<I", elf.data, 32)
        count, names = struct.unpack_from("<HH", elf.data, 48)
        heads = [struct.unpack_from("<6I", elf.data, first + 40 * i)
                 for i in range(min(count, MOST_SECTIONS) if first else 0)]
    except struct.error:
        return
    for name, _, flags, address, _, size in heads:
        if flags & ALLOCATED and size and names < len(heads):
            at = heads[names][4] + name
            yield Room(elf.data[at:at + 64].partition(b"\0")[0].decode("latin-1"),
                       address, address + size)


class Rooms:
    """The places of stacks: the end of memory, an object or a section; and the rows by which harts
    set their pointers."""

    def __init__(self, facts: Facts) -> None:
        self.elf = facts.elf
        self.named = facts.named
        self.memory = facts.log.memory
        self.sections = list(sections(facts.elf))
        self.writes = list(writes(facts.trace))

    def of(self, hart: int, pointer: int) -> Optional[Room]:
        """The stack whose end a pointer is, or that it is in. None if nothing tells its bounds."""
        top = self.memory - hart * HART_BYTES
        if top - HART_BYTES <= pointer <= top and not self.elf.part_of(pointer - 4):
            return Room("", top - HART_BYTES, top)
        held = self.named.object_at(pointer - 4)
        if held:
            return Room(held.name, held.address, held.address + held.size)
        for section in self.sections:
            if section.low < pointer <= section.high:
                below = [item.address + item.size for item in self.named.objects
                         if section.low <= item.address < pointer]
                return section._replace(low=max(below, default=section.low))
        return None

    def begin(self, hart: int, row: int, pointer: int) -> Optional[Deepest]:
        room = self.of(hart, pointer)
        return Deepest(row, pointer, room) if room else None


def deepest(facts: Facts, rooms: Rooms, hart: int) -> Optional[Deepest]:
    """Of a hart the first stack that it left, and its lowest pointer there; else the last one that
    it was in."""
    rows = facts.rows
    left = MOST_ROOMS
    interval = rows.log.first_intervals().get(hart)
    # If rows were passed, what its pointer was at the first one isn't known before it is set.
    found = rooms.begin(hart, 0, interval.registers[SP]) if interval and not rows.passed else None
    is_built = False
    begins = rows.passed > 0
    for n in rooms.writes:
        if rows.hart[n] != hart:
            continue
        ins = rows.code_of(n)
        pointer = rows.values[n]
        stays = ins.kind == ALU and SP in (ins.rs1, ins.rs2) and not is_built and not begins
        # The first of two instructions that set it
        is_built = ins.word & 127 in (OP_LUI, OP_AUIPC)
        begins = False
        if found and (stays or found.room.low <= pointer <= found.room.high):
            if pointer < found.pointer:
                found = found._replace(row=n, pointer=pointer)
        elif not stays and not is_built and left and not (found and found.pointer < found.room.low):
            found = rooms.begin(hart, n, pointer)
            left -= 1
    return found


def writes(trace: Trace) -> Iterator[int]:
    """The rows by which harts set their stacks' pointers."""
    rows = trace.rows
    sets = [ins.rd == SP for ins in rows.codes]
    return compress(range(1, len(rows.code)), map(sets.__getitem__, rows.code[1:]))


def stack_lines(facts: Facts) -> list[str]:
    """Of each stack that was left, or whose end is near at the fault: how far."""
    said = []
    rooms = Rooms(facts)
    for hart in sorted(facts.rows.last):
        found = deepest(facts, rooms, hart)
        if found and found.pointer < found.room.low:
            said += left_words(facts, hart, found)
        elif found and facts.faulted and hart == facts.rows.hart[facts.start]:
            now = facts.rows.final[hart][SP]
            if found.room.low <= now < found.room.low + NEAR_BYTES:
                said.append(f"Its stack has {counted(now - found.room.low, 'byte')} left "
                            f"of {described(found.room)}.")
    return said


def left_words(facts: Facts, hart: int, found: Deepest) -> list[str]:
    name = facts.members.name(found.pointer)
    pointer = f"{found.pointer:08x}" + (f" ({name})" if name else "")
    below = counted(found.room.low - found.pointer, "byte")
    count = number(facts.rows.count_of(found.row))
    return [f"The stack of hart {hart} left {described(found.room)}: its pointer was {pointer}, "
            f"{below} below them, at count {count} in {facts.where(found.row)}."]


def described(room: Room) -> str:
    return (f"its {number(room.high - room.low)} bytes at {room.low:08x}"
            + (f" ({room.name})" if room.name else ""))
