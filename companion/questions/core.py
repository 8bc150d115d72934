"""An ELF core file: the registers of each hart at the end or before a row, and what is known of
memory then. Gdb takes each hart for a thread."""
from __future__ import annotations

import re
import signal
import struct
from typing import Iterator, NamedTuple, Optional

from ..call.errors import NO_INTERVAL, CompanionError
from ..call.kinds import CORE_HEAD, CORE_HEAD_BYTES, CORE_MARK
from ..call.text import counted, number
from ..recording.chunks import rows_between
from ..recording.cut import cut, last_count
from ..recording.elf import WRITABLE
from ..recording.followed import FollowedMemory
from ..recording.instruction import BRANCH, JUMP, OP_JALR, Instruction
from ..recording.log import At, is_fault, no_row
from ..recording.memory import Memory
from ..recording.passed import write_registers
from .reading import Asked

LOWEST = 4096               # no address below is mapped
MOST_PIECES = 60000         # a file's head counts its parts in 16 bits
MASK = 0xffffffff
SIGN = 1 << 31
# Of the ELF format: kinds of parts and of a note
NOTES = 4
LOADED = 1
STATUS = 1
READ_AND_WRITE = 6
PART_HEAD = 32
SIGNALS: dict[str, int] = {"Illegal": signal.SIGILL, "Breakpoint": signal.SIGTRAP,
                           "Misaligned": signal.SIGBUS, "Outside": signal.SIGSEGV,
                           "ReadOnly": signal.SIGSEGV}


class CorePiece(NamedTuple):
    """Known bytes of memory."""
    address: int
    body: bytes


class CorePlace:
    """The harts' counts and the memory behind the rows that were taken, in the order of `joint`.

    counts   {hart: its count}, of those that have a row, or all of whose rows the log has
    is_found whether the asked row came"""

    def __init__(self, asked: Asked, row: Optional[At]) -> None:
        self.asked = asked
        self.row = row
        self.is_found = False
        self.followed = FollowedMemory(asked.log, asked.elf, asked.is_whole)
        self.counts: dict[int, int] = {
            hart: first.start for hart, first in asked.log.first_intervals().items()
            if not first.start}

    def read(self) -> None:
        for text in self.asked.chunks():
            at = text.find(b"\n%d %d " % (self.row.hart, self.row.count)) if self.row else -1
            self.is_found = at >= 0
            self.take(text[:at] if self.is_found else text)
            if self.is_found:
                break

    def take(self, text: bytes) -> None:
        """Takes rows up to the place."""
        self.followed.take(text)
        self.followed.go_to(len(text))
        for hart in range(self.asked.log.harts):
            last = last_count(text, hart)
            if last >= 0:
                self.counts[hart] = last + 1


class CoreState(NamedTuple):
    """A hart's: `registers` are its pc and x1 to x31. `reason` is that of its end, if it stands
    there."""
    hart: int
    registers: list[int]
    reason: str

    @property
    def signal(self) -> int:
        """What Linux sends for such a fault."""
        return next((number for end, number in SIGNALS.items() if self.reason.endswith(end)), 0)

    def note(self, sent: int) -> bytes:
        """The state as Linux notes it of a thread of 32 bits, whose number is the hart's and 1, as
        in `gdb`. Each thread has the signal that ended them all."""
        body = struct.pack("<I8xH10xI44x32I4x", sent, sent, self.hart + 1, *self.registers)
        return struct.pack("<III", 5, len(body), STATUS) + b"CORE\0\0\0\0" + body


def state_of(asked: Asked, hart: int, count: int) -> CoreState:
    """A hart's state at a count: the registers at its interval's beginning, and what the rows from
    there on wrote."""
    log = asked.log
    interval = next(one for one in reversed(log.by_hart()[hart]) if one.start <= count)
    registers = list(interval.registers)
    last = b""
    behind = b"\n%d %d " % (hart, count)
    for text in rows_between(log, asked.elf.name, hart, interval.start, count + 1):
        rows, at_place, rest = text.partition(behind)
        if rows:
            write_registers(registers, last)
            end = rows.rfind(b"\n")
            write_registers(registers, rows[:end])
            last = rows[end:]
        if at_place:
            pc = int(rest[:8], 16)
            break
    else:
        pc = next_pc(Instruction(0, cut(last).key), registers) if last else registers[0]
    write_registers(registers, last)
    stop = log.ends.get(hart)
    return CoreState(hart, [pc, *registers[1:]],
                     stop.reason if stop and stop.count == count else "")


def next_pc(code: Instruction, registers: list[int]) -> int:
    """The address behind an instruction, by the registers before it."""
    one, other = (registers[at] if at else 0 for at in (code.rs1, code.rs2))
    if code.kind == JUMP and code.word & 127 == OP_JALR:
        return (one + (code.word >> 20) - (code.word >> 31 << 12)) & MASK - 1
    if code.kind == JUMP or code.kind == BRANCH and is_taken(code.word >> 12 & 7, one, other):
        return code.leads & MASK
    return code.pc + 4 & MASK


def is_taken(comparison: int, one: int, other: int) -> bool:
    """By the three bits of a branch: equal, less, less without a sign, each or its opposite."""
    if comparison < 2:
        is_so = one == other
    elif comparison < 6:
        is_so = one ^ SIGN < other ^ SIGN
    else:
        is_so = one < other
    return is_so != bool(comparison & 1)


def core_pieces(memory: Memory, size: int) -> Iterator[CorePiece]:
    """What is known, in pieces."""
    body = bytearray(size)
    known = bytearray(bytes([memory.is_whole])) * (size >> 2)
    for part in memory.elf.parts:
        if memory.is_whole or not part.flags & WRITABLE:
            body[part.address:part.address + len(part.body)] = part.body
            first = part.address + 3 >> 2
            end = part.address + part.size >> 2
            known[first:end] = b"\1" * (end - first)
    for word, value in memory.known.items():
        struct.pack_into("<I", body, word, value)
        known[word >> 2] = 1
    for word in memory.filled:
        known[word >> 2] = 0
    known[:LOWEST >> 2] = bytes(LOWEST >> 2)
    for found in re.finditer(rb"\x01+", known):
        yield CorePiece(4 * found.start(), bytes(body[4 * found.start():4 * found.end()]))


def core_file(states: list[CoreState], pieces: list[CorePiece]) -> bytes:
    """The file. The first state is that of the hart that gdb shows at first, and whose fault it
    tells."""
    notes = CORE_MARK + b"".join(state.note(states[0].signal) for state in states)
    first = CORE_HEAD_BYTES + len(notes)
    heads = [struct.pack("<8I", NOTES, CORE_HEAD_BYTES, 0, 0, len(notes), 0, 0, 4)]
    at = first + PART_HEAD * (1 + len(pieces))
    for address, body in pieces:
        heads.append(struct.pack("<8I", LOADED, at, address, 0, len(body), len(body),
                                 READ_AND_WRITE, 1))
        at += len(body)
    head = CORE_HEAD + struct.pack("<IIIIHHHHHH", 0, first, 0, 0, CORE_HEAD_BYTES,
                                   PART_HEAD, len(heads), 0, 0, 0)
    return b"".join([head, notes, *heads, *(piece.body for piece in pieces)])


class SavedCore(NamedTuple):
    """A file, what it has, and what it doesn't have, as lines."""
    data: bytes
    what: str
    missing: list[str]


def core(asked: Asked, row: Optional[At]) -> SavedCore:
    """The core file of the end, or of the place before a row."""
    log = asked.log
    place = CorePlace(asked, row)
    place.read()
    if row and not place.is_found:
        if log.unread:
            raise CompanionError(f"{row.hart}:{row.count} isn't among the rows that were read; "
                                 "--rows N reads more", NO_INTERVAL)
        raise no_row(log.name, row)
    ends = {hart: end.count for hart, end in log.ends.items()}
    states = [state_of(asked, hart, min(count, ends.get(hart, count)))
              for hart, count in place.counts.items()]
    states.sort(key=lambda state: (not row or state.hart != row.hart,
                                   not is_fault(state.reason), state.hart))
    pieces = list(core_pieces(place.followed.memory, log.memory))
    kept = pieces[:MOST_PIECES]
    size = sum(len(piece.body) for piece in kept)
    return SavedCore(core_file(states, kept),
                     f"{counted(len(states), 'hart')} and {counted(size, 'byte')} of memory",
                     what_is_missing(asked, states, size))


def what_is_missing(asked: Asked, states: list[CoreState], size: int) -> list[str]:
    said = []
    most = asked.log.memory - LOWEST
    lost = sorted(set(range(asked.log.harts)) - {state.hart for state in states})
    if lost:
        said.append(f"{counted(len(lost), 'hart')} left out, whose registers aren't known there: "
                    f"{', '.join(map(str, lost))}")
    if size < most:
        said.append(f"Of {number(most)} bytes of memory {number(size)} are known: for others gdb "
                    "shows an error, or what ELF has there, which need not be what the run had.")
    return said
