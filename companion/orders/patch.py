"""A copy of a program in which one execution of one instruction is done otherwise, and all else is
as it was.

The instruction becomes a jump to new code. That counts its executions in a register that the
program never names, and does the chosen one otherwise. It accesses memory as often as the
instruction, so each turn is what it was."""
from __future__ import annotations

import struct
from dataclasses import dataclass
from typing import List, Optional, Sequence, Tuple

from ..call.errors import REFUSED, CompanionError
from ..recording.elf import EXECUTABLE, LOADED, Elf, last_before
from ..recording.instruction import BRANCH, OP_LOAD, Instruction

# Of the new code: no program is there
PLACE = 0x2000
PAGE = 4096
FAR = 1 << 20               # as far as a jump leads
MOST_ADDED = 2047           # by one instruction
MOST_STEPS = 16             # by which a count is taken off, without a register to compare with
OP_ADD = 0x13
OP_UPPER = 0x37
OP_JUMP = 0x6f
OP_BRANCH = 0x63
NOT_EQUAL = 1 << 12
FLIP = 1 << 12
NO_OFFSET = 0x01fff07f  # a branch without its offset
SKIP_ONE = 4 << 8  # one over the next instruction
WORD = 2


@dataclass(frozen=True)
class Execution:
    """Which execution of an instruction is done otherwise.

    number  of its hart's, from 1; tests: registers with the values that no other hart has at its
            execution of that number
    value   what is put into the instruction's register, or None: its store isn't done, its branch
            goes the other way"""
    code: Instruction
    number: int
    tests: Sequence[Tuple[int, int]]
    value: Optional[int] = None


def is_of_function(elf: Elf, address: int) -> bool:
    found = last_before(elf.functions, address)
    return found is None or not found.size or address < found.address + found.size


def unnamed_registers(elf: Elf) -> List[int]:
    """The registers that no code of a program names."""
    named = {0, 1, 2}
    for part in elf.parts:
        for at in range(0, len(part.body) - 3, 4) if part.flags & EXECUTABLE else ():
            if is_of_function(elf, part.address + at):
                word, = struct.unpack_from("<I", part.body, at)
                code = Instruction(0, b"%08x %08x +" % (part.address + at, word))
                named.update((code.rd, code.rs1, code.rs2))
    return sorted(set(range(32)) - named)


def added(register: int, value: int, base: int) -> int:
    return (value & 0xfff) << 20 | base << 15 | register << 7 | OP_ADD


def constant(register: int, value: int) -> List[int]:
    low = (value & 0xfff) - ((value & 0x800) << 1)
    return [(value - low) & 0xfffff000 | register << 7 | OP_UPPER, added(register, low, register)]


def jump(at: int, to: int) -> int:
    way = to - at
    if not -FAR <= way < FAR:
        raise CompanionError(f"the code at {at:08x} is too far from the place of new code, "
                             f"{PLACE:08x}", REFUSED)
    return ((way >> 20 & 1) << 31 | (way >> 1 & 1023) << 21 | (way >> 11 & 1) << 20
            | (way >> 12 & 255) << 12 | OP_JUMP)


def branch_if_other(one: int, other: int, way: int) -> int:
    return ((way >> 12 & 1) << 31 | (way >> 5 & 63) << 25 | other << 20 | one << 15 | NOT_EQUAL
            | (way >> 1 & 15) << 8 | (way >> 11 & 1) << 7 | OP_BRANCH)


class NewCode:
    """words   the code, from PLACE on"""

    def __init__(self, done: Execution, registers: Sequence[int]) -> None:
        self.done = done
        self.words: List[int] = []
        self.counter = registers[0]
        self.scratch = registers[1] if len(registers) > 1 else 0
        # What was taken off the count, and is to be added again
        self.steps: List[int] = []
        # Branches to the plain execution: place and registers
        self.others: List[Tuple[int, int, int]] = []
        self.build()

    def build(self) -> None:
        self.words.append(added(self.counter, 1, self.counter))
        self.compare_count()
        for register, value in self.done.tests:
            self.compare(register, value)
        self.put(self.changed())
        plain = len(self.words)
        self.put([self.done.code.word])
        for at, one, other in self.others:
            self.words[at] = branch_if_other(one, other, 4 * (plain - at))

    def compare_count(self) -> None:
        """With one register alone the count is taken off it and added again."""
        if self.scratch:
            self.compare(self.counter, self.done.number)
            return
        left = self.done.number
        while left:
            self.steps.append(min(left, MOST_ADDED))
            left -= self.steps[-1]
        if len(self.steps) > MOST_STEPS or self.done.tests:
            raise CompanionError("the program's code names all registers but one, "
                                 "which isn't enough to tell this execution", REFUSED)
        self.words += [added(self.counter, -step, self.counter) for step in self.steps]
        self.branch(self.counter, 0)

    def compare(self, register: int, value: int) -> None:
        self.words += constant(self.scratch, value)
        self.branch(register, self.scratch)

    def branch(self, one: int, other: int) -> None:
        self.others.append((len(self.words), one, other))
        self.words.append(0)

    def changed(self) -> List[int]:
        code = self.done.code
        if code.kind == BRANCH:
            return [code.word ^ FLIP]
        if self.done.value is not None:
            return [code.word, *constant(code.rd, self.done.value)]
        offset = (code.word >> 25 << 5 | code.word >> 7 & 31) & 0xfff
        # lw, lbu, lhu: into no register
        kind = WORD if code.width == 4 else 4 + (code.width >> 1)
        return [offset << 20 | code.rs1 << 15 | kind << 12 | OP_LOAD]

    def put(self, words: Sequence[int]) -> None:
        """An execution, changed or plain, and the way back."""
        code = self.done.code
        self.words += [added(self.counter, step, self.counter) for step in self.steps]
        if code.kind == BRANCH:
            self.words.append(words[0] & NO_OFFSET | SKIP_ONE)
            self.back(code.pc + 4)
            self.back(code.leads)
        else:
            self.words += words
            self.back(code.pc + 4)

    def back(self, to: int) -> None:
        self.words.append(jump(PLACE + 4 * len(self.words), to))


def patched(elf: Elf, code: Instruction, words: Sequence[int]) -> bytes:
    """The file of a program with the new code, and with a jump to it in place of an instruction."""
    data = bytearray(elf.data)
    first, = struct.unpack_from("<I", data, 28)
    count, = struct.unpack_from("<H", data, 44)
    size = 4 * len(words)
    if any(part.address < PLACE + size and PLACE < part.address + part.size for part in elf.parts):
        raise CompanionError(f"the program has something at {PLACE:08x}, "
                             "where the new code has to be", REFUSED)
    for at in range(first, first + 32 * count, 32):
        kind, offset, address, _, in_file, *_ = struct.unpack_from("<8I", data, at)
        if kind == LOADED and address <= code.pc < address + in_file:
            struct.pack_into("<I", data, offset + code.pc - address, jump(code.pc, PLACE))
    heads = data[first:first + 32 * count]
    data += bytes(-len(data) % PAGE)
    heads += struct.pack("<8I", LOADED, len(data), PLACE, PLACE, size, size, 5, PAGE)
    data += struct.pack(f"<{len(words)}I", *words)
    struct.pack_into("<I", data, 28, len(data))
    struct.pack_into("<H", data, 44, count + 1)
    return bytes(data + heads)
