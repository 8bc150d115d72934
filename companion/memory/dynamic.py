"""Memory that a function asks for on its stack while it runs: by alloca, or for an array of no
constant length.

GCC adds 15 to the size, rounds it down to 16 and takes it from sp. For alloca, and for an array
that has to be aligned, it adds 8 less than the alignment before, and rounds the pointer up. So the
size is known to the byte."""
from __future__ import annotations

from typing import Callable, Optional, Tuple

from ..recording.cut import count_of
from ..recording.instruction import ALU, BRANCH, JUMP
from .facts import RegisterFacts
from .operation import Operation
from .state import AskedMemory, CheckedHart, value_of

ROUNDED = 16                # bytes: sp is a multiple of it
ADDED = ROUNDED - 1         # to a size
SPARED = 8                  # of an alignment: sp is a multiple of it for certain
REACH = 16                  # instructions between the sum and the use of its result


def writer(facts: RegisterFacts, before: int, register: int) -> Optional[Operation]:
    """The instruction that made what a register has there, in straight code without a call."""
    for pc in range(before - 4, before - 4 * REACH - 4, -4):
        one = facts.operations.get(pc)
        if one is None or one.rd == register or one.kind in (BRANCH, JUMP):
            return one if one is not None and one.kind == ALU and one.rd == register else None
    return None


def aligned_from(facts: RegisterFacts, one: Optional[Operation],
                 bits: int) -> Optional[Tuple[int, int]]:
    """The place and the register whose value an instruction has without its lowest bits; None if
    it's another one."""
    if one is not None and one.name == "andi" and one.imm == -1 << bits:
        return one.pc, one.rs1
    if one is not None and one.name == "slli" and one.imm == bits:
        shifted = writer(facts, one.pc, one.rs1)
        if shifted is not None and shifted.name == "srli" and shifted.imm == bits:
            return shifted.pc, shifted.rs1
    return None


def is_aligned_down(facts: RegisterFacts, one: Operation) -> bool:
    """Whether two shifts clear the lowest bits of a pointer: by the first one it is none, but
    nothing is done with that."""
    if one.name == "slli":
        return aligned_from(facts, one, one.imm) is not None
    following = facts.operations.get(one.pc + 4)
    return bool(one.name == "srli" and following and following.name == "slli"
                and (following.rs1, following.imm) == (one.rd, one.imm))


def sum_of_size(facts: RegisterFacts, one: Operation) -> Optional[Operation]:
    """The sum of the size and what is added to it, for an instruction that takes the result from
    sp."""
    rounded = aligned_from(facts, writer(facts, one.pc, one.rs2), 4)
    found = writer(facts, *rounded) if rounded else None
    return found if found is not None and is_sum(found) else None


def is_sum(one: Operation) -> bool:
    alignment = one.imm - ADDED + SPARED
    return one.name == "addi" and (one.imm == ADDED
                                   or alignment >= ROUNDED and alignment & alignment - 1 == 0)


def becomes_size(facts: RegisterFacts, one: Operation) -> bool:
    """Whether a sum is the one of a size."""
    if not is_sum(one):
        return False
    following = (facts.operations.get(pc) for pc in range(one.pc + 4, one.pc + 3 * 4 * REACH, 4))
    takes = next((each for each in following if each and each.takes_memory), None)
    return takes is not None and sum_of_size(facts, takes) is one


def size_asked(facts: RegisterFacts,
               one: Operation) -> Optional[Callable[[CheckedHart, bytes], AskedMemory]]:
    """What gives the memory that a row asks for; None if an instruction asks for none. Of a size
    that nothing tells to the byte all that sp was moved by counts."""
    if not one.takes_memory:
        return None
    added = sum_of_size(facts, one)

    def asked(hart: CheckedHart, row: bytes) -> AskedMemory:
        new = value_of(row)
        whole = hart.sp - new
        if (added is not None and hart.asking
                and count_of(row) - count_of(hart.asking) == (one.pc - added.pc) // 4):
            exact = value_of(hart.asking) - ADDED
            whole = exact if whole - ROUNDED < exact <= whole else whole
        return AskedMemory(new, whole)
    return asked


def pointer_to(facts: RegisterFacts, one: Operation) -> Tuple[int, int]:
    """How far behind sp the memory begins to which an instruction makes a pointer, before that is
    rounded up; and to which multiple it is."""
    added = one.imm
    register = one.rd
    for pc in range(one.pc + 4, one.pc + 4 * REACH, 4):
        following = facts.operations.get(pc)
        if following is None or following.kind in (BRANCH, JUMP):
            break
        bits = following.imm if following.name == "srli" else 0
        if following.name == "andi":
            bits = (-following.imm).bit_length() - 1
        if following.rs1 == register and following.name == "addi" and following.rd == register:
            added += following.imm
        elif following.rs1 == register and bits > 1 and (following.name == "srli"
                                                         or following.imm == -1 << bits):
            return added - (1 << bits) + 1, 1 << bits
        elif following.rd == register:
            break
    return one.imm, 1
