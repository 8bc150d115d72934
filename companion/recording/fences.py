"""Which plain loads and stores stand beside a `fence`, as GCC writes atomic ones with acquire and
release.

GCC for RV32IMA writes an acquire load as `lw; fence` and a release store as `fence; sw`. The
recorder takes neither for synchronisation, so both appear in the list of races. Telling them apart
is a guess from the code."""

from __future__ import annotations

from typing import Callable, Optional

from .instruction import OP_AMO, OP_AUIPC, OP_IMMEDIATE, OP_LOAD, OP_LUI, OP_REGISTER, OP_STORE

WordAt = Callable[[int], Optional[int]]         # gives the instruction at an address

FENCE = 0x0f            # the opcode
ARITHMETIC = OP_IMMEDIATE, OP_REGISTER, OP_LUI, OP_AUIPC
NEAR = 3                # the compiler may put some arithmetic between the access and its fence
# Bits of a fence's two sets
READ = 2
WRITE = 1


def is_fenced(word_at: WordAt, pc: int) -> bool:
    """Whether the access at pc has acquire or release meaning."""
    word = word_at(pc)
    if word is None:
        return False
    kind = word & 127
    if kind == OP_AMO:
        return True
    if kind == OP_LOAD:
        return bool(near_fence(word_at, pc, 4) >> 24 & READ)
    if kind == OP_STORE:
        return bool(near_fence(word_at, pc, -4) >> 20 & WRITE)
    return False


def near_fence(word_at: WordAt, pc: int, step: int) -> int:
    """The word of the fence that is next to pc in one direction, or 0."""
    for distance in range(1, NEAR + 1):
        word = word_at(pc + step * distance)
        if word is None:
            return 0
        if word & 0x707f == FENCE:
            return word
        if word & 127 not in ARITHMETIC:
            return 0
    return 0
