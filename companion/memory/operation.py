"""An instruction as the checks need it: what it computes, its constant, and what is known of its
registers whatever the run."""
from __future__ import annotations

from typing import Optional

from ..recording.instruction import (
    ALU, AMO, BRANCH, OP_AUIPC, OP_IMMEDIATE, OP_LUI, SP, STORE, Instruction)
from .value import Value

GP = 3
T0 = 5
CALLER_SAVED = (1, 5, 6, 7, 10, 11, 12, 13, 14, 15, 16, 17, 28, 29, 30, 31)
# And the address to return to
CALLEE_SAVED = (1, 8, 9, 18, 19, 20, 21, 22, 23, 24, 25, 26, 27)
BRANCHES = "beq", "bne", "", "", "blt", "bge", "bltu", "bgeu"
IMMEDIATES = "addi", "slli", "slti", "sltiu", "xori", "srli", "ori", "andi"
REGISTERS = {0: ("add", "sll", "slt", "sltu", "xor", "srl", "or", "and"),  # by a word's upper bits
             1: ("mul", "mulh", "mulhsu", "mulhu", "div", "divu", "rem", "remu"),
             32: ("sub", "", "", "", "", "sra", "", "")}
ATOMICS = {0: "amoadd", 1: "amoswap", 2: "lr", 3: "sc"}
FULL = 0xffffffff


class Operation(Instruction):
    """imm       the constant; of `lui` and `auipc` what they give
    known     whether the three below are
    base, other, stack      what is known of rs1, rs2 and sp before it runs
    saves     whether it saves the register that the function's caller expects again"""
    __slots__ = "imm", "known", "base", "other", "stack", "saves"

    def __init__(self, pc: int, word: int) -> None:
        super().__init__(0, b"%08x %08x ?" % (pc, word))
        low = word & 127
        part = word >> 12 & 7
        self.known = self.saves = False
        self.base: Optional[Value] = None
        self.other: Optional[Value] = None
        self.stack: Optional[Value] = None
        self.imm = (word >> 20) - (word >> 31 << 12)
        if self.kind == STORE:
            self.imm = self.imm & ~31 | word >> 7 & 31
        elif low in (OP_LUI, OP_AUIPC):
            self.name = "lui"
            self.imm = (word & 0xfffff000) + (pc if low == OP_AUIPC else 0) & FULL
        elif low == OP_IMMEDIATE:
            self.name = IMMEDIATES[part]
            if part in (1, 5):
                self.imm &= 31
                self.name = "srai" if word >> 30 else self.name
        elif self.kind == ALU:
            self.name = REGISTERS.get(word >> 25, REGISTERS[0])[part]
        elif self.kind == BRANCH:
            self.name = BRANCHES[part]
        elif self.kind == AMO:
            self.name = ATOMICS.get(word >> 27, "amo")

    @property
    def takes_memory(self) -> bool:
        """Whether a size that isn't constant is taken from sp."""
        return self.name == "sub" and self.rd == self.rs1 == SP
