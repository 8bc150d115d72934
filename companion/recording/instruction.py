"""What an instruction reads and writes, from its word. One object for each address and word of a
log."""
from __future__ import annotations

ALU, LOAD, STORE, AMO, CALL, BRANCH, JUMP, NONE = range(8)
NAMES = ("zero ra sp gp tp t0 t1 t2 s0 s1 a0 a1 a2 a3 a4 a5 a6 a7 s2 s3 s4 s5 s6 s7 s8 s9 s10 s11 "
         "t3 t4 t5 t6").split()
RA = 1
SP = 2
A0 = 10
A1 = 11
A2 = 12
A7 = 17
LINKS = (1, 5)                              # the registers that calls put a return address into
# The opcode of each kind: the low seven bits of a word.
OP_LOAD = 0x03
OP_STORE = 0x23
OP_AMO = 0x2f
OP_BRANCH = 0x63
OP_SYSTEM = 0x73
OP_JAL = 0x6f
OP_JALR = 0x67
OP_IMMEDIATE = 0x13
OP_REGISTER = 0x33
OP_LUI = 0x37
OP_AUIPC = 0x17


class Instruction:
    """at      its number among those of the log
    row     its address, word and text as a row has them
    kind    one of the eight above; rd, rs1, rs2 are 0 if it has none
    width   the bytes that it accesses
    call, ret, move     a jump that links, a return, a plain copy of a register
    counts  whether it adds a constant to a register in place
    leads   the address to which a branch or a jump by an offset leads, else 0"""
    __slots__ = ("at", "row", "pc", "word", "text", "kind", "rd", "rs1", "rs2", "width", "call",
                 "ret", "move", "counts", "name", "leads")

    def __init__(self, at: int, key: bytes) -> None:
        """`key` is the row's address, word and text."""
        words = key.split(b" ", 2)
        self.at = at
        self.pc = int(words[0], 16)
        self.row = key.decode("ascii", "replace")
        self.text = words[2].decode("ascii", "replace") if len(words) > 2 else "-"
        self.name = self.text.split(" ")[0]
        self.kind = NONE
        self.rd = 0
        self.rs1 = 0
        self.rs2 = 0
        self.width = 4
        self.call = self.ret = self.move = self.counts = False
        self.word = self.leads = 0
        if words[1] != b"--------" and self.text not in ("illegal", "-"):
            self.word = int(words[1], 16)
            self.decode()

    def decode(self) -> None:
        word = self.word
        low = word & 127
        f3 = word >> 12 & 7
        rd = word >> 7 & 31
        rs1 = word >> 15 & 31
        rs2 = word >> 20 & 31
        if low == OP_LOAD:
            self.kind = LOAD
            self.rd = rd
            self.rs1 = rs1
            self.width = 1 << (f3 & 3)
        elif low == OP_STORE:
            self.kind = STORE
            self.rs1 = rs1
            self.rs2 = rs2
            self.width = 1 << f3
        elif low == OP_AMO:
            self.kind = AMO
            self.rd = rd
            self.rs1 = rs1
            self.rs2 = rs2
        elif low == OP_BRANCH:
            self.kind = BRANCH
            self.rs1 = rs1
            self.rs2 = rs2
            offset = (word >> 8 & 15) << 1 | (word >> 25 & 63) << 5 | (word >> 7 & 1) << 11
            self.leads = self.pc + offset - (word >> 31 << 12)
        elif low == OP_SYSTEM:
            self.kind = CALL
            self.rd = A0
            self.rs1 = A1
            self.rs2 = A2
        elif low in (OP_JAL, OP_JALR):
            self.decode_jump(low, rd, rs1)
        elif low in (OP_IMMEDIATE, OP_REGISTER, OP_LUI, OP_AUIPC):
            self.decode_sum(low, rd, rs1, rs2)

    def decode_sum(self, low: int, rd: int, rs1: int, rs2: int) -> None:
        is_addi = low == OP_IMMEDIATE and self.word >> 12 & 7 == 0
        self.kind = ALU
        self.rd = rd
        self.rs1 = rs1 if low in (OP_IMMEDIATE, OP_REGISTER) else 0
        self.rs2 = rs2 if low == OP_REGISTER else 0
        self.move = is_addi and self.word >> 20 == 0
        self.counts = is_addi and rd == rs1

    def decode_jump(self, low: int, rd: int, rs1: int) -> None:
        word = self.word
        self.kind = JUMP
        self.rd = rd
        self.rs1 = rs1 if low == OP_JALR else 0
        self.call = rd in LINKS
        if low == OP_JAL:
            offset = ((word >> 21 & 1023) << 1 | (word >> 20 & 1) << 11
                      | (word >> 12 & 255) << 12)
            self.leads = self.pc + offset - (word >> 31 << 20)
        self.ret = low == OP_JALR and rd == 0 and rs1 in LINKS
