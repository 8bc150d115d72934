"""Writes the looping program that a number generates, as `demo` runs it, to standard output.

guest.py NUMBER: an executable for RV32IMA (ELF, "ELF Header" and "Program Header") with a segment
of 260 code words at 0x10000 and a page of zeroes at 0x20000.
"""

import struct
import sys

T1 = 6
T2 = 7
S0 = 8
S1 = 9
A0 = 10
LOAD = 0x03
STORE = 0x23
AMO = 0x2F
OP = 0x33
OP_IMM = 0x13
LUI = 0x37
JAL = 0x6F


def immediate(code, funct3, rd, rs1, imm):
    return imm << 20 | rs1 << 15 | funct3 << 12 | rd << 7 | code


def registers(funct7, funct3, rd, rs1, rs2, code=OP):
    return funct7 << 25 | rs2 << 20 | rs1 << 15 | funct3 << 12 | rd << 7 | code


def store(funct3, rs2, rs1, imm):
    return (imm >> 5) << 25 | rs2 << 20 | rs1 << 15 | funct3 << 12 | (imm & 31) << 7 | STORE


def slot(drawn):
    k = drawn // 8 % 64
    return [
        immediate(OP_IMM, 0, T1, T1, k),
        registers(0, 4, T2, T2, T1),
        immediate(LOAD, 2, T1, S0, 4 * k),
        store(2, T1, S0, 4 * k),
        store(0, T2, S0, 4 * k),
        registers(0, 2, T1, S0, T2, AMO),
        registers(1, 0, T2, T1, T2),
        immediate(LOAD, 2, T2, S1, 256 + 4 * k),
    ][drawn % 8]


def code(state):
    words = [0x20 << 12 | S0 << 7 | LUI, immediate(OP_IMM, 1, S1, A0, 8),
             registers(0, 0, S1, S1, S0)]
    for _ in range(256):
        state = (state * 6364136223846793005 + 1442695040888963407) % 2**64
        words.append(slot(state >> 33))
    return words + [0xC01FF06F]  # jal zero, back by 1,024 bytes


words = code(int(sys.argv[1]))
ident = b"\x7fELF\x01\x01\x01" + bytes(9)
header = struct.pack("<HHIIIIIHHHHHH", 2, 243, 1, 0x10000, 52, 0, 0, 52, 32, 2, 0, 0, 0)
text = struct.pack("<8I", 1, 116, 0x10000, 0x10000, 1040, 1040, 5, 4)
data = struct.pack("<8I", 1, 1156, 0x20000, 0x20000, 0, 4096, 6, 4)
sys.stdout.buffer.write(ident + header + text + data + struct.pack("<260I", *words))
