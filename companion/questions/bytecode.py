"""Evaluates gdb's agent bytecode, to which gdb compiles a C expression: a stack of 64-bit words,
registers and memory."""
from __future__ import annotations

from typing import Callable, Dict, List, Sequence, Tuple

WIDTH = 64              # bits of a number on gdb's stack
MASK = (1 << 64) - 1
ADDRESS = 0xffffffff    # the bits of a guest's address
Operation = Tuple[int, str, int]            # its place in the code, its name, and its operand or 0
Code = Sequence[Operation]


class Unknown(Exception):
    """Why an expression has no value that can be told."""


def signed_bits(value: int, width: int = WIDTH) -> int:
    value &= (1 << width) - 1
    return value - (1 << width) if value >> width - 1 else value


def quotient(one: int, other: int) -> int:
    """As C divides: towards zero."""
    if not other:
        raise Unknown("division by 0")
    found = abs(one) // abs(other)
    return found if (one < 0) == (other < 0) else -found


def remainder(one: int, other: int) -> int:
    return one - quotient(one, other) * other


BINARY: Dict[str, Callable[[int, int], int]] = {
    "add": lambda one, other: one + other,
    "sub": lambda one, other: one - other,
    "mul": lambda one, other: one * other,
    "lsh": lambda one, other: one << min(other, WIDTH),
    "rsh_signed": lambda one, other: signed_bits(one) >> min(other, WIDTH),
    "rsh_unsigned": lambda one, other: one >> min(other, WIDTH),
    "div_signed": lambda one, other: quotient(signed_bits(one), signed_bits(other)),
    "div_unsigned": quotient,
    "rem_signed": lambda one, other: remainder(signed_bits(one), signed_bits(other)),
    "rem_unsigned": remainder,
    "bit_and": lambda one, other: one & other,
    "bit_or": lambda one, other: one | other,
    "bit_xor": lambda one, other: one ^ other,
    "equal": lambda one, other: one == other,
    "less_signed": lambda one, other: signed_bits(one) < signed_bits(other),
    "less_unsigned": lambda one, other: one < other,
}
UNARY: Dict[str, Callable[[int, int], int]] = {
    "ext": signed_bits,
    "zero_ext": lambda value, width: value & (1 << width) - 1,
    "log_not": lambda value, _: not value,
    "bit_not": lambda value, _: ~value,
}
CONSTANTS = {f"const{width}" for width in (8, 16, 32, 64)}
READS = {f"ref{8 * size}": size for size in (1, 2, 4, 8)}


def evaluate(code: Code, register: Callable[[int], int], read: Callable[[int, int], int]) -> int:
    """What some code gives. `register` tells one by its number, `read` so many bytes of memory.
    Jumps lead forward alone, so that it ends: gdb makes no others."""
    stack: List[int] = []
    at = 0
    for place, name, operand in code:
        if place < at:
            continue
        if name == "reg":
            stack.append(register(operand))
        elif name in CONSTANTS:
            stack.append(operand & MASK)
        elif name in UNARY:
            stack.append(UNARY[name](stack.pop(), operand) & MASK)
        elif name in READS:
            stack.append(read(stack.pop() & ADDRESS, READS[name]))
        elif name in BINARY:
            other = stack.pop()
            stack.append(BINARY[name](stack.pop(), other) & MASK)
        elif name == "end":
            return stack.pop()
        else:
            at = moved_on(stack, name, operand)
    raise Unknown("gdb's code has no end")


def moved_on(stack: List[int], name: str, operand: int) -> int:
    """Does what only moves: the place that is gone to, or 0."""
    if name == "goto" or name == "if_goto" and stack.pop():
        return operand
    if name == "dup":
        stack.append(stack[-1])
    elif name == "swap":
        stack[-1], stack[-2] = stack[-2], stack[-1]
    elif name == "pop":
        stack.pop()
    elif name != "if_goto":
        raise Unknown(f"gdb's operation {name} isn't known here")
    return 0
