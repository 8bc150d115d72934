"""Bits that nobody wrote: their ways, and what depends on them."""
from __future__ import annotations

import re
from typing import Callable, Optional, Tuple

from .findings import UNINITIALIZED, Finding
from .heap import Hook
from .judge import Judge
from .operation import FULL, Operation
from .state import COPIED, PARTLY, Act, CheckedHart, ValueOrigin, Undefined
from .value import FRAME
from ..recording.instruction import A0, A1, A2, A7, ALU, AMO, BRANCH, CALL, JUMP, LOAD, STORE
from ..recording.log import READ_CALL, WRITE_CALL

# Functions of a library whose branches look at bytes that don't count.
LOOKS = re.compile(r"_*(str|mem|stpcpy|stpncpy|rawmem)[a-z]*(_.*)?")
SPREADING = "add", "sub", "mul"         # a bit can change all bits above it
COMPARING = "slt", "sltu", "slti", "sltiu"


def spread(bits: int) -> int:
    """These bits and all above the lowest one."""
    return (bits | -(bits & -bits)) & FULL


def signed_shift(bits: int, by: int) -> int:
    return bits >> by | (FULL << 32 - by & FULL if bits >> 31 and by else 0)


def result_bits(hart: CheckedHart, one: Operation, x: int, y: int) -> int:
    """The bits of a result that depend on bits that nobody wrote: x of rs1, y of rs2. Exact for
    what moves and masks bits; else as many as may."""
    name = one.name
    imm = one.imm
    if name in SPREADING or name == "addi" and imm:
        return spread(x | y)
    if name in ("addi", "xori", "xor"):
        return x | y
    if name == "andi":
        return x & imm & FULL
    if name == "ori":
        return x & ~imm & FULL
    if name in ("and", "or"):
        return masked_bits(hart, one, x, y)
    if name == "slli":
        return x << imm & FULL
    if name == "srli":
        return x >> imm
    if name == "srai":
        return signed_shift(x, imm)
    by = hart.value(one.rs2)
    if name in ("sll", "srl", "sra") and not y and by is not None:
        by &= 31
        if name == "sll":
            return x << by & FULL
        return x >> by if name == "srl" else signed_shift(x, by)
    return 1 if name in COMPARING else FULL


def masked_bits(hart: CheckedHart, one: Operation, x: int, y: int) -> int:
    """A bit that the other operand determines depends on nothing."""
    values = []
    for register in (one.rs1, one.rs2):
        value = hart.value(register)
        if value is None:
            values.append(FULL)
        else:
            values.append(value if one.name == "and" else ~value)
    return (x | y) & (x | values[0]) & (y | values[1]) & FULL


class UndefinedBits:
    def __init__(self, judge: Judge) -> None:
        self.judge = judge
        self.program = judge.program
        self.memory = judge.memory

    def around(self, hart: CheckedHart, one: Operation, act: Act, hook: Optional[Hook]) -> Act:
        """A row's action while a register has such bits: what depends on them before it, and the
        bytes that have them after it."""
        before = self.before(hart, one, hook)
        is_store = one.kind == STORE
        source = one.rs2

        def both(row: bytes) -> bool:
            before(row)
            is_over = act(row)
            if is_store and source in hart.undefined:
                self.stored(hart, one, int(row[-17:-9], 16))
            return bool(is_over) or not hart.undefined
        return both

    def before(self, hart: CheckedHart, one: Operation,
               hook: Optional[Hook]) -> Callable[[bytes], None]:
        """What a row uses; the register that it writes has none any more, unless the row brings
        some."""
        if hook is not None:
            given = A0 + hook.argument
            name = hook.name
            return lambda row: self.used(hart, one, row, (given,), f"what {name} is given depends")
        if one.kind == ALU:
            return lambda row: self.computed(hart, one)
        if one.kind == BRANCH:
            return lambda row: self.branched(hart, one, row)
        if one.kind == CALL:
            return lambda row: self.called(hart, one, row)
        registers = (one.rs1,) if one.kind in (LOAD, STORE, AMO, JUMP) else ()
        what = "a jump depends" if one.kind == JUMP else "an address depends"

        def use(row: bytes) -> None:
            self.used(hart, one, row, registers, what)
            hart.undefined.pop(one.rd, None)
        return use

    def called(self, hart: CheckedHart, one: Operation, row: bytes) -> None:
        used = (A7, A0, A1, A2) if hart.value(A7) in (READ_CALL, WRITE_CALL) else (A7, A0)
        self.used(hart, one, row, used, "a system call depends")
        hart.undefined.pop(A0, None)

    def computed(self, hart: CheckedHart, one: Operation) -> None:
        """An instruction without an access has run."""
        x = hart.undefined.get(one.rs1)
        y = hart.undefined.get(one.rs2) if one.rs2 else None
        bits = result_bits(hart, one, sum_bits(x), sum_bits(y)) if x or y else 0
        source = x or y
        if bits and one.rd and source:
            hart.undefined[one.rd] = Undefined(bits, source.origin)
        else:
            hart.undefined.pop(one.rd, None)

    def loaded(self, hart: CheckedHart, one: Operation, address: int, bits: int) -> bool:
        """Bits that nobody wrote are in a register."""
        width = 8 * one.width
        if one.rd:
            if width < 32 and not one.word >> 14 & 1 and bits >> width - 1 & 1:
                bits |= FULL & -1 << width
            hart.undefined[one.rd] = Undefined(bits, self.origin(hart, one.pc, address))
        return True

    def stored(self, hart: CheckedHart, one: Operation, address: int) -> None:
        """They are in memory, which is no error."""
        bits, origin = hart.undefined[one.rs2]
        for at in range(one.width):
            part = bits >> 8 * at & 255
            if part:
                self.memory.states[address + at] = COPIED if part == 255 else PARTLY
                self.memory.bits[address + at] = part
                self.memory.origins[address + at] = origin

    def branched(self, hart: CheckedHart, one: Operation, row: bytes) -> None:
        """A branch depends on them, unless other bits determine it, or a library's function looks
        at bytes that don't count."""
        if one.rs1 not in hart.undefined and one.rs2 not in hart.undefined:
            return
        if one.name in ("beq", "bne"):
            x = hart.value(one.rs1)
            y = hart.value(one.rs2)
            bits = sum_of_bits(hart, one)
            if x is not None and y is not None and (x ^ y) & ~bits & FULL:
                return
        if not LOOKS.fullmatch(self.program.function_of(one.pc)):
            self.used(hart, one, row, (one.rs1, one.rs2), "a branch depends")

    def used(self, hart: CheckedHart, one: Operation, row: bytes,
             registers: Tuple[int, ...], what: str) -> None:
        """Tells of the first of these registers that has such bits; it is good then, so that one
        error is told once."""
        for register in registers:
            if register in hart.undefined:
                origin = hart.undefined.pop(register).origin
                if origin is not None:
                    self.tell(hart, one, row,
                              f"{what} on bytes that nobody wrote{origin.text}", origin)
                return

    def tell(self, hart: CheckedHart, one: Operation, row: bytes, text: str,
             origin: ValueOrigin) -> None:
        key = self.judge.key(UNINITIALIZED, one.pc, origin.thing)
        self.judge.findings.add(key, Finding(UNINITIALIZED, text, hart.event(row, one.pc),
                                             origin.thing, origin.pc, "loaded"))

    def written(self, hart: CheckedHart, one: Operation, row: bytes, buffer: int,
                size: int, at: int) -> None:
        """A byte of a `write` call is one that nobody wrote."""
        origin = self.origin(hart, one.pc, buffer + at)
        if origin is not None:
            self.tell(hart, one, row, f"byte {at} of {size} that are written out is one that "
                      f"nobody wrote{origin.text}", origin)

    def origin(self, hart: CheckedHart, pc: int, address: int) -> Optional[ValueOrigin]:
        """The origin of bytes that nobody wrote; None if that is a library's own frame."""
        for at in range(address, (address | 3) + 1):
            if self.memory.states[at] in (PARTLY, COPIED):
                return self.memory.origins.get(at)
        if hart.lowest <= address < hart.top:
            return self.in_frame(hart, pc, address)
        block = self.judge.heap.holding(address)
        if block is not None:
            return ValueOrigin(f", {address - block.begin} bytes into a block of "
                               f"{block.size} bytes", block, pc)
        return ValueOrigin(f", at {address:08x}", None, pc)

    def in_frame(self, hart: CheckedHart, pc: int, address: int) -> Optional[ValueOrigin]:
        """Of which function's frame an address is, walked from the innermost one by what is known
        of each place."""
        sp: Optional[int] = hart.sp
        for at in hart.callers(pc):
            one = self.judge.facts.operations.get(at)
            if one is None or one.stack is None or one.stack.to != FRAME or sp is None:
                break
            begin = sp - one.stack.offset
            if sp <= address < begin:
                function = self.program.function_at(at)
                if self.program.is_library(at):
                    return None
                names = [each.name for each in self.program.locals_of(function.first) or ()
                         if each.name and each.offset <= address - begin < each.end]
                return ValueOrigin(f", of {names[0] if names else 'the frame'} of {function.name}",
                                   None, pc)
            sp = begin
        return ValueOrigin(f", of the stack at {address:08x}", None, pc)


def sum_of_bits(hart: CheckedHart, one: Operation) -> int:
    return sum_bits(hart.undefined.get(one.rs1)) | sum_bits(hart.undefined.get(one.rs2))


def sum_bits(found: Optional[Undefined]) -> int:
    return found.bits if found else 0
