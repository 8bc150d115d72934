"""What loads, stores and atomics do to what pointers are for and to the state of bytes."""
from __future__ import annotations

from typing import Optional

from .checks import Checks
from .judge import JudgedAccess
from .operation import Operation
from .parts import Limit
from .state import ENDED, GOOD, SAVED, ZEROS, Act, CheckedHart, Thing, nothing, value_of
from .sums import frame_thing
from .value import ABSOLUTE
from .value import FRAME as IN_FRAME
from ..recording.instruction import SP

SAVED_WORD = bytes((SAVED,)) * 4


def is_bad(size: int, register: int) -> str:
    """Whether an access of so many bytes has to be looked at, as text; `register` has the pointer,
    or it is 0."""
    by_bytes = f"states[place:place + {size}] != zeros{size}"
    outside = f"(place < thing.low or place + {size} > thing.high)"
    return (f"{by_bytes} or (thing := tags[{register}]) is not None and {outside}" if register
            else by_bytes)


class Accesses:
    def __init__(self, checks: Checks, hart: CheckedHart) -> None:
        self.checks = checks
        self.hart = hart

    def is_known_place(self, one: Operation) -> bool:
        """Whether an access is to a constant address, or to a place of the frame by a constant:
        these are the program's own."""
        base = one.base
        if base is None or base.indexed:
            return False
        return (base.to == ABSOLUTE
                or base.to == IN_FRAME and one.stack is not None and one.stack.to == IN_FRAME)

    def is_free(self, one: Operation) -> bool:
        """Whether nothing is known of an access by a constant with an index."""
        return one.base is not None and one.base.indexed and one.base.to in (ABSOLUTE, IN_FRAME)

    def restores(self, one: Operation) -> bool:
        """Whether a load takes back a register that was saved in the frame."""
        slots = self.checks.facts.slots.get(self.checks.facts.program.function_at(one.pc).first, {})
        return bool(one.base and one.base.to == IN_FRAME and one.rs1 == SP
                    and slots.get(one.base.offset + one.imm) == one.rd)

    def of_load(self, one: Operation) -> Act:
        limit = self.checks.parts.limit(one)
        if limit is not None:
            self.checks.judge.limited.add(one.pc)
            return self.load(one, limit)
        if self.is_known_place(one) and one.base and (one.base.to == ABSOLUTE
                                                      or self.restores(one)):
            return self.plain_load(one)
        return self.load(one, no_limit if self.is_free(one) or self.is_known_place(one) else None)

    def plain_load(self, one: Operation) -> Act:
        """Of a place that is the program's own: nothing can be wrong, but bits may be undefined
        that were copied there."""
        hart = self.hart
        checks = self.checks
        tags = hart.tags
        rows = hart.rows
        words = checks.memory.tags
        states = checks.memory.states
        rd = one.rd
        size = one.width
        is_word = one.width == 4
        if not rd:
            return nothing

        def act(row: bytes) -> Optional[bool]:
            address = int(row[-17:-9], 16)
            tags[rd] = words[address >> 2] if is_word else None
            rows[rd] = row
            if rd == SP:
                checks.stacks.set(hart, value_of(row), row, one)
            elif states[address] > ENDED:
                return checks.undefined.loaded(hart, one, address,
                                               checks.memory.undefined_bits(address, size))
            return None
        if rd != SP:
            hart.texts[act] = "states[place] > ENDED", loaded(rd, is_word)
        return act

    def load(self, one: Operation, limit: Optional[Limit]) -> Act:
        """`limit` is what tells the thing that an address misses; without it the register's tag
        does."""
        hart = self.hart
        checks = self.checks
        tags = hart.tags
        rows = hart.rows
        states = checks.memory.states
        words = checks.memory.tags
        rd = one.rd
        rs = one.rs1
        size = one.width
        zeros = ZEROS[one.width]
        is_word = size == 4

        def act(row: bytes) -> Optional[bool]:
            address = int(row[-17:-9], 16)
            thing = tags[rs] if limit is None else limit(hart, address)
            bits = 0
            if (states[address:address + size] != zeros
                    or thing is not None and (address < thing.low or address + size > thing.high)):
                bits = checks.judge.load(JudgedAccess(hart, row, one, address, size, False, rs),
                                         thing)
            if rd:
                tags[rd] = words[address >> 2] if is_word and not bits else None
                rows[rd] = row
                if rd == SP:
                    checks.stacks.set(hart, value_of(row), row, one)
                if bits:
                    return checks.undefined.loaded(hart, one, address, bits)
            return None
        if rd not in (0, SP) and limit in (None, no_limit):
            hart.texts[act] = is_bad(size, 0 if limit else rs), loaded(rd, is_word)
        return act

    def of_store(self, one: Operation) -> Act:
        """If sp itself is stored, that makes a pointer to the frame's first variable."""
        act = self.store_of(one)
        is_made = one.rs2 == SP and one.width == 4
        value = (one.other if is_made and one.other and one.other.to == IN_FRAME
                 and not one.other.indexed else None)
        thing_at = frame_thing(self.checks, self.hart, one, value) if value else None
        if thing_at is None:
            return act
        hart = self.hart
        made = thing_at

        def store(row: bytes) -> Optional[bool]:
            hart.tags[SP] = made(hart.sp)
            is_code = act(row)
            hart.tags[SP] = None
            return is_code
        return store

    def store_of(self, one: Operation) -> Act:
        limit = self.checks.parts.limit(one)
        if limit is not None:
            self.checks.judge.limited.add(one.pc)
            return self.store(one, limit)
        if self.is_known_place(one) and one.base is not None:
            return self.plain_store(one, one.base.to == IN_FRAME)
        return self.store(one, no_limit if self.is_free(one) else None)

    def plain_store(self, one: Operation, is_own: bool) -> Act:
        """To a place that is the program's own; of the frame it is written then, or holds a saved
        register."""
        hart = self.hart
        checks = self.checks
        memory = checks.memory
        tags = hart.tags
        rs2 = one.rs2
        size = one.width
        states = memory.states
        words = memory.tags
        sorts = checks.pointers.sorts
        zeros = ZEROS[size]
        saves = one.saves
        is_word = size == 4

        def act(row: bytes) -> Optional[bool]:
            address = int(row[-17:-9], 16)
            if is_own and saves and hart.is_own:
                states[address:address + 4] = SAVED_WORD
                memory.saved[address] = rs2, one.pc, row
            elif is_own:
                states[address:address + size] = zeros
            elif states[address] > ENDED:
                memory.fill(address, address + size, GOOD)
            words[address >> 2] = tag = tags[rs2] if is_word else None
            if sorts[address >> 2]:
                return checks.pointers.stored(hart, one, row, address, tag)
            return None
        if not saves:
            writes = f"states[place:place + {size}] = zeros{size}; " if is_own else ""
            test = "sorts[place >> 2]" if is_own else "sorts[place >> 2] or states[place] > ENDED"
            hart.texts[act] = test, writes + stored(rs2, is_word)
        return act

    def store(self, one: Operation, limit: Optional[Limit]) -> Act:
        hart = self.hart
        checks = self.checks
        memory = checks.memory
        tags = hart.tags
        rs = one.rs1
        rs2 = one.rs2
        size = one.width
        zeros = ZEROS[one.width]
        states = memory.states
        words = memory.tags
        sorts = checks.pointers.sorts
        is_word = size == 4

        def act(row: bytes) -> Optional[bool]:
            address = int(row[-17:-9], 16)
            thing = tags[rs] if limit is None else limit(hart, address)
            if (states[address:address + size] != zeros
                    or thing is not None and (address < thing.low or address + size > thing.high)):
                checks.judge.store(JudgedAccess(hart, row, one, address, size, True, rs), thing)
            words[address >> 2] = tag = tags[rs2] if is_word else None
            if sorts[address >> 2]:
                return checks.pointers.stored(hart, one, row, address, tag)
            return None
        if limit in (None, no_limit):
            test = f"sorts[place >> 2] or {is_bad(size, 0 if limit else rs)}"
            hart.texts[act] = test, stored(rs2, is_word)
        return act

    def of_atomic(self, one: Operation) -> Act:
        hart = self.hart
        checks = self.checks
        tags = hart.tags
        words = checks.memory.tags
        states = checks.memory.states
        keeps = one.name in ("amoswap", "sc")
        gives = one.name in ("lr", "amoswap")

        def act(row: bytes) -> None:
            at = max(row.rfind(b" | load "), row.rfind(b" | store "))
            old = None
            if at >= 0:
                address = int(row[-17:-9], 16)
                stores = b"| store " in row
                thing = tags[one.rs1]
                old = words[address >> 2]
                if (states[address:address + 4] != ZEROS[4]
                        or thing is not None and not thing.holds(address, 4)):
                    access = JudgedAccess(hart, row, one, address, 4, stores, one.rs1)
                    if stores:
                        checks.judge.store(access, thing)
                    else:
                        checks.judge.load(access, thing)
                if stores:
                    words[address >> 2] = tags[one.rs2] if keeps else None
            if one.rd:
                tags[one.rd] = old if gives else None
                hart.rows[one.rd] = row
        return act


def loaded(register: int, is_word: bool) -> str:
    return f"tags[{register}] = {'words[place >> 2]' if is_word else None}"


def stored(register: int, is_word: bool) -> str:
    return f"words[place >> 2] = {f'tags[{register}]' if is_word else None}"


def no_limit(_: CheckedHart, __: int) -> Optional[Thing]:
    """Of an access of which nothing is known but the state of its bytes."""
    return None
