"""What each instruction's rows do to what the checks keep: a function for each instruction of each
hart, made when it first runs.

A row is looked at as little as that needs: what is known of an instruction whatever the run is a
constant of its function."""
from __future__ import annotations

from typing import Dict, Optional

from .accesses import Accesses
from .calls import AllocatorCalls
from .checks import Checks
from .judge import JudgedAccess
from .operation import Operation
from .state import Act, CheckedHart, nothing
from .sums import Sums
from ..recording.cut import pc_of, word_of
from ..recording.instruction import A0, ALU, AMO, CALL, JUMP, LOAD, SP, STORE

OUTSIDE = b"Outside "        # in the names of faults at addresses that aren't mapped
FAULT = b"fault"            # the key of a row that ended in a fault
KEY = 17                    # bytes of an address and a word in a row


class Actions(Dict[bytes, Act]):
    """{address and word of an instruction, as rows have them: what a row of it does}, of a hart.

    careful  those while a register has bits that nobody wrote
    begin    where rows have their address, of those that are read now"""

    def __init__(self, checks: Checks, hart: CheckedHart) -> None:
        super().__init__()
        self.checks = checks
        self.hart = hart
        self.careful = Careful(self)
        self.begin = 0
        sums = Sums(checks, hart)
        accesses = Accesses(checks, hart)
        calls = AllocatorCalls(checks, hart)
        self.makers = {LOAD: accesses.of_load, STORE: accesses.of_store, AMO: accesses.of_atomic,
                       JUMP: calls.of_jump, CALL: calls.of_system_call}
        self.sums = sums
        checks.renew.append(self.renew)
        self.renew()

    def renew(self) -> None:
        self.clear()
        self.careful.clear()
        self.hart.texts.clear()
        self[FAULT] = self.fault

    def operation(self, key: bytes) -> Operation:
        return self.checks.operation(int(key[:8], 16), 0 if key[9:10] == b"-" else int(key[9:], 16))

    def __missing__(self, key: bytes) -> Act:
        one = self.operation(key)
        hook = self.checks.heap.hooks.get(one.pc)
        if hook is not None:
            hart = self.hart
            call = self.checks.heap.call
            told = hook

            def take(row: bytes) -> bool:
                call(hart, told, row)
                return True
            found: Act = take
        elif one.kind == ALU and one.rd == SP:
            found = self.sums.of_stack_pointer(one)
        elif one.kind == ALU:
            found = self.sums.of_sum(one) if one.rd else nothing
        else:
            found = self.makers[one.kind](one) if one.kind in self.makers else nothing
        if one.pc == self.checks.copies:
            found = self.of_copy(found)
        self[key] = found
        return found

    def of_copy(self, act: Act) -> Act:
        """Of the first instruction of memcpy, whose ranges may be the same but not overlap."""
        hart = self.hart
        judge = self.checks.judge

        def check(row: bytes) -> Optional[bool]:
            to, source, size = (hart.value(A0 + at) for at in range(3))
            if (to is not None and source is not None and size is not None
                    and 0 < abs(to - source) < size):
                judge.tell_overlap(hart, row, size, size - abs(to - source))
            return act(row)
        return check

    def fault(self, row: bytes) -> None:
        """The row that ended the run."""
        hart = self.hart
        checks = self.checks
        one = checks.operation(pc_of(row), word_of(row))
        is_access = one.kind in (LOAD, STORE, AMO)
        checks.undefined.used(hart, one, row, (one.rs1,),
                              "an address depends" if is_access else "a jump depends")
        if not is_access:
            return
        address = int(row[-8:], 16)
        access = JudgedAccess(hart, row, one, address, one.width, one.kind != LOAD, one.rs1)
        thing = hart.tags[one.rs1]
        if thing is not None and not thing.holds(address, one.width):
            checks.judge.outside(access, thing)
        checks.pointers.judge()                 # no more stores come
        if OUTSIDE in row and not checks.findings.kept:
            checks.judge.tell_unmapped(access)


class Careful(Dict[bytes, Act]):
    """The actions of a hart while a register has bits that nobody wrote; each is true once none
    has."""

    def __init__(self, actions: Actions) -> None:
        super().__init__()
        self.actions = actions

    def __missing__(self, key: bytes) -> Act:
        actions = self.actions
        act = actions[key]
        if key == FAULT:
            return act                          # (it asks of its row's instruction)
        one = actions.operation(key)
        found = self[key] = actions.checks.undefined.around(actions.hart, one, act,
                                                            actions.checks.heap.hooks.get(one.pc))
        return found
