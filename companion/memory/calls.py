"""Jumps, returns, and what the system's calls read and write."""
from __future__ import annotations

from typing import Optional

from .checks import Checks
from .judge import JudgedAccess
from .operation import Operation
from .state import (
    BESIDE, CODE, FREED, GOOD, SAVED, UNDEFINED, ZEROS, Act, CheckedHart, Thing, nothing, value_of)
from ..recording.instruction import A0, A1, A7
from ..recording.log import FAILED, READ_CALL, WRITE_CALL


class AllocatorCalls:
    def __init__(self, checks: Checks, hart: CheckedHart) -> None:
        self.checks = checks
        self.hart = hart

    def of_jump(self, one: Operation) -> Act:
        hart = self.hart
        returns = self.hart.returns
        rd = one.rd
        is_call = one.call
        behind = one.pc + 4
        if one.ret:
            return self.of_return(one)

        def act(row: bytes) -> None:
            hart.tags[rd] = None
            hart.rows[rd] = row
            if is_call:
                returns.append(behind)
        return act if rd else nothing

    def of_return(self, one: Operation) -> Act:
        hart = self.hart
        returns = self.hart.returns
        rs = one.rs1
        imm = one.imm
        strayed = self.checks.stacks.strayed

        def act(row: bytes) -> None:
            to = hart.value(rs)
            if to is None:
                returns.clear()
                return
            to = to + imm & ~1
            if returns and returns[-1] == to:
                returns.pop()
            elif not hart.return_to(to):
                strayed(hart, to, row, one)
        return act

    def of_system_call(self, one: Operation) -> Act:
        hart = self.hart
        checks = self.checks

        def act(row: bytes) -> None:
            number = hart.value(A7)
            buffer = hart.value(A1)
            result = value_of(row) if b"| a0=" in row else None
            if (buffer is not None and result is not None and 0 < result < FAILED
                    and buffer + result <= checks.memory.size):
                if number == READ_CALL:
                    self.read(JudgedAccess(hart, row, one, buffer, result, True, A1))
                elif number == WRITE_CALL:
                    self.write(JudgedAccess(hart, row, one, buffer, result, False, A1))
            hart.tags[A0] = None
            hart.rows[A0] = None if result is None else row
        return act

    def clip(self, access: JudgedAccess) -> Optional[Thing]:
        """The thing out of which a call's bytes lead; told if there is one."""
        thing = access.hart.tags[A1]
        if thing is not None and not thing.holds(access.address, access.size):
            inside = thing.low <= access.address < thing.high
            begin = thing.high if inside else access.address
            self.checks.judge.outside(
                access._replace(address=begin, size=access.address + access.size - begin), thing)
            return thing
        return None

    def read(self, access: JudgedAccess) -> None:
        """A `read` call fills bytes."""
        memory = self.checks.memory
        end = access.address + access.size
        states = memory.states[access.address:end]
        bad = ([at for at, state in enumerate(states) if state in (BESIDE, FREED, SAVED)]
               if not ZEROS.get(len(states)) == states else [])
        if self.clip(access) is None and bad:
            first = bad[0]
            self.checks.judge.forbidden(access._replace(address=access.address + first,
                                                        size=access.size - first), states[first:])
        if not bad:
            memory.fill(access.address, end, GOOD)
        memory.forget_tags(access.address & ~3, end)
        if CODE in self.checks.pointers.sorts[access.address >> 2:(end + 3) >> 2]:
            self.checks.forget_code()

    def write(self, access: JudgedAccess) -> None:
        """A `write` call takes bytes."""
        self.clip(access)
        states = self.checks.memory.states[access.address:access.address + access.size]
        for at, state in enumerate(states):
            if state in UNDEFINED:
                self.checks.undefined.written(access.hart, access.one, access.row,
                                              access.address, access.size, at)
                return
