"""What the checks of all harts share: what the program tells, and what is kept along the rows."""
from __future__ import annotations

from typing import Callable, Mapping

from ..recording.log import Log
from .facts import RegisterFacts
from .findings import Findings
from .heap import Heap, Hook
from .judge import Judge
from .operation import Operation
from .parts import Parts
from .pointers import PointerWords
from .program import CheckedProgram
from .stacks import CheckedStacks
from .state import CODE, CheckedHart, TaggedMemory
from .undefined import UndefinedBits


class Checks:
    """is_whole  whether all rows of the run are read: else what was taken, written and called
    before
             isn't known
    copies   the first address of memcpy, if it isn't memmove as well
    renew    what forgets a hart's functions of instructions, once the code of one was changed"""

    def __init__(self, log: Log, program: CheckedProgram, hooks: Mapping[int, Hook]) -> None:
        self.renew: list[Callable[[], None]] = []
        firsts = log.first_intervals()
        self.program = program
        self.facts = RegisterFacts(program)
        self.memory = TaggedMemory(log.memory)
        self.findings = Findings()
        is_begun = all(one.start == 0 for one in firsts.values())
        self.is_whole = is_begun and not log.dropped and not log.unread
        self.harts = [CheckedHart(number, firsts[number].registers if number in firsts else ())
                      for number in range(log.harts)]
        self.heap = Heap(program, self.memory, self.findings, hooks, self.is_whole)
        self.stacks = CheckedStacks(program, self.memory, self.heap, self.findings, self.harts)
        self.pointers = PointerWords(program, self.memory, self.findings, self.forget_code)
        self.judge = Judge(self.facts, self.memory, self.heap, self.findings)
        self.undefined = UndefinedBits(self.judge)
        self.parts = Parts(self.facts)
        named = program.function_named
        self.copies = named("memcpy") if named("memcpy") != named("memmove") else 0

    def operation(self, pc: int, word: int) -> Operation:
        """The instruction of a row. If its function's code was changed, what was known of it is
        forgotten."""
        changed = len(self.facts.changed)
        found = self.facts.at(pc, word)
        if len(self.facts.changed) > changed:
            self.forget_code()
        return found

    def forget_code(self) -> None:
        sorts = self.pointers.sorts
        sorts[:] = sorts.replace(bytes((CODE,)), b"\0")
        for renew in self.renew:
            renew()
