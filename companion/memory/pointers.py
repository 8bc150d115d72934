"""Words of global objects that are pointers by their type, and what is stored to them that is no
pointer."""
from __future__ import annotations

import re
from dataclasses import dataclass
from typing import Callable, Dict, Optional

from ..recording.types import TO_ALIGNED, TO_CODE
from .findings import POINTER, Finding, Findings
from .operation import FULL, Operation
from .program import CheckedProgram
from .state import CODE, Event, CheckedHart, TaggedMemory, Thing

# They move bytes of whatever type
COPIES = re.compile(r"_*(mem(cpy|move|set|ccpy)|bcopy|bzero)(_.*)?")
# Small numbers, and those as close to the upper end, are marks that many programs put into pointers
LEAST_ADDRESS = 4096


@dataclass
class SuspectPointer:
    """The last store that left a word what is no pointer."""
    value: int
    pc: int
    when: Event


class PointerWords:
    """sorts   of each word what it leads to, 0 if it is no pointer; a store to one is judged once
    other words are stored to, since several stores can make one pointer. renew: what is called if
    code is stored to"""

    def __init__(self, program: CheckedProgram, memory: TaggedMemory, findings: Findings,
                 renew: Callable[[], None]) -> None:
        self.program = program
        self.memory = memory
        self.findings = findings
        self.renew = renew
        self.sorts = bytearray(memory.size // 4 + 2)
        self.suspects: Dict[int, SuspectPointer] = {}
        for each in program.sized:
            for offset, to in program.types.pointers_in(program.objects.get(each.address)):
                at = each.address + offset
                if at % 4 == 0 and at + 4 <= min(each.end, memory.size):
                    self.sorts[at >> 2] = to

    def stored(self, hart: CheckedHart, one: Operation, row: bytes, address: int,
               tag: Optional[Thing]) -> bool:
        """Whether the word is code of a block, which isn't true any more."""
        word = address >> 2
        value = int(row[-8:], 16)
        if self.sorts[word] == CODE:
            self.renew()
            return True
        if self.suspects and word not in self.suspects:
            self.judge()
        if one.width == 4:
            self.suspects.pop(word, None)
            is_good = tag is not None or self.is_pointer(value, word)
        else:
            is_good = COPIES.fullmatch(self.program.function_of(one.pc)) is not None
        if not is_good:
            self.suspects[word] = SuspectPointer(value, one.pc, hart.event(row, one.pc))
        return False

    def is_pointer(self, value: int, word: int) -> bool:
        if value < LEAST_ADDRESS or value > FULL - LEAST_ADDRESS:
            return True
        if self.sorts[word] == TO_CODE:
            return self.program.elf.is_code(value) and value % 4 == 0
        return value < self.memory.size and not (self.sorts[word] == TO_ALIGNED and value & 3)

    def judge(self) -> None:
        """Tells of the words that hold no pointer, now that the stores to them are over."""
        for word, one in self.suspects.items():
            if not self.is_pointer(one.value, word):
                name = self.program.name(word * 4)
                caller = (self.program.function_at(one.when.pcs[1]).first if len(one.when.pcs) > 1
                          else 0)
                self.findings.add((POINTER, self.program.function_at(one.pc).first, caller),
                                  Finding(
                    POINTER,
                    f"{one.value:08x} gets into the pointer {name}, and is none", one.when))
        self.suspects = {}
