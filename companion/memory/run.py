"""The checks along the rows of a log."""
from __future__ import annotations

from typing import Dict, Iterable, List, Mapping, Optional, Sequence

from ..recording.chunks import chunks, occurrences, row_at
from ..recording.elf import Elf
from ..recording.log import Log
from .actions import FAULT, KEY, Actions
from .blocks import CompiledBlocks
from .checks import Checks
from .heap import STORES, Hook, hooks_of
from .program import CheckedProgram
from .state import CheckedHart

FAULTED = b" | fault "
RESULT = b"| a0="
FEW = 6                     # rows of a turn on average: shorter ones are followed row by row


class CheckedRun(Checks):
    """read      how many rows were read"""

    def __init__(self, log: Log, program: CheckedProgram, hooks: Mapping[int, Hook],
                 is_plain: bool = False) -> None:
        """A plain one follows row by row, which says the same as blocks."""
        super().__init__(log, program, hooks)
        self.read = 0
        self.is_plain = is_plain
        self.actions = [Actions(self, hart) for hart in self.harts]
        self.blocks = [CompiledBlocks(actions) for actions in self.actions]
        # Of the function that is passed over: what wrote a0 last, and what stored the result of
        # posix_memalign.
        self.results: Dict[int, Optional[bytes]] = {}
        self.stored: Dict[int, Optional[bytes]] = {}

    def along(self, texts: Iterable[bytes]) -> None:
        for text in texts:
            self.judge.recent.add(text)
            self.read += text.count(b"\n")
            fault = text.find(FAULTED)
            end = text.rfind(b"\n", 0, fault) if fault >= 0 else len(text)
            turns = [text[1:end]] if len(self.harts) == 1 else turn_texts(text[1:end].split(b"\n"))
            if self.is_plain or not turns[0] or len(turns) * FEW > text.count(b"\n"):
                end = 0
            for turn in turns if end else ():
                self.by_blocks(turn)
            if end < len(text):
                self.row_by_row(text[end + 1:])
        self.pointers.judge()

    def by_blocks(self, text: bytes) -> None:
        """The rows of a hart that follow each other."""
        number = int(text[:2])
        hart = self.harts[number]
        actions = self.actions[number]
        blocks = self.blocks[number]
        begin = key_begin(text)
        at = 0
        size = len(text)
        if begin != key_begin(text[text.rfind(b"\n") + 1:]):
            # A count has a digit more, the first one with so many zeros.
            longer = text.find(b"\n%d 1%s " % (number, b"0" * (begin - 2 - len(str(number)))))
            for part in (text[:longer], text[longer + 1:]) if longer >= 0 else ():
                self.by_blocks(part)
            if longer < 0:
                self.row_by_row(text)
            return
        actions.begin = begin
        careful = actions.careful
        while at < size:
            if hart.awaited is not None:
                at = self.passed_over(hart, text, at, begin)
            elif hart.undefined:
                row = row_at(text, at)
                careful[row[begin:begin + KEY]](row)
                at += len(row) + 1
            else:
                at = blocks[text[at + begin:at + begin + KEY]](text, at)

    def passed_over(self, hart: CheckedHart, text: bytes, at: int, begin: int) -> int:
        """The place of the row behind an allocator's function that is under way, or the end if it
        isn't among these."""
        assert hart.awaited
        for place in occurrences(text, b" %s " % hart.awaited.back, at):
            row = text.rfind(b"\n", 0, place) + 1
            if row + begin == place + 1:
                self.inside(hart, text[at:row])
                self.returned(hart)
                return row
        self.inside(hart, text[at:])
        return len(text)

    def inside(self, hart: CheckedHart, rows: bytes) -> None:
        """Rows of an allocator's function."""
        at = rows.rfind(RESULT)
        if at >= 0:
            self.results[hart.number] = row_at(rows, at)
        at = rows.rfind(hart.awaited.slot) if hart.awaited and hart.awaited.does == STORES else -1
        if at >= 0:
            self.stored[hart.number] = row_at(rows, at)

    def returned(self, hart: CheckedHart) -> None:
        assert hart.awaited
        if hart.returns and hart.returns[-1] == int(hart.awaited.back, 16):
            hart.returns.pop()
        self.heap.returned(hart, self.results.pop(hart.number, None),
                           self.stored.pop(hart.number, None))

    def row_by_row(self, text: bytes) -> None:
        by_text = {b"%-2d" % hart.number: (hart, actions)
                   for hart, actions in zip(self.harts, self.actions)}
        has_fault = FAULTED in text
        for row in text.split(b"\n"):
            hart, actions = by_text[row[:2]]
            at = key_begin(row)
            key = FAULT if has_fault and FAULTED in row else row[at:at + KEY]
            if hart.awaited is not None:
                if key[:8] != hart.awaited.back:
                    self.inside(hart, row)
                    continue
                self.returned(hart)
            (actions.careful if hart.undefined else actions)[key](row)


def run_of(log: Log, elf_name: str, named: Elf, takes: Sequence[str] = (),
           gives: Sequence[str] = ()) -> CheckedRun:
    """The checks of a log, after its last row. `takes` and `gives` are what --alloc and --free
    name."""
    program = CheckedProgram(named)
    run = CheckedRun(log, program, hooks_of(program, takes, gives))
    run.along(chunks(log.name, elf_name, log=log))
    return run


def key_begin(row: bytes) -> int:
    """The place of a row's address, behind the hart and the count."""
    return row.index(b" ", 3) + 1


def turn_texts(rows: List[bytes]) -> List[bytes]:
    """The texts of rows that follow each other of the same hart."""
    harts = [row[:2] for row in rows]
    changes = (at for at, (one, other) in enumerate(zip(harts, harts[1:]), 1) if one != other)
    begins = [0, *changes, len(rows)]
    return [b"\n".join(rows[begin:end]) for begin, end in zip(begins, begins[1:])]
