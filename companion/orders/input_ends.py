"""Whether a run of one hart with a shorter input ends as the recorded one: in a fault, at the
limit, with an exit code, or with a text that it wrote.

Each end is told in two parts: one that costs nothing, and one that takes the last rows."""
from __future__ import annotations

import re
from dataclasses import dataclass
from pathlib import Path
from typing import Hashable, Optional, Union

from ..recording.cause import cause_along
from ..recording.chunks import OTHER_LINES
from ..recording.elf import Elf
from ..recording.log import Log
from ..recording.recent import LogFile
from .record import FAULT, LIMIT, Quick
from .same_end import CALLS_ROWS, Faulted, Over, EndedRecording, common_exit_code

LOOP_ROWS = 4000            # of so many last rows of a hang the addresses are compared
PC = re.compile(rb"^0 \d+ (\w{8}) ", re.M)
# An address below it is a null pointer's, which is another fault than a wild one's
NULL = 4096
HART = 0


@dataclass(frozen=True)
class LoopEnd:
    """The addresses of the last rows of a hang. A run that stays among them is in the same loop."""
    addresses: frozenset[bytes]

    def is_like(self, other: object) -> bool:
        return isinstance(other, LoopEnd) and other.addresses <= self.addresses


@dataclass(frozen=True)
class FaultEnd:
    """A fault's end, and the address of the last row, which is told at once."""
    end: Faulted
    pc: bytes

    def is_like(self, other: object) -> bool:
        return isinstance(other, FaultEnd) and self.end.is_like(other.end)


InputEnd = Union[FaultEnd, LoopEnd, Over]


class InputEnds:
    """Tells how recordings of a program end. `says` is a text that one wrote, if its end is told by
    that, or nothing."""

    def __init__(self, quick: Quick, elf: Elf, says: bytes = b"") -> None:
        self.quick = quick
        self.elf = elf
        self.says = says

    def rough(self, made: EndedRecording) -> Hashable:
        end = made.read.ends[HART]
        if self.says:
            return made.status, common_exit_code(made.read.ends), self.says in self.written(made)
        if made.status == FAULT:
            return made.status, end.reason, end.value < NULL
        return made.status, 0 if made.status == LIMIT else common_exit_code(made.read.ends)

    def written(self, made: EndedRecording) -> bytes:
        """What the run wrote to both of its streams. The last line on err is the program's
        summary."""
        return (Path(made.said).read_bytes()
                + Path(made.err).read_bytes().rstrip(b"\n").rpartition(b"\n")[0])

    def exact(self, made: EndedRecording, wanted: Optional[InputEnd] = None) -> InputEnd:
        """How it ends. If the last row isn't that of another that is wanted, no more is read."""
        if self.says or made.status not in (FAULT, LIMIT):
            return Over()
        if made.status == LIMIT:
            return LoopEnd(frozenset(PC.findall(self.last_text(made, LOOP_ROWS)[0])[-LOOP_ROWS:]))
        text, is_cut = self.last_text(made, 1)
        pc = PC.findall(text, text.rfind(b"\n"))[0]
        # (a jump to an address without code can lead anywhere)
        if isinstance(wanted, FaultEnd) and wanted.pc != pc and wanted.end.reason != "FetchOutside":
            return Over()
        if is_cut:
            text, is_cut = self.last_text(made, CALLS_ROWS)
        cause = cause_along([text], HART, made.read.ends[HART])
        return FaultEnd(Faulted(cause.reason, cause.pc, cause.functions(self.elf), is_cut), pc)

    def last_text(self, made: EndedRecording, rows: int) -> tuple[bytes, bool]:
        """The rows of the last intervals that hold so many, and whether there are rows before."""
        log: Log = LogFile(made.log, self.quick.folder).end(rows)
        text = self.quick.text("joint", "--", log.name, self.elf.name)
        return OTHER_LINES.sub(b"", b"\n" + text).rstrip(b"\n"), log.intervals[0].start > 0
