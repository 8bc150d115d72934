"""All that is known of a crash: the rows, the names, and which rows a report begins with."""
from __future__ import annotations

import re
from functools import cached_property
from typing import NamedTuple, Sequence

from ..call.errors import NO_INTERVAL, CompanionError
from ..call.options import whole
from ..recording.log import WRITE_CALL, At, Log, SystemCall, asked_row, no_row
from ..recording.members import Members
from ..recording.naming import lack_of
from ..recording.opened import Program
from ..recording.places import Frame
from ..recording.rows import LOADS
from ..recording.trace import Trace
from .earlier import AskedBytes, Earlier
from .lock_words import Setting, setting
from .loops import Loop

LAST_ROWS = 12              # before the start, that the report shows: half a screen
# What a hart did last, if it didn't fault: its loads, and the exits of its loop, of which each is a
# beginning of the history. There are twelve suspects at most.
LOOP_ROWS = 300
MOST_LOADS = 12
MOST_EXITS = 12
MOST_LIBRARY_CALLS = 12     # over a row: a library's printf has eight of its own


class Byte(NamedTuple):
    """A byte of the guest's output: of which of its writes, and which of that. Both count from
    0."""
    write: int
    place: int


class Written(NamedTuple):
    """A byte of the guest's output, and the write that took it."""
    write: int
    place: int
    call: SystemCall


class StackFrame(NamedTuple):
    """A call: its address, the function, FILE:LINE or nothing, and whether it is inlined in the
    next one."""
    address: int
    function: str
    place: str
    inlined: bool

    def text(self) -> str:
        """The function and FILE:LINE as far as they are known, else the address."""
        return " ".join(filter(None, (self.function, self.place))) or f"{self.address:08x}"


class Stack(NamedTuple):
    """Calls, innermost first; how many are left out before the last one; whether earlier calls are
    unknown."""
    frames: list[StackFrame]
    left_out: int
    is_cut: bool


class Facts:
    """log, elf, trace
    named    the ELF with names (--names), else elf
    places   functions and lines, until the program is closed
    start    the row that is asked of: the fault's, what a byte of the output came from, or an exit
             of a loop
    starts   it, and others that the history begins with
    loops    of the harts that came to their limit; hangs: whether `starts` are of such a loop
    output   the byte of the output that is asked of; stored: the row that stored it, or else wrote
             it
    faulted  whether `start` is the fault
    last     the last rows up to `start`
    notes    lines for the end of a report
    earlier  the stores before the rows that were read, of those that were looked for"""

    def __init__(self, program: Program, log: Log, trace: Trace, row: str = "",
                 output: Written | None = None) -> None:
        self.output = output
        self.log = log
        self.trace = trace
        self.asked = row
        self.elf = program.elf
        self.named = program.named
        self.places = program.places
        self.rows, self.writers, self.calls = trace
        self.owns: dict[int, StackFrame | None] = {}
        self.members = Members(self.named)
        self.earlier: dict[AskedBytes, Earlier] = {}
        lack = lack_of(self.named, self.places)
        self.notes = [lack] if lack else []
        if not trace.rows.last:
            raise CompanionError("the log holds no row: the records of a hart's last interval "
                                 f"passed its --log-size {log.size}; "
                                 "--format 2 keeps the interval of a crash", NO_INTERVAL)
        asks_of_end = not row and not output and not trace.rows.fault
        self.loops = [Loop(trace, hart) for hart in limited(log, trace)] if asks_of_end else []
        exits = [item.row for loop in self.loops
                 for item in loop.exits[:MOST_EXITS] if item.leads_out]
        self.stored = writer_of(trace, output) if output else 0
        self.starts = [self.stored] if output else exits or find_starts(log, trace, row)
        self.hangs = bool(self.loops)
        self.begin_at(self.starts[0])
        self.faulted = trace.rows.fault is not None and trace.rows.fault.row == self.start

    def begin_at(self, row: int) -> None:
        """Lets the report be about a row."""
        self.starts[0] = self.start = row
        self.last = self.rows.last_rows(row, LAST_ROWS)

    def pc_of(self, n: int) -> int:
        return self.rows.code_of(n).pc

    def where(self, n: int) -> str:
        return self.places.where(self.pc_of(n))

    def line(self, n: int) -> str:
        return self.places.line(self.pc_of(n))

    def source(self, n: int) -> str:
        return self.places.source(self.pc_of(n))

    def stack(self, n: int, most: int) -> Stack:
        """The place of a row and so many of the calls over it, innermost first."""
        above = self.calls.above(n, most)
        chain = [self.pc_of(n)] + above.calls + ([above.first] if above.more else [])
        return Stack(self.frames(chain), max(0, above.more - 1), self.rows.is_cut(n))

    def frames(self, chain: Sequence[int]) -> list[StackFrame]:
        """The functions of some places, innermost first, with what is inlined."""
        self.places.fetch(chain)
        said = []
        for at in chain:
            frames = self.places.frames(at) or [Frame("", "", 0, "")]
            for depth, frame in enumerate(frames, 1):
                place = f"{frame.file}:{frame.line}" if frame.line else ""
                said.append(StackFrame(at, frame.function, place, depth < len(frames)))
        return said

    def earlier_of(self, load: int) -> Earlier | None:
        """The store before the rows that gave a load's bytes their value, if it was found."""
        word = self.rows.access(load).address & ~3
        return self.earlier.get(AskedBytes(word, self.writers.stores(load).rest))

    def own(self, n: int) -> StackFrame | None:
        """The innermost frame over a row whose source is here, or None. What a library did is told
        as the call of it."""
        if n not in self.owns:
            frames = self.stack(n, MOST_LIBRARY_CALLS).frames
            self.owns[n] = next((frame for frame in frames if self.places.source(frame.address)),
                                None)
        return self.owns[n]

    def own_pc(self, n: int) -> int:
        """The address of that frame, or else of the row."""
        frame = self.own(n)
        return frame.address if frame else self.pc_of(n)

    def own_line(self, n: int) -> str:
        """FILE:LINE of that frame, or else of the row."""
        frame = self.own(n)
        return frame.place if frame else self.line(n)

    def own_where(self, n: int) -> str:
        """The function and FILE:LINE of that frame, or else of the row."""
        frame = self.own(n)
        return frame.text() if frame else self.where(n)

    def own_source(self, n: int) -> str:
        frame = self.own(n)
        return self.places.source(frame.address) if frame else ""

    def callers(self, n: int) -> list[StackFrame]:
        """The innermost calls over a row."""
        return self.stack(n, 3).frames[1:4]

    @cached_property
    def changes(self) -> list[Setting]:
        """Who took and gave locks, in the rows' order."""
        return setting(self.rows)

    @property
    def is_part(self) -> bool:
        """Whether the log has rows before those that are here: their records weren't read, or they
        weren't kept."""
        return bool(self.log.unread or self.rows.passed)

    @property
    def no_row(self) -> str:
        """What a statement rests on that says what no row did."""
        return "no row that was read" if self.is_part else "no row of the log"

    def ends(self) -> str:
        return ", ".join(f"hart {hart} {end.reason} {end.value:08x}"
                         for hart, end in sorted(self.log.ends.items()))


def find_starts(log: Log, trace: Trace, row: str) -> list[int]:
    """The rows that a history begins with."""
    if row:
        return [find_row(log, trace, asked_row(row))]
    if trace.rows.fault:
        return [trace.rows.fault.row]
    harts = limited(log, trace)
    if not harts:
        return [max(trace.rows.last.values())]
    # What a hart that hangs waits for is in the loads of its loop.
    loads: list[int] = []
    seen: set[int] = set()
    for n in reversed(trace.rows.last_rows(trace.rows.last[harts[0]], LOOP_ROWS)):
        if (trace.rows.flags[n] & LOADS and trace.rows.code[n] not in seen
                and len(loads) < MOST_LOADS):
            seen.add(trace.rows.code[n])
            loads.append(n)
    return loads or [trace.rows.last[harts[0]]]


def limited(log: Log, trace: Trace) -> list[int]:
    """The harts that came to their limit."""
    return [hart for hart, end in sorted(log.ends.items())
            if end.reason == "limit" and hart in trace.rows.last]


def written(log: Log, byte: Byte) -> Written:
    """The write that took a byte, by the log of the whole run."""
    writes = [call for call in log.system_calls() if call.kind == WRITE_CALL]
    if byte.write >= len(writes) or byte.place >= writes[byte.write].size:
        raise CompanionError(f"the log holds no byte {byte.place} of a write {byte.write}: "
                             "`zelkuma output` lists them", NO_INTERVAL)
    return Written(byte.write, byte.place, writes[byte.write])


def writer_of(trace: Trace, byte: Written) -> int:
    """The store that gave a byte of the output, or else the row that wrote it."""
    row = trace.rows.row_of(byte.call.hart, byte.call.count)
    return trace.writers.store_before(byte.call.address + byte.place, row) or row


def is_byte(text: str) -> bool:
    """Whether --output names a byte, and no text."""
    return re.fullmatch(r"\d+(:\d+)?", text, re.ASCII) is not None


def asked_byte(text: str) -> Byte:
    """The byte that --output N:BYTE names, or the first one of N."""
    write, colon, place = text.partition(":")
    return Byte(whole(write, 0, 1 << 31, "the write of --output N:BYTE"),
                whole(place, 0, 1 << 31, "the byte of --output N:BYTE") if colon else 0)


def find_row(log: Log, trace: Trace, at: At) -> int:
    n = trace.rows.row_of(at.hart, at.count)
    if not n:
        raise no_row(log.shown, at)
    return n
