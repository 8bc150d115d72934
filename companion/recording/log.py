"""What the log file itself says beside the rows: settings, intervals, Ends and Edges, according to
docs/FORMAT.md."""
from __future__ import annotations

import re
import struct
from array import array
from dataclasses import dataclass
from functools import cached_property
from typing import Iterator, NamedTuple, Optional, Sequence

from ..call import program
from ..call.errors import BAD_LOG, NO_INTERVAL, REFUSED, CompanionError
from ..call.files import check_regular
from ..call.options import whole
from .head import VERSION_1, Head, head_of

HEADER = 1
FIRST_LOAD = 2
SC_OK = 3
SC_FAILED = 4
EDGE = 5
END = 6
SIZES = {HEADER: 146, FIRST_LOAD: 10, SC_OK: 2, SC_FAILED: 2, EDGE: 19, END: 15}
REASONS = {1: "length", 2: "call", 3: "exit", 4: "group", 5: "stopped", 6: "guard", 7: "limit",
           17: "Illegal", 18: "Breakpoint", 19: "FetchOutside", 20: "TargetMisaligned",
           21: "LoadOutside", 22: "LoadMisaligned", 23: "StoreOutside",
           24: "StoreMisaligned", 25: "StoreReadOnly"}
# A call's reason and registers
CALL = "call"
A1 = 11
A7 = 17
# Calls, and the least result of one that failed
READ_CALL = 63
WRITE_CALL = 64
FAILED = 1 << 31
LONGEST_CALL = 4096                             # bytes that a call moves at most
MOST_HARTS = 16                                 # of a recording, by docs/FORMAT.md
NO_END = ""                                     # the reason of an interval without an End
# Bytes of a digest, and of what ends a block
DIGEST = 32
SEAL = 48
LENGTH_BACK = 36                # bytes from a block's end back to the length of its records
# Most records are FirstLoads and Edges: so many that follow each other are passed at once. The
# sizes are those of SIZES.
RUNS = re.compile(rb"(?:\x02.{9}){1,1000}|(?:\x05.{18}){1,1000}|\x01.{145}|\x06.{14}|\x03.|\x04.",
                  re.S)
# An End alone, or others
TO_ENDS = re.compile(rb"(?:\x02.{9}|\x05.{18}|\x01.{145}|[\x03\x04].){1,1000}|\x06.{14}", re.S)
FIRST_FAULT = 17                                # the number of the first reason that is a fault


@dataclass
class Interval:
    """`start` and `end` are counts; `registers` are the pc and x1 to x31 at its start."""
    hart: int
    number: int
    start: int
    end: int
    reason: str
    value: int
    registers: tuple[int, ...]


@dataclass(frozen=True)
class End:
    count: int
    reason: str
    value: int


@dataclass(frozen=True)
class At:
    """An instruction: a hart and its count."""
    hart: int
    count: int


def asked_row(row: str, option: str = "--row") -> At:
    """The instruction that an option names."""
    hart, colon, count = row.partition(":")
    if not colon:
        raise CompanionError(f"{option} has to be HART:COUNT, not {row!r}", REFUSED)
    return At(whole(hart, 0, 255, f"the hart of {option}"),
              whole(count, 0, 1 << 41, f"the count of {option}"))


@dataclass(frozen=True)
class SystemCall:
    """A system call of a hart: its row's count, its kind, the address that it names, the bytes that
    it moved if it is a read or a write, and the address of its code."""
    hart: int
    count: int
    kind: int
    address: int
    size: int
    pc: int


class Edges(NamedTuple):
    """Columns, one entry for each Edge: the access of a hart at a count comes after that of its
    source."""
    counts: array[int]
    source_counts: array[int]
    harts: array[int]
    sources: array[int]


class Log:
    """Settings (version, harts, length, limit, size, memory, dropped), and

    intervals  in the log's order
    ends       {hart: its last End}
    late       harts of which rows are lost that were done beside rows of others which the log has
    records    how many records it has
    bytes      how long the file is
    faulted    whether a hart did
    name       of the file; shown: of the file that was asked of, if this is its end alone
    unread     how many bytes of that file come before
    inputs     {a `read` call's hart and count: the first byte of the input that it got}, or nothing
               if the file lost the run's beginning"""

    def __init__(self, name: str, data: bytes, shown: str = "", unread: int = 0) -> None:
        """`data` has to be what `check` takes: records are read as they stand. CompanionError if
        they end too early."""
        self.name = name
        self.bytes = len(data)
        self.shown = shown or name
        self.unread = unread
        self.version = self.harts = self.length = self.limit = 0
        self.size = self.memory = self.dropped = 0
        self.intervals: list[Interval] = []
        self.called: list[Interval] = []        # those that ended by a system call, in its order
        self.ends: dict[int, End] = {}
        self.late: set[int] = set()
        self.records = 0
        self.edge_runs: list[bytes] = []
        try:
            self.read_records(self.read_head(data))
        except (struct.error, IndexError, KeyError, ValueError):
            raise changed(self.shown)
        self.faulted = any(is_fault(end.reason) for end in self.ends.values())

    def read_head(self, data: bytes) -> bytes:
        """Reads the settings; gives the records."""
        head = head_of(data)
        self.version, self.harts, self.length, self.limit, self.size, self.memory = head[:6]
        self.dropped = head.dropped
        if not 1 <= self.harts <= MOST_HARTS:
            raise IndexError(self.harts)        # of so many lists would be made
        return records_in(data, head)

    def read_records(self, records: bytes) -> None:
        opened: dict[int, Interval] = {}
        for record in runs_of(records):
            tag = record[0]
            hart = record[1]
            self.records += len(record) // SIZES[tag]
            if tag == HEADER:
                opened[hart] = self.header(record)
            elif tag == EDGE:
                self.edge_runs.append(record)
            elif tag == END:
                self.ends[hart] = end = end_of(record)
                interval = opened.pop(hart, None)
                if interval is None:            # the Header of a hart's first End can be lost
                    self.late.add(hart)
                else:
                    interval.end = end.count
                    interval.reason = end.reason
                    interval.value = end.value
                    if interval.reason == CALL:
                        self.called.append(interval)

    def header(self, record: bytes) -> Interval:
        number, count, pc = struct.unpack_from("<QQI", record, 2)
        registers = (pc,) + struct.unpack_from("<31I", record, 22)
        self.intervals.append(Interval(record[1], number, count, count, NO_END, 0, registers))
        return self.intervals[-1]

    @cached_property
    def edges(self) -> Edges:
        """All Edges of the log."""
        found = Edges(array("Q"), array("Q"), array("B"), array("B"))
        for hart, count, source, source_count in struct.iter_unpack("<xBQBQ",
                                                                    b"".join(self.edge_runs)):
            for column, value in zip(found, (count, source_count, hart, source)):
                column.append(value)
        return found

    def rows(self) -> int:
        """How many instructions its intervals have."""
        return sum(interval.end - interval.start for interval in self.intervals)

    def by_hart(self) -> dict[int, list[Interval]]:
        """{hart: its intervals}"""
        found: dict[int, list[Interval]] = {}
        for interval in self.intervals:
            found.setdefault(interval.hart, []).append(interval)
        return found

    def first_intervals(self) -> dict[int, Interval]:
        """{hart: its first interval in the log}"""
        return {hart: found[0] for hart, found in self.by_hart().items()}

    @cached_property
    def inputs(self) -> dict[tuple[int, int], int]:
        if self.unread:
            return load_log(self.shown).inputs
        found: dict[tuple[int, int], int] = {}
        at = 0
        for call in self.system_calls() if not self.dropped else ():
            if call.kind == READ_CALL:
                found[call.hart, call.count] = at
                at += call.size
        return found

    def input_bytes(self, hart: int, count: int, first: int, end: int) -> Sequence[Optional[int]]:
        """Which of the input some bytes are that a `read` call brought; None for each if the file
        lost the run's beginning."""
        begin = self.inputs.get((hart, count))
        return [None] * (end - first) if begin is None else range(begin + first, begin + end)

    def system_calls(self) -> Iterator[SystemCall]:
        """Those after which a hart continued, in their order. What they were asked is in the
        registers that the next Header has."""
        following = {(interval.hart, interval.number): interval.registers
                     for interval in self.intervals}
        for interval in self.called:
            registers = following.get((interval.hart, interval.number + 1))
            if registers and interval.value < FAILED:
                yield SystemCall(interval.hart, interval.end - 1, registers[A7], registers[A1],
                                 min(interval.value, LONGEST_CALL), registers[0] - 4)


def records_in(data: bytes, head: Head) -> bytes:
    """The records of a file. IndexError if it isn't what `check` takes."""
    if head.version == VERSION_1:
        return data[head.records_at:-DIGEST]
    pieces = []
    end = len(data)
    while end > head.records_at:                # sealed blocks, from the last one back
        size, = struct.unpack_from("<I", data, end - LENGTH_BACK)
        pieces.append(data[end - SEAL - size:end - SEAL])
        end -= size + SEAL
    if end < head.records_at:
        raise IndexError(end)                   # no block begins there
    return b"".join(reversed(pieces))


def end_of(record: bytes) -> End:
    count, reason, value = struct.unpack_from("<QBI", record, 2)
    return End(count, REASONS[reason], value)


def runs_of(records: bytes) -> Iterator[bytes]:
    """Each record; FirstLoads that follow each other are one piece, and so are Edges."""
    return (found[0] for found in RUNS.finditer(records))


def no_row(name: str, at: At) -> CompanionError:
    """What to raise of a row that a log doesn't hold: with the counts that it holds of that hart,
    as `list` tells them."""
    first: dict[int, int] = {}
    last: dict[int, int] = {}
    with program.Output("list", name) as lines:
        for line in lines:
            hart, _, start, end = map(int, line.split()[:4])
            first.setdefault(hart, start)
            last[hart] = end
    told = (f"of hart {at.hart} it holds counts from {first[at.hart]} to {last[at.hart]}"
            if at.hart in first else f"its harts are {', '.join(map(str, sorted(first)))}")
    return CompanionError(f"the log holds no row {at.hart}:{at.count}: {told}, "
                          "as `zelkuma list` tells", NO_INTERVAL)


def changed(name: str) -> CompanionError:
    """What to raise of a file that isn't what `check` took."""
    return CompanionError(f"log: {name} changed while it was read", BAD_LOG)


def check(name: str) -> None:
    """Has the program check a log."""
    check_regular(name)
    try:
        program.output("check", name)
    except CompanionError as error:
        if error.status == BAD_LOG:
            with open(name, "rb") as file:
                if file.read(4) == b"\x7fELF":
                    raise CompanionError(f"log: {name} is an ELF file, "
                                         "and the log is named before it: LOG ELF", BAD_LOG)
        raise


def load_ends(name: str) -> dict[int, End]:
    """The last End of each hart of a log that the program has made: so `ends` of the log, for a
    tenth of the time."""
    with open(name, "rb") as file:
        data = file.read()
    found = (piece[0] for piece in TO_ENDS.finditer(records_in(data, head_of(data))))
    return {piece[1]: end_of(piece) for piece in found if piece[0] == END}


def load_log(name: str) -> Log:
    """A log that the program has made or checked."""
    with open(name, "rb") as file:
        return Log(name, file.read())


def read_log(name: str) -> Log:
    check(name)
    return load_log(name)


def is_fault(reason: str) -> bool:
    return reason[:1].isupper()
