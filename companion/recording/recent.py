"""The end of a large log as a log of its own, since what tells of a crash is mostly among its last
rows.

How many rows an interval has is in its Header and its End, so what is read is decided before a row
is asked for. The last records of a run are a log, too (docs/FORMAT.md). The program's own `joint`,
`races` and `list` read it, in a time that doesn't grow with the whole. `salvage` would save such an
end, but from a block's border on: there a block may have 25 intervals, each of any length."""
from __future__ import annotations

import contextlib
import hashlib
import mmap
import os
import struct
from typing import Iterator, Optional

from ..call import program, streams
from ..call.errors import UNREADABLE, CompanionError
from ..call.scratch import Scratch
from .head import DROPPED, DROPPED_AT, LONGEST, VERSION_1, VERSION_2, Head, head_of, read_head
from .log import (END, FIRST_FAULT, HEADER, REASONS, SEAL, SIZES, At, End, Log, changed, check,
                  load_log, no_row, runs_of)

# bytes: a file of version 1 that is larger isn't read whole
LARGEST_SMALL = 1 << 20
BLOCK = 4096                    # bytes of a block's records
# Are read at first, and if values come from before them
FIRST_ROWS = 1000000
MORE_ROWS = 2600000


class LogFile:
    """A log that is checked, and ends of it. Its files are gone once it is closed, unless they are
    in a folder that is given."""

    def __init__(self, name: str, folder: str = "") -> None:
        self.name = name
        self.source = name
        self.files = contextlib.ExitStack()
        self.folder = folder

    def close(self) -> None:
        self.files.close()

    def path(self, name: str) -> str:
        """The name of a file that is kept until the end."""
        if not self.folder:
            try:
                self.folder = self.files.enter_context(Scratch())
            except OSError as error:
                raise CompanionError(f"no place for the end of {self.name}: "
                                     f"{error.strerror or error}", UNREADABLE)
        return os.path.join(self.folder, name)

    @property
    def head(self) -> Head:
        """The settings of the run."""
        try:
            return read_head(self.name)
        except ValueError:
            raise changed(self.name)

    def whole(self) -> Log:
        return load_log(self.name)

    def end(self, rows: int, asked: Optional[At] = None) -> Log:
        """The shortest end that holds so many rows and what else is needed, or the whole log if it
        is no longer. Of a row that is asked of, so many rows before it are held."""
        try:
            return self.end_of_file(rows, asked)
        except (ValueError, IndexError, KeyError, struct.error):
            raise changed(self.name)

    def end_of_file(self, rows: int, asked: Optional[At]) -> Log:
        with open(self.source, "rb") as file, mmap.mmap(file.fileno(), 0,
                                                        access=mmap.ACCESS_READ) as data:
            head = head_of(data[:LONGEST])
            if head.version == VERSION_1:
                if len(data) <= LARGEST_SMALL:
                    log = self.whole()
                    if log.rows() <= rows:
                        return log
                with streams.working("the log is converted"):
                    program.output("convert", self.name, self.path("converted"))
                self.source = self.path("converted")
                return self.end_of_file(rows, asked)
            last = LastRecords(data, head, rows, asked)
            if last.asked:
                raise no_row(self.name, last.asked)
            if not last.unread:
                return self.whole()
            settings = data[:DROPPED_AT[VERSION_2]]
            sealed = b"".join(sealed_blocks(settings, last.dropped, last.records()))
        with open(self.path("log"), "wb") as kept:
            kept.write(sealed)
        log = Log(self.path("log"), sealed, self.name, last.unread)
        log.ends = dict(sorted(last.last.items()))      # some may be further back
        return log


def exit_code(name: str) -> Optional[int]:
    """What a program that ended well ended with, as Linux tells it: the code of exit_group, else
    that of hart 0. None if the log, which isn't checked, doesn't say it."""
    try:
        with open(name, "rb") as file, mmap.mmap(file.fileno(), 0, access=mmap.ACCESS_READ) as data:
            head = head_of(data[:LONGEST])
            is_sealed = head.version != VERSION_1
            ends = LastRecords(data, head, 1, None).last if is_sealed else Log(name, data[:]).ends
    except (CompanionError, OSError, ValueError, IndexError, KeyError, struct.error):
        return None
    codes = ([end.value for end in ends.values() if end.reason == "group"]
             + [ends[hart].value for hart in (0,) if hart in ends])
    return codes[0] & 255 if codes else None


def open_log(name: str) -> LogFile:
    """A log that the program has checked."""
    with streams.working("the log is checked"):
        check(name)
    return LogFile(name)


class LastRecords:
    """The last records of a file, from the end back, until they hold so many rows, the last
    interval of each hart that ended there, and the row that is asked of. Intervals can be long:
    once there are twice as many rows, those of the harts that faulted are enough.

    unread   how many bytes come before them; dropped: how many records
    last     {hart: its last End}, wherever that is"""

    def __init__(self, data: mmap.mmap, head: Head, rows: int, asked: Optional[At]) -> None:
        self.most = rows
        self.asked = asked
        self.rows = self.unread = self.dropped = 0
        # {hart: where its interval ends, whose Header comes further back}
        self.ends: dict[int, int] = {}
        self.awaited: set[int] = set()          # harts whose last interval is still incomplete
        self.faulted: set[int] = set()
        self.seen: set[int] = set()
        self.last: dict[int, End] = {}
        self.pieces: list[bytes] = []
        begin = head.records_at
        end = len(data)
        while end > begin and not (self.unread and len(self.last) == head.harts):
            before, _, size = struct.unpack_from("<QII", data, end - SEAL)
            end -= SEAL + size
            self.take_block(data[end:end + size], end - begin, before)
        if end < begin:
            raise IndexError(end)               # no block begins there

    def records(self) -> bytes:
        return b"".join(reversed(self.pieces))

    def take_block(self, block: bytes, unread: int, before: int) -> None:
        """Takes the records of a block, the last one first, while they are needed."""
        runs = list(runs_of(block))
        at = len(block)
        while runs:
            run = runs.pop()
            at -= len(run)
            if run[0] == END:
                count, reason, value = struct.unpack_from("<QBI", run, 2)
                self.last.setdefault(run[1], End(count, REASONS[reason], value))
            if not self.unread:
                self.take(run)
                if run[0] == HEADER and self.is_enough():
                    self.unread = unread + at
                    self.dropped = before + sum(len(one) // SIZES[one[0]] for one in runs)
                    self.pieces.append(block[at:])
        if not self.unread:
            self.pieces.append(block)

    def is_enough(self) -> bool:
        if self.asked or not self.last or self.rows < self.most or self.awaited & self.faulted:
            return False
        return not self.awaited or self.rows >= 2 * self.most

    def take(self, record: bytes) -> None:
        """Takes the record before those that were taken."""
        hart = record[1]
        if record[0] == END:
            self.ends[hart] = struct.unpack_from("<Q", record, 2)[0]
            if hart not in self.seen:
                self.seen.add(hart)
                self.awaited.add(hart)
                if record[10] >= FIRST_FAULT:
                    self.faulted.add(hart)
        elif record[0] == HEADER and hart in self.ends:
            begin = struct.unpack_from("<Q", record, 10)[0]
            end = self.ends.pop(hart)
            self.awaited.discard(hart)
            self.rows += end - begin
            if self.asked and self.asked.hart == hart and begin <= self.asked.count <= end:
                self.rows = self.asked.count - begin
                self.asked = None
                self.awaited = set()


def sealed_blocks(settings: bytes, dropped: int, records: bytes) -> Iterator[bytes]:
    """The file of version 2 of some records, in pieces."""
    head = settings + DROPPED.pack(dropped, len(records))
    key = hashlib.sha256(head).digest()
    left = len(records)
    yield head + key
    for block, count in blocks_of(records):
        left -= len(block)
        body = block + struct.pack("<QII", dropped, left, len(block))
        yield body + hashlib.sha256(key + body).digest()
        dropped += count


def blocks_of(records: bytes) -> Iterator[tuple[bytes, int]]:
    """The records of each block, and how many they are."""
    block = b""
    count = 0
    for run in runs_of(records):
        size = SIZES[run[0]]
        while run:
            fits = (BLOCK - len(block)) // size * size
            block += run[:fits]
            count += len(run[:fits]) // size
            run = run[fits:]
            if run:
                yield block, count
                block = b""
                count = 0
    if block:
        yield block, count
