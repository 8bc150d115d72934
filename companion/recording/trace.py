"""The rows of a log, read once: what they do, who wrote what, and how harts were called."""
from __future__ import annotations

from typing import NamedTuple, Optional

from .calls import Calls, Entries
from .chunks import OTHER_LINES, after, chunks
from .log import At, Log
from .passed import PassedRows
from .reader import Reader
from .rows import Rows
from .writers import Writers


class Trace(NamedTuple):
    rows: Rows
    writers: Writers
    calls: Calls


def begin_trace(log: Log, entries: Optional[Entries] = None) -> Trace:
    rows = Rows(log)
    return Trace(rows, Writers(rows), Calls(rows, entries))


def read_trace(log: Log, elf_name: str, entries: Optional[Entries] = None, most: int = 0,
               asked: Optional[At] = None) -> Trace:
    """The rows of a log: all, or with `most` about the last so many; of a row that is asked of, the
    last up to it."""
    trace = begin_trace(log, entries)
    rows = log.rows()
    end = b""
    if asked and most and rows > most:
        rows = rows_before(log, elf_name, asked)
        end = row_begin(asked)
    trace.rows.passed = max(0, rows - most) if most else 0
    reader = Reader(*trace)
    passed = PassedRows(log, elf_name)
    for text in after(trace.rows.passed, chunks(log.name, elf_name, log=log), passed.take):
        if trace.rows.passed and not reader.start:
            reader.begin_behind(passed.registers())
        last = text.find(end) if end else -1
        stop = text.find(b"\n", last + 1) if last >= 0 else -1
        reader.read(text if stop < 0 else text[:stop])
        if last >= 0:
            break
    reader.finish()
    return trace


def trace_of(log: Log, text: bytes) -> Trace:
    """The rows that a text of `joint` or `replay` has. Some may be left out."""
    trace = begin_trace(log)
    reader = Reader(*trace)
    rows = OTHER_LINES.sub(b"", b"\n" + text.rstrip(b"\n"))
    if rows.strip(b"\n"):
        reader.read(rows)
    reader.finish()
    return trace


def rows_before(log: Log, elf_name: str, asked: At) -> int:
    """How many rows come before one."""
    rows = 0
    for text in chunks(log.name, elf_name, log=log):
        at = text.find(row_begin(asked))
        if at >= 0:
            rows += text.count(b"\n", 0, at)
            break
        rows += text.count(b"\n")
    return rows


def row_begin(at: At) -> bytes:
    """What a row begins with."""
    return b"\n%d %d " % (at.hart, at.count)
