"""What follows from the facts of a crash: its history, its suspects, and the origins of values."""
from __future__ import annotations

import contextlib
from typing import Iterator, Mapping

from ..call import streams
from ..recording.calls import entries_of
from ..recording.log import At, Log, asked_row
from ..recording.opened import NOTHING, Opened, opened
from ..recording.races import Races
from ..recording.recent import FIRST_ROWS, MORE_ROWS
from ..recording.trace import Trace, read_trace
from .control import Control
from .earlier import earlier
from .facts import Byte, Facts, Written, find_starts, writer_of, written
from .formatted import begin_at_argument
from .history import ADDRESS, NO_REGISTER, History
from .origins import origins
from .recursion import find_recursion
from .suspects import Ranking

MOST_RACES = 2000           # so many are asked for


class Analysis(Facts):
    """Facts, and what follows from them:

    history, suspects       and `shown`, those of them that the report tells
    races, unordered        those that `races` lists, and the pairs of them that no fences order
    lines                   the history by source lines
    origin                  what it took from before the rows"""

    def __init__(self, asked: Opened, log: Log, trace: Trace, row: str = "",
                 output: Written | None = None) -> None:
        super().__init__(asked, log, trace, row, output)
        self.file = asked.source
        if output:
            begin_at_argument(self)
        recursion = find_recursion(trace, self.start)
        loop = self.starts[0 if self.hangs else 1:] + [n
                                                       for n in recursion.given if n != self.start]
        entered = {one.hart: one.first for one in self.loops}
        self.history = History(trace, self.starts + loop, control=Control(trace, self.elf, entered),
                               is_output=output is not None, hangs=self.hangs)
        self.races = Races(self.named, self.places)
        if log.harts > 1:
            self.races.read(log.harts, log.name, self.elf.name, MOST_RACES)
        self.unordered = self.races.unordered()
        self.lines = self.history.lines(self.places)
        self.suspects = Ranking(self, self.history, self.unordered, recursion.suspects, loop).found
        self.shown = ([item for item in self.suspects if item.shown]
                      or [item for item in self.suspects if item.kind != "branch"])
        self.origin = origins(self, self.history)

    def find_earlier(self) -> None:
        """Looks before the rows that were read for what stored the words of a loop's exits, and
        near values."""
        loads = [operand.load for loop in self.loops for item in loop.exits if item.leads_out
                 for operand in item.operands if operand.load and not operand.store]
        near = [n for n in self.history.before if self.history.cost[n] < ADDRESS]
        loads += sorted(near, key=self.history.cost.__getitem__)
        with streams.working("stores before the rows that were read are looked for"):
            self.earlier = earlier(self.file, self.elf.name, self.trace, loads)
        self.origin = origins(self, self.history)


def leads_into(history: History, log: Log, more: Log) -> bool:
    """Whether rows that more of the log has may tell where values came from: one was loaded, or is
    in a register that had another value at the start of an interval before."""
    for hart, register in history.left:
        known = log.first_intervals()[hart].registers[register]
        values = {interval.registers[register]
                  for interval in more.intervals if interval.hart == hart}
        if register == NO_REGISTER or values != {known}:
            return True
    return False


@contextlib.contextmanager
def analysed(log_name: str, elf_name: str, given: Mapping[str, str] = NOTHING,
             output: Byte | None = None) -> Iterator[Analysis]:
    """The analysis of a log by the options of a call: --names, --source, --row and --rows. `output`
    is a byte that is asked of."""
    with opened(log_name, elf_name, given) as asked:
        yield analysis_of(asked, given.get("--row", ""), output)


def analysis_of(asked: Opened, row: str, output: Byte | None) -> Analysis:
    """Reads the end of a log and its rows, and analyses them. It reads as many of the last rows as
    --rows says, or of those before what is asked of. Without --rows they are more if values near
    the start come from before the first."""
    source = asked.source
    byte = written(source.whole(), output) if output else None
    at = At(byte.call.hart, byte.call.count) if byte else None
    if row:
        at = asked_row(row)
    entries = entries_of(asked.named)
    most = asked.rows or FIRST_ROWS
    size = most
    log = source.end(most, at)
    trace = read_trace(log, asked.elf.name, entries, 2 * most, at)
    if (log.unread or trace.rows.passed) and not asked.rows and trace.rows.last:
        more = source.end(MORE_ROWS, at)
        with streams.working("values from before are looked for"):
            is_short = needs_more(trace, log, more, row, byte)
        if is_short:
            del trace                           # it is large
            size = MORE_ROWS
            log = more
            trace = read_trace(more, asked.elf.name, entries, MORE_ROWS, at)
        else:
            log = source.end(most, at)
    with streams.working("what is behind it is looked for"):
        found = Analysis(asked, log, trace, row, byte)
    if found.is_part and not asked.rows:
        found.find_earlier()
        source.end(size, at)                    # the file is its log's again
    return found


def needs_more(trace: Trace, log: Log, more: Log, row: str, byte: Written | None) -> bool:
    """Whether values near the start come from before the rows."""
    starts = [writer_of(trace, byte)] if byte else find_starts(log, trace, row)
    unstored = byte and starts[0] == trace.rows.row_of(byte.call.hart, byte.call.count)
    return bool(unstored) or leads_into(History(trace, starts, is_output=byte is not None),
                                        log, more)
