"""Who stored a word before the rows that were read: looked for in chunks of text, of which few rows
are taken apart."""
from __future__ import annotations

from typing import Iterable, NamedTuple, Optional

from ..recording.chunks import STORE, chunks, rows_between, touching_any
from ..recording.cut import cut, last_count, loaded_before
from ..recording.instruction import Instruction
from ..recording.log import Log
from ..recording.recent import LogFile
from ..recording.rows import Rows
from ..recording.trace import Trace, trace_of

MOST_ROWS = 80000000        # are read, as by `history`
MOST_WORDS = 8              # are looked for
# Rows before a store that are read for the calls over it, how many calls are told, and of how many
# stores: each is a replay.
CALLS_ROWS = 20000
MOST_CALLS = 3
MOST_WITH_CALLS = 3


class AskedBytes(NamedTuple):
    """Bytes of a word, as a mask, that a row loaded and that none of the rows that were read gave
    their value."""
    word: int
    rest: int


class Earlier(NamedTuple):
    """A store: its hart and count, its instruction, its row, and the places of the calls over it
    that are known."""
    hart: int
    ic: int
    code: Instruction
    row: str
    calls: list[int]


class EarlierSearch:
    """The latest store to each byte that is asked of, among the rows of a log before those that
    were read."""

    def __init__(self, log: Log, rows: Rows, asked: list[AskedBytes]) -> None:
        self.asked = asked
        self.log = log
        self.pattern = touching_any([(each.word, each.word + 4) for each in asked], STORE)
        # The counts at which the rows that were read begin. A hart that has none there had ended
        # before.
        self.first = {hart: end.count for hart, end in log.ends.items()}
        self.first.update({hart: one.counts[0] for hart, one in rows.harts.items()})
        self.found: dict[int, bytes] = {}       # {byte's address: the row that stored it last}

    def take(self, text: bytes) -> None:
        """The latest rows of a chunk first, so that of a word that is stored often only one is
        taken apart."""
        wanted = {each.word + i for each in self.asked for i in range(4) if each.rest >> i & 1}
        for at in [found.end() for found in self.pattern.finditer(text)][::-1]:
            if not wanted:
                break
            if loaded_before(text, at) == text[at:at + 8]:
                continue                        # an atomic that stored what it loaded gave no value
            begin = text.rfind(b"\n", 0, at) + 1
            end = text.find(b"\n", at)
            row = text[begin:len(text) if end < 0 else end]
            hart, count, key, _ = cut(row)
            if count < self.first.get(int(hart), 0):
                address = int(row[-17:-9], 16)
                mine = wanted & set(range(address, address + Instruction(0, key).width))
                self.found.update(dict.fromkeys(mine, row))
                wanted -= mine

    def row_of(self, asked: AskedBytes, value: int) -> Optional[bytes]:
        """The row that stored the lowest of some bytes, if it gave them this value: a `read` call
        may have come between."""
        row = self.found.get(asked.word + (asked.rest & -asked.rest).bit_length() - 1)
        if row is None:
            return None
        mask = sum(255 << 8 * i for i in range(4)
                   if asked.rest >> i & 1 and self.found.get(asked.word + i) == row)
        return row if (int(row[-8:], 16) ^ value) & mask == 0 else None

    def is_done(self, text: bytes) -> bool:
        """Whether each hart has come to the rows that were read."""
        for hart, first in list(self.first.items()):
            if last_count(text, hart) >= max(0, first - 1):
                del self.first[hart]
        return not self.first


def earlier(source: LogFile, elf_name: str, trace: Trace,
            loads: Iterable[int]) -> dict[AskedBytes, Earlier]:
    """The stores that gave the words of some loads their value, of those that are found among the
    last rows of a log."""
    wanted: dict[AskedBytes, int] = {}
    for n in loads:
        rest = trace.writers.stores(n).rest
        if rest and len(wanted) < MOST_WORDS:
            wanted.setdefault(AskedBytes(trace.rows.access(n).address & ~3, rest),
                              trace.rows.access(n).value)
    if not wanted:
        return {}
    log = source.end(MOST_ROWS)
    search = EarlierSearch(log, trace.rows, list(wanted))
    for text in chunks(log.name, elf_name, log=log):
        search.take(text)
        if search.is_done(text):
            break
    found: dict[AskedBytes, Earlier] = {}
    for asked, value in wanted.items():
        row = search.row_of(asked, value)
        if row:
            found[asked] = store_of(log, elf_name, row, len(found) < MOST_WITH_CALLS)
    return found


def store_of(log: Log, elf_name: str, row: bytes, has_calls: bool) -> Earlier:
    hart, count, key, _ = cut(row)
    calls = calls_over(log, elf_name, int(hart), count) if has_calls else []
    return Earlier(int(hart), count, Instruction(0, key), row.decode("ascii", "replace"), calls)


def calls_over(log: Log, elf_name: str, hart: int, count: int) -> list[int]:
    """The places of the calls over a row, as far as some rows before it tell them."""
    text = b"".join(rows_between(log, elf_name, hart, max(0, count - CALLS_ROWS), count + 1))
    trace = trace_of(log, text[1:])
    n = trace.rows.row_of(hart, count)
    return trace.calls.above(n, MOST_CALLS).calls if n else []
