"""Which rows of a log a question reads: as many of the last ones as its bound allows, decided
before a row is read."""
from __future__ import annotations

import contextlib
from typing import Iterable, Iterator, Mapping, NamedTuple, Protocol, Sequence

from ..call.text import number
from ..recording.calls import Entries, entries_of
from ..recording.chunks import chunks
from ..recording.elf import Elf, last_before
from ..recording.log import Log
from ..recording.opened import opened
from ..recording.places import Places
from ..recording.ready import ready
from ..recording.stacks import Stacks

MOST_ROWS = 80000000        # are read without --rows
# A word that is kept takes 110 bytes of memory here. If there can be more than two million, fewer
# rows are read.
LARGE_MEMORY = 8 << 20
MOST_ROWS_OF_LARGE = 8000000


class Asked(NamedTuple):
    """The rows that a question is asked of, and the names of their program."""
    log: Log
    elf: Elf
    named: Elf
    places: Places

    @property
    def is_whole(self) -> bool:
        """Whether these are all rows of the run."""
        return not self.log.dropped and not self.log.unread

    def stacks(self, more: Iterable[int] = ()) -> Stacks:
        """What follows the calls: it reads each chunk before those who ask it. Functions begin at
        some more addresses, too."""
        return Stacks(Entries({**dict.fromkeys(more, 0), **entries_of(self.named).sizes}),
                      self.log.harts)

    def chunks(self) -> Iterator[bytes]:
        return chunks(self.log.name, self.elf.name, log=self.log)

    def name_of(self, address: int) -> str:
        """The object or the function that an address is in, with the offset, or nothing."""
        function = last_before(self.named.functions, address)
        if function and address < function.address + max(1, function.size):
            return function.name + (f"+{address - function.address}" if address > function.address
                                    else "")
        return self.named.data_name(address)

    def ready(self, hart: int, count: int) -> list[str]:
        return ready(self.log.shown, self.elf, self.named, hart, count)

    def left_out(self) -> list[str]:
        """What of the run isn't among the rows, as lines."""
        log = self.log
        if log.unread:
            return [f"Only the last {number(log.rows())} rows were read; --rows N reads more."]
        return ([f"The log gave up {number(log.dropped)} records before its first row."]
                if log.dropped else [])

    def report(self, head: str, told: Sequence[tuple[int, int]], total: int,
               lines: list[str]) -> list[str]:
        """Lines of what is told of so many, each at a hart's count, with a head; then what opens
        the last, and what isn't read."""
        more = f"; the last {number(len(told))} are told (--last N)" if len(told) < total else ""
        last = self.ready(*told[-1]) if told else []
        return [head + more] + lines + ["  " + line for line in last + self.left_out()]


class RowReader(Protocol):
    def take(self, text: bytes) -> None:
        """Reads a chunk."""


def read(texts: Iterable[bytes], *readers: RowReader) -> None:
    """All of them read these chunks, in one go."""
    for text in texts:
        for each in readers:
            each.take(text)


@contextlib.contextmanager
def asked_of(log_name: str, elf_name: str, given: Mapping[str, str],
             keeps_words: bool = False) -> Iterator[Asked]:
    """What a call asks of: its files, --names and --rows. The most rows that can be given are
    all."""
    with opened(log_name, elf_name, given) as found:
        most = (MOST_ROWS_OF_LARGE if keeps_words and found.source.head.memory > LARGE_MEMORY
                else MOST_ROWS)
        yield Asked(found.log(most), found.elf, found.named, found.places)
