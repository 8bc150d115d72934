"""The registers of harts behind rows that are passed by: each interval begins with all of them, so
only the rows from there on are looked at again, of each hart by itself."""
from __future__ import annotations

import re
from typing import Iterator

from .chunks import chunks
from .cut import last_count
from .instruction import NAMES
from .log import Interval, Log

RESULT = re.compile(rb"\| (\w+)=(\w{8})")
LAST = 1 << 12              # letters of the last rows of a chunk, which tell most registers
NUMBERS = {name.encode(): number for number, name in enumerate(NAMES)}


class PassedRows:
    """counts   {hart: the count of its first row behind those that were passed}"""

    def __init__(self, log: Log, elf_name: str) -> None:
        self.log = log
        self.elf_name = elf_name
        self.intervals = log.by_hart()
        self.counts = {hart: mine[0].start for hart, mine in self.intervals.items()}

    def take(self, text: bytes) -> None:
        """Passes a chunk. Harts that have ended aren't looked for."""
        for hart, mine in self.intervals.items():
            if self.counts[hart] < mine[-1].end:
                self.counts[hart] = max(self.counts[hart], last_count(text, hart) + 1)

    def registers(self) -> dict[int, list[int]]:
        """{hart: its registers before its first row behind those that were passed}"""
        found = {}
        for hart, mine in self.intervals.items():
            count = self.counts[hart]
            # (a fault's row comes behind the last one's end)
            interval = next((one for one in mine if one.end > count), mine[-1])
            values = found[hart] = [0, *interval.registers[1:]]
            for text in self.rows_up_to(interval, count):
                write_registers(values, text)
        return found

    def rows_up_to(self, interval: Interval, count: int) -> Iterator[bytes]:
        """The rows of an interval before the one of a count."""
        if interval.start >= count:
            return
        for text in chunks(self.log.name, self.elf_name, "replay",
                           str(interval.hart), str(interval.number)):
            end = text.find(b"\n%d %d " % (interval.hart, count))
            yield text if end < 0 else text[:end]
            if end >= 0:
                break


def write_registers(values: list[int], text: bytes) -> None:
    """What some rows put into registers. The last rows tell most of it; only the rest is looked for
    in the others."""
    last = dict(RESULT.findall(text, max(0, len(text) - LAST)))
    others = b"|".join(NUMBERS.keys() - last.keys())
    for name, value in [*re.findall(rb"\| (%s)=(\w{8})" % others, text), *last.items()]:
        values[NUMBERS[name]] = int(value, 16)
