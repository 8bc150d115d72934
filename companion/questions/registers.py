"""The registers of a hart at a row: the last row before it that wrote one tells it, else the log's
beginning."""
from __future__ import annotations

from typing import Iterable, Optional

from ..recording.cut import hart_at
from ..recording.instruction import NAMES
from ..recording.log import Log
from .window import CountWindow


class Registers:
    """firsts    {hart: its registers at the log's beginning}
    carried   {hart and register: what the last row of it wrote among those that are forgotten}
    known     {hart and register: the place up to which rows were looked at, and what its value was
              there, or None}"""

    def __init__(self, log: Log, window: CountWindow, names: Iterable[str]) -> None:
        """`names` are those that are asked for."""
        self.window = window
        self.needles = {name.encode(): b"| %s=" % name.encode() for name in names}
        self.firsts = {b"%d" % hart: interval.registers
                       for hart, interval in log.first_intervals().items()}
        self.carried: dict[tuple[bytes, bytes], int] = {}
        self.known: dict[tuple[bytes, bytes], tuple[int, Optional[int]]] = {}

    def forget(self, text: bytes) -> None:
        """Takes a chunk that the window forgets."""
        for name, needle in self.needles.items():
            left = set(self.firsts) if needle in text else set()
            at = len(text)
            while left and at >= 0:                 # the latest of each hart
                at = text.rfind(needle, 0, at)
                hart = hart_at(text, at) if at >= 0 else b""
                if hart in left:
                    left.remove(hart)
                    self.carried[hart, name] = value_at(text, at + len(needle))

    def value(self, hart: bytes, name: bytes, place: int) -> Optional[int]:
        """A register before the row that begins at a place; None if nothing tells it. Places are
        asked for in their order."""
        needle = self.needles[name]
        looked_at, found = self.known.get((hart, name), (-1, None))
        for at in self.window.found_before(needle, place, max(0, looked_at)):
            if self.window.is_of(hart, at):
                found = int(self.window.bytes_at(at + len(needle), 8), 16)
                break
        else:
            # It was forgotten what rows between wrote, or nothing was looked at
            if looked_at < self.window.begins[0]:
                found = self.carried.get((hart, name), self.at_start(hart, name))
        self.known[hart, name] = place, found
        return found

    def at_start(self, hart: bytes, name: bytes) -> Optional[int]:
        found = self.firsts.get(hart)
        return found[NAMES.index(name.decode())] if found else None


def value_at(text: bytes, place: int) -> int:
    return int(text[place:place + 8], 16)
