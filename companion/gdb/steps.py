"""The steps that are known: rows, ends of intervals and passes, in the order in which they were
taken.

A *place* is a number of steps: those before it have been taken, and the next one has its number.
"""
from __future__ import annotations

import bisect
import re
from typing import Callable, Optional

from .lines import KeptLines

ANSWERS = (b"w", b"d")  # `waits` and `done`, which can end an answer to `step`, are no steps


class Steps:
    """Lines of steps, and whose they are: a *span* is consecutive steps of one hart."""

    def __init__(self) -> None:
        self.lines = KeptLines()
        self.spans: list[int] = []  # the places where spans begin
        self.owners: list[int] = []  # their harts
        self.ends: dict[int, list[int]] = {}  # by hart: the places of its `end` lines
        # By hart that has no step left: the place, and its pc
        self.arrivals: dict[int, tuple[int, int]] = {}
        # Are told the place from which on steps are forgotten
        self.when_cut: list[Callable[[int], None]] = []

    @property
    def count(self) -> int:
        return self.lines.count

    def add(self, hart: int, text: bytes) -> int:
        """Takes an answer to `step`; returns how many steps it tells."""
        last = text.rfind(b"\n", 0, len(text) - 1) + 1
        if text[last:last + 1] in ANSWERS:
            text = text[:last]
        count = text.count(b"\n")
        if count:
            if not self.owners or self.owners[-1] != hart:
                self.spans.append(self.count)
                self.owners.append(hart)
            ends = self.ends.setdefault(hart, [])
            place = self.count
            at = 0
            for end in re.finditer(rb"^end ", text, re.M) if b"end " in text else ():
                place = place + text.count(b"\n", at, end.start())
                at = end.start()
                ends.append(place)
            self.lines.add(text, count)
        return count

    def cut(self, place: int) -> None:
        """Forgets the steps from a place on."""
        if place == self.count:
            return
        for tell in self.when_cut:
            tell(place)
        self.lines.cut(place)
        kept = bisect.bisect_left(self.spans, place)
        del self.spans[kept:], self.owners[kept:]
        for places in self.ends.values():
            del places[bisect.bisect_left(places, place):]
        self.arrivals = {hart: arrival
                         for hart, arrival in self.arrivals.items() if arrival[0] <= place}

    def ends_before(self, hart: int, place: int) -> int:
        """How many intervals of a hart have ended before a place."""
        return bisect.bisect_left(self.ends.get(hart, []), place)

    def span_at(self, place: int) -> int:
        return bisect.bisect_right(self.spans, place) - 1

    def hart_at(self, place: int) -> int:
        return self.owners[self.span_at(place)]

    def span_end(self, place: int) -> int:
        """The end of the span that a step belongs to."""
        span = self.span_at(place) + 1
        return self.spans[span] if span < len(self.spans) else self.count

    def is_row(self, place: int) -> bool:
        return self.lines.line(place)[:1].isdigit()  # else `end` or `pass`

    def row_before(self, hart: int, place: int) -> Optional[int]:
        """The place of a hart's latest row before a place, or None."""
        span = bisect.bisect_left(self.spans, place) - 1
        end = place
        while span >= 0:
            begin = self.spans[span]
            if self.owners[span] == hart:
                found = next((at for at in range(end - 1, begin - 1, -1) if self.is_row(at)), None)
                if found is not None:
                    return found
            span -= 1
            end = begin
        return None
