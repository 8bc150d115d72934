"""What `read` calls filled: no row tells these bytes, but the log has the registers at each
call."""
from __future__ import annotations

import bisect
from typing import Iterator, NamedTuple, Optional

from ..recording.cut import count_of, hart_of
from ..recording.log import LONGEST_CALL, READ_CALL, Log
from .lines import line_around
from .steps import Steps

CALL_WORD = b" ecall | a0="


class Range(NamedTuple):
    address: int
    length: int


class StepFills:
    """The `read` calls among the steps."""

    def __init__(self, steps: Steps, log: Log) -> None:
        self.steps = steps
        self.reads = {(call.hart, call.count): Range(call.address, call.size)
                      for call in log.system_calls() if call.kind == READ_CALL and call.size}
        self.seen = 0  # the steps before this place have been looked through
        self.places: list[int] = []  # of the fills
        self.ranges: list[Range] = []
        self.places_of: dict[Range, list[int]] = {}
        self.different: list[Range] = []  # those ranges, by address
        steps.when_cut.append(self.forget)

    def forget(self, place: int) -> None:
        """Forgets the calls from a place on."""
        self.seen = min(self.seen, place)
        kept = bisect.bisect_left(self.places, place)
        for filled in reversed(self.ranges[kept:]):
            self.places_of[filled].pop()
            if not self.places_of[filled]:
                del self.places_of[filled], self.different[bisect.bisect_left(self.different,
                                                                              filled)]
        del self.places[kept:], self.ranges[kept:]

    def take(self, place: int, filled: Range) -> None:
        self.places.append(place)
        self.ranges.append(filled)
        if filled not in self.places_of:
            self.places_of[filled] = []
            bisect.insort(self.different, filled)
        self.places_of[filled].append(place)

    def look(self, end: int) -> None:
        """Looks through the steps before a place."""
        for place, self.seen, text, at, high in self.steps.lines.parts(self.seen, end):
            found = text.find(CALL_WORD, at, high)
            while found >= 0:
                begin, behind = line_around(text, found)
                place = place + text.count(b"\n", at, begin)
                at = begin
                head = bytes(text[begin:found])
                when = int(hart_of(head)), count_of(head)
                if when in self.reads:
                    self.take(place, self.reads[when])
                found = text.find(CALL_WORD, behind, high)

    def between(self, start: int, end: int) -> Iterator[tuple[int, Range]]:
        """The fills in [start, end): the place of each, with its address and length."""
        self.look(end)
        low, high = (bisect.bisect_left(self.places, place) for place in (start, end))
        return zip(self.places[low:high], self.ranges[low:high])

    def find(self, first: int, length: int, start: int, end: int,
             last: bool = False) -> Optional[int]:
        """The place of the first call in [start, end), or the last, that filled one of these
        bytes."""
        self.look(end)
        low, high = (bisect.bisect_left(self.different, Range(address, 0))
                     for address in (first - LONGEST_CALL, first + length))
        found = []
        for filled in self.different[low:high]:
            if first < filled.address + filled.length:
                places = self.places_of[filled]
                begin, stop = (bisect.bisect_left(places, place) for place in (start, end))
                if begin < stop:
                    found.append(places[stop - 1 if last else begin])
        best = max if last else min
        return best(found) if found else None
