"""Breakpoints and watchpoints, looked for in the steps that are known."""
from __future__ import annotations

from typing import Iterator, NamedTuple, Optional

from ..recording.cut import hart_of, operation_of, pc_of
from .fills import StepFills
from .lines import Pattern
from .steps import Steps

# All other accesses are of words
SIZES = {b"sb": 1, b"lb": 1, b"lbu": 1, b"sh": 2, b"lh": 2, b"lhu": 2}
FEW = 16  # watched bytes up to which each address is looked for by itself, which is faster

# By gdb's number of the kind: its name, and the accesses that it watches.
WATCH_KINDS = {"2": ("watch", (b"| store ",)), "3": ("rwatch", (b"| load ",)),
               "4": ("awatch", (b"| load ", b"| store "))}
BREAK_KINDS = ("0", "1")
WRITTEN = "2"  # the kind that tells a value which changes, and no access that leaves it
WRITE_KINDS = (WRITTEN, "4")


class Hit(NamedTuple):
    """A place where a hart stands at a breakpoint."""
    place: int
    hart: int


class Watch(NamedTuple):
    """Watched bytes, by gdb's number of the kind."""
    kind: str
    first: int
    length: int


def touches(line: bytes, watch: Watch) -> bool:
    """Whether a row loads or stores one of the watched bytes, if that is watched."""
    size = SIZES.get(operation_of(line), 4)
    for word in WATCH_KINDS[watch.kind][1]:
        at = line.find(word)
        if at >= 0:
            address = int(line[at + len(word):at + len(word) + 8], 16)
            if watch.first < address + size and address < watch.first + watch.length:
                return True
    return False


class Points:
    """What is set. Setting a point twice, or taking out one that isn't set, changes nothing."""

    def __init__(self, steps: Steps, fills: StepFills) -> None:
        self.steps = steps
        self.fills = fills
        self.breaks: set[int] = set()
        self.watches: list[Watch] = []

    def change(self, is_set: bool, kind: str, address: int, length: int) -> bool:
        """Sets a point or takes it out. Returns whether there are such points."""
        if kind in BREAK_KINDS:
            (self.breaks.add if is_set else self.breaks.discard)(address)
            return True
        watch = Watch(kind, address, length)
        if kind in WATCH_KINDS and is_set != (watch in self.watches):
            (self.watches.append if is_set else self.watches.remove)(watch)
        return kind in WATCH_KINDS

    def next_break(self, start: int, end: int, last: bool = False,
                   only: Optional[int] = None) -> Optional[Hit]:
        """The first place in [start, end) at which a hart is before a breakpoint's row, or the
        last one; of all harts, or of one only. A hart that comes to a breakpoint behind its last
        row has no row there: its arrival is such a place too."""
        def at_pc(pc: int) -> Pattern:
            def accepts(line: bytes) -> bool:
                return pc_of(line) == pc and only in (None, int(hart_of(line)))
            return Pattern(b" %08x " % pc, accepts)

        found = self.steps.lines.find([at_pc(address) for address in self.breaks], start, end, last)
        hits = [] if found is None else [Hit(found, self.steps.hart_at(found))]
        for hart, (place, pc) in self.steps.arrivals.items():
            reached = start < place < end if last else start < place <= end
            if pc in self.breaks and reached and only in (None, hart):
                hits.append(Hit(place, hart))
        best = max if last else min
        return best(hits) if hits else None

    def patterns(self, watch: Watch, only: Optional[int]) -> Iterator[Pattern]:
        def accepts(line: bytes) -> bool:
            return touches(line, watch) and only in (None, int(hart_of(line)))

        for word in WATCH_KINDS[watch.kind][1]:
            if watch.length > FEW:
                yield Pattern(word, accepts)
                continue
            # A row tells the first byte that it accesses, up to three before the watched one.
            for address in range(max(0, watch.first - 3), watch.first + watch.length):
                yield Pattern(b"%s%08x=" % (word, address), accepts)

    def next_fill(self, watch: Watch, start: int, end: int, last: bool,
                  only: Optional[int]) -> Optional[int]:
        """The same of what `read` calls filled, which are writes."""
        if watch.kind not in WRITE_KINDS:
            return None
        while True:
            found = self.fills.find(watch.first, watch.length, start, end, last)
            if found is None or only in (None, self.steps.hart_at(found)):
                return found
            start, end = (start, found) if last else (found + 1, end)

    def next_watch(self, start: int, end: int, last: bool = False,
                   only: Optional[int] = None) -> Optional[int]:
        """The first step in [start, end) that makes a watched access, or the last one."""
        patterns = [pattern for watch in self.watches for pattern in self.patterns(watch, only)]
        found = [self.steps.lines.find(patterns, start, end, last)]
        found += [self.next_fill(watch, start, end, last, only) for watch in self.watches]
        places = [place for place in found if place is not None]
        best = max if last else min
        return best(places) if places else None

    def met_at(self, place: int) -> list[Watch]:
        """The watchpoints that the row at a place meets."""
        line = self.steps.lines.line(place)
        return [watch for watch in self.watches if touches(line, watch)
                or self.next_fill(watch, place, place + 1, False, None) is not None]
