"""What a stop tells gdb, and by how many stops gdb is told of an access that several watch.

A stop tells one address, as a trigger of the hardware does, and gdb looks at the watchpoints that
hold it and at no others. So if an access changes what others watch, each is told by a stop of its
own, before the next move begins: at the place to which gdb's step over the access led. gdb steps
over such a stop too, and doesn't move. So each is told right behind its access, with the value
that this access left.
"""
from __future__ import annotations

from typing import Callable, NamedTuple, Optional

from .points import WATCH_KINDS, WRITTEN, Points, Watch
from .session import Session
from .target import TRAP


class HartStop(NamedTuple):
    """Which hart has stopped, by which of gdb's signals, what more gdb is told, and whether this
    hart was resumed alone."""
    hart: int
    signal: int = TRAP
    detail: str = ""
    is_alone: bool = False


class Owed(NamedTuple):
    """Watchpoints of a hart's access that gdb wasn't told of: the direction and place in which they
    are told, and whether the latest stop told one of them, which gdb steps over next."""
    hart: int
    watches: list[Watch]
    back: bool
    place: int
    is_stepped_over: bool = False


def split_watches(watches: list[Watch]) -> tuple[Watch, list[Watch]]:
    """Of watchpoints that one access met: the one whose address is told, so that the fewest are
    left, and those that are left."""
    def left(told: Watch) -> list[Watch]:
        return [each for each in watches if not each.first <= told.first < each.first + each.length]

    told = min(watches, key=lambda watch: len(left(watch)))
    return told, left(told)


class WatchStops:
    """The stops at watched accesses. `read` gives memory as gdb sees it."""

    def __init__(self, session: Session, points: Points, read: Callable[[int, int], bytes]) -> None:
        self.session = session
        self.points = points
        self.read = read
        self.owed: Optional[Owed] = None

    def at_access(self, place: int, back: bool) -> HartStop:
        """The stop at an access: before it, or behind it on the way back."""
        hart = self.session.steps.hart_at(place)
        behind = place if back else place + 1
        return self.tell(Owed(hart, self.changed(place), back, behind))

    def changed(self, place: int) -> list[Watch]:
        """The watchpoints that the row at a place meets. If there are several, those whose bytes it
        changes, and those that tell each access: gdb would look at the others in vain."""
        watches = self.points.met_at(place)
        here = self.session.at
        if len(watches) == 1:
            return watches
        values = []
        for at in (place, place + 1):
            self.session.go_to(at)
            values.append([self.read(watch.first, watch.length) for watch in watches])
        self.session.go_to(here)
        return [watch for watch, before, after in zip(watches, *values)
                if watch.kind != WRITTEN or before != after] or watches

    def tell(self, owed: Owed) -> HartStop:
        told, rest = split_watches(owed.watches)
        self.owed = owed._replace(watches=rest)
        return HartStop(owed.hart, TRAP, f"{WATCH_KINDS[told.kind][0]}:{told.first:x};")

    def is_stepped_over(self, back: bool) -> bool:
        """Whether a step is gdb's over a stop that told what was owed: it doesn't move."""
        owed = self.owed
        if not owed or not owed.is_stepped_over or owed.back != back:
            return False
        self.owed = owed._replace(is_stepped_over=False)
        return True

    def due(self, hart: int, alone: bool, back: bool) -> Optional[HartStop]:
        """The stop of a move that doesn't begin, since watchpoints are owed at this place."""
        owed = self.owed
        at = self.session.at
        if not owed or owed.back == back and abs(at - owed.place) == 1:
            return None                         # gdb's step over the access comes next
        self.owed = None
        watches = [watch for watch in owed.watches if watch in self.points.watches]
        if not watches or (owed.back, owed.place) != (back, at) or alone and owed.hart != hart:
            return None
        return self.tell(owed._replace(watches=watches, is_stepped_over=True))
