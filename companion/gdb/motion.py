"""Forward and back: by rows, up to breakpoints and watchpoints, and to both ends of the log.

gdb takes it that a watchpoint of RISC-V stops before its access, as a trigger of the hardware does:
it steps over the access by itself, in its direction, and looks at the value then. So forward the
access is the next step at the stop, and on the way back it was the last one.
"""
from __future__ import annotations

from typing import Callable, Optional

from ..recording.cut import pc_of
from .lines import Pattern
from .points import Hit, Points
from .session import Session
from .stops import HartStop, WatchStops
from .target import INTERRUPTED, TRAP

# Steps between two looks at gdb, for Ctrl-C: few at first, as most motions are short, then twice as
# many each time
FIRST_CHUNK = 64
LARGEST_CHUNK = 1 << 16
SINGLE_STEPS = 16  # of a range before it continues by chunks: a step too far takes a way back
BEGIN = "replaylog:begin;"
END = "replaylog:end;"


class Motion:
    """Moves a session, and says where and why it stopped. `alone` says that only the stops of the
    hart that moves count: gdb fails if a thread reports that it hasn't resumed."""

    def __init__(self, session: Session, points: Points, watch_stops: WatchStops,
                 is_interrupted: Callable[[], bool]) -> None:
        self.session = session
        self.points = points
        self.watch_stops = watch_stops
        self.is_interrupted = is_interrupted
        self.steps = session.steps
        self.told: Optional[int] = None  # the place where a fault was reported
        self.base = 0  # where the session begins: some hart has a state

    def begin(self) -> HartStop:
        """Goes to the first place at which a hart has a state."""
        while not self.session.live():
            steps = self.session.next_steps(None, 1)
            if steps is None:
                break
            self.session.extend(*steps)
        self.base = self.session.at
        return HartStop(self.first_hart())

    def first_hart(self) -> int:
        return (self.session.live() or [0])[0]

    def leave(self) -> None:
        """The session goes elsewhere by no move of gdb: nothing is left to tell of where it was."""
        self.told = self.watch_stops.owed = None

    def before_move(self, hart: int, alone: bool, back: bool) -> Optional[HartStop]:
        """The stop of a move that doesn't begin: gdb has asked for an interruption, or is owed a
        watchpoint."""
        if self.is_interrupted():
            return HartStop(hart, INTERRUPTED)
        return self.watch_stops.due(hart, alone, back)

    def met(self, start: int, end: int, first_break: int,
            only: Optional[int]) -> Optional[HartStop]:
        """Goes to the first stop in steps that were taken, and returns it."""
        hit = self.points.next_break(first_break, end, only=only)
        access = self.points.next_watch(start, end if hit is None else hit.place, only=only)
        if access is not None:
            self.session.go_to(access)
            return self.watch_stops.at_access(access, False)
        if hit is not None:
            self.session.go_to(hit.place)
            return HartStop(hit.hart)
        return None

    def ends_here(self, hart: int, alone: bool) -> HartStop:
        """The stop where nothing is left: a fault, once, and then the end."""
        for stopped in [hart] if alone else self.session.live():
            signal = self.session.fault_signal(stopped)
            if signal and self.told != self.session.at:
                self.told = self.session.at
                return HartStop(stopped, signal)
        return HartStop(hart, TRAP, END, alone)

    # Forward

    def go(self, hart: int, alone: bool) -> HartStop:
        """All harts continue, this one first; or this one alone, and what it waits for."""
        session = self.session
        only = hart if alone else None
        stop = self.before_move(hart, alone, False)
        if stop:
            return stop
        if (session.at < self.steps.count and self.steps.hart_at(session.at) != hart
                and session.left(hart)):
            self.steps.cut(session.at)
        start = session.at
        chunk = FIRST_CHUNK
        while True:
            stop = self.met(start, self.steps.count, start, only)
            if stop:
                return stop
            session.go_to(self.steps.count)
            start = session.at
            steps = session.next_steps(hart, chunk, alone)
            if steps is None:
                return self.ends_here(hart, alone)
            session.extend(*steps)
            chunk = min(LARGEST_CHUNK, chunk * 2)
            if self.is_interrupted():
                return HartStop(hart, INTERRUPTED)

    def step(self, hart: int, alone: bool, low: int = 0, high: int = 0) -> HartStop:
        """A hart takes one row, or rows while its pc is in [low, high); others what it waits
        for."""
        session = self.session
        only = hart if alone else None
        moved = 0
        if self.watch_stops.is_stepped_over(False):
            return HartStop(hart)
        stop = self.before_move(hart, alone, False)
        if stop:
            return stop
        while session.left(hart):
            start = session.at
            session.advance(hart, 1 if moved < SINGLE_STEPS else min(LARGEST_CHUNK, moved))
            own = self.steps.hart_at(start) == hart
            first_break = start + 1 if own and not moved else start  # it began there: no new stop
            if own and (moved or self.steps.is_row(start)):
                moved += session.at - start
            left = self.leaves(hart, start, low, high) if own and moved else None
            stop = self.met(start, session.at if left is None else left, first_break, only)
            if stop:
                return stop
            if left is not None:
                session.go_to(left)
                return HartStop(hart)
            if self.is_interrupted():
                return HartStop(hart, INTERRUPTED)
        return self.ends_here(hart, True)

    def leaves(self, hart: int, start: int, low: int, high: int) -> Optional[int]:
        """The first place of a hart outside of [low, high), after the step at `start`, which was
        its own as all steps since; or None."""
        def is_outside(line: bytes) -> bool:
            return line[:1].isdigit() and not low <= pc_of(line) < high

        at = self.session.at
        found = self.steps.lines.find([Pattern(b" ", is_outside)], start + 1, at)
        pc = self.session.pc(hart)
        if found is None and pc is not None and not low <= pc < high:
            return at
        return found

    # Back

    def step_back(self, hart: int, alone: bool) -> HartStop:
        """Goes back over a hart's latest row, and over what the others did since."""
        at = self.session.at
        only = hart if alone else None
        if self.watch_stops.is_stepped_over(True):
            return HartStop(hart)
        stop = self.before_move(hart, alone, True)
        if stop:
            return stop
        place = self.steps.row_before(hart, at)
        if place is not None and place < self.base:
            place = None
        low, first_break = (self.base, self.base) if place is None else (place, place + 1)
        hit = self.points.next_break(first_break, at, True, only)
        if hit is None and place is not None:
            hit = Hit(place, hart)
        return self.back_to(hit, self.points.next_watch(low, at, True, only), hart)

    def go_back(self, hart: int) -> HartStop:
        """All harts go back, up to a stop or to the session's beginning."""
        at = self.session.at
        stop = self.before_move(hart, False, True)
        if stop:
            return stop
        return self.back_to(self.points.next_break(self.base, at, True),
                             self.points.next_watch(self.base, at, True), hart)

    def back_to(self, hit: Optional[Hit], access: Optional[int], hart: int) -> HartStop:
        """Goes to the later of a breakpoint's place and the one behind an access."""
        self.told = None
        if access is not None and (hit is None or access + 1 > hit.place):
            self.session.go_to(access + 1)
            return self.watch_stops.at_access(access, True)
        self.session.go_to(self.base if hit is None else hit.place)
        return HartStop(hart, TRAP, BEGIN) if hit is None else HartStop(hit.hart)
