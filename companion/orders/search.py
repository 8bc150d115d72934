"""The search for the shortest list of turns by which a program ends as its recording did."""
from __future__ import annotations

from typing import Callable, Iterator, NamedTuple, Optional

from ..call.text import counted
from ..recording.turns import Pieces, pieces_of, size_of, turns_of
from . import moves
from .moves import Move
from .record import DONE
from .rounds import Rounds
from .same_end import EndedRecording
from .tries import ANY, Tries
from .waiting import Waiting
from .windows import Window, shifted, sides_of, windows_of

# A hart may do twice as many instructions as in the recording, and so many more
MORE_COUNTS = 10000
ENOUGH = 13                 # pieces: twelve switches can be read; with more a round before is tried
LEAST_LIMIT = 1000          # to which the limit of a run that hangs is lowered


class Nearest(NamedTuple):
    """A recording that ends well, and by how many turns which switch was moved, earlier if they are
    below 0."""
    made: EndedRecording
    switch: int
    turns: int

    def line(self) -> str:
        return (f"nearest run that ends well: switch {self.switch} comes "
                f"{counted(abs(self.turns), 'turn')} {'earlier' if self.turns < 0 else 'later'}")


class Search:
    """best    the shortest list so far; of a run that hangs only up to where all of its harts wait,
    until it is done
    recorded, recorded_pieces, recorded_turns   of the recording
    core    its pieces that matter: behind them harts wait for ever
    enough  the limit under which a run that hangs was tried"""

    def __init__(self, tries: Tries, recorded: EndedRecording) -> None:
        self.tries = tries
        self.best = pieces_of(recorded.turns())
        self.limit = self.enough = int(tries.options["--limit"])
        self.recorded_pieces, self.recorded_turns = size_of(self.best)
        self.core = self.recorded = self.best
        self.windows: list[Window] = []
        tries.want(recorded)

    def run(self) -> None:
        if isinstance(self.tries.exact, Waiting):
            self.lower_limit()
            self.leave_waiting()
        else:
            self.tries.options["--limit"] = str(min(self.limit,
                                                    2 * self.tries.most_counts + MORE_COUNTS))
        self.shorten()
        if len(self.best) > ENOUGH and self.begin_earlier():
            self.shorten()
        self.core = self.best
        self.windows = windows_of(self.tries, self.best)
        self.enough = int(self.tries.options["--limit"])
        self.tries.options["--limit"] = str(self.limit)
        if self.tries.leaves_rest:
            self.tries.leaves_rest = False
            self.end_waiting()

    def nearest_good(self) -> Optional[Nearest]:
        """The recording with the least move of one switch out of its window, of several that of the
        last switch, or None. Behind the list its turns are those of seed 0."""
        lows = [low for window in self.windows for low in (window.earlier, window.later)]
        moved = [(side.at, side.sign * (low + 1))
                 for side, low in zip(sides_of(self.core), lows) if low < side.most]
        for at, turns in sorted(moved, key=lambda move: (abs(move[1]), -move[0])):
            made = self.tries.record(shifted(self.core, at, turns, 0))
            if made.status == DONE:
                return Nearest(made, at + 1, turns)
        return None

    def shorten(self) -> None:
        self.group()
        while True:
            if self.tries.leaves_rest:
                self.lower_limit()              # a shorter list needs less
            if not self.drop() | self.follow(moves.moved) | self.follow(moves.shorter):
                break

    def begin_earlier(self) -> bool:
        """Takes the shortest list by which the last switches come in an earlier round, if one is
        short enough."""
        for pieces in Rounds(self.tries, self.best).shorter(ENOUGH):
            held = self.tries.first([pieces], size_of(self.best))
            if held is not None or self.tries.is_ended():
                self.best = held.pieces if held else self.best
                return held is not None
        return False

    def follow(self, near: Callable[[Pieces, int], Iterator[Move]]) -> bool:
        """Takes each move that holds, and continues from its place. Whether there was one."""
        begin = 0
        has_moved = False
        while True:
            places: list[int] = []

            def candidates() -> Iterator[Pieces]:
                for at, pieces in near(self.best, begin):
                    places.append(at)
                    yield pieces

            held = self.tries.first(candidates(), size_of(self.best))
            if held is None:
                return has_moved
            self.best = held.pieces
            begin = places[held.number]
            has_moved = True

    def group(self) -> None:
        width = len(self.best)
        while width > 2:
            self.follow(lambda pieces, begin: moves.grouped(pieces, width, begin))
            width = width * 2 // 3

    def drop(self) -> bool:
        width = len(self.best) // 2
        has_moved = False
        while width:
            has_moved |= self.follow(lambda pieces, begin: moves.without(pieces, width, begin))
            width //= 2
        return has_moved

    def lower_limit(self) -> None:
        """Harts that wait for ever wait under a lower limit as well, and a try is done sooner.
        Others may come to it too."""
        if isinstance(self.tries.exact, Waiting):
            self.tries.ends.waiting = set(self.tries.exact.stays)
        limit = int(self.tries.options["--limit"])
        while limit > LEAST_LIMIT:
            self.tries.options["--limit"] = str(limit // 2)
            held = self.tries.first([self.best], ANY)
            if held is None:
                break
            limit = limit // 2
            self.best = held.pieces
        self.tries.options["--limit"] = str(min(self.limit, 2 * limit))
        held = self.tries.first([self.best], ANY)
        if held is not None:
            self.best = held.pieces

    def leave_waiting(self) -> None:
        """From where all of these harts wait, the turns are those of seed 0, by which none of them
        waits too short."""
        turns = turns_of(self.best)
        found = self.tries.exact_of_last
        self.tries.leaves_rest = True
        if isinstance(found, Waiting):
            self.best = pieces_of(turns[:found.begin(turns)])

    def end_waiting(self) -> None:
        """The whole list: where the harts wait, one after the other."""
        known = self.best
        self.tries.ends.waiting = None
        made = self.tries.record(known)
        if not self.tries.is_wanted(made):      # other harts come to the limit as well
            self.best = self.core = self.recorded
            self.windows = []
            return
        self.best = pieces_of(made.turns())
        self.follow(lambda pieces, begin: moves.rest_grouped(pieces, known) if not begin
                    else iter(()))
