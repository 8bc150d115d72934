"""How far each switch of a list of turns can be moved with the same end: the interval in which it
has to lie."""
from __future__ import annotations

from dataclasses import dataclass
from typing import Iterator, NamedTuple, Optional

from ..recording.row import Row, parse_row
from ..recording.turn_ends import turn_lines
from ..recording.turns import Piece, Pieces, again_at, joined
from .same_end import Faulted
from .tries import Tries

MOST_PIECES = 41    # 40 switches: each takes some dozen recordings, and more aren't read by anyone
MOST_LATER = 1 << 12        # turns by which a switch is moved later at most
SLACK = 64                  # turns that the last hart may need more for its fault


class Window(NamedTuple):
    """earlier, later   by how many turns a switch can be moved
    before   the row before which it has to come, or None"""
    earlier: int
    later: int
    before: Optional[Row]


@dataclass
class Side:
    """The search for how far a switch can be moved one way: it doubles the way, and then halves
    what is between.

    low   so far it can; high: so far it can't; most: so far it is tried"""
    at: int
    sign: int
    most: int
    low: int = 0
    high: Optional[int] = None

    def next(self) -> int:
        """How far it is tried next, or 0."""
        if self.high is None:
            return min(self.most, 2 * self.low or 1) if self.low < self.most else 0
        return (self.low + self.high) // 2 if self.high - self.low > 1 else 0

    def take(self, way: int, holds: bool) -> None:
        self.low, self.high = (way, self.high) if holds else (self.low, way)


def shifted(pieces: Pieces, at: int, turns: int, slack: int) -> Pieces:
    """The piece gets so many turns of its hart's next one, or gives them to it; the last one gets
    some more."""
    found = list(pieces)
    again = again_at(pieces, at)
    found[at] = Piece(pieces[at].hart, pieces[at].turns + turns)
    if again >= 0:
        found[again] = Piece(pieces[again].hart, pieces[again].turns - turns)
    last = found.pop()
    return joined([*found, Piece(last.hart, last.turns + slack)])


def sides_of(pieces: Pieces) -> Iterator[Side]:
    for at in range(len(pieces) - 1):
        again = again_at(pieces, at)
        yield Side(at, -1, pieces[at].turns - 1)
        yield Side(at, 1, pieces[again].turns - 1 if again >= 0 else MOST_LATER)


def windows_of(tries: Tries, pieces: Pieces) -> list[Window]:
    """A window for each switch, if they aren't many. Both ends of a side are tried; between them it
    is taken to be alike."""
    if len(pieces) > MOST_PIECES:
        return []
    sides = list(sides_of(pieces))
    tries.ends_within = isinstance(tries.exact, Faulted)
    slack = SLACK if tries.ends_within else 0
    while not tries.stopped:
        asked = [(side, side.next()) for side in sides if side.next()]
        if not asked:
            break
        holds = tries.each([shifted(pieces, side.at, side.sign * way, slack)
                            for side, way in asked])
        for (side, way), good in zip(asked, holds):
            side.take(way, good)
    tries.ends_within = False
    if tries.stopped:
        return []
    return [Window(one.low, other.low, row_behind(tries, pieces, one.at, other))
            for one, other in zip(sides[::2], sides[1::2])]


def row_behind(tries: Tries, pieces: Pieces, at: int, later: Side) -> Optional[Row]:
    """The row before which a switch has to come: that of the first turn with which it comes too
    late."""
    if later.high is None and again_at(pieces, at) < 0:
        return None
    hart = pieces[at].hart
    made = tries.record(shifted(pieces, at, later.low + 1, 0))
    number = sum(piece.turns for piece in pieces[:at + 1] if piece.hart == hart) + later.low
    lines = turn_lines(made.read, tries.ends.elf.name, hart, made.turns().count(hart))
    return parse_row(lines[number]) if number < len(lines) else None
