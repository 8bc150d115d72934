"""Carries an order over to another build: its list of turns is made mark by mark, each by a
recording and a look at what its hart does there."""
from __future__ import annotations

from typing import AbstractSet, List, NamedTuple, Optional, Sequence

from ..recording.row import Row
from ..recording.turns import Piece, Pieces, joined
from .finding import FoundTurn, find, find_like, missing
from .marks import CALL, FAULT, Mark, Order, Point
from .meaning import Turn, access_of
from .runs import Runs

# Turns of a hart in which its mark is looked for: few at first, as each look is a recording that is
# replayed, and so many times more twice.
LEAST_TURNS = 2000
TIMES = 8
MOST_TURNS = LEAST_TURNS * TIMES**2
# A hart that waits takes its turns at few addresses: so many turns are five rounds at so many.
SPIN_CODE = 24
SPIN_TURNS = 5 * SPIN_CODE
# So often others let a hart continue up to one mark: each time costs a look for each of them.
MOST_WAITS = 4
# Turns that the last hart gets, once it goes round and round: two rounds, and some
BEHIND = 64
KEPT = "kept"
FORBIDDEN = "forbidden"
GONE = "gone"


class CarriedStep(NamedTuple):
    """What became of a mark: kept as it was, forbidden by another hart's lock, or gone; and what is
    told of it."""
    mark: Mark
    how: str
    said: str


class Spin(NamedTuple):
    """A hart that goes round and round: the turn with which that began, the word that it looks at,
    and a row of that."""
    begin: int
    word: int
    row: Row


class Carrier:
    """pieces  the list so far
    steps   what became of each mark"""

    def __init__(self, runs: Runs, order: Order) -> None:
        self.runs = runs
        self.order = order
        self.pieces: List[Piece] = []
        self.steps: List[CarriedStep] = []

    def run(self) -> Pieces:
        for mark in self.order.marks:
            self.steps.append(self.place(mark))
        if self.order.last is not None:
            self.pieces.append(Piece(self.order.last, self.turns_to_the_end(self.order.last)))
        return joined(self.pieces)

    def turns_to_the_end(self, hart: int) -> int:
        """Those of a hart that nothing stops: up to its end, or until it waits."""
        most = LEAST_TURNS
        while True:
            turns = self.runs.turns(self.pieces, hart, most)
            spin = spinning(turns)
            if spin or len(turns) < most or most >= MOST_TURNS:
                return (spin.begin if spin else len(turns)) + BEHIND
            most *= TIMES

    def place(self, mark: Mark) -> CarriedStep:
        """By its line, if need be after others have let the hart continue; else by a line like
        it."""
        kept = list(self.pieces)
        turns, found = self.look(mark)
        first = turns
        waited = ""
        for _ in range(MOST_WAITS):
            spin = spinning(turns)
            if found or not spin:
                break
            let = self.let_go(mark, spin)
            if not let:
                return self.placed_alike(mark, first, kept) or self.stuck(mark, spin, kept)
            waited = (f"; but only after hart {self.pieces[-1].hart} has done {let.place()}: "
                      f"until then hart {mark.hart} waits in {self.where(spin.row)} for "
                      f"{self.runs.meaning.name(spin.word)}")
            turns, found = self.look(mark)
            found = found or find_like(self.points(turns), mark)
        if found:
            self.pieces.append(Piece(mark.hart, found.turn + 1))
            return CarriedStep(mark, FORBIDDEN if waited else KEPT, found.how + waited)
        self.pieces = kept
        why = "it has no place any more: " + missing(self.points(first), mark)
        return self.placed_alike(mark, first, kept) or CarriedStep(mark, GONE, why)

    def placed_alike(self, mark: Mark, turns: Sequence[Turn],
                     kept: List[Piece]) -> Optional[CarriedStep]:
        found = find_like(self.points(turns), mark)
        if not found:
            return None
        self.pieces = [*kept, Piece(mark.hart, found.turn + 1)]
        return CarriedStep(mark, KEPT, found.how)

    def stuck(self, mark: Mark, spin: Spin, kept: List[Piece]) -> CarriedStep:
        """A hart that nothing lets continue stops as it begins to wait. What it would have done
        then isn't known."""
        self.pieces = [*kept, Piece(mark.hart, spin.begin + 1)]
        waits = (f"hart {mark.hart} waits in {self.where(spin.row)} for "
                 f"{self.runs.meaning.name(spin.word)}, which no other hart alone changes")
        if not self.runs.meaning.has_object(mark.point.symbol):
            return CarriedStep(mark, GONE, f"it has no object {mark.point.symbol}; {waits}")
        return CarriedStep(mark, FORBIDDEN, f"it can't come: {waits}")

    def points(self, turns: Sequence[Turn]) -> List[Optional[Point]]:
        return self.runs.meaning.points(turns)

    def find(self, turns: Sequence[Turn], mark: Mark) -> Optional[FoundTurn]:
        return find(self.points(turns), mark, lambda at: self.runs.meaning.called(turns[at]))

    def where(self, row: Row) -> str:
        return self.runs.meaning.point(row).place()

    def look(self, mark: Mark) -> tuple[List[Turn], Optional[FoundTurn]]:
        """The turns that a mark's hart takes here, and which is the mark's. Another build may take
        more of them up to it."""
        most = LEAST_TURNS
        begin = -1
        while True:
            turns = self.runs.turns(self.pieces, mark.hart, most)
            found = self.find(turns, mark)
            spin = spinning(turns)
            # A hart that waits still does in a longer look; a loop that computes is over then.
            is_sure = spin is not None and spin.begin == begin
            if found or is_sure or len(turns) < most or most >= MOST_TURNS:
                return turns, found
            begin = spin.begin if spin else -1
            most = most * TIMES

    def let_go(self, mark: Mark, spin: Spin) -> Optional[Point]:
        """Another hart continues until it changes the word for which this one waits: what it has
        done then. Those that stopped last are tried first."""
        kept = list(self.pieces)
        waiting = [*kept, Piece(mark.hart, spin.begin + 1)]
        harts = [piece.hart for piece in reversed(kept)] + list(range(self.order.harts))
        for hart in dict.fromkeys(each for each in harts if each != mark.hart):
            turns = self.runs.turns(waiting, hart, LEAST_TURNS)
            for at, turn in enumerate(turns):
                row = turn.row if turn.may_store(spin.word) else None
                if row and is_change(row):
                    self.pieces = [*waiting, Piece(hart, at + 1)]
                    return self.runs.meaning.point(row)
        return None


def is_change(row: Row) -> bool:
    """Whether a row stores another value than was there, as far as it tells."""
    return not (row.load and row.store and row.load.value == row.store.value)


def spinning(turns: Sequence[Turn]) -> Optional[Spin]:
    """Whether a hart goes round and round at the end of its turns: since when, and what it looks
    at."""
    tail = [row for row in (turn.row for turn in turns[-SPIN_TURNS:]) if row]
    if not tail or access_of(tail[-1]) in (CALL, FAULT):    # it has ended
        return None
    code = {turn.pc for turn in turns[-SPIN_TURNS:] if turn.text}
    looks = [row for row in tail if row.load and "(sp)" not in row.text]
    values = {(row.load.address, row.load.value) for row in looks if row.load}
    if (len(tail) < SPIN_TURNS - 1 or len(code) > SPIN_CODE or not looks
            or len(values) > 2 * SPIN_CODE):
        return None
    begin = next((at for at in range(len(turns), 0, -1) if not is_in(turns[at - 1], code)), 0)
    words = [row.load.address & ~3 for row in looks if row.load]
    word = max(sorted(set(words)), key=words.count)
    row = next(row for row in looks if row.load and row.load.address & ~3 == word)
    return Spin(begin, word, row)


def is_in(turn: Turn, code: AbstractSet[bytes]) -> bool:
    """Also of a turn that ended without an access."""
    return not turn.text or turn.pc in code
