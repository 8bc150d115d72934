"""The last switches of a list of turns, looked for in an earlier round of the program's loops.

If a race comes in a hart's tenth round, each round before it costs switches that nobody needs. No
piece can be left out then, since the others come to other places. So the last pieces are run again
behind fewer of the first ones, each up to the place at which its hart stopped."""
from __future__ import annotations

from typing import Iterator, Optional

from ..recording.cut import PC, cut
from ..recording.turn_ends import turn_lines
from ..recording.turns import Piece, Pieces, joined
from .tries import Tries

LONGEST_END = 6             # pieces of the end that are run again


class Rounds:
    """places  of each piece the one at which its hart stopped"""

    def __init__(self, tries: Tries, pieces: Pieces) -> None:
        self.tries = tries
        self.pieces = pieces
        self.most = {hart: sum(piece.turns for piece in pieces if piece.hart == hart)
                     for hart, _ in pieces}
        lines = {hart: self.lines(pieces, hart) for hart in self.most}
        done = dict.fromkeys(self.most, 0)
        self.places: list[bytes] = []
        for hart, turns in pieces:
            done[hart] += turns
            self.places.append(round_place(lines[hart][done[hart] - 1]))

    def lines(self, pieces: Pieces, hart: int) -> list[bytes]:
        """The line with which each turn of a hart ended, in a run that begins with some pieces."""
        one = self.tries.begin(pieces)
        self.tries.count += 1
        try:
            one.wait()
            made = one.made()
            return turn_lines(made.read, self.tries.ends.elf.name, hart, made.turns().count(hart))
        finally:
            one.remove()

    def shorter(self, most: int) -> Iterator[Pieces]:
        """Lists with no more than so many pieces, the shortest first."""
        for size in range(2, most + 1):
            for end in range(2, min(size, LONGEST_END) + 1):
                found = self.behind(self.pieces[:size - end], len(self.pieces) - end)
                if found:
                    yield found

    def behind(self, first: Pieces, begin: int) -> Optional[Pieces]:
        """Behind some pieces those from a place of the list on, each up to its place; None if one
        doesn't come there, or the search is to end."""
        for at in range(begin, len(self.pieces)):
            if self.tries.is_ended():
                return None
            hart = self.pieces[at].hart
            done = sum(piece.turns for piece in first if piece.hart == hart)
            lines = self.lines(joined((*first, Piece(hart, 2 * self.most[hart]))),
                               hart)[done:done + 2 * self.most[hart]]
            turns = next((turn for turn, line in enumerate(lines, 1)
                          if round_place(line) == self.places[at]), 0)
            if not turns:
                return None
            first = joined((*first, Piece(hart, turns)))
        return first


def round_place(line: bytes) -> bytes:
    """The address of the code, with which a row begins behind its hart and count."""
    return cut(line).key[PC] if line[:1].isdigit() else b""
