"""Lists of turns that are near a list, each worth a try: in a fixed order, the boldest first."""
from __future__ import annotations

from typing import Iterator, Sequence, Tuple

from ..recording.turns import Piece, Pieces, joined, pieces_of, size_of, turns_of

Move = Tuple[int, Pieces]       # the piece from which on a list of turns differs, and it


def orders(window: Sequence[Piece]) -> list[tuple[int, ...]]:
    """The harts of a window: by their first piece, by their last, and the other way round."""
    first = tuple(dict.fromkeys(piece.hart for piece in window))
    last = tuple(reversed(dict.fromkeys(piece.hart for piece in reversed(window))))
    return list(dict.fromkeys((first, last, last[::-1], first[::-1])))


def grouped(pieces: Pieces, width: int, begin: int) -> Iterator[Move]:
    """The turns of each window are grouped by hart."""
    for at in range(begin, max(begin + 1, len(pieces) - 1), max(1, width // 2)):
        window = pieces[at:at + width]
        turns: dict[int, int] = {}
        for piece in window:
            turns[piece.hart] = turns.get(piece.hart, 0) + piece.turns
        for order in orders(window):
            found = joined(pieces[:at] + tuple(Piece(hart, turns[hart]) for hart in order)
                           + pieces[at + width:])
            if found != pieces:
                yield at, found


def rest_grouped(pieces: Pieces, kept: Pieces) -> Iterator[Move]:
    """What comes behind the pieces that are kept is grouped by hart."""
    turns = turns_of(pieces)[len(turns_of(kept)):]
    found = [joined(kept + tuple(Piece(hart, turns.count(hart)) for hart in order))
             for order in orders(pieces_of(turns))]
    return ((1, each) for each in sorted(found, key=size_of))


def without(pieces: Pieces, width: int, begin: int) -> Iterator[Move]:
    """Each window is left out."""
    for at in range(begin, len(pieces), max(1, width // 2)):
        yield at, joined(pieces[:at] + pieces[at + width:])


def moved(pieces: Pieces, begin: int) -> Iterator[Move]:
    """Each piece is put into its hart's next one, or into the one before."""
    for at in range(begin, len(pieces)):
        hart, turns = pieces[at]
        mine = [i for i, piece in enumerate(pieces) if piece.hart == hart]
        place = mine.index(at)
        for other in mine[place + 1:place + 2] + mine[:place][-1:]:
            found = list(pieces)
            found[other] = Piece(hart, found[other].turns + turns)
            del found[at]
            yield at, joined(found)


def shorter(pieces: Pieces, begin: int) -> Iterator[Move]:
    """Each piece loses some of its turns: half, a quarter, .., one."""
    for at in range(begin, len(pieces)):
        hart, turns = pieces[at]
        less = (turns + 1) // 2
        while less and less < turns:
            yield at, pieces[:at] + (Piece(hart, turns - less),) + pieces[at + 1:]
            less //= 2
