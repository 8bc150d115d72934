"""Lists of turns, as `record` keeps and follows them, in pieces: turns of one hart in a row."""
from __future__ import annotations

from itertools import groupby
from typing import NamedTuple, Sequence, Tuple

BYTES = [bytes([hart]) for hart in range(256)]


class Piece(NamedTuple):
    hart: int
    turns: int


Pieces = Tuple[Piece, ...]


def pieces_of(turns: bytes) -> Pieces:
    """A byte is a turn, and says whose."""
    return tuple(Piece(hart, len(list(same))) for hart, same in groupby(turns))


def turns_of(pieces: Sequence[Piece]) -> bytes:
    return b"".join([BYTES[hart] * turns for hart, turns in pieces])


def joined(pieces: Sequence[Piece]) -> Pieces:
    """The same turns, with one piece if a hart continues."""
    found: list[Piece] = []
    for piece in pieces:
        if found and found[-1].hart == piece.hart:
            found[-1] = Piece(piece.hart, found[-1].turns + piece.turns)
        elif piece.turns:
            found.append(piece)
    return tuple(found)


def again_at(pieces: Pieces, at: int) -> int:
    """The piece with which a piece's hart continues, or -1."""
    return next((i for i in range(at + 1, len(pieces)) if pieces[i].hart == pieces[at].hart), -1)


def size_of(pieces: Sequence[Piece]) -> tuple[int, int]:
    """What is smaller is better: pieces, then turns."""
    return len(pieces), sum(piece.turns for piece in pieces)


def shown(pieces: Sequence[Piece]) -> str:
    return " ".join(f"{piece.hart}x{piece.turns}" for piece in pieces)
