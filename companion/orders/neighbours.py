"""Orders near an order, the same each time. A switch comes a little earlier or later, alone and
with others. Or behind the order up to a switch come bursts of all harts. Or turns are drawn from
the start. Of an order that comes and ends well, switches are moved to shared accesses, too."""
from __future__ import annotations

import random
from itertools import islice, zip_longest
from typing import AbstractSet, Iterator, List, Mapping, Optional, Sequence

from ..recording.turns import Piece, Pieces, again_at, joined
from .meaning import Access
from .runs import AskedTurns
from .windows import SLACK, shifted

# Turns by which one switch is moved at most: the nearest ones come first, and the bound of tries
# mostly ends them before. Each of several is moved by less, as it is drawn how far.
FARTHEST = 64
TOGETHER = 12
LENGTHS = 1, 1, 2, 3, 5, 8, 13, 21, 34  # of bursts: half are of at most 5 turns
BURSTS = 4, 24                          # so many at least and at most
MOST_HARTS_MOVED = 3                    # switches at once: with more it is another order, none near


def neighbours(pieces: Pieces, harts: int, most: int) -> List[AskedTurns]:
    """So many, of four kinds in turn."""
    kinds = (one_moved(pieces), several_moved(pieces, random.Random(1)),
             bursts(pieces, harts, random.Random(2)), drawn())
    in_turn = (one for each in zip_longest(*kinds) for one in each if one)
    return list(islice(in_turn, most))


def one_moved(pieces: Pieces) -> Iterator[AskedTurns]:
    for far in range(1, FARTHEST + 1):
        for at in range(len(pieces) - 1):
            for by in (-far, far):
                if can_move(pieces, at, by):
                    yield AskedTurns(shifted(pieces, at, by, SLACK))


def several_moved(pieces: Pieces, draw: random.Random) -> Iterator[Optional[AskedTurns]]:
    switches = len(pieces) - 1
    while switches > 1:
        found = pieces
        for at in draw.sample(range(switches), draw.randint(2, min(MOST_HARTS_MOVED, switches))):
            by = draw.choice((-1, 1)) * draw.randint(1, TOGETHER)
            moved = shifted(found, at, by, 0) if can_move(found, at, by) else found
            found = moved if len(moved) == len(found) else found
        yield AskedTurns(found) if found != pieces else None


def at_accesses(pieces: Pieces, shared: Mapping[int, Sequence[bool]]) -> List[AskedTurns]:
    """Each switch right behind another access of its hart, the nearest first. `shared` says of each
    turn of a hart if it ended with an access to a word that harts share: moved over others, a
    switch changes nothing."""
    found = []
    for at, piece in enumerate(pieces[:-1]):
        done = sum(each.turns for each in pieces[:at + 1] if each.hart == piece.hart)
        for by in range(-FARTHEST, FARTHEST + 1):
            place = done + by - 1
            if (by and 0 <= place < len(shared[piece.hart]) and shared[piece.hart][place]
                    and can_move(pieces, at, by)):
                found.append((abs(by), at, by))
    return [AskedTurns(shifted(pieces, at, by, SLACK)) for _, at, by in sorted(found)]


def shared_turns(words: Mapping[int, Sequence[AbstractSet[Access]]]) -> dict[int, list[bool]]:
    """Of each hart's turns, whether it accesses a word of which another hart does, too, and that
    one of them stores. `words` are the accesses of each turn."""
    harts: dict[int, set[int]] = {}
    stored: set[int] = set()
    for hart, turns in words.items():
        for access in set().union(*turns):
            harts.setdefault(access.word, set()).add(hart)
            if access.is_store:
                stored.add(access.word)
    shared = {word for word in stored if len(harts[word]) > 1}
    return {hart: [any(access.word in shared for access in turn) for turn in turns]
            for hart, turns in words.items()}


def can_move(pieces: Pieces, at: int, by: int) -> bool:
    """Whether each piece keeps a turn."""
    again = again_at(pieces, at)
    return pieces[at].turns + by > 0 and (again < 0 or pieces[again].turns - by > 0)


def bursts(pieces: Pieces, harts: int, draw: random.Random) -> Iterator[AskedTurns]:
    """The order up to a switch, which is moved, too."""
    while pieces:
        at = draw.randrange(len(pieces))
        cut = max(1, pieces[at].turns + draw.randint(-TOGETHER, TOGETHER))
        rest = [Piece(draw.randrange(harts), draw.choice(LENGTHS))
                for _ in range(draw.randint(*BURSTS))]
        yield AskedTurns(joined([*pieces[:at], Piece(pieces[at].hart, cut), *rest]))


def drawn() -> Iterator[AskedTurns]:
    number = 0
    while True:
        number += 1
        yield from (AskedTurns(schedule=f"sleeper:{number}"),
                    AskedTurns(schedule=f"bursts:{number}"), AskedTurns(seed=number))
