"""One suspect of a crash."""
from __future__ import annotations

from typing import NamedTuple

# What the guilty row of each kind did, and what its other two rows did.
DID = {"store": "stored it in", "back": "gave the memory back in",
       "twice": "gave the memory back in", "calls": "calls itself in", "branch": "chose the way in",
       "unlocked": "didn't hold the others' lock in", "failed": "stored nothing in"}
NEW_OWNER = "the new owner stored in"
# Kinds that have no load
ALONE = "twice", "calls", "branch", "unlocked", "failed"


class Extra(NamedTuple):
    """A row that tells more of a suspect, and what it did, in words."""
    words: str
    row: int


class Suspect:
    """What may be guilty, and what speaks for it.

    kind         one of
     "store"     a load and the store that it got
     "back"      memory that was used after it was given back
     "twice"     memory that was given back twice
     "branch"    a branch that chose the way
     "unlocked"  an access without the lock that others hold
     "failed"    a store-conditional that failed unread
     "calls"     a function that keeps calling itself
    load, store  its rows; they are the same row if it has only one
    guilty       the row that the suspect is about
    extra        more rows that tell of it
    cost, score  how far from the fault it is, and that less what its signs are worth
    why          the signs, in words
    misplaced    whether it stored in a place of something else
    rows         how many pairs of rows are of the same two lines
    shown        whether the report shows it"""

    def __init__(self, kind: str, load: int, store: int, cost: int) -> None:
        self.kind = kind
        self.load = load
        self.store = store
        self.guilty = store
        self.cost = cost
        self.score = float(cost)
        self.why: list[str] = []
        self.extra: list[Extra] = []
        self.rows = 1
        self.shown = True
        self.misplaced = False

    def rows_told(self) -> list[int]:
        """The rows that it is about."""
        return [self.guilty, self.load] + [extra.row for extra in self.extra]

    def sign(self, worth: float, words: str) -> None:
        self.score -= worth
        self.why.append(words)


def rank(suspect: Suspect) -> tuple[float, int, int]:
    return suspect.score, suspect.cost, -suspect.load
