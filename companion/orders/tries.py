"""Tries lists of turns side by side. The first in their order that ends as wanted wins, so that the
answer is the same however many are under way."""
from __future__ import annotations

from contextlib import closing
from typing import Generator, Hashable, Iterable, Mapping, NamedTuple, Optional, Sequence

from ..call.errors import NO_INTERVAL, CompanionError
from ..recording.turns import Pieces, pieces_of, size_of, turns_of
from .record import Quick
from .same_end import Ends, Exact, Over, EndedRecording
from .side_by_side import Attempt, SideBySide
from .waiting import Waiting

ANY = 1 << 62, 0            # a size that no list has


class HeldTry(NamedTuple):
    """A try that ends as wanted: which of the candidates it is, and its turns."""
    number: int
    pieces: Pieces


class Try(Attempt):
    """A recording by a list of turns, under way or done.

    asked  the list; turns: the same as bytes"""

    def __init__(self, quick: Quick, options: Mapping[str, str], elf: str,
                 number: int, asked: Pieces) -> None:
        self.asked = asked
        self.turns = turns_of(asked)
        super().__init__(quick, options, elf, number, self.turns, False)


class Tries(SideBySide[Try, Pieces]):
    """options      those of `record`
    leaves_rest  whether a list counts only as far as it was asked for, and what comes behind it is
                 left to seed 0
    ends_within  whether a run has to end by what was asked for
    most_counts  how many instructions a hart did at most in the recording that is wanted"""

    def __init__(self, options: Mapping[str, str], ends: Ends, jobs: int) -> None:
        super().__init__(jobs)
        self.options = dict(options)
        self.ends = ends
        self.leaves_rest = self.ends_within = False
        self.rough: Hashable = None
        self.exact: Exact = Over()
        self.exact_of_last: Exact = Over()
        self.most_counts = 0

    def want(self, made: EndedRecording) -> None:
        """From here on a try is wanted that ends as this recording."""
        self.rough = self.ends.rough(made)
        self.exact = self.ends.exact(made)
        self.most_counts = max(end.count for end in made.read.ends.values())

    def record(self, pieces: Pieces) -> EndedRecording:
        """A recording by a list of turns, whose files stay."""
        one = self.begin(pieces)
        one.wait()
        return one.made()

    def begin(self, asked: Pieces) -> Try:
        self.started += 1
        return Try(self.ends.quick, self.options, self.ends.elf.name, self.started - 1, asked)

    def first(self, candidates: Iterable[Pieces], most: tuple[int, int]) -> Optional[HeldTry]:
        """The first candidate that ends as wanted and is smaller than `most` says."""
        with closing(self.judged_in_order(candidates, most)) as judged:
            return next((HeldTry(at, pieces)
                         for at, pieces in enumerate(judged) if pieces is not None), None)

    def each(self, candidates: Sequence[Pieces]) -> list[bool]:
        """Of each candidate whether it ends as wanted; of those that the search's end left out,
        not."""
        with closing(self.judged_in_order(candidates, ANY)) as judged:
            found = [pieces is not None for pieces in judged]
        return found + [False] * (len(candidates) - len(found))

    def judged_in_order(self, candidates: Iterable[Pieces],
                        most: tuple[int, int]) -> Generator[Optional[Pieces], None, None]:
        """Of each candidate its turns, or None."""
        return self.in_order(candidates, lambda one: self.judged(one, most))

    def judged(self, one: Try, most: tuple[int, int]) -> Optional[Pieces]:
        """The turns of a try that ends as wanted and is small enough."""
        self.count += 1
        made = one.made()
        if self.ends.rough(made) != self.rough:
            return None
        turns = made.turns()
        asked = one.turns
        needed = followed(asked, turns) if self.leaves_rest else turns
        pieces = one.asked if needed == asked else pieces_of(needed)
        if size_of(pieces) >= most or (self.ends_within and not asked.startswith(turns)):
            return None
        found = self.exact_of(made)
        if found is None or not self.exact.is_like(found):
            return None
        if self.leaves_rest and isinstance(found, Waiting) and found.begin(turns) > len(needed):
            return None
        self.exact_of_last = found
        return pieces

    def is_wanted(self, made: EndedRecording) -> bool:
        found = self.exact_of(made) if self.ends.rough(made) == self.rough else None
        return found is not None and self.exact.is_like(found)

    def exact_of(self, made: EndedRecording) -> Optional[Exact]:
        try:
            return self.ends.exact(made, self.exact)
        except CompanionError as error:
            if error.status == NO_INTERVAL:     # the log lost the interval of the end
                return None
            raise


def followed(asked: bytes, turns: bytes) -> bytes:
    """The turns that were asked for, as far as they were legal."""
    if turns.startswith(asked):
        return asked
    return turns[:next((at for at, pair in enumerate(zip(asked, turns)) if pair[0] != pair[1]),
                       len(turns))]
