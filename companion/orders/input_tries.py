"""Tries inputs: each is one recording with one hart. The first in their order that ends as wanted
is taken."""
from __future__ import annotations

import hashlib
from contextlib import closing
from itertools import islice
from typing import Dict, Hashable, Iterable, Iterator, Mapping, NamedTuple, Optional

from ..call.errors import NO_INTERVAL, CompanionError
from .input_ends import InputEnd, InputEnds
from .record import LIMIT
from .same_end import Over, EndedRecording
from .side_by_side import Attempt, SideBySide

# A run may do a quarter more instructions than the recorded one, and so many
SHARE = 4
MORE = 20000
LEAST_LIMIT = 1000          # to which the limit of a run that hangs is lowered
MOST_INTERVAL = 20000       # instructions, so that the last interval is soon read


class HeldInput(NamedTuple):
    """A try that ends as wanted: which of the candidates it is, and its input."""
    number: int
    data: bytes


class Answered(NamedTuple):
    data: bytes
    is_wanted: bool


class InputTries(SideBySide[Attempt, bytes]):
    """options  those of `record`, but for the input
    known    {digest of an input: whether its run ends as wanted}"""

    def __init__(self, options: Mapping[str, str], ends: InputEnds, jobs: int) -> None:
        super().__init__(jobs)
        interval = str(min(MOST_INTERVAL, int(options["--interval"])))
        self.options = {**options, "--format": "2", "--interval": interval}
        self.ends = ends
        self.known: Dict[bytes, bool] = {}
        self.rough: Hashable = None
        self.wanted: InputEnd = Over()

    def begin(self, asked: bytes) -> Attempt:
        self.started += 1
        return Attempt(self.ends.quick, self.options, self.ends.elf.name, self.started - 1,
                       asked, True)

    def record(self, data: bytes) -> EndedRecording:
        """A recording whose files stay."""
        one = self.begin(data)
        one.wait()
        return one.made()

    def want(self, made: EndedRecording) -> None:
        """From here on a try is wanted that ends as this recording, and doesn't take much
        longer."""
        self.rough = self.ends.rough(made)
        self.wanted = self.ends.exact(made)
        if made.status != LIMIT:
            most = max(end.count for end in made.read.ends.values())
            self.options["--limit"] = str(min(int(self.options["--limit"]),
                                              most + most // SHARE + MORE))

    def lower_limit(self, data: bytes) -> None:
        """A run that hangs is in its loop under a lower limit as well, and a try is done sooner."""
        high = low = int(self.options["--limit"])
        while low > LEAST_LIMIT and not self.is_ended():
            self.options["--limit"] = str(low // 2)
            if not self.is_wanted(self.begin(data)):
                break
            low //= 2
        self.options["--limit"] = str(min(high, 2 * low))
        self.known.clear()

    def is_wanted(self, one: Attempt) -> bool:
        one.wait()
        try:
            return self.ends_as_wanted(one.made())
        finally:
            one.remove()

    def ends_as_wanted(self, made: EndedRecording) -> bool:
        if self.ends.rough(made) != self.rough:
            return False
        try:
            return self.wanted.is_like(self.ends.exact(made, self.wanted))
        except CompanionError as error:
            if error.status == NO_INTERVAL:     # the log lost the interval of the end
                return False
            raise

    def first(self, candidates: Iterable[bytes], most: int) -> Optional[HeldInput]:
        """The first of at most so many candidates that ends as wanted."""
        numbers: list[int] = []
        with closing(self.in_order(self.unknown(islice(candidates, most), numbers),
                                   self.judged)) as judged:
            return next((HeldInput(numbers[at], one.data)
                         for at, one in enumerate(judged) if one and one.is_wanted), None)

    def unknown(self, candidates: Iterable[bytes], numbers: list[int]) -> Iterator[bytes]:
        """Those that weren't judged, and in `numbers` which they are."""
        for number, data in enumerate(candidates):
            if digest(data) not in self.known:
                numbers.append(number)
                yield data

    def judged(self, one: Attempt) -> Answered:
        key = digest(one.given)
        if key not in self.known:
            self.count += 1
            self.known[key] = self.ends_as_wanted(one.made())
        return Answered(one.given, self.known[key])


def digest(data: bytes) -> bytes:
    return hashlib.sha256(data).digest()
