"""Tells a recording's order by meaning: from its shortest list of turns to the order that a file
has."""
from __future__ import annotations

import os
from dataclasses import replace
from pathlib import Path
from typing import List, Mapping, Optional, Sequence

from ..call.errors import REFUSED, CompanionError
from ..recording.turns import Pieces, turns_of
from .marks import LIMIT, OUTPUT, Ended, Mark, Order, Point, mark_of
from .record import NUMBERS, Quick
from .meaning import Meaning, Turn
from .order_file import DEFAULTS
from .runs import AskedTurns, Runs
from .same_end import EndedRecording, byte_at
from .search import Search
from .verdict import power_of

# Of a run that hangs: a mended one has to come to its end within some times as much
LEAST_LIMIT = 20000


def settings_told(options: Mapping[str, str]) -> dict[str, str]:
    """Those that aren't the defaults of an order file."""
    return {name: options[name]
            for name in NUMBERS if name in options and options[name] != DEFAULTS.get(name)}


def told_input(options: Mapping[str, str]) -> Optional[bytes]:
    return Path(options["--input"]).read_bytes() if "--input" in options else None


class Telling:
    """Tells orders of a build, with the options of its recording.

    offset  of the byte of the output that is asked of, or None"""

    def __init__(self, quick: Quick, meaning: Meaning, options: Mapping[str, str],
                 offset: Optional[int], tries: int, jobs: int) -> None:
        self.quick = quick
        self.meaning = meaning
        self.options = dict(options)
        self.offset = offset
        self.tries = tries
        self.jobs = jobs

    def of_one_hart(self) -> Order:
        runs = self.runs(None)
        made = runs.record(AskedTurns())
        return self.order(self.options, self.end_of(runs, made))

    def of_search(self, found: Search) -> Order:
        """The order of the shortest list of turns that a search has found."""
        runs = self.runs(None)
        made = runs.record(AskedTurns(found.best))
        if not made.turns().startswith(turns_of(found.core)):
            raise CompanionError("a full interval or log ends a turn of this order, "
                                 "as in no other build: give `record` a larger --interval", REFUSED)
        end = self.end_of(runs, made)
        marks = self.marks(runs, made, found)
        options = self.options
        if end.kind == LIMIT:
            limit = min(int(options["--limit"]), max(found.enough, LEAST_LIMIT))
            options = {**options, "--limit": str(limit)}
        order = self.order(options, end)
        power = power_of(self.runs(end, options), found.core, order.harts, self.tries)
        return replace(order, marks=tuple(marks), last=found.core[-1].hart, power=power)

    def runs(self, wanted: Optional[Ended], options: Optional[Mapping[str, str]] = None) -> Runs:
        return Runs(self.quick, self.meaning, options or self.options, wanted, self.jobs)

    def order(self, options: Mapping[str, str], end: Ended) -> Order:
        return Order(os.path.basename(self.meaning.elf.name),
                     settings_told(options), told_input(options), end)

    def end_of(self, runs: Runs, made: EndedRecording) -> Ended:
        if self.offset is None:
            return runs.ended(made)
        byte = byte_at(made.said, self.offset)
        return Ended(OUTPUT, place=self.offset, value=byte[0] if byte else 0)

    def points(self, turns: Sequence[Turn]) -> List[Optional[Point]]:
        """With their callers."""
        self.meaning.places.fetch({at for turn in turns for at in turn.calls()})
        return [point and point._replace(callers=self.meaning.called(turn))
                for point, turn in zip(self.meaning.points(turns), turns)]

    def marks(self, runs: Runs, made: EndedRecording, found: Search) -> List[Mark]:
        """A mark for each switch, with the points of its window."""
        pieces: Pieces = found.core
        taken = {hart: sum(piece.turns for piece in pieces if piece.hart == hart)
                 for hart, _ in pieces}
        points = {hart: iter(self.points(runs.turns_of(made, hart, 0, turns)))
                  for hart, turns in taken.items()}
        marks = []
        for at, (hart, turns) in enumerate(pieces[:-1]):
            mine = [next(points[hart]) for _ in range(turns)]
            window = found.windows[at] if at < len(found.windows) else None
            before = self.meaning.point(window.before) if window and window.before else None
            mark = mark_of(hart, mine, window.earlier if window else 0, before)
            if mark is None:
                raise CompanionError(f"switch {at + 1} comes at an interval's end, as in no other "
                                     "build: give `record` a larger --interval", REFUSED)
            marks.append(mark)
        return marks
