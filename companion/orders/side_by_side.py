"""Recordings that are tried side by side, and judged in their order: so an answer is the same
however many are under way."""
from __future__ import annotations

import os
from pathlib import Path
from typing import (Callable, Dict, Generator, Generic, Iterable, Iterator, Mapping,
                    Optional, TypeVar)

from ..call import streams
from ..call.jobs import Jobs
from .record import ENDS, Quick, refusal
from .same_end import EndedRecording

MOST_TRIES = 20000          # the longest search of those in bench/RESULTS.md made 6,984
# So many tries for each that is under way may wait for those before them, whose files are kept
AHEAD = 4


class Attempt:
    """A recording under way or done, of turns or of an input that is given."""

    def __init__(self, quick: Quick, options: Mapping[str, str], elf: str, number: int,
                 given: bytes, is_input: bool) -> None:
        self.given = given
        self.number = number
        self.log, self.book, self.said, self.err, source = (
            os.path.join(quick.folder, f"{number}.{name}")
            for name in ("log", "book", "said", "err", "given"))
        self.files = [self.log, self.book, self.said, self.err, source]
        Path(source).write_bytes(given)
        more = [f"--input={source}", "--seed=0"] if is_input else []
        words = ["record", *(f"{name}={value}" for name, value in options.items()), *more, "--",
                 elf, self.log, self.book]
        self.child = quick.start(self.said, self.err, *words,
                                 schedule="" if is_input else f"book:{source}")
        self.status = 0

    def wait(self) -> None:
        self.status = self.child.wait()

    def made(self) -> EndedRecording:
        """The recording that it made, if it did."""
        if self.status not in ENDS:
            raise refusal(self.err, self.status)
        return EndedRecording(self.status, self.log, self.book, self.said, self.err)

    def remove(self) -> None:
        for name in self.files:
            Path(name).unlink(missing_ok=True)


A = TypeVar("A", bound=Attempt)
C = TypeVar("C")
R = TypeVar("R")


class SideBySide(Generic[A, C]):
    """count    how many tries were judged
    stopped  whether the search is to end"""

    def __init__(self, jobs: int) -> None:
        self.jobs = jobs
        self.stopped = False
        self.running: Jobs[A] = Jobs()
        self.count = 0
        self.started = 0
        self.progress = streams.Progress()

    def begin(self, asked: C) -> A:
        raise NotImplementedError

    def stop(self, *_: object) -> None:
        """No call is broken off, so that each child is known."""
        self.stopped = True
        self.running.kill()

    def is_ended(self) -> bool:
        """Whether the search is to end: it was stopped, or has made all recordings that it may
        make."""
        return self.stopped or self.count >= MOST_TRIES

    def in_order(self, candidates: Iterable[C],
                 judge: Callable[[A], Optional[R]]) -> Generator[Optional[R], None, None]:
        """What `judge` gives of each candidate."""
        ended: Dict[int, A] = {}
        left = iter(candidates)
        at = self.started
        try:
            while not self.is_ended():
                self.start(left, at + self.jobs * AHEAD)
                while at in ended and not self.stopped:
                    found = judge(ended[at])
                    ended.pop(at).remove()
                    at += 1
                    yield found
                if self.running:
                    self.wait(ended)
                elif at == self.started:
                    break
        finally:
            self.clear(ended)

    def start(self, left: Iterator[C], most: int) -> None:
        while len(self.running) < self.jobs and self.started < most and not self.stopped:
            asked = next(left, None)
            if asked is None:
                return
            self.running.add(self.begin(asked))

    def wait(self, ended: Dict[int, A]) -> None:
        one, status = self.running.wait()
        if one:
            one.status = status
            ended[one.number] = one

    def clear(self, ended: Mapping[int, A]) -> None:
        left = [*self.running, *ended.values()]
        self.running.clear()
        for one in left:
            one.remove()
