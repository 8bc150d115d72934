"""Jobs side by side, each with a process of its own: the one place where the next that ends is
waited for."""
from __future__ import annotations

import os
from typing import Dict, Generic, Iterator, Optional, Protocol, Tuple, TypeVar

from .children import Process


class Job(Protocol):
    """What a process is for."""
    @property
    def child(self) -> Process:
        """The process: one after the other, for a job of several steps."""


J = TypeVar("J", bound=Job)


class Jobs(Generic[J]):
    """Those that are under way."""

    def __init__(self) -> None:
        self.by_process: Dict[int, J] = {}

    def __len__(self) -> int:
        return len(self.by_process)

    def __iter__(self) -> Iterator[J]:
        return iter(self.by_process.values())

    def add(self, job: J) -> None:
        self.by_process[job.child.pid] = job

    def wait(self) -> Tuple[Optional[J], int]:
        """The next whose process ends, and with which status: it isn't under way any more. None, if
        it was another process: a group's own, which somebody ended, or an addr2line that failed."""
        process, status = os.wait()
        job = self.by_process.pop(process, None)
        return job, job.child.end(status) if job else 0

    def kill(self) -> None:
        for job in self:
            job.child.kill()

    def clear(self) -> None:
        """Ends all."""
        self.kill()
        for job in self:
            job.child.wait()
        self.by_process.clear()
