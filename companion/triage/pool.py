"""Processes side by side, each with one task at a time."""
from __future__ import annotations

import contextlib
import os
import signal
import time
from collections import deque
from multiprocessing import Pipe
from multiprocessing.connection import Connection, wait
from typing import Any, Generator, Iterable, NoReturn, Optional, Union

from ..call import streams
from ..call.children import ProcessGroup, tie
from .work import MOST_SECONDS, TOO_LONG, UNREAD, WHY_SECONDS, Answer, Task, Work, limit_memory

# A process that says nothing is ended once its group has taken no processor time for so many
# seconds by the clock. What takes some is bounded by that time alone, so that a busy machine
# changes no table.
PATIENCE = 60.0
PROGRAM_SHARE = 3           # the programs that a process asks may take so much beside its own time
LOOK_EACH = 1.0             # seconds between two looks at what the groups took
TICKS = os.sysconf("SC_CLK_TCK")
STUCK = f"it stood still for {PATIENCE:.0f} s"
ENDED = "the process that read it was ended"


class Worker:
    """A process, and the task that it has, or None."""

    def __init__(self) -> None:
        self.ours, theirs = Pipe()
        self.task: Optional[Task] = None
        self.began = self.used = self.moved = 0.0
        parent = os.getpid()
        with streams.uninterrupted() as before:
            self.pid = os.fork()
            if not self.pid:
                serve(theirs, parent, before)
        theirs.close()

    def give(self, task: Task) -> None:
        self.task = task
        self.moved = time.monotonic()
        self.began = self.used = group_seconds(self.pid)
        with contextlib.suppress(OSError):      # one that has ended gives no answer
            self.ours.send(task)

    def trouble(self) -> str:
        """Why the task is given up, or nothing: its group took too much time, or none for long."""
        used = group_seconds(self.pid)
        if used != self.used:
            self.used = used
            self.moved = time.monotonic()
        seconds = WHY_SECONDS if self.task and self.task.asks_why else MOST_SECONDS
        if used - self.began > seconds * (1 + PROGRAM_SHARE):
            return TOO_LONG
        return STUCK if time.monotonic() - self.moved > PATIENCE else ""

    def end(self, how: int) -> None:
        os.kill(self.pid, how)
        os.waitpid(self.pid, 0)
        self.ours.close()


def serve(pipe: Connection, parent: int, signals: set[Any]) -> NoReturn:
    """The process of a worker. Whatever ends it by a signal lets it clean up, and so does its
    parent's end. Its group ends what it has started: a signal can come between a start and the
    moment in which the process is known here."""
    work = Work()
    try:
        streams.on_interrupt(streams.interrupt)
        signal.signal(signal.SIGTERM, streams.interrupt)
        tie(parent, signal.SIGTERM)
        ProcessGroup().join()
        signal.pthread_sigmask(signal.SIG_SETMASK, signals)
        limit_memory()
        while True:
            pipe.send(work.answer(pipe.recv()))
    except (EOFError, KeyboardInterrupt):
        pass                                    # no answer is waited for any more
    except OSError as error:                    # it lacks what it needs, or its parent
        with contextlib.suppress(OSError):
            pipe.send(error)
    finally:
        work.close()
        os._exit(0)


def group_seconds(leader: int) -> float:
    """The processor time that a process has taken, with its children: those that have ended, and
    those that run."""
    ticks = 0
    with contextlib.suppress(OSError, ValueError, IndexError):
        ticks += sum(times_of(leader))
        with open(f"/proc/{leader}/task/{leader}/children", encoding="ascii") as file:
            for child in file.read().split():
                ticks += sum(times_of(int(child)))
    return ticks / TICKS


def times_of(process: int) -> list[int]:
    """The ticks of a process and of its children that have ended. Its name, in brackets, can hold
    blanks."""
    with open(f"/proc/{process}/stat", "rb") as file:
        return list(map(int, file.read().rpartition(b")")[2].split()[11:15]))


def answers(tasks: Iterable[Task], jobs: int) -> Generator[tuple[Task, Answer], None, None]:
    """The answer to each task, in the order in which they come."""
    left = deque(tasks)
    workers: list[Worker] = []
    look_at = time.monotonic() + LOOK_EACH
    try:
        workers.extend(Worker() for _ in range(jobs))
        while True:
            for worker in workers:
                if worker.task is None and left:
                    worker.give(left.popleft())
            busy = [worker for worker in workers if worker.task]
            if not busy:
                return
            said = wait([worker.ours for worker in busy], LOOK_EACH)
            looks = time.monotonic() >= look_at
            if looks:
                look_at = time.monotonic() + LOOK_EACH
            for worker in busy:
                why = worker.trouble() if looks and worker.ours not in said else ""
                if worker.ours in said or why:
                    assert worker.task
                    yield worker.task, answer_of(worker, workers, why)
    finally:
        for worker in workers:
            worker.end(signal.SIGTERM)


def answer_of(worker: Worker, workers: list[Worker], why: str) -> Answer:
    """What a worker says. One that ended, or is given up, gets a successor. OSError if it lacks
    what it needs to begin."""
    said: Union[Answer, OSError, None] = None
    with contextlib.suppress(EOFError, OSError):
        said = worker.ours.recv() if worker.ours.poll() else None
    if isinstance(said, OSError):
        raise said
    if said is not None:
        worker.task = None
        return said
    workers[workers.index(worker)] = Worker()
    worker.end(signal.SIGKILL)
    return Answer(UNREAD, why or ENDED)
