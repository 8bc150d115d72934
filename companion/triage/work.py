"""What one process finds out of one log after another, and how much each may take."""
from __future__ import annotations

import contextlib
import os
import resource
import signal
from contextlib import closing
from typing import Callable, Iterator, NamedTuple, TypeVar

from ..call import program
from ..call.errors import BAD_LOG, NO_MEMORY, CompanionError
from ..call.scratch import Scratch
from ..recording.cause import Bucket, bucket_of, cause_of_file
from ..recording.opened import Program
from ..recording.recent import LogFile, open_log
from ..why.analysis import Analysis, analysed
from ..why.memory_part import MemoryErrors
from ..why.suspect import DID

# Seconds of processor time for a bucket, which reads a million rows, and for a suspect, which reads
# 2.6 million into arrays.
MOST_SECONDS = 10
WHY_SECONDS = 40
MOST_BYTES = 300 << 20
TOO_LONG = "it takes too much processor time"
TOO_LARGE = f"it takes more than {MOST_BYTES >> 20} MB"
DAMAGED = "it is damaged, and nothing of it could be salvaged"
READ = "read"
SALVAGED = "salvaged"
UNREAD = "unread"
T = TypeVar("T")


class Task(NamedTuple):
    """A log and its program. `asks_why` asks for the best suspect, not for the bucket."""
    log: str
    elf: str
    asks_why: bool = False


class Answer(NamedTuple):
    """state   READ, SALVAGED or UNREAD
    words   why it isn't read, or the best suspect
    error   the first memory error, in words, or nothing
    bucket  its fields, if the bucket was asked for
    harts   how many it has"""
    state: str
    words: str
    bucket: Bucket = Bucket("", "", "", "")
    harts: int = 0
    error: str = ""


class TooLong(BaseException):
    """The time of a log is over. No handler on the way takes it for a fault."""


@contextlib.contextmanager
def salvaged(name: str) -> Iterator[LogFile]:
    """What can be saved of a damaged log, in a temporary place."""
    with Scratch() as folder:
        saved = os.path.join(folder, "log")
        try:
            program.output("salvage", name, saved)
        except CompanionError as error:
            raise CompanionError(DAMAGED, error.status)
        with closing(LogFile(saved)) as source:
            yield source


class Work:
    """The programs that were opened, each with one addr2line."""

    def __init__(self) -> None:
        self.opened: dict[str, Program] = {}

    def close(self) -> None:
        for each in self.opened.values():
            each.close()
        self.opened.clear()

    def answer(self, task: Task) -> Answer:
        """Whatever a log is, there is an answer."""
        try:
            if task.asks_why:
                return within(WHY_SECONDS, lambda: self.suspect(task))
            return within(MOST_SECONDS, lambda: self.bucket(task))
        except TooLong:
            failed = TOO_LONG
        except MemoryError:
            failed = TOO_LARGE
        except CompanionError as error:
            return Answer(UNREAD, TOO_LARGE if error.status == NO_MEMORY else str(error))
        except OSError as error:
            failed = error.strerror or str(error)
        except Exception as error:
            # A forged log may meet a fault of ours: the others are read all the same
            failed = f"its reader failed inside ({type(error).__name__})"
        self.close()                            # a question may be under way
        return Answer(UNREAD, failed)

    def bucket(self, task: Task) -> Answer:
        try:
            with closing(open_log(task.log)) as source:
                return self.bucket_of(source, task.elf, READ)
        except CompanionError as error:
            if error.status != BAD_LOG:
                raise
        with salvaged(task.log) as source:
            return self.bucket_of(source, task.elf, SALVAGED)

    def bucket_of(self, source: LogFile, elf_name: str, state: str) -> Answer:
        if elf_name not in self.opened:
            self.opened[elf_name] = Program(elf_name, is_silent=True)
        opened = self.opened[elf_name]
        bucket = bucket_of(cause_of_file(source, elf_name), opened.elf, opened.places)
        return Answer(state, "", bucket, source.head.harts)

    def suspect(self, task: Task) -> Answer:
        with analysed(task.log, task.elf) as facts:
            words = ""
            if facts.shown:
                first = facts.shown[0]
                source = facts.own_source(first.guilty)
                words = (f"{DID[first.kind]} {facts.own_where(first.guilty)}"
                         + (f": {source}" if source else ""))
            return Answer(READ, words, error=first_error(facts))


def first_error(facts: Analysis) -> str:
    """The first memory error, or nothing: a log for which that takes too much keeps its suspect."""
    try:
        return MemoryErrors(facts).first()
    except MemoryError:
        return ""


def within(seconds: float, work: Callable[[], T]) -> T:
    """What `work` gives, if this process computes for no more than so many seconds."""
    def is_over(*_: object) -> None:
        raise TooLong

    signal.signal(signal.SIGPROF, is_over)
    try:
        signal.setitimer(signal.ITIMER_PROF, seconds)
        return work()
    finally:
        signal.setitimer(signal.ITIMER_PROF, 0)


def limit_memory() -> None:
    """For this process, and for each that it starts."""
    _, most = resource.getrlimit(resource.RLIMIT_DATA)
    limit = MOST_BYTES if most == resource.RLIM_INFINITY else min(MOST_BYTES, most)
    resource.setrlimit(resource.RLIMIT_DATA, (limit, most))
