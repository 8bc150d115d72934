"""Trials: one recording after another, a child a processor, until one ends as wanted, or all to
keep one of each ending."""
from __future__ import annotations

import heapq
import os
import time
from collections import deque
from contextlib import closing
from dataclasses import dataclass
from pathlib import Path
from typing import Callable, Iterator, NamedTuple, Optional, Sequence

from ..call import streams
from ..call.children import Forked, Process
from ..call.jobs import Jobs
from ..call.saving import take_together
from ..recording.cause import Cause, bucket_of, cause_of_file
from ..recording.opened import Program
from ..recording.recent import LogFile, exit_code
from .record import DONE, ENDS, FAULT, Kind, Plan, Quick, RecordWords, last_line, refusal
from .wanted import Wanted

NO_PLACE = "-"
MOST_KEPT = 1000            # endings of which one recording each is kept


class Numbers(NamedTuple):
    """From the first to the last, or one of so many parts of them. Each part has numbers from all
    over, so that the lowest are tried first on each machine."""
    first: int
    last: int
    part: int = 1
    parts: int = 1

    def range(self) -> range:
        return range(self.first + self.part - 1, self.last + 1, self.parts)

    def __str__(self) -> str:
        return f"{self.first:,} to {self.last:,}" + (f", part {self.part}/{self.parts}"
                                                     if self.parts > 1 else "")


class Ending(NamedTuple):
    """How a trial ended: its status, and of a fault the place, as `bucket` tells it, or of an exit
    its code, if that isn't 0."""
    status: int
    place: str

    @property
    def is_bad(self) -> bool:
        return self.status != DONE or self.place != NO_PLACE


@dataclass
class Count:
    """How many trials ended in one way, and the first of them."""
    first: Plan
    count: int = 0


class Endings:
    """Counts how trials end, in the trials' order: one that ends early waits for those before it.
    So what is counted up to the one that is found is the same each time."""

    def __init__(self) -> None:
        self.counts: dict[Ending, Count] = {}
        self.by_status: dict[int, int] = {}     # of all that ended
        self.early: list[tuple[Plan, Ending]] = []

    def add(self, plan: Plan, ending: Ending) -> None:
        self.by_status[ending.status] = self.by_status.get(ending.status, 0) + 1
        heapq.heappush(self.early, (plan, ending))

    def count_while(self, is_known: Callable[[Plan], bool]) -> None:
        while self.early and is_known(self.early[0][0]):
            plan, ending = heapq.heappop(self.early)
            self.counts.setdefault(ending, Count(plan)).count += 1


class Trial:
    """A recording, under way or done, and then of a fault the search for its cause.

    status  that of the recording, once it is done; code: the exit code of one that ended well
    out     what the program wrote, if that is kept; err: what it wrote there, and the summary"""

    def __init__(self, words: RecordWords, plan: Plan, folders: Sequence[str],
                 quick: Quick, keeps_out: bool) -> None:
        self.plan = plan
        self.words = words
        self.status = -1
        self.code: Optional[int] = None
        name = str(plan).replace(" ", "-")
        self.outputs = [os.path.join(folder, f"{name}.{number}")
                        for number, folder in enumerate(folders)]
        self.said = self.outputs[0] + ".said"
        self.err = self.outputs[0] + ".err"
        self.out = self.outputs[0] + ".out" if keeps_out else os.devnull
        self.child: Process = quick.start(self.out, self.err, *words.command(plan, self.outputs),
                                          schedule=plan.schedule())

    def find_cause(self) -> str:
        with closing(LogFile(self.outputs[0])) as source:
            return cause_of_file(source, self.words.elf).text()

    def cause(self) -> Optional[Cause]:
        """What was found; nothing in a log that lost the interval of its fault."""
        line = last_line(self.said) if os.path.exists(self.said) else ""
        return Cause.of(line) if line else None

    def end(self, status: int) -> None:
        """The recording is done."""
        self.status = status
        self.code = exit_code(self.outputs[0]) if status == DONE else None

    def wrote(self) -> bytes:
        """What the program wrote to out, and to err."""
        if self.out == os.devnull:
            return b""
        out, err = (Path(name).read_bytes() for name in (self.out, self.err))
        return out + b"\0" + err.rpartition(b"bugnet: ")[0]

    def remove(self) -> None:
        for name in self.outputs + [self.said, self.err] + [self.out] * (self.out != os.devnull):
            Path(name).unlink(missing_ok=True)

    def save(self) -> None:
        take_together([(place, name) for name, place
                       in zip(self.outputs, self.words.targets(self.plan)) if os.path.exists(name)])


class Buckets:
    """The line of `bucket` for each cause. One addr2line answers all."""

    def __init__(self, elf_name: str) -> None:
        self.elf_name = elf_name
        self.lines: dict[Cause, str] = {}
        self.opened: Optional[Program] = None

    def line(self, cause: Cause) -> str:
        if cause not in self.lines:
            self.opened = self.opened or Program(self.elf_name, is_silent=True)
            self.lines[cause] = bucket_of(cause, self.opened.elf, self.opened.places).line()
        return self.lines[cause]

    def close(self) -> None:
        if self.opened:
            self.opened.close()


class TrialSearch:
    """Trials in order; those above the lowest that was found are given up. Recordings in threads
    need a processor a hart, so only one is under way, and the others wait for it. They don't
    repeat, so the first that ends as wanted ends the search.

    wanted   what is searched for; None keeps one of each ending
    waiting  plans in threads whose turn came while another was under way
    found    the trial that is kept
    kept     those of each ending
    stopped  the signal that ends it, if one came"""

    def __init__(self, words: RecordWords, numbers: Numbers, kinds: Sequence[Kind],
                 wanted: Optional[Wanted], jobs: int, folders: Sequence[str]) -> None:
        self.words = words
        self.numbers = numbers
        self.kinds = kinds
        self.wanted = wanted
        self.jobs = jobs
        self.folders = folders
        self.running: Jobs[Trial] = Jobs()
        self.found: Optional[Trial] = None
        self.kept: dict[Ending, Trial] = {}
        self.waiting: deque[Plan] = deque()
        self.stopped = 0
        self.endings = Endings()
        self.buckets = Buckets(words.elf)
        self.quick = Quick(self.folders[0])
        self.at = numbers.first
        self.plans = self.in_order()
        self.progress = streams.Progress()
        self.began = time.monotonic()

    def in_order(self) -> Iterator[Plan]:
        for self.at in self.numbers.range():
            for kind in self.kinds:
                yield Plan(self.at, kind)

    def next_plan(self) -> Optional[Plan]:
        """The next that can begin now, if there is one."""
        is_free = len(self.kinds) == 1 or not any(trial.plan.kind is Kind.THREADS
                                                  for trial in self.running)
        if self.waiting and is_free:
            return self.waiting.popleft()
        for plan in self.plans:
            if plan.kind is not Kind.THREADS or is_free:
                return plan
            self.waiting.append(plan)
        return None

    def stop(self, number: int, _: object) -> None:
        """Ctrl-C, or another signal. No call is broken off, so that each child is known."""
        self.stopped = number
        self.running.kill()

    def is_given_up(self, trial: Trial) -> bool:
        if self.found is None or trial is self.found:
            return False
        return (Kind.THREADS in (trial.plan.kind, self.found.plan.kind)
                or trial.plan > self.found.plan)

    def watch(self, trial: Trial) -> None:
        self.running.add(trial)
        if self.stopped:
            trial.child.kill()

    def start(self) -> None:
        while self.found is None and not self.stopped and len(self.running) < self.jobs:
            plan = self.next_plan()
            if plan is None:
                return
            self.watch(Trial(self.words, plan, self.folders, self.quick,
                             bool(self.wanted and self.wanted.output)))

    def keep(self, trial: Trial) -> None:
        if self.found is not None:
            self.found.remove()
        self.found = trial
        for other in self.running:
            if self.is_given_up(other):
                other.child.kill()

    def take(self, trial: Trial, status: int) -> None:
        """Takes a child that has ended: a recording, or the search for its cause."""
        if -status in streams.STOPS:            # it came to the whole group
            self.stopped = self.stopped or -status
        if self.is_given_up(trial):
            trial.remove()
        elif trial.status in ENDS:
            cause = trial.cause()
            self.end(trial, self.buckets.line(cause) if cause else NO_PLACE)
        elif status in ENDS:
            trial.end(status)
            self.recorded(trial)
        elif self.stopped:
            trial.remove()
        else:
            raise refusal(trial.err, status, f"the recording of {trial.plan}")

    def recorded(self, trial: Trial) -> None:
        if self.wanted and self.wanted.is_met(trial.status, trial.code, trial.wrote()):
            self.keep(trial)
        if trial.status == FAULT:
            trial.child = Forked(trial.find_cause, trial.said, trial.err)
            self.watch(trial)
        else:
            self.end(trial, f"exit {trial.code}" if trial.code else NO_PLACE)

    def end(self, trial: Trial, place: str) -> None:
        ending = Ending(trial.status, place)
        self.endings.add(trial.plan, ending)
        if self.wanted is None:
            first = self.kept.get(ending)
            if first and trial.plan < first.plan or not first and len(self.kept) < MOST_KEPT:
                self.kept[ending] = trial
                trial = first or trial
            if trial is self.kept.get(ending):
                return
        if trial is not self.found:
            trial.remove()

    def tell(self) -> None:
        met = self.endings.by_status
        done = sum(met.values())
        said = [f"{self.at:,} of {self.numbers}",
                f"{done / max(time.monotonic() - self.began, 0.001):.1f} runs a second"]
        said += [f"{count:,} of status {status}" for status, count in sorted(met.items())]
        said += [f"found {self.found.plan}"] if self.found else []
        self.progress.tell(", ".join(said))

    def run(self) -> None:
        with streams.stopping(self.stop), self.quick, closing(self.buckets), self.progress:
            try:
                self.start()
                while self.running:
                    trial, status = self.running.wait()
                    if trial is None:
                        continue
                    self.take(trial, status)
                    self.start()
                    self.count()
                    self.tell()
            finally:
                self.running.clear()
                self.count_rest()

    def count(self) -> None:
        """Counts those below all that are still to end, and below the one that was found."""
        open_ones = [trial.plan for trial in self.running]
        open_ones += [self.found.plan] if self.found else list(self.waiting)[:1]
        self.endings.count_while(lambda plan: plan < min(open_ones, default=plan))

    def count_rest(self) -> None:
        """Counts what is left, but nothing above a found one that a number draws."""
        last = self.found.plan if self.found and self.found.plan.kind is not Kind.THREADS else None
        self.endings.count_while(lambda plan: last is None or plan <= last)
