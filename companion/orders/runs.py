"""Recordings of one build that `recheck` makes, and how each ends, in words that fit every
build."""
from __future__ import annotations

import os
import shlex
from collections import deque
from pathlib import Path
from typing import (Deque, Dict, Iterator, List, Mapping, NamedTuple, Optional, Sequence, Set,
                    Tuple)

from ..call import streams
from ..call.children import Process
from ..call.jobs import Jobs
from ..recording.cut import count_of
from ..recording.log import Interval, is_fault
from ..recording.row import Row
from ..recording.turns import Piece, Pieces, joined, turns_of
from .marks import EXIT, FAULT, LIMIT, OUTPUT, WELL, Ended
from .meaning import Access, Meaning, Turn
from .record import ENDS, SCHEDULE, Quick, refusal
from .record import FAULT as STATUS_FAULT
from .record import LIMIT as STATUS_LIMIT
from .same_end import Ends, EndedRecording, byte_at, common_exit_code
from .waiting import Waiting

DEFAULT_LIMIT = 1000000000  # of record
# So many times the limit is tried before a run is called a hang: a guess, and what a hang costs
GROWN = 16
MOST_LIMIT = 1 << 40        # that record takes
# Instructions of a hart in a recording of which the first turns count. If they are too few, another
# one is made: few are cheap, and mostly enough.
LEAST_LOOK = 1000000
PER_TURN = 64
LEAST_LOG = 1 << 24         # bytes of a log: all turns up to a mark have to be in it
MOST_LOOK_ROWS = 20000000   # of a hart are replayed for one look


class AskedTurns(NamedTuple):
    """The turns of a recording: a list, or a schedule or seed that draws them."""
    pieces: Optional[Pieces] = None
    schedule: str = ""
    seed: int = 0

    def text(self) -> str:
        return self.schedule or ("a list" if self.pieces is not None else f"seed {self.seed}")


class Done(NamedTuple):
    """How a recording ended; and whether that is with a greater limit, at the first of which it
    came to its end."""
    asked: AskedTurns
    end: Ended
    is_slow: bool


class Made(NamedTuple):
    """A recording that is under way."""
    number: int
    asked: AskedTurns
    times: int
    names: List[str]
    child: Process


class Runs:
    """Recordings of a build with one list of settings.

    wanted  how the recorded build ended, or None
    count   how many recordings were made; longest: the instructions of the longest that was told"""

    def __init__(self, quick: Quick, meaning: Meaning, options: Mapping[str, str],
                 wanted: Optional[Ended], jobs: int) -> None:
        log_size = max(LEAST_LOG, int(options.get("--log-size", "0")))
        self.quick = quick
        self.meaning = meaning
        self.jobs = jobs
        self.wanted = wanted
        self.options = {"--format": "2", **options, "--log-size": str(log_size)}
        self.limit = int(options.get("--limit", DEFAULT_LIMIT))
        self.count = self.longest = 0
        self.progress = streams.Progress()

    def words(self, limit: int, seed: Optional[int]) -> List[str]:
        options = {**self.options, "--limit": str(limit)}
        options.update({} if seed is None else {"--seed": str(seed)})
        return ["record", *(f"{name}={value}" for name, value in options.items())]

    def begin(self, number: int, asked: AskedTurns, limit: int, times: int = 1) -> Made:
        self.count += 1
        names = [os.path.join(self.quick.folder, f"recheck{self.count}.{kind}")
                 for kind in ("log", "book", "said", "err", "turns")]
        log, book, said, err, turns = names
        schedule = asked.schedule
        seed = None if asked.schedule else asked.seed
        if asked.pieces is not None:
            Path(turns).write_bytes(turns_of(asked.pieces))
            schedule = f"book:{turns}"
            seed = None
        words = [*self.words(limit, seed), "--", self.meaning.elf.name, log, book]
        return Made(number, asked, times, names,
                    self.quick.start(said, err, *words, schedule=schedule))

    def take(self, made: Made, status: int) -> EndedRecording:
        if status not in ENDS:
            raise refusal(made.names[3], status, "a recording")
        return EndedRecording(status, *made.names[:3])

    def record(self, asked: AskedTurns, limit: int = 0) -> EndedRecording:
        """A recording whose files stay as long as the folder."""
        made = self.begin(0, asked, limit or self.limit)
        return self.take(made, made.child.wait())

    def ended(self, made: EndedRecording, is_deep: bool = True) -> Ended:
        """How a recording ended. Only a deep look tells for what a hart waits."""
        wanted = self.wanted
        ends = made.ends
        self.longest = max(self.longest, sum(end.count for end in ends.values()))
        if made.status == STATUS_FAULT:
            return self.fault(made)
        if made.status == STATUS_LIMIT:
            return Ended(LIMIT, waits=self.waits(made) if is_deep else ())
        if wanted and wanted.kind == OUTPUT:
            is_same = byte_at(made.said, wanted.place) == bytes([wanted.value])
            return wanted if is_same else Ended(WELL)
        code = common_exit_code(ends)
        return (Ended(EXIT, value=code) if code and (not wanted or wanted.kind == EXIT)
                else Ended(WELL))

    def fault(self, made: EndedRecording) -> Ended:
        log = made.read
        hart = next(hart for hart, end in log.ends.items() if is_fault(end.reason))
        found = Ends(self.quick, self.meaning.elf).faulted(log, hart)
        row = Row(hart, 0, found.pc, None, "", "", 0, None, None, found.reason)
        return Ended(FAULT, found.reason, self.meaning.point(row),
                     caller=self.meaning.caller(found.pc, found.calls))

    def waits(self, made: EndedRecording) -> Tuple[Tuple[int, Tuple[str, ...]], ...]:
        exact = Ends(self.quick, self.meaning.elf).exact(made)
        words = exact.words() if isinstance(exact, Waiting) else {}
        return tuple(sorted((hart, tuple(sorted(set(map(self.meaning.name, each)))))
                            for hart, each in words.items()))

    def one(self, asked: AskedTurns) -> Done:
        """How a recording ends, whose limit grows before it is called a hang."""
        return next(self.each([asked], is_deep=True))

    def each(self, asked: Sequence[AskedTurns], is_deep: bool = False) -> Iterator[Done]:
        """Side by side, and told in their order."""
        waiting: Deque[Tuple[int, int]] = deque((number, 1) for number in range(len(asked)))
        running: Jobs[Made] = Jobs()
        ended: Dict[int, Done] = {}
        told = 0
        try:
            while told < len(asked):
                while waiting and len(running) < self.jobs:
                    number, times = waiting.popleft()
                    running.add(self.begin(number, asked[number], self.limit_of(times), times))
                self.wait(running, waiting, ended, is_deep)
                while told in ended:
                    yield ended.pop(told)
                    told += 1
        finally:
            running.clear()

    def limit_of(self, times: int) -> int:
        return min(MOST_LIMIT, times * self.limit)

    def wait(self, running: Jobs[Made], waiting: Deque[Tuple[int, int]], ended: Dict[int, Done],
             is_deep: bool) -> None:
        """Takes the next that ends; one that comes to its limit is made again with a greater
        one."""
        made, status = running.wait()
        if made is None:
            return
        found = self.take(made, status)
        if found.status == STATUS_LIMIT and made.times == 1:
            waiting.appendleft((made.number, GROWN))
        else:
            ended[made.number] = Done(made.asked, self.ended(found, is_deep), made.times > 1)
        for name in made.names:
            Path(name).unlink(missing_ok=True)
        self.progress.tell(f"{self.count:,} recordings")

    def turns(self, before: Sequence[Piece], hart: int, most: int) -> List[Turn]:
        """The turns that a hart takes behind a list, so many at most. The recording is as long as
        they need."""
        pieces = joined([*before, Piece(hart, most)])
        prefix = turns_of(before)
        most_counts = self.limit_of(GROWN)
        limit = min(most_counts, LEAST_LOOK + PER_TURN * (len(prefix) + most))
        while True:
            made = self.record(AskedTurns(pieces), limit)
            turns = made.turns()
            rest = turns[len(prefix):]
            taken = len(rest) - len(rest.lstrip(bytes([hart])))
            end = made.ends.get(hart)
            is_cut = taken < most and end is not None and end.reason == "limit"
            if limit == most_counts or (turns.startswith(prefix) and not is_cut):
                break
            limit = min(most_counts, GROWN * limit)
        return self.turns_of(made, hart, prefix.count(hart), min(taken, most))

    def accesses(self, pieces: Pieces, behind: int) -> Dict[int, List[Set[Access]]]:
        """Of each hart what its turns access in the run by a list, and so many turns behind it."""
        made = self.record(AskedTurns(pieces))
        turns = made.turns()
        found = {}
        for hart in sorted({piece.hart for piece in pieces}):
            most = behind + sum(piece.turns for piece in pieces if piece.hart == hart)
            found[hart] = [turn.accesses() for turn in
                           self.turns_of(made, hart, 0, min(most, turns.count(hart)))]
        return found

    def turns_of(self, made: EndedRecording, hart: int, first: int, most: int) -> List[Turn]:
        """So many turns of a hart from one on. Of those that the log has lost no row is known."""
        log = made.read
        mine = [interval for interval in log.intervals if interval.hart == hart]

        def text_of(interval: Interval) -> bytes:
            names = log.name, self.meaning.elf.name, str(hart), str(interval.number)
            return self.quick.text("replay", "--", *names)

        if not mine or not most:
            return []
        # Which no recording with so large a log and small a limit has
        if mine[0].start > 0:
            return [Turn()] * most
        found: List[Turn] = []
        for turn in self.meaning.turns(text_of, mine, first):
            found.append(turn)
            if len(found) >= most or turn.text and count_of(turn.text) > MOST_LOOK_ROWS:
                break
        return found

    def command(self, book: str, input_name: str) -> str:
        """What to type for a recording of these turns."""
        options = {**self.options, "--limit": str(self.limit),
                   **({"--input": input_name} if input_name else {})}
        words = ["zelkuma", "record", *(f"{name}={value}" for name, value in options.items()),
                 self.meaning.elf.name]
        return (f"{SCHEDULE}={shlex.quote('book:' + book)} "
                + " ".join(map(shlex.quote, [*words, "LOG", "BOOK"])))
