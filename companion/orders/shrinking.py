"""Shrinks a recording: searches, saves the shortest that is found, and tells its switches."""
from __future__ import annotations

import contextlib
import os
from contextlib import closing
from dataclasses import dataclass
from pathlib import Path
from typing import Any, Mapping, NamedTuple, Optional, Sequence

from ..call import streams
from ..call.errors import NO_INTERVAL, CompanionError
from ..call.saving import Target, save_together
from ..call.scratch import Scratch
from ..call.text import counted, number
from ..recording.answers import LONGEST
from ..recording.calls import Entries
from ..recording.cause import bucket_of, cause_of
from ..recording.elf import Elf
from ..recording.log import Log, load_log
from ..recording.opened import Program
from ..recording.ready import ready
from ..recording.stacks import Stacks
from ..recording.story import MOST_TOLD, Switch, Teller, lines_by_piece
from ..recording.turns import pieces_of, shown, size_of
from ..why.facts import Byte
from ..why.output import MOST_ROWS, numbered, writes_of
from .meaning import Meaning
from .order_file import Targets
from .record import Quick
from .same_end import Ends, EndedRecording
from .search import Nearest, Search
from .switches import switch_answer, bounded, window_lines
from .side_by_side import SideBySide
from .told_order import Telling
from .tries import Tries
from .verdict import TRIES
from .waiting import Waiting

MEMORY_FOLDER = "/dev/shm"  # files of tries needn't reach a disk


@dataclass(frozen=True)
class ShrinkInput:
    """What is shrunk.

    options  those of its recording
    new_log, new_book   where the short one is saved
    program  that was recorded, with its names
    byte     of the output that is asked of, or None
    seconds  after which the search ends, or 0
    good     where log and list of the nearest run that ends well are saved, if it is wanted
    order    where the order is saved by lines and objects, if it is wanted"""
    log: str
    book: str
    program: Program
    options: Mapping[str, str]
    new_log: Target
    new_book: Target
    byte: Optional[Byte] = None
    seconds: int = 0
    good: Sequence[Target] = ()
    order: Optional[Targets] = None


class Shrunk(NamedTuple):
    """What is told, as lines and for other programs, the status to end with, and the nearest run
    that ends well, if it was wanted and is found."""
    lines: list[str]
    answer: dict[str, Any]
    status: int
    nearest: Optional[Nearest]


def memory_folder() -> str:
    return MEMORY_FOLDER if os.access(MEMORY_FOLDER, os.W_OK) else ""


def shrink(asked: ShrinkInput) -> Shrunk:
    with Scratch(memory_folder()) as folder, Quick(folder) as quick:
        found, made, status = search(asked, quick)
        nearest = found.nearest_good() if asked.good and not status else None
        if nearest:
            save(nearest.made, asked.good)
        with closing(asked.program) as program:
            if asked.order and not status:
                save_order(asked.order, found, asked, Meaning(program), quick)
            told = Told(found, made, Teller(program.named, program.places), asked)
            said = Shrunk(told.lines(), told.answer(), status, nearest)
    if found.tries.is_ended():
        streams.say("the search was ended before it was done: "
                    "the list may be longer than it need be")
    return said


def save(made: EndedRecording, targets: Sequence[Target]) -> None:
    save_together([(place, Path(name).read_bytes())
                   for name, place in zip((made.log, made.book), targets)])


def save_order(targets: Targets, found: Search, asked: ShrinkInput,
               meaning: Meaning, quick: Quick) -> None:
    """Saves the order by lines and objects, and with it how many of the orders near it end
    badly."""
    telling = Telling(quick, meaning, asked.options, found.tries.ends.offset,
                      TRIES, found.tries.jobs)
    targets.save(telling.of_search(found))


class Signals:
    """Ends a search on Ctrl-C, TERM, HUP and when its time is over. By `with`, around the saving of
    what was found too.

    status  to end with"""

    def __init__(self, tries: SideBySide[Any, Any], seconds: int) -> None:
        self.tries = tries
        self.status = 0
        self.opened = contextlib.ExitStack()
        self.seconds = seconds

    def come(self, which: int, _frame: object) -> None:
        self.status = 128 + which if which in streams.STOPS else 0
        self.tries.stop()

    def __enter__(self) -> Signals:
        self.opened.enter_context(streams.stopping(self.come))
        self.opened.enter_context(streams.alarm(self.seconds, self.come))
        return self

    def __exit__(self, *_: object) -> None:
        self.opened.close()


def offset_of(log: Log, elf: Elf, byte: Byte) -> int:
    """How many bytes of the output come before one."""
    before = 0
    for write in writes_of(log, elf, Stacks(Entries(), log.harts), numbered(log), MOST_ROWS):
        if write.number == byte.write and write.stream == 1 and byte.place < len(write.data):
            return before + byte.place
        before += len(write.data) if write.stream == 1 else 0
    raise CompanionError(f"the log holds no byte {byte.place} of a write {byte.write} to the "
                         "output: `zelkuma output` lists them", NO_INTERVAL)


def search(asked: ShrinkInput, quick: Quick) -> tuple[Search, EndedRecording, int]:
    """Searches, and saves the recording of the shortest list that is found. A signal ends the
    search alone: its status."""
    offset = offset_of(load_log(asked.log), asked.program.elf, asked.byte) if asked.byte else None
    tries = Tries(asked.options, Ends(quick, asked.program.elf, offset),
                  len(os.sched_getaffinity(0)))
    found = Search(tries, tries.record(pieces_of(Path(asked.book).read_bytes())))
    with Signals(tries, asked.seconds) as signals:
        found.run()
        tries.options = dict(asked.options)
        made = tries.record(found.best)
        save(made, (asked.new_log, asked.new_book))
    return found, made, signals.status


class Told:
    """What is told of a search."""

    def __init__(self, found: Search, made: EndedRecording, teller: Teller,
                 asked: ShrinkInput) -> None:
        self.found = found
        self.teller = teller
        self.asked = asked
        elf = asked.program.elf
        log = made.read
        self.pieces = pieces_of(made.turns())
        self.turns = found.recorded_turns
        lines = lines_by_piece(log, elf.name, self.pieces, min(len(found.core), MOST_TOLD + 1))
        self.switches = bounded(self.pieces, lines, found.windows)
        self.bucket = bucket_of(cause_of(log, elf.name), elf, teller.places)
        self.waiting = (tuple(found.tries.exact.stays) if isinstance(found.tries.exact, Waiting)
                        else ())

    def order(self) -> str:
        """The pieces that matter."""
        return shown(self.found.core) + (" .." if self.waiting else "")

    def lines(self) -> list[str]:
        found = self.found
        said = [
            f"{counted(found.recorded_pieces - 1, 'switch')} and "
            f"{counted(found.recorded_turns, 'turn')} are cut to {number(len(self.pieces) - 1)} "
            f"and {number(size_of(self.pieces)[1])}, by {number(found.tries.count)} recordings",
            f"order: {self.order()}"]
        for place, one in enumerate(self.switches, 1):
            said += (self.teller.lines(place, one.switch) + window_lines(self.teller, one)
                     + self.beside(one.switch))
        more = len(found.core) - 1 - len(self.switches)
        said += [f"  .. {counted(more, 'more switch')} .."] if more > 0 else []
        if self.waiting:
            harts = ", ".join(map(str, self.waiting))
            said.append(f"from then on {'harts' if len(self.waiting) > 1 else 'hart'} {harts} "
                        f"wait{'s' * (len(self.waiting) == 1)}")
        return said + [f"end: {self.bucket.line()}", *self.teller.places.trouble()]

    def beside(self, switch: Switch) -> list[str]:
        """The command that opens the row after which a hart stops."""
        row = switch.stopped
        asked = self.asked
        program = asked.program
        return ["     " + line for line in ready(asked.new_log.path, program.elf, program.named,
                                                 row.hart, row.ic)] if row else []

    def answer(self) -> dict[str, Any]:
        return {"order": self.order(), "pieces": [list(piece) for piece in self.pieces[:LONGEST]],
                "recorded_pieces": self.found.recorded_pieces,
                "recorded_turns": self.found.recorded_turns, "turns": size_of(self.pieces)[1],
                "recordings": self.found.tries.count, "waiting": list(self.waiting),
                "is_done": not self.found.tries.is_ended(), "end": self.bucket.line(),
                "switches": [switch_answer(self.teller, one) for one in self.switches[:LONGEST]]}
