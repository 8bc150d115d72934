"""Whether two recordings end the same: in a fault, at the limit, with an exit code, or with a byte
of the output.

Each is told in two parts: one that costs nothing, and one that takes the last rows."""
from __future__ import annotations

from dataclasses import dataclass
from functools import cached_property
from pathlib import Path
from typing import AbstractSet, Hashable, Mapping, Optional, Union

from ..call.errors import NO_INTERVAL, CompanionError
from ..recording.cause import MOST_FRAMES, cause_along
from ..recording.chunks import OTHER_LINES
from ..recording.elf import Elf
from ..recording.log import End, Log, is_fault, load_ends, load_log
from .record import FAULT, LIMIT, Quick
from .waiting import STAY_ROWS, Stay, Waiting, stay_like, stay_of

# So many of a hart's last rows are read for its calls, as whole intervals
CALLS_ROWS = 100000
MOST_INTERVALS = 16         # of a hart are replayed


@dataclass(frozen=True)
class EndedRecording:
    """A recording that was made: its status, and the names of its log, its list of turns, its
    output and what went to err."""
    status: int
    log: str
    book: str
    said: str
    err: str = ""

    @cached_property
    def read(self) -> Log:
        return load_log(self.log)

    @cached_property
    def ends(self) -> Mapping[int, End]:
        return load_ends(self.log)

    def turns(self) -> bytes:
        return Path(self.book).read_bytes()


@dataclass(frozen=True)
class Faulted:
    """The fault, the address of its code, and the functions that are under way, innermost first:
    all, or the last of them; and the place of the innermost call, if there is one."""
    reason: str
    pc: int
    functions: tuple[str, ...]
    is_cut: bool
    calls: tuple[int, ...] = ()

    def is_like(self, other: object) -> bool:
        if not isinstance(other, Faulted):
            return False
        known = (min(len(self.functions), len(other.functions)) if self.is_cut or other.is_cut
                 else MOST_FRAMES)
        return (self.reason, self.pc, self.functions[:known]) == (other.reason,
                                                                  other.pc, other.functions[:known])


@dataclass(frozen=True)
class Over:
    """An end that needs no row to be told."""

    def is_like(self, other: object) -> bool:
        return self == other


Exact = Union[Faulted, Waiting, Over]


class Ends:
    """Tells how recordings of a program end.

    offset   of the byte of the output that is asked of, or None.
    waiting  the harts at their limit that are looked at, or None for all. Under a lower limit more
             may come to it."""

    def __init__(self, quick: Quick, elf: Elf, offset: Optional[int] = None) -> None:
        self.quick = quick
        self.elf = elf
        self.offset = offset
        self.waiting: Optional[AbstractSet[int]] = None

    def rough(self, made: EndedRecording) -> Hashable:
        """The byte that is asked of; else the fault's name, the harts at their limit, or the exit
        code."""
        if self.offset is not None:
            return made.status, byte_at(made.said, self.offset)
        ends = made.ends
        if made.status == FAULT:
            return (made.status,
                    tuple(sorted(end.reason for end in ends.values() if is_fault(end.reason))))
        if made.status == LIMIT:
            return made.status, tuple(self.limited(ends))
        return made.status, common_exit_code(ends)

    def exact(self, made: EndedRecording, wanted: Optional[Exact] = None) -> Exact:
        """How it ends. If it doesn't wait as another that is wanted, that alone."""
        if self.offset is not None or made.status not in (FAULT, LIMIT):
            return Over()
        log = made.read
        if made.status == FAULT:
            return self.faulted(log, next(hart for hart, end in log.ends.items()
                                          if is_fault(end.reason)))
        stays: dict[int, Stay] = {}
        for hart in self.limited(log.ends):
            text, _ = self.last_text(log, hart, STAY_ROWS)
            known = wanted.stays.get(hart) if isinstance(wanted, Waiting) else None
            stay = (stay_like(log, hart, text, known) if known and known.places
                    else stay_of(log, hart, text))
            if not stay:
                return Over()
            stays[hart] = stay
        return Waiting(stays)

    def limited(self, ends: Mapping[int, End]) -> list[int]:
        return sorted(hart for hart, end in ends.items()
                      if end.reason == "limit" and (self.waiting is None or hart in self.waiting))

    def faulted(self, log: Log, hart: int) -> Faulted:
        text, is_cut = self.last_text(log, hart, CALLS_ROWS)
        cause = cause_along([OTHER_LINES.sub(b"", b"\n" + text).rstrip(b"\n")],
                            hart, log.ends[hart])
        return Faulted(cause.reason, cause.pc, cause.functions(self.elf), is_cut, cause.calls[:1])

    def last_text(self, log: Log, hart: int, most: int) -> tuple[bytes, bool]:
        """What `replay` prints of a hart's last intervals, until they have so many rows, and
        whether there are rows before."""
        pieces: list[bytes] = []
        mine = [interval for interval in log.intervals if interval.hart == hart]
        for interval in reversed(mine[-MOST_INTERVALS:]):
            pieces.append(self.quick.text("replay", "--", log.name, self.elf.name,
                                          str(hart), str(interval.number)))
            most -= interval.end - interval.start
            if most <= 0:
                break
        if not pieces:
            raise CompanionError(f"the log holds no row of hart {hart} (see `list`)", NO_INTERVAL)
        return b"".join(reversed(pieces)), mine[-len(pieces)].start > 0


def common_exit_code(ends: Mapping[int, End]) -> int:
    """The code that a hart ended all of them with, else that of hart 0."""
    group = [end.value for end in ends.values() if end.reason == "group"]
    if group:
        return group[0]
    return ends[0].value if 0 in ends else 0


def byte_at(name: str, offset: int) -> bytes:
    with open(name, "rb") as file:
        file.seek(offset)
        return file.read(1)
