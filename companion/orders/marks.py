"""An order of harts told by meaning: each switch by its access, object, function and line, so that
it fits other builds."""
from __future__ import annotations

import functools
import re
from dataclasses import dataclass, field
from typing import Callable, Mapping, NamedTuple, Optional, Sequence, Tuple

LOAD = "load"
STORE = "store"
ATOMIC = "atomic"
CALL = "call"
FAULT = "fault"
WELL = "well"
LIMIT = "limit"
EXIT = "exit"
OUTPUT = "output"
COMMENTS = re.compile(r"/\*.*?(?:\*/|$)|//.*")
NO_SYMBOL = "-"             # of an access that is to no object of the file's: the stack, the heap


class Point(NamedTuple):
    """A row by meaning.

    access    load, store, atomic, call or fault
    symbol    the object that is accessed, without offset
    text      of the line, if its source is here
    callers   the functions over this one, the innermost first: inlined ones, too"""
    access: str
    symbol: str
    function: str
    file: str = ""
    line: int = 0
    text: str = ""
    callers: Tuple[str, ...] = ()

    def place(self) -> str:
        return f"{self.function} {self.file}:{self.line}" if self.line else self.function

    def what(self) -> str:
        return f"{self.access} of {self.symbol}" if self.symbol != NO_SYMBOL else self.access

    def is_access_of(self, other: Point) -> bool:
        """Whether it is the same access of the same object."""
        return (self.access, self.symbol) == (other.access, other.symbol)

    def is_line_of(self, other: Point) -> bool:
        """Whether both are one line, whatever its number is in each build. If a text isn't known,
        the number has to be the same, and if one has no number, the function alone."""
        if self.function != other.function:
            return False
        if self.text and other.text:
            return bare(self.text) == bare(other.text)
        return not (self.line and other.line) or (self.file, self.line) == (other.file, other.line)


# Of a hart's turns; None if a turn ended without an access, or its row isn't known
Points = Sequence[Optional[Point]]


@dataclass(frozen=True)
class Mark:
    """A hart continues until it has done `point` for the nth time since its last mark.

    nth           counts the accesses of the object on this line; in_function: in this function;
                  under: on this line with the same callers
    after         what has to have come before the switch, and how often
    before        what may not have come"""
    hart: int
    point: Point
    nth: int = 1
    in_function: int = 1
    under: int = 1
    after: Optional[Point] = None
    nth_after: int = 1
    before: Optional[Point] = None


# Of each hart at its limit the words for which it waits
Waits = Tuple[Tuple[int, Tuple[str, ...]], ...]


class Ended(NamedTuple):
    """How a run ended.

    kind    well, fault, limit, exit or output: the last two are wrong ones, by an exit code or by a
            byte of the output
    reason  of a fault; point: its row; caller: the line that called it, as a call or as inlined
            code
    value   the exit code, or the byte; place: that of the byte in the output"""
    kind: str
    reason: str = ""
    point: Optional[Point] = None
    waits: Waits = ()
    value: int = 0
    place: int = 0
    caller: Optional[Point] = None

    def is_as(self, other: Ended) -> bool:
        """Whether two runs ended alike, also of two builds."""
        if self.kind == other.kind == FAULT:
            return self.reason == other.reason and (self.is_here(other)
                                                    or self.is_call_apart(other))
        if self.kind == other.kind == LIMIT:
            return (not (self.waits and other.waits)
                    or objects_of(self.waits) == objects_of(other.waits))
        return (self.kind, self.value, self.place) == (other.kind, other.value, other.place)

    def is_here(self, other: Ended) -> bool:
        return self.point is None or other.point is None or self.point.is_line_of(other.point)

    def is_call_apart(self, other: Ended) -> bool:
        """Whether the line of one fault called the other's. A build can do a function's load before
        it calls it."""
        return any(line is not None and its is not None and line.is_line_of(its)
                   for line, its in ((self.caller, other.point), (self.point, other.caller)))

    def text(self) -> str:
        if self.kind == FAULT:
            return f"{self.reason} in {self.point.place()}" if self.point else self.reason
        if self.kind == LIMIT:
            return "it comes to the limit" + "".join(
                f"; hart {hart} waits for {' and '.join(words) or 'nothing that another stores'}"
                for hart, words in self.waits)
        if self.kind == EXIT:
            return f"it ends with the code {self.value}"
        if self.kind == OUTPUT:
            return f"byte {self.place} of its output is {self.value}"
        return "it ends well"


@functools.lru_cache(maxsize=10000)
def bare(text: str) -> str:
    """A line without comments and blanks."""
    return COMMENTS.sub("", text).replace(" ", "")


def objects_of(waits: Waits) -> dict[int, frozenset[str]]:
    """The objects that are waited for: each build can have a member at another place of its
    object."""
    return {hart: frozenset(word.partition("+")[0] for word in words) for hart, words in waits}


class Power(NamedTuple):
    """So many of the orders that were tried near this one end badly in the recorded build."""
    met: int
    tried: int


@dataclass(frozen=True)
class Order:
    """program   the name of its file
    settings  those of `record` that aren't its defaults
    input     what it reads, or None
    end       how it ended, or None: then it has to end well
    last      the hart that continues behind the last mark, or None"""
    program: str
    settings: Mapping[str, str] = field(default_factory=dict)
    input: Optional[bytes] = None
    end: Optional[Ended] = None
    power: Optional[Power] = None
    marks: Tuple[Mark, ...] = ()
    last: Optional[int] = None

    @property
    def harts(self) -> int:
        return int(self.settings.get("--harts", "1"))


def fitting_count(points: Points, fits: Callable[[Point], bool]) -> int:
    return sum(1 for one in points if one and fits(one))


def on_line(points: Points, wanted: Point) -> int:
    """How many of the turns are such an access of the object on this line."""
    return fitting_count(points, lambda one: one.is_access_of(wanted) and one.is_line_of(wanted))


def mark_of(hart: int, points: Points, earlier: int = 0,
            before: Optional[Point] = None) -> Optional[Mark]:
    """The mark of a hart that stops after these turns, or could so many turns earlier, and has to
    before a point. None if the last turn has no access, or its row isn't known."""
    wanted = points[-1]
    if wanted is None:
        return None
    point: Point = wanted
    upto = points[:len(points) - earlier]
    needed = upto[-1] if upto else None
    in_function = fitting_count(points, lambda one: one.is_access_of(point)
                                and one.function == point.function)
    under = fitting_count(points, lambda one: one.is_access_of(point) and one.is_line_of(point)
                          and one.callers == point.callers)
    return Mark(hart, point, on_line(points, point), in_function, under, needed,
                on_line(upto, needed) if needed else 1, before)
