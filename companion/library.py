"""A recording for scripts of one's own: rows, the fault, states at any place, histories and calls.
docs/PYTHON.md shows it."""
from __future__ import annotations

import contextlib
from contextlib import closing
from dataclasses import dataclass
from functools import cached_property
from typing import Any, Iterator, List, NamedTuple, Optional

from .call.errors import NO_INTERVAL, CompanionError
from .gdb.memory import SessionMemory
from .gdb.session import Session, begin_session
from .questions.at import TOLD, passes_of
from .questions.calls import calls_of, said_arguments, said_result
from .questions.functions import function_of
from .questions.history import history_of
from .questions.reading import Asked, asked_of
from .questions.types import python_value
from .questions.variables import variable_of
from .recording.instruction import NAMES
from .recording.log import At, is_fault
from .recording.row import Row, rows_of

EVERY = 1 << 40             # rows: more than any log holds


@dataclass(frozen=True)
class Fault:
    """The fault that a hart ended with: the count of its instruction, its name and its value, as
    `list` has them."""
    hart: int
    count: int
    name: str
    value: int


class Stored(NamedTuple):
    """A store to a variable: hart and count, the part of the variable, its value before and after
    as text, the place and the calls over it, innermost first."""
    hart: int
    at: int
    part: str
    old: str
    new: str
    place: str


class Called(NamedTuple):
    """A call: hart and count, its arguments as text, its result, how long it ran, and from where.
    The result is None if there is none, `rows` if it didn't return."""
    hart: int
    at: int
    arguments: dict[str, str]
    result: Optional[str]
    rows: Optional[int]
    source: str


class Passed(NamedTuple):
    """A pass of a line: hart and count, and {expression: its value as text} before the line's first
    instruction."""
    hart: int
    at: int
    values: dict[str, str]


class State:
    """What a hart is about to do at a count, and what is known then."""

    def __init__(self, recording: Recording, hart: int, place: int) -> None:
        self.recording = recording
        self.hart = hart
        self.place = place

    def session(self) -> Session:
        """The session, at this place."""
        self.recording.session.go_to(self.place)
        return self.recording.session

    @property
    def registers(self) -> dict[str, int]:
        """{name: value}, and the pc."""
        values = self.session().registers(self.hart)
        if values is None:
            raise CompanionError(f"hart {self.hart} has no state there", NO_INTERVAL)
        return dict(zip([*NAMES, "pc"], values))

    def word(self, address: int) -> Optional[int]:
        """The word at an address, or None if nothing tells it."""
        found = self.read(address & ~3, 4)
        return None if found is None else int.from_bytes(found, "little")

    def read(self, address: int, size: int) -> Optional[bytes]:
        """Bytes of memory, or None if not all are known."""
        self.session()
        found = self.recording.memory.read(address, size)
        return found if len(found) == size else None

    def variable(self, name: str) -> Any:
        """A C variable or a part of it: a number, bytes of letters, a list or a dict; None if it
        isn't known."""
        variable = variable_of(self.recording.asked.named, name)
        found = self.read(variable.address, variable.size)
        return None if found is None else python_value(variable.type, found)


class Recording:
    """A log and the program that it is of. Use it by `with`, or call `close`. `names` is the same
    program with names, if ELF was stripped; with `rows` only about so many of the last rows are
    read."""

    def __init__(self, log: str, elf: str, names: str = "", rows: int = EVERY) -> None:
        self.files = (log, elf)
        self.given = {"--rows": str(rows), **({"--names": names} if names else {})}
        self.opened = contextlib.ExitStack()

    def __enter__(self) -> Recording:
        return self

    def __exit__(self, *_: object) -> None:
        self.close()

    def close(self) -> None:
        self.opened.close()
        for opened in ("asked", "session", "memory"):
            self.__dict__.pop(opened, None)

    @cached_property
    def asked(self) -> Asked:
        """The log, checked, and the names."""
        return self.opened.enter_context(asked_of(*self.files, self.given))

    @property
    def fault(self) -> Optional[Fault]:
        ends = self.asked.log.ends
        return next((Fault(hart, end.count, end.reason, end.value)
                     for hart, end in sorted(ends.items()) if is_fault(end.reason)), None)

    def rows(self) -> Iterator[Row]:
        """Each row, in the order of `joint`. None is kept."""
        return rows_of(self.asked.log.name, self.asked.elf.name)

    @cached_property
    def session(self) -> Session:
        return self.opened.enter_context(closing(begin_session(self.asked.log,
                                                               self.asked.elf.name)))

    @cached_property
    def memory(self) -> SessionMemory:
        return SessionMemory(self.asked.log, self.asked.elf, self.session)

    def at(self, hart: int, count: int) -> State:
        """The state before a hart's instruction of a count. It takes some 90 bytes for each row on
        the way."""
        self.session.go_to_row(At(hart, count))
        return State(self, hart, self.session.at)

    def history(self, name: str, last: int = 100) -> List[Stored]:
        """The last stores to a variable."""
        asked = self.asked
        found = history_of(asked, variable_of(asked.named, name), last)
        return [Stored(entry.hart, entry.count, entry.part, entry.old, entry.new,
                       asked.places.chain(entry.pcs, 4)) for entry in found.told]

    def calls(self, function: str, last: int = 100) -> List[Called]:
        """The last calls of a function."""
        asked = self.asked
        found = calls_of(asked, function_of(asked.named, function), last)
        return [Called(int(call.hart), call.count, said_arguments(asked, call),
                       said_result(asked, call), call.rows, asked.places.where(call.source))
                for call in found.told]

    def at_line(self, line: str, *expressions: str, condition: str = "",
                last: int = TOLD) -> List[Passed]:
        """The values of C expressions at the last passes of FILE:LINE, or at those of them at which
        a condition isn't 0."""
        found = passes_of(self.asked, line, expressions, condition, last)
        return [Passed(entry.hart, entry.count, dict(zip(expressions, entry.values)))
                for entry in found.told]
