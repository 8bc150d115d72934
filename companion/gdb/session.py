"""A session of `debug`: where all harts stand, the steps that are known, and the way to any of
them."""
from __future__ import annotations

import re
from typing import NamedTuple, Optional, Sequence

from ..call.errors import NO_INTERVAL, CompanionError
from ..recording.log import At, Log
from .lines import Pattern
from .process import DebugProcess
from .steps import Steps
from .target import FAULT_SIGNALS

MOST = 1000000  # steps of one command of `debug`
STUCK = 15  # the program's status of a log whose harts wait for each other


class Position(NamedTuple):
    """The place of a hart: its count, its pc, which is None if the log has lost its present
    interval, and the instruction that it has to wait for."""
    at: int
    pc: Optional[int]
    waits: Optional[At]


class Session:
    """The harts' order is the session's own: a hart goes as far as it can, and of the harts that it
    waits for just as many steps are taken as it needs. No hart's last `end` is taken, nor the row
    of a fault, so each hart keeps its registers up to the end."""

    def __init__(self, log: Log, process: DebugProcess) -> None:
        self.intervals = log.by_hart()
        self.steps = Steps()
        self.at = 0  # the place where `debug` stands
        self.process = process
        self.known_registers: dict[int, Optional[list[int]]] = {}
        self.take_positions(self.process.ask("where"))

    def close(self) -> None:
        self.process.close()

    # The places of the harts

    def take_positions(self, text: bytes) -> None:
        """Takes an answer to `where`."""
        self.positions: dict[int, Optional[Position]] = {}
        for line in text.splitlines():
            words = line.split()
            if words[1] == b"done":
                self.positions[int(words[0])] = None
                continue
            pc = None if words[2] == b"--------" else int(words[2], 16)
            waits = At(int(words[4]), int(words[5])) if words[3] == b"waits" else None
            self.positions[int(words[0])] = Position(int(words[1]), pc, waits)
        self.known_registers = {}

    def step(self, hart: int, count: int) -> bytes:
        """A hart takes steps. Returns their lines."""
        return self.before_positions(self.process.ask_of(hart, f"step {count}", "where"))

    def before_positions(self, text: bytes) -> bytes:
        """Takes the lines of `where` at an answer's end, one for each hart; returns those
        before."""
        cut = len(text) - 1
        for _ in self.positions:
            cut = text.rindex(b"\n", 0, cut)
        self.take_positions(text[cut + 1:])
        return text[:cut + 1]

    def where(self) -> str:
        return self.process.ask("where").decode()

    def live(self) -> list[int]:
        """The harts that have a state."""
        return [hart for hart, position in sorted(self.positions.items())
                if position and position.pc is not None]

    def all_have_states(self) -> bool:
        """Whether no hart is in an interval that the log has lost."""
        return all(position is None or position.pc is not None
                   for position in self.positions.values())

    def pc(self, hart: int) -> Optional[int]:
        position = self.positions.get(hart)
        return position.pc if position else None

    def registers(self, hart: int) -> Optional[list[int]]:
        """X0 to x31 and the pc, or None where the hart has no state."""
        pc = self.pc(hart)
        if pc is None:
            return None
        if hart not in self.known_registers:
            found = re.findall(rb"=([0-9a-f]{8})", self.process.ask_of(hart, "regs"))
            self.known_registers[hart] = ([int(value, 16) for value in found] if len(found) == 32
                                          else None)
        values = self.known_registers[hart]
        return values + [pc] if values else None

    def words(self, addresses: Sequence[int]) -> list[Optional[int]]:
        """The word at each of these addresses as the rows so far tell it, else None."""
        lines = self.process.ask(*(f"word {address:x}" for address in addresses)).splitlines()
        return [None if line.endswith(b"unknown") else int(line[9:], 16) for line in lines]

    # Steps

    def left(self, hart: int) -> int:
        """How many steps a hart has before its last `end`, or before its fault."""
        position = self.positions.get(hart)
        if not position or hart not in self.intervals:
            return 0
        if position.pc is None:
            return 1
        intervals = self.intervals[hart]
        ends = len(intervals) - 1 - self.steps.ends_before(hart, self.at)
        return intervals[-1].end - position.at + ends

    def last_reason(self, hart: int) -> Optional[str]:
        """Why a hart's run ended, if it stands there, else None."""
        if self.positions.get(hart) and hart in self.intervals and not self.left(hart):
            return self.intervals[hart][-1].reason
        return None

    def fault_signal(self, hart: int) -> Optional[int]:
        """The signal of the fault that a hart stands before, or None."""
        return FAULT_SIGNALS.get(self.last_reason(hart) or "")

    def possible(self, hart: int, most: int) -> tuple[int, int]:
        """Which hart has to step so that this one gets on, and how often at most."""
        passed: set[int] = set()
        position = self.positions[hart]
        while position and position.waits:
            if hart in passed:
                raise CompanionError("replay: the harts of this log wait for each other", STUCK)
            passed.add(hart)
            hart = position.waits.hart
            count = position.waits.count
            position = self.positions[hart]
            most = count + 1 - (position.at if position else 0)
        lost = position is None or position.pc is None
        return hart, 1 if lost else max(1, min(most, self.left(hart), MOST))

    def next_steps(self, first: Optional[int], most: int,
                   alone: bool = False) -> Optional[tuple[int, int]]:
        """Which hart steps next, and how often, or None where nothing is left. The first hart
        does, or what it waits for; if it has none left and isn't alone, the lowest other hart."""
        others = [] if alone else [hart for hart in sorted(self.intervals) if hart != first]
        for hart in ([] if first is None else [first]) + others:
            if self.left(hart):
                return self.possible(hart, most)
        return None

    def extend(self, hart: int, count: int) -> None:
        """Takes steps of a hart that aren't known. Nothing is known behind them."""
        taken = self.steps.add(hart, self.step(hart, count))
        if not taken:
            raise CompanionError(f"replay: hart {hart} takes no step, "
                                 "as this log says that it does", STUCK)
        self.at += taken
        pc = self.pc(hart)
        if pc is not None and not self.left(hart):
            self.steps.arrivals[hart] = self.at, pc

    def advance(self, hart: int, most: int) -> None:
        """A hart takes at most so many steps, or another one takes what this one waits for. If
        other steps are known to come next, they are forgotten."""
        if self.at < self.steps.count and self.steps.hart_at(self.at) != hart:
            self.steps.cut(self.at)
        if self.at < self.steps.count:
            self.go_to(min(self.at + most, self.steps.span_end(self.at)))
            return
        turn = self.next_steps(hart, most, alone=True)
        if turn:
            self.extend(*turn)

    def go_to(self, place: int) -> None:
        """Goes to a known place."""
        if self.process.is_nearly_full():
            self.process.restart()
            self.take_positions(self.process.ask("where"))
            self.at = 0
        while self.at > place:
            count = min(MOST, self.at - place)
            self.before_positions(self.process.ask(f"back {count}", "where"))
            self.at -= count
        while self.at < place:
            count = min(MOST, min(self.steps.span_end(self.at), place) - self.at)
            self.step(self.steps.hart_at(self.at), count)
            self.at += count

    def go_to_row(self, place: At) -> None:
        """Goes to the place before the instruction of a count of a hart. CompanionError if the
        session doesn't have it."""
        hart = place.hart
        count = place.count
        if hart not in self.intervals:
            raise CompanionError(f"hart {hart} has no rows here; harts are "
                                 f"{', '.join(map(str, sorted(self.intervals)))}", NO_INTERVAL)
        first = self.intervals[hart][0].start
        last = self.intervals[hart][-1].end
        if not first <= count <= last:
            raise CompanionError(f"hart {hart} has counts {first} to {last} here, not {count}; "
                                 "more rows need --rows N", NO_INTERVAL)
        before = b"%d %d " % (hart, count)
        pattern = Pattern(b" %d " % count, lambda line: line.startswith(before))
        known = self.steps.lines.find([pattern], 0, self.steps.count)
        if known is None:
            self.go_to(self.steps.count)
        while known is None:
            position = self.positions[hart]
            begin = self.at
            if position is not None and position.pc is not None and position.at == count:
                return
            turn = self.next_steps(hart,
                                   min(MOST, max(1, count - (position.at if position else 0))),
                                   alone=True)
            if turn is None:
                raise CompanionError(f"hart {hart} doesn't come to count {count}", NO_INTERVAL)
            self.extend(*turn)
            known = self.steps.lines.find([pattern], begin, self.steps.count)
        self.go_to(known)

    def rest(self) -> None:
        """Makes room for commands if the process has nearly taken all that it can."""
        if self.process.is_nearly_full():
            self.go_to(self.at)


def begin_session(log: Log, elf_name: str) -> Session:
    process = DebugProcess(log.name, elf_name)
    try:
        return Session(log, process)
    except BaseException:
        process.close()
        raise
