"""Tells points of rows: what the turns of a hart ended with, by meaning, in one build of a
program."""
from __future__ import annotations

import re
from typing import Callable, Iterator, List, Match, NamedTuple, Optional, Sequence, Set, Tuple

from ..recording.calls import entries_of
from ..recording.chunks import OTHER_LINES
from ..recording.cut import PC, rest_of
from ..recording.log import Interval
from ..recording.opened import Program
from ..recording.row import Row, parse_row
from ..recording.stacks import Chunk, Stacks, call_places
from ..recording.turn_ends import turn_matches
from .marks import ATOMIC, CALL, FAULT, LOAD, NO_SYMBOL, STORE, Point

MOST_CALLERS = 3            # functions over a row that tell one helper's call from another's
MOST_TEXTS = 100000         # rows whose points are remembered by their text, at some 300 bytes each
VALUE = re.compile(rb"=\w+")
WORD = re.compile(rb"(load|store) (\w{8})")
STEP = "step"               # a row that ends no turn
TWO = 2                     # frames: a line and the one that called it


class Access(NamedTuple):
    """Of a word; whether it stores."""
    word: int
    is_store: bool


class Turn:
    """A turn of a hart. Of most neither the row nor the calls over it are asked for, so both are
    read late.

    text   of the row with which it ended, or nothing
    what   the row's address, instruction and accesses, without values
    place  at or before which it stands in its chunk"""

    def __init__(self, text: bytes = b"", chunk: Optional[Chunk] = None, place: int = 0) -> None:
        self.text = text
        self.chunk = chunk
        self.place = place
        self.what = VALUE.sub(b"", rest_of(text)) if text else b""

    @property
    def row(self) -> Optional[Row]:
        return parse_row(self.text)

    @property
    def pc(self) -> bytes:
        return self.what[PC]

    def accesses(self) -> Set[Access]:
        return {Access(int(address, 16) & ~3, kind == b"store")
                for kind, address in WORD.findall(self.what)}

    def calls(self) -> Tuple[int, ...]:
        """The places of the innermost calls over it."""
        row = self.row
        if not self.chunk or not row:
            return ()
        place = self.chunk.text.find(b"\n%d %d " % (row.hart, row.ic), self.place)
        return tuple(call_places(self.chunk.top(b"%d" % row.hart, place + 1), MOST_CALLERS))

    def may_store(self, word: int) -> bool:
        """Whether it can be that the row stores into a word."""
        return any(b"| store %08x" % (word + at) in self.what for at in range(4))


def access_of(row: Row) -> str:
    if row.fault:
        return FAULT
    if row.load and row.store:
        return ATOMIC
    if row.load or row.store:
        return LOAD if row.load else STORE
    return CALL if row.text.startswith("ecall") else STEP


class Meaning:
    """elf     the build that runs; named: the same with its names"""

    def __init__(self, program: Program) -> None:
        self.elf = program.elf
        self.named = program.named
        self.places = program.places
        self.entries = entries_of(self.named)
        self.known: dict[tuple[int, str, str, tuple[int, ...]], Point] = {}
        self.by_text: dict[bytes, Point] = {}   # by what a turn's row does, without callers

    def name(self, word: int) -> str:
        return self.named.data_name(word) or f"{word:08x}"

    def has_object(self, name: str) -> bool:
        return name == NO_SYMBOL or any(symbol.name == name for symbol in self.named.objects)

    def point(self, row: Row, calls: Tuple[int, ...] = ()) -> Point:
        access = row.store or row.load
        found = self.named.object_at(access.address) if access else None
        key = row.pc, access_of(row), found.name if found else NO_SYMBOL, calls
        if key not in self.known:
            frame = self.places.innermost(row.pc)
            function = frame.function or f"{row.pc:08x}"
            line = (frame.file, frame.line) if frame.line else ("", 0)
            self.known[key] = Point(*key[1:3], function, *line, self.places.source(row.pc),
                                    self.callers(row.pc, calls))
        return self.known[key]

    def caller(self, pc: int, calls: Sequence[int]) -> Optional[Point]:
        """The line that called the one that an address is in."""
        frames = [frame for at in (pc, *calls) for frame in self.places.frames(at)]
        if len(frames) < TWO or not frames[1].line:
            return None
        function, file, line, _ = frames[1]
        return Point(FAULT, NO_SYMBOL, function, file, line, self.places.text_of(frames[1]))

    def trouble(self) -> List[str]:
        """What is to be said of its lines; but not that a library's sources aren't here, if others
        are."""
        has_text = any(point.text for point in self.known.values())
        return [] if has_text and not self.places.sources.newer else self.places.trouble()

    def callers(self, pc: int, calls: Tuple[int, ...]) -> Tuple[str, ...]:
        """The functions over the one that a row is in. What is inlined in one build is called in
        another, so both are one list."""
        found = [frame.function for at in (pc, *calls) for frame in self.places.frames(at)]
        return tuple(found[1:1 + MOST_CALLERS])

    def points(self, turns: Sequence[Turn]) -> List[Optional[Point]]:
        """Without callers, of which `called` tells."""
        if len(self.by_text) > MOST_TEXTS:
            self.by_text.clear()
        new = {turn.what: turn for turn in turns if turn.what and turn.what not in self.by_text}
        self.places.fetch(int(turn.pc, 16) for turn in new.values())
        for what, turn in new.items():
            if turn.row:
                self.by_text[what] = self.point(turn.row)
        return [self.by_text.get(turn.what) for turn in turns]

    def called(self, turn: Turn) -> Tuple[str, ...]:
        """The functions over a turn's row."""
        return self.callers(int(turn.pc, 16), turn.calls()) if turn.text else ()

    def turns(self, text_of: Callable[[Interval], bytes], intervals: Sequence[Interval],
              first: int) -> Iterator[Turn]:
        """The turns of a hart from one on, by what `replay` prints of its intervals."""
        # Which follows places in a chunk, as of several harts
        stacks = Stacks(self.entries, 2)
        for interval in intervals:
            text = b"\n" + text_of(interval).rstrip(b"\n")
            stacks.take(OTHER_LINES.sub(b"", text))
            matches = list(turn_matches(text + b"\n"))
            yield from turns_of_chunk(matches[max(0, first):], stacks.chunk,
                                      len(text) - len(stacks.chunk.text))
            first -= len(matches)


def turns_of_chunk(matches: Sequence[Match[bytes]], chunk: Chunk, removed: int) -> Iterator[Turn]:
    """Those of an interval, whose chunk lacks so many bytes of other lines: no row's place in it is
    earlier by more."""
    for match in matches:
        yield Turn() if match[0].startswith(b"end ") else Turn(match[0], chunk,
                                                               max(0, match.start() - 1 - removed))
