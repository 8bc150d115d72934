"""The calls of each hart along chunks of text, and what a call, a return and a jump to a function
do to them.

A frame is the address to which a call returns, as eight digits; that of a jump to a function is `t`
and the jump's own address, and it ends with the function that jumped. Frames are linked lists, so
that the calls over a row stay as they were there."""
from __future__ import annotations

import bisect
import re
from typing import Any, Dict, List, Mapping, NamedTuple, Optional, Tuple

from .calls import Entries
from .instruction import JUMP, Instruction

# An address, the frame that it was called in or None, and how deep it is
Frame = Tuple[bytes, Any, int]
BOTTOM: Frame = (b"", None, 0)
JUMPED = b"t"                               # what the frame of a jump to a function begins with
# Are kept of a hart: of more, as of a recursion without an end, the inner half
MOST_FRAMES = 1 << 20
# A jump's address and word, and its chunk's next row: hart, count, address. No other row has the
# letter j.
NEXT_ROWS = re.compile(rb"j(?<=(\w{8} \w{8}) j)al[^\n]*\n(?=(\d+) (\d+) (\w{8}))")
TARGETS = re.compile(rb"j(?<=(\w{8} \w{8}) j)al[^\n]*\n(?=\d+ \d+ (\w{8}))")
LAST_JUMP = re.compile(rb"\n(\d+) \d+ (\w{8} \w{8}) jal[^\n]*\Z")
KEY = 17                                    # letters of an address and a word
# Letters of a row: more than hart, count and address have
HEAD = 48


class Jump(NamedTuple):
    """A call, a return, or a jump that can lead to a function. `frame` is what it puts on the
    stack, nothing if it is a return; `is_sure`: it calls or returns, wherever it leads."""
    frame: bytes
    is_sure: bool
    code: Instruction


class Move(NamedTuple):
    """A jump that was followed: its hart, the frames before and behind it, and the row that it led
    to: its place in the chunk, its count and its address."""
    hart: bytes
    jump: Jump
    before: Frame
    behind: Frame
    place: int
    ic: int
    target: bytes

    @property
    def is_call(self) -> bool:
        return self.jump.frame != b"" and self.behind is not self.before


def returned(top: Frame, target: bytes) -> Frame:
    """Behind a return: it goes to the nearest frame whose call returns there. One that fits none
    changes nothing, but that the function that was jumped to from one whose call isn't known has
    ended."""
    at: Optional[Frame] = top
    while at is not None and at[0] != target:
        at = at[1]
    if at is None:
        at = top if top[0][:1] == JUMPED and top[1][1] is None else None
    behind: Frame = top if at is None else at[1]
    return behind


def went(top: Frame, frame: bytes) -> Frame:
    """Behind a jump to a function. Of several in a row the last is kept, so that a loop of them
    takes no room."""
    under: Frame = top[1] if top[0][:1] == JUMPED else top
    return frame, under, under[2] + 1


def call_places(top: Frame, most: int) -> List[int]:
    """The addresses of so many of the innermost calls and jumps, innermost first."""
    found: List[int] = []
    while top[1] is not None and len(found) < most:
        found.append(int(top[0][1:], 16) if top[0][:1] == JUMPED else int(top[0], 16) - 4)
        top = top[1]
    return found


def inner_half(top: Frame) -> Frame:
    """The inner half of the frames that are kept at most."""
    kept: List[Frame] = []
    while len(kept) < MOST_FRAMES // 2:
        kept.append(top)
        top = top[1]
    inner: Any = (b"", None, top[2])
    for frame, _, depth in reversed(kept):
        inner = frame, inner, depth
    found: Frame = inner
    return found


class Jumps(Dict[bytes, Optional[Jump]]):
    """{address and word: the jump, or None if it leads to no other function}"""

    def __init__(self, entries: Entries) -> None:
        super().__init__()
        self.entries = entries

    def __missing__(self, key: bytes) -> Optional[Jump]:
        code = Instruction(0, key + b" j")
        pc = b"%08x" % code.pc
        is_known = code.kind == JUMP and code.rs1 == 0
        if code.call or code.ret:
            found: Optional[Jump] = Jump(b"%08x" % (code.pc + 4) if code.call else b"", True, code)
        elif is_known and not self.entries.are_led_to(code.pc, code.leads):
            found = None
        else:
            found = Jump(JUMPED + pc, is_known, code)
        self[key] = found
        return found

    def behind(self, top: Frame, jump: Jump, target: bytes) -> Frame:
        """The frames behind a jump that led to an address."""
        if not jump.frame:
            return returned(top, target)
        if jump.frame[:1] != JUMPED:
            return jump.frame, top, top[2] + 1
        return (went(top, jump.frame) if jump.is_sure
                or self.entries.are_led_to(jump.code.pc, int(target, 16)) else top)


class Chunk:
    """A chunk of text, with the frames before it and the jumps that were the harts' last rows then.
    Its moves are followed once somebody asks for them.

    marks   {hart: the places at which its frames change, and its innermost frame from there on}"""

    def __init__(self, text: bytes, jumps: Jumps, before: Dict[bytes, Frame],
                 waited: Dict[bytes, Jump]) -> None:
        self.text = text
        self.jumps = jumps
        self.before = before
        self.tops = dict(before)
        self.waiting = dict(waited)
        self.marks: Dict[bytes, Tuple[List[int], List[Frame]]] = {}
        self.found: Optional[List[Move]] = None

    def moves(self) -> List[Move]:
        """The jumps that led to a row of the chunk, in the order of those rows."""
        if self.found is None:
            text = self.text
            self.found = []
            for hart in list(self.waiting):
                self.arrive(hart, text.find(b"\n" + hart + b" "))
            for at in NEXT_ROWS.finditer(text):
                jump = self.jumps[at[1]]
                if jump:
                    begin = text.rfind(b"\n", 0, at.start()) + 1
                    hart = text[begin:text.index(b" ", begin)]
                    self.waiting[hart] = jump
                    self.arrive(hart, at.end() - 1 if hart == at[2]
                                else text.find(b"\n" + hart + b" ", at.end() - 1))
            self.waiting.update(last_jump(text, self.jumps))
            self.found.sort(key=lambda move: move.place)
        return self.found

    def arrive(self, hart: bytes, at: int) -> None:
        """A hart's jump leads to its next row, which begins at a place of the chunk, or is in a
        later one."""
        if at < 0 or self.found is None:
            return
        _, count, target, _ = self.text[at + 1:at + HEAD].split(b" ", 3)
        jump = self.waiting.pop(hart)
        before = self.tops.get(hart, BOTTOM)
        self.tops[hart] = behind = self.jumps.behind(before, jump, target)
        self.found.append(Move(hart, jump, before, behind, at, int(count), target))
        marks = self.marks.setdefault(hart, ([0], [before]))
        marks[0].append(at)
        marks[1].append(behind)

    def top(self, hart: bytes, place: int) -> Frame:
        """The innermost frame of the row that a place is in."""
        self.moves()
        begins, tops = self.marks.get(hart, ([0], [self.before.get(hart, BOTTOM)]))
        return tops[bisect.bisect_right(begins, place) - 1]


class Stacks:
    """chunk   the one that was taken last
    tops    {hart: its innermost frame behind it}; floors: how deep the outermost one is that is
            kept
    waiting {hart: the jump that is its last row}"""

    def __init__(self, entries: Entries, harts: int) -> None:
        self.entries = entries
        self.jumps = Jumps(entries)
        self.is_one = harts == 1
        self.tops: Dict[bytes, Frame] = {}
        self.floors: Dict[bytes, int] = {}
        self.waiting: Dict[bytes, Jump] = {}
        self.chunk = Chunk(b"", self.jumps, {}, {})

    def take(self, text: bytes) -> None:
        """Follows the next chunk. Of one hart this is done without places, for which few chunks are
        asked."""
        self.chunk = Chunk(text, self.jumps, self.tops, self.waiting)
        if self.is_one:
            hart = text[1:text.index(b" ", 1)]
            self.tops = {hart: self.behind(text, hart)}
            self.waiting = last_jump(text, self.jumps)
        else:
            self.chunk.moves()
            self.tops = dict(self.chunk.tops)
            self.waiting = dict(self.chunk.waiting)
        for hart, top in self.tops.items():
            if top[2] - self.floors.get(hart, 0) > MOST_FRAMES:
                self.tops[hart] = inner_half(top)
                self.floors[hart] = top[2] - MOST_FRAMES // 2

    def begin_behind(self, last: Mapping[bytes, bytes]) -> None:
        """Begins again behind rows that weren't followed, of which {hart: its last row} is
        given."""
        self.tops = {}
        self.floors = {}
        jumps = ((hart, self.jumps[row.split(b" ", 2)[2][:KEY]])
                 for hart, row in last.items() if b"j" in row)
        self.waiting = {hart: jump for hart, jump in jumps if jump}

    def behind(self, text: bytes, hart: bytes) -> Frame:
        """The innermost frame of the only hart behind a chunk."""
        # (a frame; its type would have no end for mypy, which follows the loop)
        top: Any = self.tops.get(hart, BOTTOM)
        jumps = self.jumps
        if hart in self.waiting:
            top = jumps.behind(top, self.waiting[hart], text[1:HEAD].split(b" ", 3)[2])
        for key, target in TARGETS.findall(text):
            jump = jumps[key]
            if jump is None:
                continue
            frame = jump[0]
            if not frame:
                top = top[1] if top[0] == target else returned(top, target)
            elif frame[0] != JUMPED[0]:
                top = frame, top, top[2] + 1
            else:
                top = jumps.behind(top, jump, target)
        found: Frame = top
        return found


def last_jump(text: bytes, jumps: Jumps) -> Dict[bytes, Jump]:
    """{hart: the jump that is a chunk's last row}, if it is one."""
    last = LAST_JUMP.match(text, text.rfind(b"\n"))
    jump = jumps[last[2]] if last else None
    return {last[1]: jump} if last and jump else {}
