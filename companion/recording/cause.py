"""How a run ended: the end of one hart, the place, and the calls over it. Only rows of jumps are
looked at."""
from __future__ import annotations

import hashlib
import json
import re
from collections import deque
from typing import Deque, Iterable, List, NamedTuple, Tuple

from ..call.errors import NO_INTERVAL, CompanionError
from .calls import Entries
from .chunks import chunks, rows_between
from .elf import Elf
from .log import End, Log, is_fault
from .places import Places
from .recent import FIRST_ROWS, LogFile
from .stacks import Chunk, Frame, Stacks, call_places

LOOP_ROWS = 300         # of jumps: some rounds of a loop, whose lowest frame is the cause's
MOST_FRAMES = 200       # a recursion is told by these; no sound program has more
# Of all harts, for the calls over a loop: one hart's share takes some seconds
HANG_ROWS = 20000000
EXITS = "exit", "group"
UNKNOWN = "-"           # of a bucket


class Cause(NamedTuple):
    """reason, value  of the hart's end
    pc             the place, or 0 of a hart that exited
    calls          the places of the innermost calls over it, innermost first"""
    reason: str
    value: int
    pc: int
    calls: tuple[int, ...]

    def functions(self, elf: Elf) -> tuple[str, ...]:
        """Those that are under way, innermost first, by the file's own symbols. Each counts once,
        so that a recursion's depth isn't told."""
        return tuple(dict.fromkeys(elf.function_name(at) or f"{at:08x}"
                                   for at in (self.pc,) + self.calls))

    def text(self) -> str:
        return json.dumps(self)

    @classmethod
    def of(cls, text: str) -> Cause:
        reason, value, pc, calls = json.loads(text)
        return cls(reason, value, pc, tuple(calls))


def last_jumps(texts: Iterable[bytes], hart: int) -> List[Tuple[Frame, int]]:
    """The innermost frame and the address of each of a hart's last rows."""
    head = b"\n%d " % hart
    rows = re.compile(rb"\n%d \d+ (\w{8})[^\n]*" % hart)
    stacks = Stacks(Entries(), 1)
    kept: Deque[Tuple[Chunk, int]] = deque()
    size = 0                                    # rows in `kept`
    for text in texts:
        if text.count(head) < text.count(b"\n"):
            text = b"".join(found[0] for found in rows.finditer(text))
        if text:
            stacks.take(text)
            kept.append((stacks.chunk, text.count(b"\n")))
            size += kept[-1][1]
        while kept and size - kept[0][1] >= LOOP_ROWS:
            size -= kept.popleft()[1]
    found = [(chunk.top(head[1:-1], row.start() + 1), int(row[1], 16)) for chunk, _ in kept
             for row in rows.finditer(chunk.text)]
    return found[-LOOP_ROWS:]


def ended_hart(log: Log) -> int:
    """The hart that tells how the run ended: the one with the fault, else one at its limit, else
    one that exited; if possible one that has rows."""
    have_rows = {one.hart for one in log.intervals if one.end > one.start or is_fault(one.reason)}

    def rank(hart: int) -> tuple[bool, bool, bool, bool, int]:
        reason = log.ends[hart].reason
        return (not is_fault(reason), hart not in have_rows, reason != "limit",
                reason != "group", hart)

    if not log.ends:
        raise CompanionError("the log holds no interval (see `list`)", NO_INTERVAL)
    return min(log.ends, key=rank)


def cause_along(texts: Iterable[bytes], hart: int, end: End) -> Cause:
    """The cause of a hart's end, from chunks of its last rows."""
    rows = last_jumps(texts, hart)               # which refuses another program's file, too
    if end.reason in EXITS:
        return Cause(end.reason, end.value, 0, ())
    if not rows:
        raise CompanionError(f"the log holds no row of hart {hart} (see `list`)", NO_INTERVAL)
    if end.reason == "limit":
        # Any row of the loop can be last
        top, pc = min(rows, key=lambda row: (row[0][2], row[1]))
    else:
        # After a jump to an address without code, the jump's place tells more
        top, pc = rows[-2 if end.reason == "FetchOutside" and len(rows) > 1 else -1]
    return Cause(end.reason, end.value, pc, tuple(call_places(top, MOST_FRAMES)))


def cause_of(log: Log, elf_name: str) -> Cause:
    hart = ended_hart(log)
    return cause_along(chunks(log.name, elf_name, log=log), hart, log.ends[hart])


def cause_of_file(source: LogFile, elf_name: str) -> Cause:
    """The cause, by the last million rows. The calls over a loop without end can be from long
    before: more of its hart's rows are read then, so that a hang has one cause whatever its limit
    was."""
    log = source.end(FIRST_ROWS)
    hart = ended_hart(log)
    end = log.ends[hart]
    if not log.unread or end.reason != "limit":
        return cause_of(log, elf_name)
    return cause_along(rows_between(source.end(HANG_ROWS), elf_name, hart, 0, end.count), hart, end)


def digest_of(cause: Cause, elf: Elf) -> str:
    """Of what the recorded file and the log alone say: so it is the same on each machine, whatever
    tools and files with names are there."""
    said = [cause.reason, UNKNOWN if cause.reason == "limit" else f"{cause.pc:08x}",
            *cause.functions(elf)]
    return hashlib.sha256("\n".join(said).encode("utf-8", "replace")).hexdigest()[:8]


class Bucket(NamedTuple):
    """How the run ended, the function, FILE:LINE, and the digest; UNKNOWN for what isn't told."""
    reason: str
    function: str
    place: str
    digest: str

    @property
    def is_good(self) -> bool:
        """Whether the run ended well: by an exit of code 0."""
        return self.reason in EXITS and self.function == "0"

    def line(self) -> str:
        return " ".join(word.replace(" ", "_") if at else word for at, word in enumerate(self))


def bucket_of(cause: Cause, elf: Elf, places: Places) -> Bucket:
    """`elf` is the recorded file, and `places` are those of one with names."""
    if cause.reason in EXITS:
        return Bucket(cause.reason, str(cause.value), UNKNOWN, UNKNOWN)
    frame = places.innermost(cause.pc)
    place = f"{frame.file}:{frame.line}" if frame.line and cause.reason != "limit" else UNKNOWN
    return Bucket(cause.reason, places.function(cause.pc), place, digest_of(cause, elf))
