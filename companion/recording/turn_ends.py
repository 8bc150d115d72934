"""The row with which each turn of a hart ended: an access to memory, a system call or a fault."""
from __future__ import annotations

import re
from typing import Iterator, Match

from ..call.program import Output
from .log import Log

# A row that accesses memory, calls the system or faults; or, behind a row that does neither, the
# end of an interval that was full or came to the hart's limit.
TURN_ENDS = re.compile(rb"^(?:\d+ \d+ \w+ \S+ (?:l[bhw]u? |s[bhw] |ecall|lr\.|sc\.|amo|[^|\n]*\| "
                       rb"fault )|end \d+ \d+ \d+ (?:length|limit) ).*\n", re.M)


def turn_ends(text: bytes) -> list[bytes]:
    """Of what `replay` prints of a hart, the line with which each turn ended."""
    return [match[0] for match in turn_matches(text)]


def turn_matches(text: bytes) -> Iterator[Match[bytes]]:
    """The same, with its place in the text."""
    for match in TURN_ENDS.finditer(text):
        if not (match[0].startswith(b"end ") and has_asked(text, match.start())):
            yield match


def has_asked(text: bytes, end: int) -> bool:
    """Whether the row before a place ended a turn."""
    return TURN_ENDS.match(text, text.rfind(b"\n", 0, end - 1) + 1) is not None


def turn_lines(log: Log, elf_name: str, hart: int, turns: int) -> list[bytes]:
    """The line with which each of a hart's turns ended, or nothing: the log has those of its last
    ones."""
    known: list[bytes] = []
    for interval in log.intervals:
        if interval.hart == hart:
            with Output("replay", log.name, elf_name, str(hart), str(interval.number)) as output:
                known += turn_ends(output.read())
    return ([b""] * (turns - len(known)) + known)[-turns:]
