"""BOOK: a recording's list of turns in a file, a byte a turn."""
from __future__ import annotations

from typing import Sequence

from ..call import program
from ..call.errors import CompanionError
from ..call.files import check_regular

# Statuses of audit
DIFFERS = 16
NO_WHOLE_RUN = 17
PART = 1 << 20              # bytes


def read_book(name: str, most: int) -> tuple[int, bytes]:
    """How many switches between harts it has; and its turns, if these are no more than so many."""
    check_regular(name)
    switches = 0
    kept = []
    last = b""
    with open(name, "rb") as file:
        for part in iter(lambda: file.read(PART), b""):
            switches += switches_in(last + part)
            last = part[-1:]
            kept.append(part if switches <= most else b"")
    return switches, b"".join(kept)


def switches_in(turns: bytes) -> int:
    """How many turns follow one of another hart."""
    one, other = (int.from_bytes(part, "big") for part in (turns[1:], turns[:-1]))
    between = max(0, len(turns) - 1)
    return between - (one ^ other).to_bytes(between, "big").count(b"\0")


def check_book(log: str, elf: str, book: str, source: Sequence[str]) -> None:
    """Refuses unless LOG is the recording of BOOK's turns."""
    try:
        program.output("audit", log, elf, book, options=source)
    except CompanionError as error:
        if error.status == DIFFERS:
            raise CompanionError(f"LOG isn't the recording of BOOK's turns ({error}): BOOK is of "
                                 "another run, or the input isn't that of the recording", DIFFERS)
        if error.status == NO_WHOLE_RUN:
            raise CompanionError(f"BOOK is no list of turns of a whole run of ELF ({error}), "
                                 "or the input isn't that of the recording", NO_WHOLE_RUN)
        raise
