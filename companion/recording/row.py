"""A row of `replay` or `joint` by itself, as a line tells it."""
from __future__ import annotations

from typing import Iterator, NamedTuple, Optional

from .chunks import chunks
from .rows import Access


class Row(NamedTuple):
    """An instruction that was done. `ic` is its hart's count before it, `word` is None without
    code. `register` is the name of what it wrote, or empty, and `result` the value; `fault` is the
    name of the fault, or empty."""
    hart: int
    ic: int
    pc: int
    word: Optional[int]
    text: str
    register: str
    result: int
    load: Optional[Access]
    store: Optional[Access]
    fault: str


def parse_row(line: bytes) -> Optional[Row]:
    """The row that a line of `replay` or `joint` tells, or None if it tells of something else."""
    parts = line.decode("ascii", "replace").rstrip("\n").split(" | ")
    words = parts[0].split(" ", 4)
    if not words[0].isdigit() or len(words) < 5:
        return None
    register = ""
    result = 0
    fault = ""
    accesses: dict[str, Access] = {}
    for told in parts[1:]:
        kind, _, rest = told.partition(" ")
        if kind == "fault":
            fault = rest.split(" ")[0]
        elif kind in ("load", "store"):
            address, _, value = rest.partition("=")
            accesses[kind] = Access(int(address, 16), int(value, 16))
        else:
            register, _, value = told.partition("=")
            result = int(value, 16)
    word = None if words[3][0] == "-" else int(words[3], 16)
    return Row(int(words[0]), int(words[1]), int(words[2], 16), word, words[4], register, result,
               accesses.get("load"), accesses.get("store"), fault)


def rows_of(log_name: str, elf_name: str) -> Iterator[Row]:
    """Each row of a log, in the order of `joint`. Nothing is kept, so a log may be large."""
    for text in chunks(log_name, elf_name):
        for line in text[1:].split(b"\n"):
            row = parse_row(line)
            if row:
                yield row
