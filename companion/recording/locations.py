"""The registers that variables are in, by address, as lists of locations of DWARF 5 tell them."""
from __future__ import annotations

import struct
from typing import Iterator, NamedTuple

from .dwarf import LOCATION, Dwarf, Entry, unsigned

REGISTER = 0x50  # DWARF's operation for the first register
REGISTERS = 32  # how many there are
END = 0
OFFSETS = 4
BASE = 6
BETWEEN = 7
LENGTH = 8
VIEWS = 9
LONGEST_LIST = 1000         # entries: files may be forged, and no compiler comes near to it


class Location(NamedTuple):
    """A register that has the value from one address up to another."""
    low: int
    high: int
    register: int


def locations(dwarf: Dwarf, entry: Entry) -> Iterator[Location]:
    """Those of a variable that is wholly in a register. Whatever bytes there are, it ends."""
    at = entry.number(LOCATION)
    try:
        yield from listed(dwarf.parts.get(".debug_loclists", b""), at) if at else ()
    except (struct.error, IndexError, ValueError):
        return


def listed(data: bytes, at: int) -> Iterator[Location]:
    base = -1
    for _ in range(LONGEST_LIST):
        kind = data[at]
        at += 1
        low = high = 0
        if kind == BASE:
            base = struct.unpack_from("<I", data, at)[0]
            at += 4
            continue
        if kind in (OFFSETS, VIEWS):
            low, at = unsigned(data, at)
            high, at = unsigned(data, at)
            low, high = (low + base, high + base) if base >= 0 else (0, 0)
        elif kind == BETWEEN:
            low, high = struct.unpack_from("<II", data, at)
            at += 8
        elif kind == LENGTH:
            low = struct.unpack_from("<I", data, at)[0]
            at += 4
            high, at = unsigned(data, at)
            high += low
        else:                                   # the end, or what can't be read
            return
        if kind == VIEWS:
            continue
        size, at = unsigned(data, at)
        if size == 1 and REGISTER <= data[at] < REGISTER + REGISTERS and low < high:
            yield Location(low, high, data[at] - REGISTER)
        at += size
