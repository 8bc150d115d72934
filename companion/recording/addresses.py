"""Addresses of names: NAME of a function or an object, or FILE:LINE."""
from __future__ import annotations

import os
from contextlib import closing
from typing import Tuple

from .elf import EXECUTABLE, Elf
from .naming import places_of
from .places import LONGEST_LINE_NUMBER

MOST_CODE = 1 << 22     # bytes: a million instructions. A forged file may name gigabytes
Named = Tuple[int, str]     # an address, and what is there


def addresses_of(elf: Elf, name: str) -> list[Named]:
    found = sorted({(symbol.address, symbol.name) for symbol in elf.symbols if symbol.name == name})
    file, _, line = name.rpartition(":")
    if found or not (file and line.isascii() and line.isdigit()
                     and len(line) <= LONGEST_LINE_NUMBER):
        return found
    return addresses_of_line(elf, file, int(line))


def addresses_of_line(elf: Elf, file: str, line: int) -> list[Named]:
    """The first address of each piece of code of a line. The tools answer lines of addresses alone,
    so all code is asked."""
    found = []
    before = False
    with closing(places_of(elf)) as places:
        code = code_of(elf)
        places.fetch(code)
        for pc in code:
            here = [frame for frame in places.frames(pc)
                    if frame.line == line and is_file(frame.path, file)]
            if here and not before:
                found.append((pc, f"{here[0].function} {here[0].file}:{here[0].line}"))
            before = bool(here)
    return found


def code_of(elf: Elf) -> list[int]:
    """The addresses of all code that the file holds: so many bytes at most, however often it loads
    them."""
    found: set[int] = set()
    for part in elf.parts:
        if part.flags & EXECUTABLE and len(found) * 4 < MOST_CODE:
            found.update(range(part.address, part.address + min(len(part.body), MOST_CODE), 4))
    return sorted(found)


def is_file(path: str, name: str) -> bool:
    """Whether a name is a path's end, by whole parts of it."""
    path = os.path.normpath(path)
    name = os.path.normpath(name)
    return path == name or path.endswith("/" + name)
