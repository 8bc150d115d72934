"""The names of a program: a file of the same program that has them, and the tool that tells its
lines."""
from __future__ import annotations

from typing import Sequence

from ..call import streams
from ..call.errors import OTHER_PROGRAM, CompanionError
from ..call.text import clean
from .elf import Elf
from .places import PACKAGE, Places

NO_TOOL = f"no addr2line is here, so functions come without lines; Debian has it in {PACKAGE}"
NO_NAMES = ("has no names, since it was stripped: record the file from before `strip`, "
            "or give that to --names")
NO_LINES = "has no lines: build it with -g, or give --names a copy that has them"


def named_elf(elf: Elf, name: str) -> Elf:
    """The file with names: the program's own, or another of the very same program."""
    if not name:
        return elf
    named = Elf(name)
    differs = named.difference(elf)
    if differs:
        raise CompanionError(f"--names: {name} is another build than {elf.name}, "
                             f"so its names would be wrong: {differs}", OTHER_PROGRAM)
    return named


def lack_of(named: Elf, places: Places) -> str:
    """What the file or this machine lacks for names and lines, and what to do; or nothing."""
    if not named.has_lines:
        return f"{clean(named.name)} {NO_LINES if named.symbols else NO_NAMES}"
    return "" if places.tool else NO_TOOL


def places_of(named: Elf, folders: Sequence[str] = ()) -> Places:
    """The places of a program, and its sources in these folders. What it lacks for lines is said at
    once."""
    found = Places(named, folders=folders)
    lack = lack_of(named, found)
    if lack:
        streams.say(lack)
    return found
