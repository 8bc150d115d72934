"""The filter that puts functions and lines behind rows, and the addresses of names."""
from __future__ import annotations

import os
import sys
from contextlib import closing
from typing import Callable

from ..call import streams
from ..call.errors import MISSING, CompanionError
from ..call.help import Help
from ..call.options import read_words
from .addresses import addresses_of
from .elf import Elf
from .naming import places_of

HELP = Help(
    "names ELF [NAME | FILE:LINE]...", "function and line of each row that it reads, or addresses",
    """A filter: each row and line of `replay`, `joint`, `races`, `slice`, `list` and `debug` gets
the function and the line of its address. If names follow, it prints the address of each, for
`break` and `word` of `debug`: of a function, an object or FILE:LINE.

ELF is the program with its names and lines (gcc -g); the log may be of the same program stripped.
Lines come from addr2line of binutils or LLVM; without one there are the names of ELF's symbols, and
without these the rows alone.""")
CHUNK = 1 << 16         # bytes of out at a time: what the program sends at once


class Filter:
    """Puts the name of its place behind each line that tells of one."""

    def __init__(self, elf: Elf) -> None:
        self.elf = elf
        self.places = places_of(elf)
        # Third word of a row: what is put behind, with the line's end
        self.kept: dict[bytes, bytes] = {}
        self.last: dict[bytes, bytes] = {}      # hart: what was put behind its last row

    def close(self) -> None:
        self.places.close()

    def line(self, line: bytes) -> bytes:
        """A line with its end."""
        words = line.split(None, 3)
        if len(words) < 3:
            return self.other(line, words)
        # A row's address is in memory, or has no code; a count of eight digits in a line of `list`
        # is neither.
        if len(words[2]) == 8 and words[0].isdigit() and (words[2] < b"1" or words[3:]
                                                          and words[3][:8] == b"--------"):
            behind = self.kept.get(words[2])
            if behind is None:
                behind = self.kept[words[2]] = self.of_address(words[2])
            self.last[words[0]] = behind
            return line[:-1] + behind
        return self.other(line, words)

    def of_address(self, text: bytes) -> bytes:
        """What is put behind an address of code."""
        return name_behind(self.places.named, text)

    def of_data(self, text: bytes) -> bytes:
        """What is put behind an address of data."""
        return name_behind(self.elf.data_name, text[:8])

    def other(self, line: bytes, words: list[bytes]) -> bytes:
        """A line that is no row: an end, one of `list`, of `debug`, of `races`, a word of
        memory."""
        kind = words[0] if words else b""
        said = b"\n"
        if kind == b"end" and len(words) > 2:
            said = self.last.get(words[1], b"\n")
        elif kind.isdigit() and len(words) == 4:
            said = self.list_line(words[3].split())
        elif kind == b"stop" and len(words) == 4:
            said = self.of_address(words[3].strip())
        elif kind == b"race" and len(words) == 4:
            said = self.of_data(words[3].split()[-1])
        elif kind in (b"word", b"in") and len(words) > 1:
            said = self.of_data(words[-1])
        elif kind == b"branch" and len(words) == 4:
            said = self.of_address(words[3].split()[0])
        return line[:-1] + said

    def list_line(self, words: list[bytes]) -> bytes:
        """A line of `list` tells no address of code but for a jump that found none there."""
        if len(words) != 3:
            return b"\n"
        if words[1] in (b"FetchOutside", b"TargetMisaligned"):
            return self.of_address(words[2])
        return self.of_data(words[2]) if words[1].startswith((b"Load", b"Store")) else b"\n"


def name_behind(name_of: Callable[[int], str], address: bytes) -> bytes:
    """The name of an address behind a line, with the line's end."""
    try:
        said = name_of(int(address, 16))
    except ValueError:
        said = ""
    return b" | %s\n" % said.encode() if said else b"\n"


def filter_input(elf: Elf) -> int:
    """Each piece of the input is answered at once, so a session of `debug` can be read through
    it."""
    rest = b""
    with open(sys.stdin.fileno(), "rb", closefd=False) as source, closing(Filter(elf)) as rows:
        while True:
            piece = source.read1(CHUNK)
            lines = (rest + piece).split(b"\n")
            rest = lines.pop()
            streams.put_bytes(b"".join([rows.line(line + b"\n") for line in lines]))
            if not piece:
                break
        if rest:                                # a last line without an end gets none
            streams.put_bytes(rows.line(rest + b"\n")[:-1])
    return 0


def main(words: list[str]) -> int:
    names, _ = read_words(words, HELP.form)
    elf = Elf(names[0])
    if len(names) == 1:
        return filter_input(elf)
    for name in names[1:]:
        found = addresses_of(elf, name)
        if not found:
            why = "" if elf.symbols else ": it is stripped"
            raise CompanionError(f"{os.path.basename(elf.name)} has no {name}{why}", MISSING)
        streams.put_lines(f"{address:08x} {what}" for address, what in found)
    return 0
