"""The kinds of files that a call may replace. Each is known by its whole content: how it begins and
ends, and that nothing else of its kind, as another tool's, was put to it. What a user has put into
the middle of a text can't be told."""
from __future__ import annotations

import mmap
import re
import struct
from typing import Callable, NamedTuple

from . import program
from .book_file import is_book
from .errors import CompanionError

ELF_MAGIC = b"\x7fELF"
# Of a core file of 32-bit RISC-V
CORE_HEAD = ELF_MAGIC + b"\1\1\1" + bytes(9) + struct.pack("<HHI", 4, 243, 1)
# A note behind the head: other tools make core files, too
CORE_MARK = struct.pack("<III", 8, 0, 0x5a4b) + b"zelkuma\0"
CORE_HEAD_BYTES = 52
PAGE_MARK = '<meta name="generator" content="zelkuma">'


class FileKind(NamedTuple):
    """What a file is called, and whether a file of a name is one."""
    name: str
    fits: Callable[[str], bool]


def text_kind(name: str, begins: str, ends: str, once: str) -> FileKind:
    """A text that begins with a pattern and ends so; `once` comes in it once."""
    head = re.compile(begins.encode())
    tail = ends.encode()
    mark = once.encode()

    def fits(file_name: str) -> bool:
        with open(file_name, "rb") as file, mmap.mmap(file.fileno(), 0,
                                                      access=mmap.ACCESS_READ) as text:
            first = text.find(mark)
            return bool(head.match(text) and text[-len(tail):] == tail and first != -1
                        and text.find(mark, first + 1) < 0 and text.find(b"\0") < 0)

    return FileKind(name, fits)


def is_log(name: str) -> bool:
    """Whether the program says that it is a whole log."""
    try:
        program.output("check", name)
    except CompanionError:
        return False
    return True


def is_core(name: str) -> bool:
    """Whether it is a whole core file of ours."""
    with open(name, "rb") as file, mmap.mmap(file.fileno(), 0, access=mmap.ACCESS_READ) as data:
        if (not data[:len(CORE_HEAD)] == CORE_HEAD
                or data[CORE_HEAD_BYTES:CORE_HEAD_BYTES + len(CORE_MARK)] != CORE_MARK):
            return False
        first, = struct.unpack_from("<I", data, 28)
        count, = struct.unpack_from("<H", data, 44)
        # The head of the last part, which is at the file's end
        last: int = first + 32 * (count - 1)
        if not 0 < last <= len(data) - 32:
            return False
        offset, size = struct.unpack_from("<4xI8xI", data, last)
        return bool(offset + size == len(data))


LOG = FileKind("a whole log", is_log)
# An input can be any bytes, so none is overwritten
INPUT = FileKind("an empty file", lambda _: False)
CORE = FileKind("a core file of export --core", is_core)
TURNS = FileKind("a list of turns", is_book)
PAGE = text_kind("a page of zelkuma", r'<!doctype html>\s*<html lang="en">\s*<head>\s*<meta '
                 r'charset="utf-8">\s*' + PAGE_MARK, "</html>\n", "<!doctype html>")
