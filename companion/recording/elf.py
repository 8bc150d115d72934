"""The segments and symbols of an ELF file for 32-bit RISC-V. Any bytes can be given: what makes no
sense is refused with a line, or left out, and takes no more memory than the file and its
symbols."""
from __future__ import annotations

import bisect
import os
import struct
from typing import NamedTuple

from ..call.errors import BAD_ELF, CompanionError
from ..call.files import check_regular
from ..call.text import clean

# Kinds of segments and sections
LOADED = 1
SYMBOL_TABLE = 2
# Kinds of symbols
LABEL = 0
OBJECT = 1
FUNCTION = 2
# Flags of a segment
EXECUTABLE = 1
WRITABLE = 2
# Files may be forged, so each walk has an end. Of a program that fits into 64 MiB, no linker comes
# near to these; the file has what a debugger needs, too.
MOST_SEGMENTS = 1000
MOST_SYMBOLS = 1000000
LONGEST_NAME = 200
LARGEST_FILE = 1 << 29


class Segment(NamedTuple):
    """The words that a loaded segment touches: `body` is the bytes of the file, and `size` what it
    takes in memory. What else is in its first and its last word is 0, and as writable as it."""
    address: int
    size: int
    flags: int
    body: memoryview


class Symbol(NamedTuple):
    address: int
    size: int
    kind: int
    name: str

    @property
    def end(self) -> int:
        return self.address + self.size


class Elf:
    """parts      the loaded segments, by address
    symbols    by address; functions are those of code, objects those of data
    has_lines  whether lines of sources are in it, as by `-g`"""

    def __init__(self, name: str) -> None:
        self.name = name
        check_regular(name)
        with open(name, "rb") as file:
            # (as much memory is asked for as this says, however long the file is)
            self.data = file.read(min(os.fstat(file.fileno()).st_size, LARGEST_FILE) + 1)
        if len(self.data) > LARGEST_FILE:
            raise CompanionError(f"elf: {name} is longer than {LARGEST_FILE} bytes", BAD_ELF)
        if self.data[:6] != b"\x7fELF\1\1":
            raise CompanionError(f"elf: {name} is no 32-bit little-endian ELF file", BAD_ELF)
        self.parts: list[Segment] = []
        self.symbols: list[Symbol] = []
        self.has_lines = b".debug_line\0" in self.data
        try:
            self.read_segments()
        except struct.error:
            raise CompanionError(f"elf: the program headers of {name} end outside of the file",
                                 BAD_ELF)
        try:
            self.read_symbols()
        except struct.error:                # the program runs without its names
            self.symbols = []
        self.functions = [item for item in self.symbols if item.kind != OBJECT]
        self.objects = [item for item in self.symbols if item.kind == OBJECT]

    def read_segments(self) -> None:
        first, = struct.unpack_from("<I", self.data, 28)
        count, = struct.unpack_from("<H", self.data, 44)
        self.headers_end: int = first + 32 * count
        view = memoryview(self.data)
        for i in range(min(count, MOST_SEGMENTS)):
            kind, offset, address, _, in_file, in_memory, flags, _ = struct.unpack_from(
                "<8I", self.data, first + 32 * i)
            if kind == LOADED and in_memory:
                body = view[offset:offset + min(in_file, in_memory)]
                if address % 4:
                    body = memoryview(bytes(address % 4) + body)
                begin = address & ~3
                end = (address + in_memory + 3) & ~3
                self.parts.append(Segment(begin, end - begin, flags, body))
        self.parts.sort(key=lambda part: part.address)

    def read_symbols(self) -> None:
        # So many entries are read, whether they name something or not
        left = MOST_SYMBOLS
        first, = struct.unpack_from("<I", self.data, 32)
        count, = struct.unpack_from("<H", self.data, 48)
        sections = [struct.unpack_from("<4xI8xIII", self.data, first + 40 * i)
                    for i in range(count if first else 0)]
        for kind, offset, size, link in sections:
            if kind == SYMBOL_TABLE and link < len(sections):
                count = min(size // 16, left)
                self.read_table(offset, count, sections[link][1])
                left -= count
        self.symbols.sort()

    def read_table(self, at: int, count: int, names: int) -> None:
        for place in range(at, at + 16 * count, 16):
            name, value, size, info, _, section = struct.unpack_from("<IIIBBH", self.data, place)
            word = self.data[names + name:names + name + LONGEST_NAME].partition(b"\0")[0].decode(
                "latin-1")
            # $x and the like mark code for disassemblers; section 0 is of undefined symbols.
            if word and word[0] != "$" and section and info & 15 in (LABEL, OBJECT, FUNCTION):
                self.symbols.append(Symbol(value, size, info & 15, clean(word)))

    def part_of(self, address: int) -> Segment | None:
        return next((part for part in self.parts
                     if part.address <= address < part.address + part.size), None)

    def bytes_at(self, address: int, size: int) -> bytes | None:
        """The bytes that the file gives a place, zeros behind a segment's own bytes; None outside
        of one segment."""
        part = self.part_of(address)
        if part is None or address + size > part.address + part.size:
            return None
        return bytes(part.body[address - part.address:address - part.address + size]).ljust(size,
                                                                                            b"\0")

    def word(self, address: int) -> int | None:
        """The word at an address as the file gives it, or None outside of all segments."""
        body = self.bytes_at(address & ~3, 4)
        return None if body is None else int.from_bytes(body, "little")

    def is_read_only(self, address: int) -> bool:
        part = self.part_of(address)
        return part is not None and not part.flags & WRITABLE

    def is_code(self, address: int) -> bool:
        part = self.part_of(address)
        return part is not None and bool(part.flags & EXECUTABLE)

    def read_only_bytes(self, address: int, size: int) -> bytes | None:
        """Bytes that no run can change, or None."""
        return self.bytes_at(address, size) if self.is_read_only(address) else None

    def difference(self, other: Elf) -> str:
        """What differs between the programs that both files load, or nothing. The file's own
        headers, which a stripped copy has otherwise, can lie in a segment, and aren't compared."""
        if len(self.parts) != len(other.parts):
            return f"it loads {len(self.parts)} segments, not {len(other.parts)}"
        for at, (part, its) in enumerate(zip(self.parts, other.parts)):
            if part[:3] != its[:3]:
                return (f"its segment {at + 1} is {part.size} bytes at {part.address:08x} with "
                        f"flags {part.flags}, "
                        f"not {its.size} bytes at {its.address:08x} with flags {its.flags}")
            begin = max(self.headers_in(part), other.headers_in(its))
            if part.body[begin:] != its.body[begin:]:
                # Strip writes zeros at a segment's end that memory has there anyway
                size = max(len(part.body), len(its.body))
                one, two = (bytes(each.body[begin:]).ljust(size - begin, b"\0")
                            for each in (part, its))
                first = next((i for i, (a, b) in enumerate(zip(one, two), begin) if a != b), None)
                if first is not None:
                    return f"other bytes from {part.address + first:08x} on"
        return ""

    def headers_in(self, part: Segment) -> int:
        """How many bytes of the file's own headers a segment begins with."""
        return self.headers_end if part.body[:4] == b"\x7fELF" else 0

    def object_at(self, address: int) -> Symbol | None:
        """The symbol of the object that holds an address, or None."""
        found = last_before(self.objects, address)
        return found if found and address < found.address + max(found.size, 1) else None

    def data_name(self, address: int) -> str:
        """NAME+OFFSET of the object that holds an address, or nothing."""
        found = self.object_at(address)
        if not found:
            return ""
        return found.name + (f"+{address - found.address}" if address > found.address else "")

    def function_name(self, address: int) -> str:
        """The function that an address of code is in, or else the label before it, or nothing:
        constants can follow functions."""
        found = last_before(self.functions, address)
        is_in = found and (not found.size or address < found.address + found.size)
        return found.name if found and is_in and self.is_code(address) else ""


def last_before(symbols: list[Symbol], address: int) -> Symbol | None:
    """The last symbol at an address or before."""
    at = bisect.bisect_left(symbols, Symbol(address + 1, 0, LABEL, ""))
    return symbols[at - 1] if at else None
