"""The entries of an ELF file's debug information (DWARF 4 and 5): functions, variables and types,
as GCC and LLVM write them.

Any bytes can be given: a unit that makes no sense is left out, so many entries are kept at most,
and no chain is followed without an end. gdb tells the same of a program, but can't be asked of each
access."""
from __future__ import annotations

import functools
import struct
from typing import Dict, List, NamedTuple, Optional, Tuple, Union

from .elf import Elf

ARRAY = 1
CLASS = 2
ENUM = 4
PARAMETER = 5
BLOCK = 0xb
MEMBER = 0xd
POINTER = 0xf
UNIT = 0x11
STRUCT = 0x13
ROUTINE = 0x15
UNION = 0x17
INLINED = 0x1d
SUBRANGE = 0x21
BASE = 0x24
FUNCTION = 0x2e
VARIABLE = 0x34
LOCATION = 2
NAME = 3
BYTE_SIZE = 0xb
LOW = 0x11
HIGH = 0x12
COMP_DIR = 0x1b
UPPER = 0x2f
ORIGIN = 0x31
COUNT = 0x37
OFFSET = 0x38
FRAME_BASE = 0x40
SPECIFICATION = 0x47
TYPE = 0x49
BITS = 0x0d
PRODUCER = 0x25
KEPT = {LOCATION, NAME, BYTE_SIZE, LOW, HIGH, COMP_DIR, UPPER, ORIGIN, COUNT, OFFSET,
        FRAME_BASE, SPECIFICATION, TYPE, BITS}
# The bytes of each form of a fixed size.
FIXED = {0x01: 4, 0x05: 2, 0x06: 4, 0x07: 8, 0x0b: 1, 0x0c: 1, 0x0e: 4, 0x10: 4, 0x11: 1, 0x12: 2,
         0x13: 4, 0x14: 8, 0x17: 4, 0x19: 0, 0x1e: 16, 0x1f: 4, 0x20: 8, 0x21: 0, 0x25: 1, 0x26: 2,
         0x28: 4, 0x29: 1, 0x2a: 2, 0x2b: 3, 0x2c: 4}
REFERENCES = (0x11, 0x12, 0x13, 0x14)
FLAG = 0x19
IMPLICIT = 0x21
SIGNED = 0x0d
UNSIGNED = (0x0f, 0x1a, 0x1b, 0x22, 0x23)
UNSIGNED_REFERENCE = 0x15
TEXT = 0x08
BLOCKS = (0x09, 0x18)
COUNTED = {0x0a: 1, 0x03: 2, 0x04: 4}           # blocks behind their length in so many bytes
STRINGS = {0x0e: ".debug_str", 0x1f: ".debug_line_str"}
LONG = 0xfffffff0           # lengths from here on are those of 64-bit DWARF
MOST_ENTRIES = 400000       # some 200 MB of Python's memory; sqlite3 has 30,000
# Files may be forged, so each walk has an end; no compiler comes near to these.
MOST_SECTIONS = 1000
LONGEST_NAME = 200
LONGEST_NUMBER = 10         # bytes of a LEB128 number of 64 bits
LONGEST_CHAIN = 4           # from a copy to its definition
Told = Union[int, str, bytes]
# A tag, whether it has entries below, (name, form, value)
Abbreviation = Tuple[int, bool, List[Tuple[int, int, int]]]


class Unit(NamedTuple):
    """A source: the folder and the name of its file, and the compiler with its options."""
    folder: str
    file: str
    producer: str = ""


class Entry:
    """`at` is its place in the section, `below` the entries in it."""
    __slots__ = "at", "tag", "told", "below", "unit"

    def __init__(self, at: int, tag: int, told: dict[int, Told], unit: Unit) -> None:
        self.at = at
        self.tag = tag
        self.told = told
        self.unit = unit
        self.below: list[Entry] = []

    def number(self, name: int) -> Optional[int]:
        found = self.told.get(name)
        return found if isinstance(found, int) else None

    def block(self, name: int) -> bytes:
        found = self.told.get(name)
        return found if isinstance(found, bytes) else b""


class Dwarf:
    """entries   {place: entry}, of all units
    tops      the entries of units, each with all that is in it
    left_out  units that make no sense or are too many"""

    def __init__(self, elf: Elf) -> None:
        self.entries: dict[int, Entry] = {}
        self.tops: list[Entry] = []
        self.tables: Dict[int, dict[int, Abbreviation]] = {}
        self.left_out = 0
        self.parts = sections_of(elf.data)
        info = self.parts.get(".debug_info", b"")
        at = 0
        while at + 11 < len(info):
            length, version = struct.unpack_from("<IH", info, at)
            if length >= LONG:
                self.left_out += 1
                break
            try:
                self.read_unit(info, at, min(at + 4 + length, len(info)), version)
            except (struct.error, IndexError, KeyError, ValueError):
                self.left_out += 1
            at += 4 + length

    def read_unit(self, info: bytes, begin: int, end: int, version: int) -> None:
        if version not in (4, 5) or len(self.entries) > MOST_ENTRIES:
            raise ValueError(version)
        at = begin + (12 if version == 5 else 11)
        table = self.table(struct.unpack_from("<I", info, begin + (8 if version == 5 else 6))[0])
        unit = Unit("", "")
        above: list[Entry] = []
        while at < end:
            place = at
            code, at = unsigned(info, at)
            if not code:
                if above:
                    above.pop()
                continue
            tag, has_below, names = table[code]
            told: dict[int, Told] = {}
            for name, form, constant in names:
                value, at = self.value(info, at, form, constant, begin)
                if name in KEPT or name == PRODUCER and tag == UNIT:
                    told[name] = value
            if tag == UNIT:
                unit = Unit(str(told.get(COMP_DIR, "")), str(told.get(NAME, "")),
                            str(told.get(PRODUCER, "")))
            entry = self.entries[place] = Entry(place, tag, told, unit)
            if len(self.entries) > MOST_ENTRIES:
                raise ValueError(MOST_ENTRIES)
            (above[-1].below if above else self.tops).append(entry)
            if has_below:
                above.append(entry)

    def table(self, at: int) -> dict[int, Abbreviation]:
        """The abbreviations of a unit."""
        if at in self.tables:
            return self.tables[at]
        data = self.parts[".debug_abbrev"]
        place = at
        found: dict[int, Abbreviation] = {}
        while True:
            code, place = unsigned(data, place)
            if not code:
                break
            tag, place = unsigned(data, place)
            has_below = data[place]
            place += 1
            names: list[tuple[int, int, int]] = []
            while not names or names[-1][:2] != (0, 0):
                name, place = unsigned(data, place)
                form, place = unsigned(data, place)
                constant, place = signed_leb(data, place) if form == IMPLICIT else (0, place)
                names.append((name, form, constant))
            found[code] = tag, bool(has_below), names[:-1]
        self.tables[at] = found
        return found

    def value(self, data: bytes, at: int, form: int, constant: int, begin: int) -> tuple[Told, int]:
        """What a form tells at a place of a unit, and the place behind it."""
        if form in STRINGS:
            text = self.parts.get(STRINGS[form], b"")
            number = int.from_bytes(data[at:at + 4], "little")
            return text[number:number + LONGEST_NAME].partition(b"\0")[0].decode("latin-1"), at + 4
        if form in FIXED:
            number = int.from_bytes(data[at:at + FIXED[form]],
                                    "little") + (begin if form in REFERENCES else 0)
            return {FLAG: 1, IMPLICIT: constant}.get(form, number), at + FIXED[form]
        if form == TEXT:
            end = data.index(b"\0", at)
            return data[at:min(end, at + LONGEST_NAME)].decode("latin-1"), end + 1
        if form == SIGNED:
            return signed_leb(data, at)
        if form in UNSIGNED:
            return unsigned(data, at)
        if form == UNSIGNED_REFERENCE:
            number, at = unsigned(data, at)
            return number + begin, at
        if form in BLOCKS:
            size, at = unsigned(data, at)
        else:
            size = int.from_bytes(data[at:at + COUNTED[form]], "little")
            at = at + COUNTED[form]
        return bytes(data[at:at + size]), at + size

    def of(self, entry: Entry, name: int) -> Optional[Told]:
        """What an entry tells, or else the one that it is a copy or the definition of."""
        for _ in range(LONGEST_CHAIN):
            if name in entry.told:
                return entry.told[name]
            above = self.entries.get(entry.number(ORIGIN) or entry.number(SPECIFICATION) or 0)
            if above is None:
                return None
            entry = above
        return None

    def name_of(self, entry: Entry) -> str:
        found = self.of(entry, NAME)
        return found if isinstance(found, str) else ""

    def type_of(self, entry: Entry) -> Optional[int]:
        """The place of an entry's type."""
        found = self.of(entry, TYPE)
        return found if isinstance(found, int) else None


@functools.lru_cache(maxsize=1)
def dwarf_of(elf: Elf) -> Dwarf:
    """Of a file it is read once, whatever parts of a companion ask for it."""
    return Dwarf(elf)


def sections_of(data: bytes) -> dict[str, bytes]:
    """{name: bytes} of a file's sections of debug information."""
    try:
        first, = struct.unpack_from("<I", data, 32)
        count, names = struct.unpack_from("<HH", data, 48)
        heads = [struct.unpack_from("<10I", data, first + 40 * i)
                 for i in range(min(count, MOST_SECTIONS) if first else 0)]
        texts = heads[names][4]
    except (struct.error, IndexError):
        return {}
    named = ((data[texts + head[0]:texts + head[0] + LONGEST_NAME].partition(b"\0")[0].decode(
                  "latin-1"), head) for head in heads)
    return {name: data[head[4]:head[4] + head[5]]
            for name, head in named if name.startswith(".debug_")}


def unsigned(data: bytes, at: int) -> tuple[int, int]:
    """A number of LEB128 and the place behind it."""
    found = shift = 0
    for place in range(at, at + LONGEST_NUMBER):
        byte = data[place]
        found |= (byte & 127) << shift
        shift += 7
        if byte < 128:
            return found, place + 1
    raise ValueError(found)


def signed_leb(data: bytes, at: int) -> tuple[int, int]:
    found, end = unsigned(data, at)
    return found - (1 << 7 * (end - at) if data[end - 1] & 64 else 0), end
