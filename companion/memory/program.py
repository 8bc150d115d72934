"""What the program's file says, whatever the run: functions, global objects, variables of frames,
and their types."""
from __future__ import annotations

import bisect
import re
from collections import Counter
from functools import cached_property
from typing import Counter as Counts
from typing import Iterator, NamedTuple, Optional

from ..recording.dwarf import (
    BLOCK, FRAME_BASE, FUNCTION, HIGH, INLINED, LOCATION, LONGEST_NAME, LOW, PARAMETER,
    VARIABLE, Entry,
    signed_leb)
from ..recording.elf import FUNCTION as FUNCTION_SYMBOL
from ..recording.elf import Elf, Symbol, last_before
from ..recording.locations import locations
from ..recording.members import Members

# In the path of a library's source
LIBRARY = re.compile(r"picolibc|newlib|/libc/|libgcc|tinystdio|musl|glibc")
# Functions whose parameters aren't those of the source.
CLONE = re.compile(r"\.(isra|constprop|part|cold)")
# In what tells GCC and its options; the last one counts
OPTIMIZATION = re.compile(r" -O(\S*)")
# DWARF's operations for a frame's begin, and a place in it
CFA = b"\x9c"
FBREG = 0x91
LONGEST_FUNCTION = 65536    # bytes that are analysed
DEEPEST_BLOCK = 60          # blocks in blocks
REGISTERS = 8               # that hold arguments
MOST_LOCATIONS = 1 << 20    # of all functions' variables: forged ones could share a long list


class CheckedFunction(NamedTuple):
    first: int
    end: int
    name: str


class Local(NamedTuple):
    """A variable of a frame, by its offset from the frame's begin; low and high are the addresses
    of its scope. `pointee`: the structure that it leads to, or 0."""
    offset: int
    size: int
    name: str
    low: int
    high: int
    has_parts: bool
    pointee: int

    @property
    def end(self) -> int:
        return self.offset + self.size


class CheckedProgram(Members):
    """sized  the global objects whose size is known, by address"""

    def __init__(self, elf: Elf) -> None:
        """`elf` is the file with names, if it was stripped."""
        super().__init__(elf)
        self.dwarf = self.types.dwarf
        self.sized = [each for each in elf.objects if each.size]
        self.left_locations = MOST_LOCATIONS
        self.symbols: dict[int, Symbol] = {}
        for each in elf.functions:
            if elf.is_code(each.address) and not each.name.startswith(".L"):
                kept = self.symbols.get(each.address)
                self.symbols[each.address] = (max(kept, each, key=lambda one: (one.kind, one.size))
                                              if kept else each)
        self.begins = sorted(self.symbols)

    @cached_property
    def entries(self) -> dict[int, Entry]:
        """{first address: what is told of the function}"""
        return {each.told[LOW]: each for each in self.dwarf.entries.values()  # type: ignore[misc]
                if each.tag == FUNCTION and isinstance(each.told.get(LOW), int)}

    @cached_property
    def inlined(self) -> Counts[str]:
        """{name of a function: in how many places it was inlined}"""
        every = self.dwarf.entries.values()
        return Counter(self.dwarf.name_of(each) for each in every if each.tag == INLINED)

    def function_at(self, pc: int) -> CheckedFunction:
        """The function that an address is in. A label without a size, in a function that has one,
        is a part of it."""
        at = bisect.bisect_right(self.begins, pc) - 1
        if at < 0:
            return CheckedFunction(pc, pc + 4, "")
        first = self.begins[at]
        for before in self.begins[max(0, at - 8):at + 1][::-1]:
            if self.symbols[before].size:
                first = before if before + self.symbols[before].size > pc else first
                break
        size = self.symbols[first].size
        following = self.begins[at + 1] if at + 1 < len(self.begins) else pc + 4
        return CheckedFunction(first, max(first + size if size else following, pc + 4),
                               self.symbols[first].name)

    def function_of(self, pc: int) -> str:
        return self.function_at(pc).name

    def is_library(self, pc: int) -> bool:
        """Whether an address is in code that isn't the user's: of a library's source, or without
        debug information, if the program has any."""
        entry = self.entries.get(self.function_at(pc).first)
        return (bool(LIBRARY.search(f"{entry.unit.folder}/{entry.unit.file}")) if entry
                else bool(self.entries))

    def is_plain(self, first: int) -> bool:
        """Whether GCC compiled a function statement by statement, without optimization."""
        entry = self.entries.get(first)
        producer = entry.unit.producer if entry else ""
        levels = OPTIMIZATION.findall(producer)
        return (producer.startswith("GNU C") and len(producer) < LONGEST_NAME
                and levels[-1:] in ([], ["0"]))

    def object_at(self, address: int) -> Optional[Symbol]:
        found = last_before(self.sized, address)
        return found if found and address < found.end else None

    def object_before(self, begin: int) -> Optional[Symbol]:
        """The object before the one that begins there."""
        return last_before(self.sized, begin - 1)

    def parameters(self, first: int) -> list[int]:
        """Of each parameter that is in a register the structure to which it points, or 0; nothing
        if one takes two registers."""
        entry = self.entries.get(first)
        if entry is None or CLONE.search(self.symbols[first].name if first in self.symbols else ""):
            return []
        kinds = [self.dwarf.type_of(each) for each in entry.below if each.tag == PARAMETER]
        if self.types.size(self.dwarf.type_of(entry)) > 8 or any(self.types.size(kind) > 4
                                                                 for kind in kinds):
            return []
        return [self.types.pointed(kind) for kind in kinds[:REGISTERS]]

    def result(self, first: int) -> int:
        """The structure to which a function's result points, or 0."""
        entry = self.entries.get(first)
        if entry is None or CLONE.search(self.symbols[first].name if first in self.symbols else ""):
            return 0
        return self.types.pointed(self.dwarf.type_of(entry))

    def locals_of(self, first: int) -> Optional[list[Local]]:
        """The variables that a function's frame has a place for; None if nothing tells them."""
        entry = self.entries.get(first)
        if entry is None or entry.block(FRAME_BASE) != CFA:
            return None
        if first not in self.kept_locals:
            high = first + (entry.number(HIGH) or 0)
            self.kept_locals[first] = list(self.scope(entry, first, high, 0))
        return self.kept_locals[first]

    @cached_property
    def kept_locals(self) -> dict[int, list[Local]]:
        return {}

    def pointers_in_registers(self, first: int) -> dict[int, list[tuple[int, int]]]:
        """{address in a function: the registers that get a variable there that points to a
        structure, and the structure}. So the parameters of clones are known, which aren't those of
        the source, and those of what is inlined."""
        found: dict[int, list[tuple[int, int]]] = {}
        work = [(self.entries[first], 0)] if first in self.entries else []
        while work:
            entry, depth = work.pop()
            for each in entry.below:
                if each.tag in (BLOCK, INLINED) and depth < DEEPEST_BLOCK:
                    work.append((each, depth + 1))
                kind = (self.types.pointed(self.dwarf.type_of(each))
                        if each.tag in (VARIABLE, PARAMETER) else 0)
                for low, _, register in (locations(self.dwarf, each)
                                         if kind and self.left_locations > 0 else ()):
                    found.setdefault(low, []).append((register, kind))
                    self.left_locations -= 1
        return found

    def scope(self, entry: Entry, low: int, high: int, depth: int) -> Iterator[Local]:
        """The variables of a block and those in it; one of several ranges is as wide as what is
        around it."""
        for each in entry.below if depth < DEEPEST_BLOCK else ():
            if each.tag in (VARIABLE, PARAMETER):
                where = each.block(LOCATION)
                kind = self.dwarf.type_of(each)
                if (where[:1] == bytes([FBREG]) and self.types.size(kind)
                        and signed_leb(where + b"\0", 1)[1] == len(where)):
                    yield Local(signed_leb(where, 1)[0], self.types.size(kind),
                                self.dwarf.name_of(each), low, high, self.types.has_parts(kind),
                                self.types.pointed(kind))
            elif each.tag in (BLOCK, INLINED):
                begin = each.number(LOW)
                size = each.number(HIGH)
                inner = (low, high) if begin is None or size is None else (begin, begin + size)
                yield from self.scope(each, *inner, depth + 1)

    def function_named(self, name: str) -> int:
        """The first address of a function, or 0."""
        return next((each.address for each in self.elf.functions
                     if each.name == name and each.kind == FUNCTION_SYMBOL), 0) or next(
            (each.address for each in self.elf.functions if each.name == name), 0)
