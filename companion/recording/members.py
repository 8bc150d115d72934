"""The names of places in data: the object that holds an address, and the member or element of
it."""
from __future__ import annotations

from functools import cached_property
from typing import Optional

from .dwarf import ARRAY, CLASS, COUNT, LOCATION, STRUCT, SUBRANGE, UPPER, VARIABLE, Entry, dwarf_of
from .elf import Elf
from .types import Types

ADDRESS = 3                 # DWARF's operation for an address
DEEPEST = 24                # members and elements in others


class Members:
    """Names by the debug information, which is read once a name is asked for; without it an object
    and an offset."""

    def __init__(self, elf: Elf) -> None:
        self.elf = elf

    @cached_property
    def types(self) -> Types:
        return Types(dwarf_of(self.elf))

    @cached_property
    def objects(self) -> dict[int, Optional[int]]:
        """{address of an object: its type}"""
        found: dict[int, Optional[int]] = {}
        for each in self.types.dwarf.entries.values():
            place = each.block(LOCATION) if each.tag == VARIABLE else b""
            if len(place) == 5 and place[0] == ADDRESS:
                found[int.from_bytes(place[1:], "little")] = self.types.dwarf.type_of(each)
        return found

    def name(self, address: int) -> str:
        """The object that holds an address with its member and element, as far as they are known,
        and the offset; or nothing."""
        held = self.elf.object_at(address)
        if held is None:
            return ""
        return held.name + self.path(self.objects.get(held.address), address - held.address)

    def path(self, kind: Optional[int], offset: int) -> str:
        said = ""
        for _ in range(DEEPEST):
            found = self.types.entry(kind)
            if found is not None and found.tag == ARRAY:
                kind = self.types.dwarf.type_of(found)
                size = self.types.size(kind)
                if size <= 1:                   # the letters of a text are told by their offset
                    break
                said += indices(found, offset // size)
                offset %= size
                continue
            member = (self.types.member_at(kind, offset)
                      if found is not None and found.tag in (STRUCT, CLASS) else None)
            if member is None:                  # a plain value, a union, a field of bits or nothing
                break
            said += f".{member[2]}" if member[2] else ""
            offset = offset - member[0]
            kind = member[1]
        return said + (f"+{offset}" if offset else "")


def indices(array: Entry, place: int) -> str:
    """The indices of an array's element. How many the outermost dimension has needn't be known."""
    said = ""
    bounds = [each for each in array.below if each.tag == SUBRANGE]
    for bound in bounds[:0:-1]:
        # (a forged file can say less)
        count = max(1, bound.number(COUNT) or (bound.number(UPPER) or 0) + 1)
        said = f"[{place % count}]" + said
        place //= count
    return f"[{place}]" + said
