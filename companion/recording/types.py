"""What debug information says of types: their sizes, the arrays and pointers in them, what a
pointer leads to.

A type is the place of its entry. Chains and depths are bounded, since an entry can name any other,
itself as well."""
from __future__ import annotations

import bisect
from itertools import islice
from typing import Iterator, NamedTuple, Optional, Tuple

from .dwarf import (
    ARRAY, BASE, BITS, BYTE_SIZE, CLASS, COUNT, ENUM, MEMBER, OFFSET, POINTER, ROUTINE, STRUCT,
    SUBRANGE, UNION, UPPER, Dwarf, Entry)

WRAPPERS = {0x16, 0x26, 0x35, 0x47, 0x37}       # typedef, const, volatile, atomic, restrict
LONGEST_CHAIN = 16  # wrappers around a type
DEEPEST = 12  # types in types
# Members that begin at a place or before, of which one is looked for that has it
MOST_OVERLAPS = 16
# Bytes of a type, and elements of an array: memory is no larger
LARGEST = 1 << 26
MOST_PARTS = 1 << 16                            # arrays or pointers of a type that are listed
# Entries of all lists together: forged types could double with each level
MOST_STEPS = 1 << 20
# What a pointer leads to
TO_ANY = 1
TO_ALIGNED = 2
TO_CODE = 3
Member = Tuple[int, Optional[int], str]         # offset, type, name


class Part(NamedTuple):
    """An array in a structure: its path, its begin and its end there."""
    path: str
    begin: int
    end: int


class Elements(NamedTuple):
    """An array of structures: its begin and end, the size and the type of each, and its name."""
    begin: int
    end: int
    size: int
    type: int
    name: str


class Types:
    def __init__(self, dwarf: Dwarf) -> None:
        self.dwarf = dwarf
        self.sizes: dict[int, int] = {}
        self.listed: dict[int, list[Member]] = {}
        self.parts: dict[int, list[Part]] = {}
        self.pointers: dict[int, list[tuple[int, int]]] = {}
        self.left = MOST_STEPS

    def entry(self, kind: Optional[int]) -> Optional[Entry]:
        """The type behind names and qualifiers."""
        for _ in range(LONGEST_CHAIN):
            found = self.dwarf.entries.get(kind or 0)
            if found is None or found.tag not in WRAPPERS:
                return found
            kind = self.dwarf.type_of(found)
        return None

    def name(self, kind: Optional[int]) -> str:
        found = self.dwarf.entries.get(kind or 0)
        return self.dwarf.name_of(found) if found else ""

    def size(self, kind: Optional[int], depth: int = 0) -> int:
        """Its bytes, 0 if that isn't known."""
        found = self.entry(kind)
        if found is None or depth > DEEPEST:
            return 0
        if found.at not in self.sizes:
            size = found.number(BYTE_SIZE)
            if size is None:
                size = 4 if found.tag == POINTER else 0
            if found.tag == ARRAY:
                size = elements_of(found) * self.size(self.dwarf.type_of(found), depth + 1)
            self.sizes[found.at] = size if 0 < size < LARGEST else 0
        return self.sizes[found.at]

    def is_a(self, kind: Optional[int], *tags: int) -> bool:
        found = self.entry(kind)
        return found is not None and found.tag in tags

    def is_array(self, kind: Optional[int]) -> bool:
        return self.is_a(kind, ARRAY)

    def has_parts(self, kind: Optional[int]) -> bool:
        return self.is_a(kind, ARRAY, STRUCT, UNION, CLASS)

    def structure(self, kind: Optional[int]) -> int:
        """The structure that a type is, or 0."""
        found = self.entry(kind)
        return (found.at if found is not None and found.tag in (STRUCT, CLASS)
                and self.size(found.at) else 0)

    def pointed(self, kind: Optional[int]) -> int:
        """The structure that a pointer leads to, or 0."""
        found = self.entry(kind)
        return (self.structure(self.dwarf.type_of(found))
                if found is not None and found.tag == POINTER else 0)

    def members(self, kind: Optional[int]) -> list[Member]:
        """A structure's members that are no bit-fields, by their places."""
        found = self.entry(kind)
        if found is None or found.tag not in (STRUCT, CLASS):
            return []
        if found.at not in self.listed:
            told = [(each.number(OFFSET) or 0, self.dwarf.type_of(each), self.dwarf.name_of(each))
                    for each in found.below if each.tag == MEMBER and BITS not in each.told
                    and isinstance(each.told.get(OFFSET, 0), int)]
            self.listed[found.at] = sorted(told, key=lambda member: member[0])
        return self.listed[found.at]

    def member_at(self, kind: Optional[int], offset: int) -> Optional[Member]:
        """The member that an offset is in."""
        listed = self.members(kind)
        end = bisect.bisect_left(listed, (offset + 1,))
        return next((each for each in listed[max(0, end - MOST_OVERLAPS):end][::-1]
                     if offset < each[0] + self.size(each[1])), None)

    def arrays(self, kind: Optional[int], depth: int = 0) -> list[Part]:
        """The arrays that are members of a structure or of structures in it."""
        found = self.entry(kind)
        if found is None or depth > DEEPEST:
            return []
        if found.at not in self.parts:
            listed = self.parts[found.at] = []  # (of one that holds itself nothing is listed)
            for offset, of, name in self.members(found.at):
                path = f".{name}" if name else ""
                if self.is_array(of):
                    inner = [Part(path, offset, offset + self.size(of))]
                else:
                    inner = [Part(path + part.path, offset + part.begin, offset + part.end)
                             for part in self.arrays(of, depth + 1)[:self.left]]
                listed += inner[:self.left]
                self.left = max(0, self.left - len(inner))
        return self.parts[found.at]

    def array_at(self, kind: Optional[int], offset: int, near: int = 0) -> Optional[Part]:
        """The array member that an offset is in, or that begins so little behind it. None if there
        is none, or if it may be longer than its type says: one of no or one element, or a short one
        at the structure's end."""
        listed = self.arrays(kind)
        inside = [part for part in listed if part.begin <= offset < part.end]
        inside = inside or [part for part in listed if 0 < part.begin - offset <= near]
        if len(inside) != 1:
            return None
        path, begin, end = inside[0]
        whole = end
        if begin < offset:                      # maybe the next array's begin, less an offset
            whole = max([end] + [part.end for part in listed if 0 < part.begin - offset <= ANCHOR])
        if (begin + self.element_size(kind, begin) >= whole
                or whole >= self.size(kind) - 3 and whole - begin <= TRAILING):
            return None
        return Part(path, begin, whole)

    def element_size(self, kind: Optional[int], offset: int) -> int:
        """The size of an element of the array member that begins at an offset."""
        for _ in range(DEEPEST):
            member = self.member_at(kind, offset)
            if member is None:
                return 1
            offset = offset - member[0]
            kind = member[1]
            found = self.entry(kind)
            if found is not None and found.tag == ARRAY:
                return self.size(self.dwarf.type_of(found))
        return 1

    def structures_at(self, kind: Optional[int], begin: int, address: int,
                      name: str) -> Optional[Elements]:
        """The outermost array of structures that an address is in, of an object of a type that
        begins there."""
        for _ in range(DEEPEST):
            found = self.entry(kind)
            if found is None:
                return None
            if found.tag == ARRAY:
                of = self.dwarf.type_of(found)
                size = self.size(of)
                structure = self.structure(of)
                return (Elements(begin, begin + self.size(kind), size, structure, name)
                        if size > 4 and structure else None)
            member = self.member_at(kind, address - begin)
            if member is None:
                return None
            begin = begin + member[0]
            kind = member[1]
            name = f"{name}.{member[2]}"
        return None

    def pointee_at(self, kind: Optional[int], offset: int) -> int:
        """The structure to which the pointer at an offset into a type leads, or 0."""
        for _ in range(DEEPEST):
            found = self.entry(kind)
            if found is None:
                return 0
            if found.tag == POINTER:
                return self.pointed(kind) if offset == 0 else 0
            if found.tag == ARRAY:
                kind = self.dwarf.type_of(found)
                if not self.size(kind):
                    return 0
                offset %= self.size(kind)
                continue
            member = self.member_at(kind, offset)
            if member is None:
                return 0
            offset = offset - member[0]
            kind = member[1]
        return 0

    def pointers_in(self, kind: Optional[int], depth: int = 0) -> list[tuple[int, int]]:
        """(offset, what it leads to) of the pointers in a type, without those of unions and those
        to void."""
        found = self.entry(kind)
        if found is None or depth > DEEPEST:
            return []
        if found.at not in self.pointers:
            self.pointers[found.at] = []        # (of one that holds itself nothing is listed)
            listed = list(islice(self.new_pointers(found, depth + 1), min(self.left, MOST_PARTS)))
            self.pointers[found.at] = listed
            self.left = max(0, self.left - len(listed))
        return self.pointers[found.at]

    def new_pointers(self, found: Entry, depth: int) -> Iterator[tuple[int, int]]:
        of = self.dwarf.type_of(found)
        if found.tag == POINTER:
            if self.is_a(of, ROUTINE):
                yield 0, TO_CODE
            elif self.entry(of):                # (into a pointer to void programs put numbers, too)
                yield 0, TO_ALIGNED if self.is_aligned(of) else TO_ANY
        elif found.tag == ARRAY:
            inner = self.pointers_in(of, depth)
            size = self.size(of)
            count = self.size(found.at) // size if size and inner else 0
            yield from ((size * at + offset, to) for at in range(count) for offset, to in inner)
        else:
            yield from ((begin + offset, to) for begin, kind, _ in self.members(found.at)
                        for offset, to in self.pointers_in(kind, depth))

    def is_aligned(self, kind: Optional[int], depth: int = 0) -> bool:
        """Whether each thing of a type begins at a multiple of four."""
        found = self.entry(kind)
        if found is None or depth > DEEPEST:
            return False
        if found.tag == ARRAY:
            return self.is_aligned(self.dwarf.type_of(found), depth + 1)
        if found.tag in (STRUCT, CLASS):
            words = [at for at, of, _ in self.members(found.at)
                     if self.is_a(of, POINTER) or self.is_word(of)]
            # Else it is packed
            return bool(words) and self.size(kind) % 4 == 0 and all(at % 4 == 0 for at in words)
        return found.tag == POINTER or self.is_word(found.at)

    def is_word(self, kind: Optional[int]) -> bool:
        found = self.entry(kind)
        return found is not None and found.tag in (BASE, ENUM) and found.number(BYTE_SIZE) == 4


# bytes: so far before a member a compiler puts the place from which it reaches it
ANCHOR = 64
# bytes: an array that short at a structure's end can be a flexible one of old C
TRAILING = 8


def elements_of(found: Entry) -> int:
    """How many an array has, 0 if that isn't known."""
    count = 1
    for each in found.below:
        if each.tag == SUBRANGE:
            upper = each.number(UPPER)
            here = each.number(COUNT)
            if here is None:
                here = 0 if upper is None else upper + 1
            count *= here if 0 < here < LARGEST else 0
    return count if count < LARGEST else 0
