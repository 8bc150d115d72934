"""What is wrong with an access that isn't plainly good: by a pointer outside of what it was made
for, or to bytes that are no one's."""
from __future__ import annotations

import re
from typing import Hashable, Iterator, NamedTuple, Optional

from ..recording.cut import pc_of, word_of
from ..recording.instruction import ALU, AMO, BRANCH, JUMP, LOAD, NAMES, SP, STORE
from .facts import RegisterFacts
from .findings import (
    AFTER_RETURN, AFTER_SCOPE, FREED as FREED_KIND, GLOBAL as GLOBAL_KIND, HEAP,
    MEMBER as MEMBER_KIND, NULL as NULL_KIND, OVERLAP, REGISTER, STACK, UNMAPPED,
    Finding, Findings)
from .heap import Heap
from .operation import FULL, Operation
from .state import (
    BESIDE, BLOCK, ENDED, FORBIDDEN, FRAME, FREED, GLOBAL, GOOD, MEMBER, NULL, SAVED,
    UNDEFINED, UNWRITTEN, CheckedHart, TaggedMemory,
    Thing, value_of)
from .value import NUMBER, as_term

# Functions of a library that read whole words, whose other bytes they don't use.
BY_WORDS = re.compile(r"_*(str|mem|rawmemchr|stpcpy|stpncpy|index|bcopy|bzero|bcmp)\w*")
# In which a pointer's origin, and the end of a loop before, are looked for
ROWS_BACK = 3000
ROWS_OF_LOOP = 20000
# bytes: a place so little before an object may be meant as its begin, less an index
ANCHOR = 16
# bytes: an access farther from an object, by an index alone, is another object's
FAR = 64
MOST_SEARCHES = 2000        # for origins: each takes up to 10 ms
NEXT = 8                    # bytes between objects that follow each other


class JudgedAccess(NamedTuple):
    """`base` is the register with the pointer."""
    hart: CheckedHart
    row: bytes
    one: Operation
    address: int
    size: int
    is_store: bool
    base: int

    @property
    def verb(self) -> str:
        return f"{'store' if self.is_store else 'load'} of {self.size}"

    def misses(self, thing: Thing) -> bool:
        return not thing.holds(self.address, self.size) or thing.has_ended(self.hart, self.one.pc)


class Recent:
    """The rows of this chunk and of the one before."""

    def __init__(self) -> None:
        self.text = self.before = b""

    def add(self, text: bytes) -> None:
        self.before = self.text
        self.text = text

    def back(self, hart: CheckedHart, row: bytes, most: int) -> Iterator[bytes]:
        """So many rows of a hart before a row, the last one first."""
        mine = b"%d " % hart.number
        texts = self.text[:max(0, self.text.find(b"\n" + row))], self.before
        found = (each for text in texts
                 for each in reversed(text.split(b"\n")) if each.startswith(mine))
        for _, each in zip(range(most), found):
            yield each


class Judge:
    """made     {address of an instruction that makes a pointer to a part: True}
    limited  {address of an access whose thing an index misses, whatever its register is for}
    anchors  accesses that reach one object by a constant from another one's pointer, as compilers
             do: nothing is said of them"""

    def __init__(self, facts: RegisterFacts, memory: TaggedMemory, heap: Heap,
                 findings: Findings) -> None:
        self.facts = facts
        self.program = facts.program
        self.memory = memory
        self.heap = heap
        self.findings = findings
        self.recent = Recent()
        self.made: set[int] = set()
        self.limited: set[int] = set()
        self.anchors: set[Hashable] = set()
        entries = [self.program.entries.get(at) for at in heap.hooks]
        self.own_units = {entry.unit if entry else None for entry in entries}
        self.searches = 0

    def load(self, access: JudgedAccess, thing: Optional[Thing]) -> int:
        """Tells what is wrong. Gives the bits that are loaded and that nobody wrote."""
        address = access.address
        size = access.size
        if thing is not None and access.misses(thing) and self.outside(access, thing):
            return 0
        states = self.memory.states[address:address + size]
        if ENDED in states or FREED in states or BESIDE in states:
            if self.is_by_words(access, min(states) in (GOOD, UNWRITTEN)):
                self.findings.unknown["words past an end that a library's function read"] += 1
            elif thing is None or thing.kind != BLOCK:
                self.forbidden(access, states)
            return 0
        return self.memory.undefined_bits(address, size)

    def store(self, access: JudgedAccess, thing: Optional[Thing]) -> None:
        """Tells what is wrong. The bytes are written then, if they are someone's."""
        address = access.address
        size = access.size
        memory = self.memory
        states = memory.states[address:address + size]
        if thing is not None and access.misses(thing) and self.outside(access, thing):
            if UNDEFINED.issuperset(states):
                memory.fill(address, address + size, GOOD)
            return
        if not FORBIDDEN.isdisjoint(states):
            if thing is None or thing.kind != BLOCK or SAVED in states:
                self.forbidden(access, states)
            if SAVED not in states:
                return
        memory.fill(address, address + size, GOOD)

    def is_allocators(self, pc: int) -> bool:
        """Whether a function is of a file that has an allocator's function: its headers are beside
        blocks."""
        first = self.program.function_at(pc).first
        entry = self.program.entries.get(first)
        if entry is None:
            return None in self.own_units and not BY_WORDS.fullmatch(self.program.function_of(pc))
        return entry.unit in self.own_units

    def is_by_words(self, access: JudgedAccess, has_good: bool) -> bool:
        return (has_good and access.size == 4 and access.address % 4 == 0
                and bool(BY_WORDS.fullmatch(self.program.function_of(access.one.pc)))
                and self.program.is_library(access.one.pc))

    # By a pointer that leads outside of what it was made for.

    def outside(self, access: JudgedAccess, thing: Thing) -> bool:
        """Whether it is wrong, or nothing can be said."""
        if (thing.kind == BLOCK and access.address < thing.begin
                and self.is_allocators(access.one.pc)):
            self.findings.unknown[HEADERS] += 1
            return True
        if (not thing.has_ended(access.hart, access.one.pc)
                and thing.kind != NULL and not access.is_store):
            if self.is_by_words(access, thing.begin - 3 <= access.address < thing.end):
                self.findings.unknown["words past an end that a library's function read"] += 1
                return False
        kind, text = self.said(access, thing)
        self.tell(access, kind, f"{access.verb}, {text}", thing)
        return True

    def said(self, access: JudgedAccess, thing: Thing) -> tuple[str, str]:
        """The kind, and what is said of the object."""
        if thing.kind == BLOCK:
            text = (f"{distance_in_words(access, thing.begin, thing.end)} a block of "
                    f"{thing.size} bytes")
            if thing.gone is None:
                return HEAP, text
            how = "whose memory was given out again" if thing.is_again else "that was given back"
            return FREED_KIND, f"{text} {how}"
        if thing.kind == NULL:
            return NULL_KIND, f"{access.address} bytes from the 0 that {thing.name} gave"
        if thing.kind in (GLOBAL, MEMBER):
            return (MEMBER_KIND if thing.is_part else GLOBAL_KIND,
                    f"{distance_in_words(access, thing.begin, thing.end)} {thing.name} "
                    f"({thing.size} bytes)")
        if thing.gone:
            return AFTER_RETURN, f"{thing.name} has ended"
        if thing.has_ended(access.hart, access.one.pc):
            return AFTER_SCOPE, f"{thing.name}, whose block has ended"
        return (STACK, f"{distance_in_words(access, thing.begin, thing.end)} {thing.name} "
                f"({thing.size} bytes)")

    def tell(self, access: JudgedAccess, kind: str, text: str, thing: Optional[Thing]) -> None:
        key = self.key(kind, access.one.pc, thing)
        if key in self.anchors:
            self.findings.unknown[ANCHORED] += 1
            return
        origin = 0
        does = ""
        if key not in self.findings.kept:
            self.searches += 1
            made = self.origin(access, thing) if self.searches < MOST_SEARCHES else None
            if made is None:
                self.anchors.add(key)
                self.findings.unknown[ANCHORED] += 1
                return
            origin, does = made
        self.findings.add(key, Finding(kind, text, access.hart.event(access.row, access.one.pc),
                                       thing, origin, does))

    def key(self, kind: str, pc: int, thing: Optional[Thing]) -> Hashable:
        """Accesses of one function to one thing are one finding."""
        if thing is None:
            return kind, pc
        return (kind, self.program.function_at(pc).first, thing.taken.pcs[:1] if thing.taken
                else thing.name, thing.gone.pcs[:1] if thing.gone else ())

    def origin(self, access: JudgedAccess, thing: Optional[Thing]) -> Optional[tuple[int, str]]:
        """The place that loaded or made the pointer, and what it did, or (0, ""). None if another
        object can be meant, that the compiler reaches from this one's pointer."""
        hart = access.hart
        one = access.one
        is_static = (thing is not None and thing.kind in (GLOBAL, FRAME, MEMBER)
                     and not thing.has_ended(hart, one.pc))
        if thing is not None and thing.owner not in (0, self.program.function_at(one.pc).first):
            # Another function's variable: a compiler knows of none beside it
            is_static = False
        if not is_static or thing is None:
            found = self.source(access, FULL)
            return found if found and not self.program.is_library(found[0]) else (0, "")
        if thing.kind == GLOBAL and self.is_loops_end(access, thing):
            return None
        found = self.source(access, thing.size)
        if found is None and one.pc in self.limited:
            found = 0, ""
        by_tag = hart.tags[access.base] is thing and one.kind in (LOAD, STORE)
        far = access.address and not thing.begin - FAR <= access.address < thing.end + FAR
        if found is None or by_tag and (not -ANCHOR <= one.imm < thing.size
                                        or not found[0] and far):
            return None
        return found

    def source(self, access: JudgedAccess, size: int) -> Optional[tuple[int, str]]:
        """The place that loaded or made a pointer, by the last rows. None if a constant was added
        that leads out of so many bytes."""
        register = access.base
        for row in self.recent.back(access.hart, access.row, ROWS_BACK):
            if b"| %s=" % NAMES[register].encode() not in row:
                continue
            one = self.facts.at(pc_of(row), word_of(row))
            if one.kind in (LOAD, AMO):
                return one.pc, "loaded"
            if one.kind == ALU and one.pc in self.made:
                return one.pc, "made"
            if one.kind != ALU or one.name not in ("addi", "add", "sub") or not one.rs1:
                return (one.pc, "made") if one.kind != JUMP else (0, "")
            if one.name == "addi" and not -ANCHOR <= one.imm < size and one.rs1 != SP:
                return None
            register = one.rs1
            if one.name == "add":
                for other, value in ((one.rs2, as_term(one.base)), (one.rs1, as_term(one.other))):
                    if value.to == NUMBER and not value.indexed:
                        if not -ANCHOR <= value.offset < size:
                            return None
                        register = other
        return 0, ""

    def is_loops_end(self, access: JudgedAccess, thing: Thing) -> bool:
        """Whether a loop over one object ended with a pointer to its end, which the compiler takes
        for the next one's begin."""
        after = self.program.object_at(thing.end) or self.program.object_at(thing.end + NEXT - 1)
        if after is None or after.address - thing.end > NEXT:
            return False
        registers = {access.base}
        is_equal = False
        later = access.one.pc
        for row in self.recent.back(access.hart, access.row, ROWS_OF_LOOP):
            one = self.facts.at(pc_of(row), word_of(row))
            if (one.kind == BRANCH and {one.rs1, one.rs2} & registers
                    and one.name == ("beq" if later == one.leads else "bne")):
                is_equal = True                 # to what it was compared with: is that the end?
            later = one.pc
            if one.kind != ALU or one.rd not in registers:
                continue
            if is_equal and 0 <= value_of(row) - thing.end <= NEXT:
                return True
            is_equal = False
            registers.discard(one.rd)
            if one.name == "add":
                registers |= {one.rs1, one.rs2}
            elif one.name == "addi" and one.imm == 0:
                registers.add(one.rs1)
            elif value_of(row) == thing.end or one.rd in (one.rs1, one.rs2):
                registers.add(one.rd)
            if not registers:
                return False
        return False

    def tell_overlap(self, hart: CheckedHart, row: bytes, size: int, common: int) -> None:
        when = hart.event(row, pc_of(row))
        self.findings.add((OVERLAP, when.pcs[1:2]), Finding(
            OVERLAP,
            f"memcpy of {size} bytes between places that have {common} bytes in common", when))

    def tell_unmapped(self, access: JudgedAccess) -> None:
        """The run ended here, and nothing else was found."""
        made = self.source(access, FULL)
        self.findings.add(UNMAPPED, Finding(
            UNMAPPED, f"{access.verb} at {access.address:08x}, where nothing is mapped",
            access.hart.event(access.row, access.one.pc), None, *(made or (0, ""))))

    # To bytes that are no one's, whatever the pointer was made for.

    def forbidden(self, access: JudgedAccess, states: bytearray) -> None:
        if SAVED in states:
            register, at, _ = self.memory.saved.get(access.address & ~3, (0, access.one.pc, b""))
            if access.is_store:
                what = "return address" if register == 1 else f"saved {NAMES[register]}"
                self.tell(access, REGISTER,
                          f"{access.verb}, over the {what} of {self.program.function_of(at)}", None)
        elif ENDED in states:
            self.tell(access, AFTER_RETURN,
                      f"{access.verb} at {access.address:08x}, in a frame that has ended", None)
        elif self.is_allocators(access.one.pc):
            self.findings.unknown[HEADERS] += 1
        else:
            block = self.heap.near(access.address)
            if block is not None:
                self.tell(access, *self.said_of(access, block), block)

    def said_of(self, access: JudgedAccess, block: Thing) -> tuple[str, str]:
        kind, text = self.said(access, block)
        return kind, f"{access.verb}, {text}"


HEADERS = "accesses beside blocks by functions of an allocator's file"
ANCHORED = "accesses that a compiler may have meant for an object beside"


def distance_in_words(access: JudgedAccess, begin: int, end: int) -> str:
    """The distance of an access from an object, in words."""
    if access.address >= end:
        return f"{access.address - end} bytes after"
    if access.address < begin:
        return f"{begin - access.address} bytes before"
    if access.address + access.size > end:
        return f"{end - access.address} bytes before the end of"
    return f"{access.address - begin} bytes into"
