"""Which part of the program's data an instruction's pointer is for: what is known of it whatever
the run, and by the types."""
from __future__ import annotations

import re
from typing import Callable, Dict, NamedTuple, Optional

from ..recording.types import Elements, Part
from .facts import RegisterFacts
from .operation import FULL, Operation
from .program import Local
from .state import FRAME, GLOBAL, MEMBER, CheckedHart, Thing, value_of
from .value import ABSOLUTE, POINTER, Value
from .value import FRAME as IN_FRAME

STARTS = re.compile(r"_*(c?start|crt|reset|cstart)")     # what starts a program goes over sections
BEFORE = 16                 # bytes: so close before an object another may end whose end is meant
# bytes: a place so little before a variable may be meant as its begin, less an index
NEAR = 4
FAR = 65536                 # bytes: an access farther than this is by an index that wasn't one
# Of an access's address: the thing that it misses, or None
Limit = Callable[[CheckedHart, int], Optional[Thing]]
# The same of an address, and of where a structure begins, or one of several behind each other.
Missed = Callable[[int, int], Optional[Thing]]


class Inner(NamedTuple):
    """An array member that a pointer is made to: its begin and end from there, and its name."""
    low: int
    high: int
    name: str


class Place(NamedTuple):
    """A place of the frame that a pointer is made to: from `low` (None: sp) to `high` from there it
    may lead. The variable begins at `begin`, as one may end there whose end is meant. `scope`: the
    addresses of its block, if its function continues behind it."""
    low: Optional[int]
    high: int
    name: str
    begin: int = 0
    scope: Optional[tuple[int, int]] = None


class Parts:
    def __init__(self, facts: RegisterFacts) -> None:
        self.facts, self.program, self.types = facts, facts.program, facts.program.types
        self.globals: Dict[int, Optional[Thing]] = {}

    # Global objects.

    def global_thing(self, address: int) -> Optional[Thing]:
        """What a constant leads to, if an object or an array member begins there: others can be
        those of objects behind them, less an offset. What ends there is taken in, since it may be
        its end."""
        if address not in self.globals:
            self.globals[address] = self.new_global(address)
        return self.globals[address]

    def new_global(self, address: int) -> Optional[Thing]:
        there = self.program.object_at(address)
        if there is None:
            return None
        before = self.program.object_before(there.address)
        low = (before.address if before and 0 <= there.address - before.end < BEFORE
               else there.address)
        if address == there.address:
            thing = Thing(low, there.end, GLOBAL, there.name)
            thing.begin = there.address
            thing.end = there.end
            return thing
        kind = self.program.objects.get(there.address)
        offset = address - there.address
        part = self.types.array_at(kind, offset)
        if part is None or part.begin != offset:
            return None
        first = min((each.begin for each in self.types.arrays(kind) if each.end == offset),
                    default=offset)
        thing = Thing(there.address + first if first else low, there.address + part.end,
                      GLOBAL, there.name + part.path)
        thing.begin = address
        thing.end = there.address + part.end
        thing.is_part = True
        return thing

    def made_global(self, one: Operation, value: Value) -> Optional[Thing]:
        if STARTS.match(self.program.function_of(one.pc)):
            return None
        return self.global_thing(value.offset & FULL)

    def indexed_global(self, one: Operation, base: Value) -> Optional[Limit]:
        """The limit of an access by a constant and an index."""
        thing = self.global_thing(base.offset + one.imm)
        kind = self.program.objects.get(thing.begin) if thing else None
        if (thing is None
                or kind is not None and not thing.is_part and not self.types.is_array(kind)):
            # Nothing that an index is added to: the constant is another object's
            return None
        missed = thing
        low = thing.low
        high = thing.high
        size = one.width
        if base.more and one.imm:
            other = self.global_thing(base.offset)
            if other is not None and (other.begin > thing.begin or other.end <= thing.begin):
                low = min(low, other.low)
                high = max(high, other.high)

        def limit(_: CheckedHart, address: int) -> Optional[Thing]:
            is_in = low <= address and address + size <= high
            if (is_in or not -FAR < address - missed.begin < FAR + high - low
                    or missed.holds(address, size)):
                return None
            return missed
        return limit

    # Members of structures.

    def elements(self, address: int) -> Optional[Elements]:
        """The global array of structures that an address is in: an object, or a member of one that
        is in no other array."""
        there = self.program.object_at(address)
        if there is None:
            return None
        kind = self.program.objects.get(there.address)
        return self.types.structures_at(kind, there.address, address, there.name)

    def with_before(self, kind: int, part: Part) -> tuple[int, int]:
        """An array member's range, with the one that ends at its begin: a pointer may be that one's
        end."""
        return min((each.begin for each in self.types.arrays(kind) if each.end == part.begin),
                   default=part.begin), part.end

    def inner(self, one: Operation, value: Value) -> Optional[Inner]:
        """The array member to whose begin an instruction makes a pointer."""
        base = one.base
        if value.to == POINTER and not value.indexed:
            if one.name != "addi" or not one.imm or not base or base.to != POINTER or base.indexed:
                return None
            kind = value.more
            offset = value.offset
            name = self.types.name(value.more)
        elif value.to == ABSOLUTE and value.indexed and value.more and base:
            of = self.elements(value.offset)
            if of is None:
                return None
            kind = of.type
            offset = (value.offset - of.begin) % of.size
            name = of.name
        else:
            return None
        part = self.types.array_at(kind, offset)
        if part is None or part.begin != offset or offset <= 0:
            return None
        low, high = self.with_before(kind, part)
        return Inner(low - offset, high - offset, name + part.path)

    def missed_part(self, kind: int, offset: int, step: int, name: str,
                    width: int) -> Optional[Missed]:
        """What tells of an access of so many bytes the array member at an offset that it misses, if
        one is there. A member that begins at the offset itself may be meant, too."""
        found = self.types.array_at(kind, offset, BEFORE)
        if found is None or not step:
            return None
        part = found
        free = -1 if found.begin <= offset < found.end else offset

        def missed(address: int, origin: int) -> Optional[Thing]:
            at = (address - origin) % step
            if part.begin <= at and at + width <= part.end or at == free:
                return None
            begin = address - at
            thing = Thing(begin + part.begin, begin + part.end, MEMBER, name + part.path)
            thing.is_part = True
            return thing
        return missed

    def indexed_member(self, one: Operation, base: Value) -> Optional[Limit]:
        """The limit of an access by a structure's pointer and an index. The pointer's value was
        kept when the index was added."""
        kind = base.more
        width = one.width
        register = one.rs1
        offset = base.offset + one.imm
        step = self.types.size(kind)
        name = self.types.name(kind)
        told = self.missed_part(kind, offset, step, name, width)
        if told is None:
            return None
        missed = told

        def limit(hart: CheckedHart, address: int) -> Optional[Thing]:
            tag = hart.tags[register]
            kept = hart.indexed[register]
            if tag is not None and not tag.holds(address, width):
                return tag
            if kept is None:
                return None
            pointer = value_of(kept) if isinstance(kept, bytes) else kept
            return missed(address, pointer) if -FAR < address - pointer < FAR else None
        return limit

    def indexed_elements(self, one: Operation, base: Value) -> Optional[Limit]:
        """The limit of an access by an index into a global array of structures, in which an array
        is a member."""
        of = self.elements(base.offset + one.imm) if base.more or one.imm else None
        if of is None:
            return None
        begin = of.begin
        end = of.end
        offset = (base.offset + one.imm - begin) % of.size
        told = self.missed_part(of.type, offset, of.size, of.name + "[]", one.width)
        if told is None:
            return None
        missed = told
        return lambda _, address: missed(address, begin) if begin <= address < end else None

    # Variables of a frame.

    def place(self, pc: int, offset: int, is_indexed: bool = False) -> Optional[Place]:
        """The variable of the frame at an offset, from there; of indexed places arrays alone, and
        those it may be meant for."""
        first = self.program.function_at(pc).first
        listed = self.program.locals_of(first) or []
        inside = [each for each in listed if each.offset <= offset < each.end]
        inside = [each for each in inside if each.low <= pc < each.high] or inside
        if is_indexed:
            inside = [each for each in inside if each.has_parts]
            inside += [each for each in listed if each.has_parts and inside and (
                each.end == offset or 0 < each.offset - offset <= BEFORE
                and all(other.offset != offset for other in inside))]
            return frame_place(inside, [], offset) if inside else None
        begins_here = any(each.offset == offset for each in inside)
        before = [each for each in listed if begins_here and each.end == offset]
        chosen = inside or [each for each in listed if each.end == offset
                            or 0 < each.offset - offset <= NEAR]
        if chosen:
            return frame_place(chosen, before, offset)._replace(scope=self.scope_of(pc, chosen))
        above = [at for at in self.facts.slots.get(first, {}) if at > offset]
        # (behind what a function with any number of arguments got in registers come others)
        return Place(None, min(above) - offset, "") if above and offset < 0 else None

    def scope_of(self, pc: int, chosen: list[Local]) -> Optional[tuple[int, int]]:
        """The block of a variable. Of optimized code it isn't known, since instructions leave their
        blocks, or are of two."""
        function = self.program.function_at(pc)
        one = chosen[0]
        is_inner = (len(chosen) == 1 and (one.high - one.low) < function.end - function.first
                    and one.low <= pc < one.high)
        return (one.low, one.high) if is_inner and self.program.is_plain(function.first) else None

    def indexed_local(self, one: Operation, base: Value) -> Optional[Limit]:
        """The limit of an access by a place of the frame and an index."""
        stack = one.stack
        if stack is None or stack.to != IN_FRAME:
            return None
        found = self.place(one.pc, base.offset + one.imm, True)
        if found is None or found.low is None:
            return None
        offset = base.offset + one.imm - stack.offset       # from sp
        low = offset + found.low
        high = offset + found.high
        first = offset + found.begin
        width = one.width
        name = local_name(found.name, self.program.function_of(one.pc))
        begin = -stack.offset

        def limit(hart: CheckedHart, address: int) -> Optional[Thing]:
            at = address - hart.sp
            if low <= at and at + width <= high or not -FAR < at - begin < FAR:
                return None
            thing = Thing(hart.sp + low, hart.sp + high, FRAME, name)
            thing.begin = hart.sp + first
            return thing
        return limit

    def limit(self, one: Operation) -> Optional[Limit]:
        """The limit of an access whose pointer had an index added."""
        base = one.base
        if base is None or not base.indexed:
            return None
        if base.to == ABSOLUTE:
            return self.indexed_elements(one, base) or self.indexed_global(one, base)
        if base.to == POINTER:
            return self.indexed_member(one, base)
        return self.indexed_local(one, base) if base.to == IN_FRAME else None


def frame_place(chosen: list[Local], before: list[Local], offset: int) -> Place:
    names = sorted({each.name for each in chosen if each.name})
    first = min(each.offset for each in chosen)
    return Place(min([first] + [each.offset for each in before]) - offset,
                 max(each.end for each in chosen) - offset, "/".join(names[:2]), first - offset)


def local_name(name: str, function: str) -> str:
    return f"{name} of {function}" if name else f"the frame of {function}"
