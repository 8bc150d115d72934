"""What instructions without an access make of pointers."""
from __future__ import annotations

from typing import Callable, Optional

from ..recording.instruction import SP
from .checks import Checks
from .dynamic import ROUNDED, SPARED, becomes_size, is_aligned_down, pointer_to, size_asked
from .operation import FULL, Operation
from .parts import local_name
from .pointers import LEAST_ADDRESS
from .stacks import is_frame_move
from .state import DIFFERENCE, FRAME, MEMBER, Act, CheckedHart, Scoped, Thing, value_of
from .value import ABSOLUTE, POINTER, Value
from .value import FRAME as IN_FRAME

BY_NEGATIVE = "andi"        # with a negative constant it aligns a pointer


class Sums:
    def __init__(self, checks: Checks, hart: CheckedHart) -> None:
        self.checks = checks
        self.hart = hart

    def of_stack_pointer(self, one: Operation) -> Act:
        hart = self.hart
        size = size_asked(self.checks.facts, one)
        rows = hart.rows
        change = self.checks.stacks.grow_or_shrink if is_frame_move(one) else self.checks.stacks.set

        def act(row: bytes) -> None:
            hart.asked = size(hart, row) if size else None
            change(hart, value_of(row), row, one)
            rows[SP] = row
        return act

    def of_sum(self, one: Operation) -> Act:
        """A register gets a result: what it points into."""
        value = self.checks.facts.result(one) if one.known else None
        if one.name == "addi" and one.rs1 == SP and one.known and one.base is None:
            return self.to_asked(one)
        if value is not None:
            made = self.made(one, value)
            if made is not None:
                self.checks.judge.made.add(one.pc)
                return made
            if value.to == IN_FRAME and value.indexed:
                return self.without_tag(one)
            if value.to == POINTER and value.indexed and one.name in ("add", "addi"):
                return self.indexing(one)
        if becomes_size(self.checks.facts, one):
            return self.asking(one)
        if one.name == "addi" and one.rs1 or one.name == BY_NEGATIVE and one.imm < 0:
            return self.copying(one)
        if one.name in ("add", "sub"):
            return self.adding(one)
        return (self.copying(one) if is_aligned_down(self.checks.facts, one)
                else self.without_tag(one))

    def made(self, one: Operation, value: Value) -> Optional[Act]:
        """Of an instruction that makes a pointer: to a global object, a variable of the frame, an
        array member."""
        parts = self.checks.parts
        if value.to == ABSOLUTE and value.more and one.name == "addi":
            if not value.indexed:
                return self.to_thing(one, parts.made_global(one, value))
            if one.base and not one.base.more:
                return self.to_thing(one, parts.made_global(one, value), one.rs1)
        if value.to == IN_FRAME and not value.indexed and one.name == "addi":
            return self.to_frame(one, value)
        if one.name in ("addi", "add"):
            return self.to_member(one, value)
        return None

    def to_thing(self, one: Operation, thing: Optional[Thing], unless: int = 0) -> Act:
        """A pointer into a thing, unless a register already points into another."""
        hart = self.hart
        tags = hart.tags
        rows = hart.rows
        rd = one.rd

        def act(row: bytes) -> None:
            tags[rd] = tags[unless] or thing
            rows[rd] = row
        return act

    def to_frame(self, one: Operation, value: Value) -> Act:
        hart = self.hart
        thing_of = frame_thing(self.checks, hart, one, value)
        if thing_of is None:
            return self.without_tag(one)
        thing_at = thing_of

        def act(row: bytes) -> None:
            hart.tags[one.rd] = thing_at(value_of(row))
            hart.rows[one.rd] = row
        return act

    def asking(self, one: Operation) -> Act:
        hart = self.hart
        copy = self.copying(one)

        def act(row: bytes) -> None:
            hart.asking = row
            copy(row)
        return act

    def to_asked(self, one: Operation) -> Act:
        """A pointer to memory that the function asked for on its stack (dynamic.py)."""
        hart = self.hart
        keep = self.checks.stacks.keep
        copy = self.copying(one)
        offset, alignment = pointer_to(self.checks.facts, one)
        spare = alignment - SPARED if alignment >= ROUNDED else 0
        if offset % ROUNDED:
            return copy
        self.checks.judge.made.add(one.pc)
        name = f"an alloca or array of {self.checks.facts.program.function_of(one.pc)}"

        def act(row: bytes) -> None:
            copy(row)
            asked = hart.asked
            if asked is not None and asked.sp == hart.sp and asked.size > spare:
                begin = hart.sp + offset + alignment - 1 & -alignment
                if asked.thing is None or asked.thing.end != begin + asked.size - spare:
                    asked.thing = Thing(begin, begin + asked.size - spare, FRAME, name)
                    keep(hart, asked.thing)
                hart.tags[one.rd] = asked.thing
        return act

    def to_member(self, one: Operation, value: Value) -> Optional[Act]:
        hart = self.hart
        inner = self.checks.parts.inner(one, value)
        if inner is None:
            return None
        low, high, name = inner
        last: Optional[Thing] = None

        def act(row: bytes) -> None:
            nonlocal last
            pointer = value_of(row)
            above = hart.tags[one.rs1]
            if (above is not None and above.kind == "block"
                    and not above.low <= pointer < above.high):
                hart.tags[one.rd] = above       # the structure isn't in the block
            else:
                end = (pointer + high if above is None or above.kind != "block"
                       else min(pointer + high, above.high))
                if last is None or last.low != pointer + low or last.high != end:
                    last = Thing(pointer + low, end, MEMBER, name)
                    last.begin = pointer
                    last.is_part = True
                hart.tags[one.rd] = last
            hart.rows[one.rd] = row
        return act

    def copying(self, one: Operation) -> Act:
        hart = self.hart
        tags = hart.tags
        rows = hart.rows
        rd = one.rd
        rs = one.rs1

        def act(row: bytes) -> None:
            tags[rd] = tags[rs]
            rows[rd] = row
        hart.texts[act] = "", f"tags[{rd}] = tags[{rs}]" if rd != rs else ""
        return act

    def adding(self, one: Operation) -> Act:
        """A pointer and a number are that pointer's place; the difference of two may lead from one
        to the other."""
        hart = self.hart
        tags = hart.tags
        rows = hart.rows
        rd = one.rd
        rs1 = one.rs1
        rs2 = one.rs2

        def add(row: bytes) -> None:
            x = tags[rs1]
            y = tags[rs2]
            tags[rd] = None if x and y else x or y
            rows[rd] = row

        def subtract(row: bytes) -> None:
            x = tags[rs1]
            y = tags[rs2]
            tags[rd] = x if y is None else DIFFERENCE
            rows[rd] = row

        def unsure(row: bytes) -> None:
            number: Optional[int] = 0
            if None in (tags[rs1], tags[rs2]):
                number = hart.value(rs1 if tags[rs1] is None else rs2)
            (add if one.name == "add" else subtract)(row)
            if number is None or LEAST_ADDRESS <= number <= FULL - LEAST_ADDRESS:
                tags[rd] = None
        # What isn't a small number may be a pointer, or the difference of two
        if not self.checks.is_whole:
            return unsure
        if one.name == "sub":
            return subtract
        sum_of_tags = "None if x and y else x or y"
        hart.texts[add] = "", f"x, y = tags[{rs1}], tags[{rs2}]; tags[{rd}] = {sum_of_tags}"
        return add

    def indexing(self, one: Operation) -> Act:
        """An index is added to a structure's pointer, whose value is kept."""
        hart = self.hart
        tags = hart.tags
        rows = hart.rows
        kept = hart.indexed
        rd = one.rd
        rs1 = one.rs1
        rs2 = one.rs2
        pointer = rs1 if one.base and one.base.to == POINTER else rs2
        value = one.base if pointer == rs1 else one.other
        was_indexed = value is not None and value.indexed
        if not was_indexed and value is not None and value.offset:
            return self.adding(one) if one.name == "add" else self.copying(one)

        def act(row: bytes) -> None:
            kept[rd] = kept[pointer] if was_indexed else rows[pointer]
            x = tags[rs1]
            y = tags[rs2]
            tags[rd] = None if x and y else x or y
            rows[rd] = row
        return act

    def without_tag(self, one: Operation) -> Act:
        hart = self.hart
        tags = hart.tags
        rows = hart.rows
        rd = one.rd

        def act(row: bytes) -> None:
            tags[rd] = None
            rows[rd] = row
        hart.texts[act] = "", f"tags[{rd}] = None"
        return act


def frame_thing(checks: Checks, hart: CheckedHart, one: Operation,
                value: Value) -> Optional[Callable[[int], Thing]]:
    """What gives the thing of a pointer to a place of the frame."""
    found = checks.parts.place(one.pc, value.offset)
    keep = checks.stacks.keep
    if found is None:
        return None
    below = found.low
    above = found.high
    begin = found.begin
    function = checks.facts.program.function_at(one.pc)
    scope = found.scope
    name = local_name(found.name, function.name)
    last: Optional[Thing] = None
    last_of = 0, 0, 0                           # its begin, its end, and the depth of calls

    def thing_at(pointer: int) -> Thing:
        nonlocal last, last_of
        low = hart.sp if below is None else pointer + below
        high = pointer + above
        depth = len(hart.returns)
        if last is None or last.gone or last_of != (low, high, depth):
            last_of = low, high, depth
            last = Thing(low, high, FRAME, name)
            last.begin = low if below is None else pointer + begin
            last.owner = function.first
            if scope is not None:
                last = Scoped(last, scope, function[:2], hart)
            keep(hart, last)
        return last
    return thing_at
