"""What is known of a register before an instruction runs, whatever the run: a place relative to
something, or a number."""
from __future__ import annotations

from typing import Dict, Hashable, NamedTuple, Optional

# What a value is relative to: nothing; memory's begin; the frame's begin (its CFA); a register when
# the function began; a pointer to a structure. Of a `WILD` one it is known that it was made of
# factors, which can hide a place.
NUMBER, ABSOLUTE, FRAME, ENTRY, POINTER, WILD = range(6)
# `lui` below this, or that close to the upper end, is taken for a number
LOWEST_ADDRESS = 65536


class Value(NamedTuple):
    """indexed   whether something unknown was added
    more      of an address: whether it is whole (not only its upper part); of a pointer its type;
              of an entry value nothing"""
    to: int
    offset: int
    indexed: bool = False
    more: int = 0


# Of registers by number, and of words of the frame by ("s", offset)
State = Dict[Hashable, Value]
UNKNOWN = Value(NUMBER, 0, True)


def as_term(value: Optional[Value]) -> Value:
    """A value as a term of a sum: what is unknown is a number, and so is an address that is too low
    or too high for one."""
    if value is None or value.to == ENTRY:
        return UNKNOWN
    if value.to == ABSOLUTE and not value.indexed:
        signed = (value.offset + (1 << 31)) % (1 << 32) - (1 << 31)
        if -LOWEST_ADDRESS < signed < LOWEST_ADDRESS:
            return Value(NUMBER, signed)
    return value


def is_exact(value: Optional[Value]) -> bool:
    """Whether it is one number."""
    term = as_term(value)
    return term.to == NUMBER and not term.indexed


def moved_value(value: Optional[Value], by: int) -> Optional[Value]:
    """A value with a constant added."""
    if value is None:
        return Value(NUMBER, by, True)
    if value.to == WILD:
        return value
    if value.to == ENTRY:
        return value if by == 0 else None
    return value._replace(offset=value.offset + by,
                          more=value.more or int(value.to == ABSOLUTE and by != 0))


def sum_of_values(one: Optional[Value], other: Optional[Value]) -> Optional[Value]:
    x = as_term(one)
    y = as_term(other)
    if WILD in (x.to, y.to):
        return Value(WILD, 0, True) if {x.to, y.to} <= {WILD, NUMBER} else None
    if y.to != NUMBER:
        x, y = y, x
    return (x._replace(offset=x.offset + y.offset, indexed=x.indexed or y.indexed) if y.to == NUMBER
            else None)


def subtracted(one: Optional[Value], other: Optional[Value]) -> Optional[Value]:
    x = as_term(one)
    y = as_term(other)
    if WILD in (x.to, y.to):
        return Value(WILD, 0, True) if {x.to, y.to} <= {WILD, NUMBER} else None
    return (x._replace(offset=x.offset - y.offset, indexed=x.indexed or y.indexed) if y.to == NUMBER
            else None)


def multiplied(one: Optional[Value], other: Optional[Value]) -> Optional[Value]:
    """A product: exact by a constant; of an offset with an index what was added can't be
    followed."""
    if is_exact(one) or is_exact(other):
        x = as_term(one)
        y = as_term(other)
        if not is_exact(y):
            x, y = y, x
        if x.to == NUMBER:
            return Value(NUMBER, x.offset * y.offset, x.indexed)
        return x if x.to == WILD else None
    return mixed(one, other)


def mixed(one: Optional[Value], other: Optional[Value]) -> Optional[Value]:
    """What `or`, `xor` and shifts by a register make."""
    hides = any(value
                and (value.to == WILD or value.to == NUMBER and value.offset and value.indexed)
                for value in (one, other))
    return Value(WILD, 0, True) if hides else None


def meet(one: State, other: State) -> State:
    """What two states agree on."""
    return {key: value for key, value in one.items() if other.get(key) == value}
