"""Two facts of jumps before a fault: which call returned the null that was used, and which jump led
into a function's middle."""
from __future__ import annotations

from itertools import compress
from typing import Optional

from ..call.text import number
from ..recording.elf import FUNCTION, Symbol, last_before
from ..recording.instruction import A0, OP_JALR
from ..recording.rows import LOADS, STORES
from .facts import Facts

MOST_STEPS = 10000          # of a value that is moved, stored and loaded
MOST_JUMPS = 50000          # of the latest jumps through pointers are looked at
NULL_BYTES = 4096           # nothing below is mapped: such an address is null and an offset


def null_lines(facts: Facts) -> list[str]:
    """Which call returned the null that a fault's address is: the innermost one that was made by
    code with its source."""
    rows = facts.rows
    fault = facts.rows.fault
    found = ""
    if not fault or not facts.faulted or fault.value >= NULL_BYTES or not fault.instruction.rs1:
        return []
    user = fault.row
    n = facts.writers.first[fault.row]
    for _ in range(MOST_STEPS):
        if not n or not rows.flags[n] & STORES and rows.result_of(n) != 0:
            break
        call = returned_by(facts, user, n)
        if call and (not found or facts.places.source(facts.calls.tree.call_pc[call])):
            found = call_words(facts, call, n)
        user = n
        n = source_of(facts, n)
    return [found] if found else []


def source_of(facts: Facts, n: int) -> int:
    """The row that a row's value was taken from as it was, or 0."""
    rows = facts.rows
    writers = facts.writers
    if rows.flags[n] & LOADS:
        return writers.store(n)
    if rows.flags[n] & STORES:
        return writers.second[n]
    return writers.first[n] if rows.code_of(n).move else 0


def returned_by(facts: Facts, user: int, n: int) -> int:
    """The node of the call that returned a row's value to the row that used it, or 0."""
    if facts.rows.flags[user] & LOADS and user != facts.start or facts.rows.code_of(n).rd != A0:
        return 0                                # it came through memory, or in another register
    tree = facts.calls.tree
    above = facts.calls.node_of(user)
    node = facts.calls.node_of(n)
    while node and tree.parent[node] != above:
        node = tree.parent[node]
    return node if node != above else 0


def call_words(facts: Facts, call: int, n: int) -> str:
    """What a call returned, by the function that it led to: the one that a call in it was made in,
    or else the row's own."""
    tree = facts.calls.tree
    node = facts.calls.node_of(n)
    inner = facts.pc_of(n)
    while node != call:
        inner = tree.call_pc[node]
        node = tree.parent[node]
    frames = facts.places.frames(inner)
    name = frames[-1].function if frames else f"{inner:08x}"
    return f"The null is what {name} returned to {facts.places.where(tree.call_pc[call])}."


def middle_lines(facts: Facts) -> list[str]:
    """The latest jump through a pointer that led neither to the beginning of a function nor into
    its own."""
    rows = facts.rows
    if not facts.faulted:
        return []
    is_pointer = [ins.word & 127 == OP_JALR and not ins.ret for ins in rows.codes]
    jumps = (list(compress(range(len(rows.code)), map(is_pointer.__getitem__, rows.code)))
             if any(is_pointer) else [])
    known: dict[tuple[int, int], Optional[Symbol]] = {}
    for n in jumps[:-MOST_JUMPS - 1:-1]:
        to = facts.pc_of(rows.following(n)) if n and rows.following(n) else 0
        key = rows.code[n], to
        if key not in known:
            known[key] = entered(facts, facts.pc_of(n), to)
        found = known[key]
        if found:
            return [f"The jump through a pointer in {facts.where(n)} (hart {rows.hart[n]} at count "
                    f"{number(rows.count_of(n))}) led into the middle of {found.name}, "
                    f"to {to:08x}."]
    return []


def entered(facts: Facts, jump: int, to: int) -> Optional[Symbol]:
    """The function that an address is inside of, if it isn't that of the jump or a part which a
    compiler split from it."""
    found = last_before(facts.named.functions, to)
    if not found or found.kind != FUNCTION or not found.address < to < found.address + found.size:
        return None
    own = facts.named.function_name(jump)
    return found if found.name.partition(".")[0] != own.partition(".")[0] else None
