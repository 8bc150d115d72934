"""Whether a value is some bits of another: it was stored in fewer bytes, masked, or shifted up and
down again."""
from __future__ import annotations

from typing import Mapping, Optional

from ..recording.instruction import STORE, Instruction
from ..recording.rows import LOADS, STORES
from ..recording.trace import Trace
from .suspect import Extra

SMALL = 1 << 16             # how far below zero a difference may be
MASKS = {(1 << width) - 1: width for width in range(4, 12)}
KEPT = {16: 16, 24: 8}      # the bits that two shifts by so many keep
SUMS = "add", "addi", "sub", "or", "ori"
UNSIGNED = "bltu", "bgeu", "sltu", "sltiu"      # what compares without signs
STEPS = 14                  # rows that are looked at behind a value: an expression has fewer
MOST_SUMS = 8               # sums on the way to its use


def cut_behind(trace: Trace, row: int) -> Optional[Extra]:
    """The nearest row behind a row's value that kept only some bits of a value, if it lost one, and
    what it lost, in words."""
    todo = [row]
    seen = {0}
    users: dict[int, int] = {}
    for n in todo:
        if n in seen or len(seen) > STEPS:
            continue
        seen.add(n)
        words = loss(trace, n, users)
        if words:
            return Extra(words, n)
        if trace.rows.flags[n] & LOADS:
            behind = trace.writers.stores(n).rows
        else:
            behind = ([trace.writers.second[n]] if trace.rows.flags[n] & STORES
                      else [trace.writers.before_counting(n), trace.writers.second[n]])
        todo += behind
        users.update((source, n) for source in behind if source not in users)
    return None


def loss(trace: Trace, n: int, users: Mapping[int, int]) -> str:
    """What a row lost, in words, if bits were."""
    ins = trace.rows.code_of(n)
    source, width = narrowing(trace, n)
    before = trace.rows.result_of(source)
    if before is None:
        return ""
    after = before & (1 << width) - 1
    if ins.kind != STORE and (1 << 32) - before <= SMALL and trace.rows.result_of(n) == after:
        is_fine = is_meant(trace.rows.code_of(user_of(trace, n, users)), width)
        return ("" if is_fine
                else kept_words(before, width) + f" ({before - (1 << 32)} if it has a sign)")
    signed = after | (0xffffffff << width & 0xffffffff if after >> width - 1 else 0)
    return "" if before in (after, signed) else kept_words(before, width)


def kept_words(before: int, width: int) -> str:
    return f"{before & (1 << width) - 1:08x} is the lowest {width} bits of {before:08x}"


def narrowing(trace: Trace, n: int) -> tuple[int, int]:
    """The row of whose value a row keeps the lowest bits, and how many: it stores some bytes, is a
    mask, or the second of two shifts. Or row 0."""
    ins = trace.rows.code_of(n)
    if ins.kind == STORE and ins.width < 4:
        return trace.writers.second[n], 8 * ins.width
    if ins.name == "andi" and ins.word >> 20 in MASKS:
        return trace.writers.first[n], MASKS[ins.word >> 20]
    if ins.name in ("srli", "srai") and trace.rows.code_of(trace.writers.first[n]).name == "slli":
        width, left = (KEPT.get(each.word >> 20 & 31, 0)
                       for each in (ins, trace.rows.code_of(trace.writers.first[n])))
        if width and width == left:
            return trace.writers.first[trace.writers.first[n]], width
    return 0, 32


def user_of(trace: Trace, n: int, users: Mapping[int, int]) -> int:
    """The row that a row's value is for, or 0. Sums are passed on the way to a store, as they need
    no more bits than it."""
    first = n = users.get(n, 0)
    for _ in range(MOST_SUMS):
        if not n or trace.rows.code_of(n).name not in SUMS:
            break
        n = users.get(n, 0)
    return n if trace.rows.flags[n] & STORES else first


def is_meant(user: Instruction, width: int) -> bool:
    """Whether a value below zero may be cut for this use: a store takes no more bits of it, and a
    test of a range compares it without its sign."""
    if user.kind == STORE:
        return 8 * user.width <= width
    return user.name in UNSIGNED
