"""For which words a hart at its limit waits. Of the run that is wanted its loop is looked for in
its rows; whether another run waits in that loop too is told by the text of its last rows, which is
far cheaper."""
from __future__ import annotations

import re
from dataclasses import dataclass
from operator import sub
from typing import Mapping, NamedTuple, Optional, Pattern, Sequence

from ..recording.instruction import STORE
from ..recording.log import Log
from ..recording.trace import Trace, trace_of
from ..why.control import load_behind
from ..why.loops import LONGER, Loop

STAY_ROWS = 200000          # of a hart's last rows are read for how long it is in its loop
LOOP_ROWS = 1500, 10000     # in so many of them its loop is looked for
NEAR_ROWS = 300             # about so many are looked at first
NEAR = 0.9                  # the share of them that has to be in a known loop
# Bytes
LONGEST_ROW = 160
MEAN_ROW = 70
MOST_SPILLS = 8             # so often is a value followed through the stack
PC = re.compile(rb"^\d+ \d+ (\w{8}) ", re.M)


class Stay(NamedTuple):
    """A hart's stay in its last loop.

    places  the addresses of the loop's code
    loads   those of loads whose values would have ended it, each with the word that it loaded
    turns   how many of the hart's last turns are in it"""
    places: tuple[int, ...]
    loads: tuple[tuple[int, int], ...]
    turns: int

    def words(self) -> list[int]:
        return sorted({word for _, word in self.loads})

    def outside(self) -> Pattern[bytes]:
        """Finds the counts of rows that aren't in the loop, each behind a newline."""
        return re.compile(rb"\n\d+ (\d+) (?!%s)" % b"|".join(b"%08x" % pc for pc in self.places))


@dataclass(frozen=True)
class Waiting:
    """The stay of each hart at its limit."""
    stays: Mapping[int, Stay]

    def is_like(self, other: object) -> bool:
        """Whether the same harts wait for the same words."""
        return isinstance(other, Waiting) and self.words() == other.words()

    def words(self) -> dict[int, list[int]]:
        return {hart: stay.words() for hart, stay in self.stays.items()}

    def begin(self, turns: bytes) -> int:
        """How many turns there are before all these harts are in their loops."""
        at = 0
        for hart, stay in self.stays.items():
            before, *ends = turns.rsplit(bytes([hart]), stay.turns + 1)
            if len(ends) > stay.turns:          # it had a turn before its stay
                at = max(at, len(before) + 1)
        return at


def stay_of(log: Log, hart: int, text: bytes) -> Stay:
    """The stay of a hart, by what `replay` prints of its last rows."""
    for most in LOOP_ROWS:
        trace = trace_of(log, b"".join(text[-most * LONGEST_ROW:].splitlines(True)[-most:]))
        loop = Loop(trace, hart)
        if loop.places:
            break
    loads = [operand.load for item in loop.exits if item.leads_out for operand in item.operands]
    words = {(trace.rows.code_of(load).pc, trace.rows.access(load).address & ~3)
             for load in (unspilled(trace, load) for load in loads if load)}
    known = Stay(tuple(sorted(trace.rows.codes[at].pc for at in loop.places)),
                 tuple(sorted(words)), 0)
    if not known.places:
        return known
    outside = list(map(int, known.outside().findall(b"\n" + text)))
    return known._replace(turns=turns_of_stay(text_behind(text, hart, outside)))


def stay_like(log: Log, hart: int, text: bytes, known: Stay) -> Optional[Stay]:
    """The stay of a hart, if it is in a loop that is known; None if it isn't, or isn't near it."""
    near = [int(pc, 16) in known.places for pc in PC.findall(text[-NEAR_ROWS * MEAN_ROW:])]
    if all(near):
        counts = [*map(int, known.outside().findall(b"\n" + text)), log.ends[hart].count]
        stay = text_behind(text, hart, counts[:-1])
        if has_stayed(counts, stay, known):
            return (known._replace(turns=turns_of_stay(stay)) if has_loads(text, known.loads)
                    else None)
    return stay_of(log, hart, text) if sum(near) >= NEAR * len(near) else None


def has_stayed(counts: Sequence[int], stay: bytes, known: Stay) -> bool:
    """Whether a hart's stay, which comes behind some counts, is more than twice as long as any that
    it left, and longer than some rounds."""
    *others, last = map(sub, counts, [counts[0], *counts])
    return 2 * max(others, default=0) < last and all(stay.count(b" %08x " % pc) >= LONGER
                                                     for pc in known.places)


def text_behind(text: bytes, hart: int, counts: Sequence[int]) -> bytes:
    """What comes behind the last of some rows."""
    at = text.rfind(b"\n%d %d " % (hart, counts[-1])) if counts else -1
    return text[text.find(b"\n", at + 1):] if counts else text


def has_loads(text: bytes, loads: Sequence[tuple[int, int]]) -> bool:
    """Whether each of these loads last loaded its word."""
    for pc, word in loads:
        at = text.rfind(b" %08x " % pc)
        row = text[at:text.find(b"\n", at)] if at >= 0 else b""
        found = re.search(rb"\| load (\w{8})=", row)
        if not found or int(found[1], 16) & ~3 != word:
            return False
    return True


def turns_of_stay(stay: bytes) -> int:
    """How many turns ended in some last rows. It is fast, and may leave out some that end with no
    access."""
    last = stay[stay.rfind(b"\n", 0, stay.rfind(b"\nend ")):]
    atomics = len(re.findall(rb" load \w+=\w+ \| store ", stay))
    # The last turn ended at the limit
    has_rest = b" load " not in last and b" store " not in last
    return stay.count(b" | load ") + stay.count(b" | store ") - atomics + has_rest


def unspilled(trace: Trace, load: int) -> int:
    """The load behind a load: one that takes back what this hart put on the stack leads to where
    that came from."""
    for _ in range(MOST_SPILLS):
        store = trace.writers.word[load]
        source = (load_behind(trace, trace.writers.second[store])
                  if store and trace.rows.code_of(store).kind == STORE else 0)
        if not source:
            break
        load = source
    return load
