"""The origins of words that no row of the log stored, and how to record more."""
from __future__ import annotations

from typing import NamedTuple

from ..call.text import number
from ..recording.inputs import input_text
from ..recording.log import Log
from .facts import Facts
from .history import History

LARGEST_LOG = 1 << 28       # bytes: the largest that `record --log-size` makes
MOST_LOADS = 400            # that are asked of: the report tells twenty places
MOST_FRAMES = 4             # callers in a line


class Origin(NamedTuple):
    """The origin of a load's word, in words, and the place of the load."""
    words: str
    place: str


class Loads(NamedTuple):
    """How many loads, and the nearest of them."""
    times: int
    nearest: int


def origins(facts: Facts, history: History) -> dict[Origin, Loads]:
    """The history's loads of what no row stored, nearest to the fault first."""
    found: dict[Origin, Loads] = {}
    for n in sorted(history.before, key=lambda n: history.cost[n])[:MOST_LOADS]:
        key = Origin(came_from(facts, n), facts.where(n))
        times, first = found.get(key, (0, n))
        found[key] = Loads(times + 1, first)
    return found


def came_from(facts: Facts, n: int) -> str:
    """What gave the bytes of a load their value that no row gave it."""
    told = facts.rows.load_of(n)
    if told is None:
        return "no row tells"
    word = told.address & ~3
    rest = facts.writers.stores(n).rest
    mine = [i for i in range(4) if rest >> i & 1]
    for call in reversed(facts.rows.reads):
        if call.row < n and any(call.address <= word + i < call.address + call.size for i in mine):
            count = facts.rows.count_of(call.row)
            brought = facts.log.input_bytes(call.hart, count, 0, call.size)
            here = [brought[word + i - call.address] for i in mine
                    if 0 <= word + i - call.address < call.size]
            return (f"a read call brought {input_text(here)} "
                    f"(hart {call.hart}, count {number(count)})")
    stored = facts.earlier_of(n)
    if stored:
        places = facts.places.chain([stored.code.pc, *stored.calls], MOST_FRAMES)
        moment = f"hart {stored.hart} at count {number(stored.ic)}"
        return f"stored before the rows that were read, by {moment} in {places}"
    before = "stored before the log" if facts.log.dropped else ""
    if facts.is_part:
        before = "stored before the rows that were read"
    mask = sum(255 << 8 * i for i in mine)
    value = told.value & mask
    if value != (facts.elf.word(word) or 0) & mask:
        return before or "no row tells"
    kind = "as the program file has it" if value else "zero from the start"
    if before:
        return f"{kind}, or {before}"
    # A row of an atomic can have stored what was there: that is a store, too.
    return kind if value or facts.writers.word[n] else f"{kind}: never stored"


def advice(log: Log) -> list[str]:
    """Which option would have kept what the log gave up."""
    if not log.dropped or log.unread:           # what wasn't read is told elsewhere
        return []
    kept = max(1, log.records)
    whole = log.size + log.dropped * max(1, log.size // kept)
    said = [f"The log gave up {number(log.dropped)} records before its first: "
            "values can come from there."]
    if whole <= LARGEST_LOG:
        size = 1 << (whole - 1).bit_length()
        said.append(f"About `record --log-size {min(size, LARGEST_LOG)}` would have kept the "
                    "whole run.")
    else:
        said.append(f"The whole run has about {number(whole)} bytes of records, more than "
                    "`--log-size` takes; a larger cache (`--sets`, `--ways`) logs fewer loads.")
    return said
