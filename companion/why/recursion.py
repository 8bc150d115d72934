"""A call stack that is so deep that it may have overflowed."""
from __future__ import annotations

from collections import Counter
from typing import NamedTuple

from ..call.text import number
from ..recording.trace import Trace
from .suspect import Suspect

DEEP = 500                  # calls: twice what a sound program has
ASKED_FROM = 250            # deeper than a sound program goes, and before the stack did damage
ASKED_CALLS = 64            # calls from there that are looked at: a circle of functions has fewer
COST = 2                    # as near as two values: so deep a stack explains the fault by itself


class Recursion(NamedTuple):
    """The call that the stack has most often, if it is deep, and the rows that gave calls in its
    middle what they got."""
    suspects: list[Suspect]
    given: list[int]


def find_recursion(trace: Trace, start: int) -> Recursion:
    made = trace.calls
    calls = made.paired.left[trace.rows.hart[start]]
    if len(calls) < DEEP:
        return Recursion([], [])
    places = [trace.rows.code_of(made.jumps[at]).pc for at in calls]
    (place, times), = Counter(places).most_common(1)
    if times * 4 < len(calls):
        return Recursion([], [])
    latest = max(made.jumps[at] for at, pc in zip(calls, places) if pc == place)
    suspect = Suspect("calls", latest, latest, COST)
    suspect.why.append(f"the stack is {number(len(calls))} calls deep, "
                       f"and {number(times)} of them are this one")
    asked = calls[ASKED_FROM:ASKED_FROM + ASKED_CALLS]
    return Recursion([suspect], [made.writers[at] for at in asked if made.writers[at]])
