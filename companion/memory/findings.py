"""What was found, in the order in which it happened, and what couldn't be told."""
from __future__ import annotations

from collections import Counter
from dataclasses import dataclass
from typing import Counter as Counts
from typing import Dict, Hashable, List, Optional

from .state import Event, Thing

MOST_FINDINGS = 400         # that are kept: each is a bug, and a list of so many is read by nobody

# The kinds, by AddressSanitizer's names if it has one.
HEAP = "heap-buffer-overflow"
FREED = "heap-use-after-free"
TWICE = "double-free"
NO_BLOCK = "invalid-free"
NULL = "use-of-failed-allocation"
GLOBAL = "global-buffer-overflow"
MEMBER = "member-overflow"
STACK = "stack-buffer-overflow"
AFTER_RETURN = "stack-use-after-return"
AFTER_SCOPE = "stack-use-after-scope"
DEPTH = "stack-overflow"
REGISTER = "saved-register-overwritten"
RETURN = "return-address-overwritten"
POINTER = "invalid-pointer-stored"
UNINITIALIZED = "use-of-uninitialized-value"
OVERLAP = "memcpy-param-overlap"
UNMAPPED = "unmapped-address"
LEAK = "memory-leak"


@dataclass
class Finding:
    """thing   the object that it is about, if there is one
    origin  the place that made or loaded the pointer, or the undefined value, and what it did; 0 if
            that isn't known
    times   how often the same was done: by one function to one thing"""
    kind: str
    text: str
    when: Event
    thing: Optional[Thing] = None
    origin: int = 0
    origin_does: str = ""
    times: int = 1


class Findings:
    """unknown   {what couldn't be told: how often}"""

    def __init__(self) -> None:
        self.kept: Dict[Hashable, Finding] = {}
        self.unknown: Counts[str] = Counter()
        self.more = 0

    def add(self, key: Hashable, finding: Finding) -> None:
        old = self.kept.get(key)
        if old is not None:
            old.times += 1
        elif len(self.kept) < MOST_FINDINGS:
            self.kept[key] = finding
        else:
            self.more += 1

    def in_order(self) -> List[Finding]:
        """As they were found, which is the order of `joint`."""
        return list(self.kept.values())
