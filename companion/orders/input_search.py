"""The search for the shortest input by which a program ends as its recording did."""
from __future__ import annotations

import re
from typing import Callable, Iterator, List, Sequence, Tuple

from .input_ends import LoopEnd
from .input_tries import InputTries

WORDS = re.compile(rb"\w+|[ \t]+|.", re.S)
BRACKETS = dict(zip(b"([{", b")]}"))
MOST_GROUPS = 200           # are tried at once
MOST_IN_VAIN = 2000         # tries of a pass that gain nothing end it
# From so many pieces on each number is tried: records can have any length
SMALL = 8
# Each byte becomes the plain one of its kind, and one that is no text 0.
PLAIN = ((re.compile(rb"[1-9]"), b"0"), (re.compile(rb"[b-z]"), b"a"),
         (re.compile(rb"[B-Z]"), b"A"),
         (re.compile(rb"[\x01-\x08\x0b\x0c\x0e-\x1f\x7f-\xff]"), b"\0"))


class InputSearch:
    """best  the shortest input so far"""

    def __init__(self, tries: InputTries, data: bytes) -> None:
        self.tries = tries
        self.best = data

    def run(self) -> None:
        """First what takes off most: some tens of tries for any length."""
        if self.takes(b""):
            return
        if isinstance(self.tries.wanted, LoopEnd):
            self.tries.lower_limit(self.best)
        self.halve(lambda data, size: data[:size])
        self.halve(lambda data, size: data[len(data) - size:])
        before = -1
        while before != len(self.best) and not self.tries.is_ended():
            before = len(self.best)
            if isinstance(self.tries.wanted, LoopEnd):
                self.tries.lower_limit(self.best)
            self.cut(self.best.splitlines(True))
            self.leave_groups()
            self.cut(WORDS.findall(self.best))
            self.cut([self.best[at:at + 1] for at in range(len(self.best))])
        for find, to in PLAIN:
            self.make_plain(lambda data: find.sub(to, data))

    def takes(self, data: bytes) -> bool:
        """Whether an input ends as wanted, which then is the best."""
        held = self.tries.first([data], 1)
        if held:
            self.best = data
        return held is not None

    def halve(self, part: Callable[[bytes, int], bytes]) -> None:
        """The shortest part of the whole that ends as wanted, if all longer ones do."""
        whole = self.best
        low = 0
        high = len(whole)
        while low + 1 < high and not self.tries.is_ended():
            middle = (low + high) // 2
            if self.takes(part(whole, middle)):
                high = middle
            else:
                low = middle

    def cut(self, found: Sequence[bytes]) -> None:
        """Leaves out pieces: the half of them, a quarter, and so on; single ones until none can
        go."""
        pieces: List[bytes] = list(found)
        size = max(1, len(pieces) // 2)
        left = MOST_IN_VAIN
        while len(pieces) > 1 and left > 0 and not self.tries.is_ended():
            at = 0
            before = len(pieces)
            while at < len(pieces) and left > 0 and not self.tries.is_ended():
                starts = range(at, len(pieces), size)
                held = self.tries.first((b"".join(pieces[:i] + pieces[i + size:]) for i in starts),
                                        left)
                left = MOST_IN_VAIN if held else left - len(starts)
                if held is None:
                    break
                self.best = held.data
                at = starts[held.number]
                del pieces[at:at + size]
            if size == 1 and len(pieces) == before:
                break
            size = max(1, size // 2 if size > SMALL else size - 1)

    def leave_groups(self) -> None:
        """Leaves out what is between brackets, with them, or the two alone: neither can go without
        the other."""
        held = True
        while held and not self.tries.is_ended():
            found = self.tries.first(without_groups(self.best), MOST_IN_VAIN)
            held = found is not None
            self.best = found.data if found else self.best

    def make_plain(self, plain: Callable[[bytes], bytes]) -> None:
        """Makes all bytes plain, else those of each half, and so on."""
        size = len(self.best)
        left = MOST_IN_VAIN
        while size and left > 0 and not self.tries.is_ended():
            for at in range(0, len(self.best), size):
                changed = self.best[:at] + plain(self.best[at:at + size]) + self.best[at + size:]
                if changed != self.best and left > 0:
                    left = MOST_IN_VAIN if self.takes(changed) else left - 1
            size //= 2


def without_groups(data: bytes) -> Iterator[bytes]:
    for begin, end in groups_of(data)[:MOST_GROUPS]:
        yield data[:begin] + data[end + 1:]
        yield data[:begin] + data[begin + 1:end] + data[end + 1:]


def groups_of(data: bytes) -> List[Tuple[int, int]]:
    """The places of brackets that belong together, those of the longest first."""
    opened: List[int] = []
    found: List[Tuple[int, int]] = []
    for at, byte in enumerate(data):
        if byte in BRACKETS:
            opened.append(at)
        elif opened and byte == BRACKETS[data[opened[-1]]]:
            found.append((opened.pop(), at))
    return sorted(found, key=lambda group: (group[0] - group[1], group))
