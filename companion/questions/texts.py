"""The texts to which pointers led in memory that a run can change, each as it was at a place of the
rows. Only calls that are told need them, so they are looked for in a second reading, of the rows
that touch them alone."""
from __future__ import annotations

import itertools
from collections import deque
from typing import Deque, Dict, Iterable, NamedTuple

from ..recording.chunks import few_ranges
from ..recording.followed import FollowedMemory
from ..recording.memory import Bytes
from .reading import Asked

MOST_TEXT = 40              # letters that are told
MOST_RANGES = 8             # of addresses: more make the search slow
PRINTED = range(32, 127)


class Pointer(NamedTuple):
    """The place, in bytes of the rows' text, and the address."""
    place: int
    address: int


class Texts:
    """told   the texts of pointers, of those that lead to one"""

    def __init__(self, asked: Asked, pointers: Iterable[Pointer]) -> None:
        self.wanted: Deque[Pointer] = deque(sorted(set(pointers)))
        self.told: Dict[Pointer, str] = {}
        ranges = few_ranges(((each.address, each.address + MOST_TEXT) for each in self.wanted),
                            MOST_RANGES)
        self.followed = FollowedMemory(asked.log, asked.elf, asked.is_whole, ranges)
        self.base = 0                           # the place of the latest chunk

    def take(self, text: bytes) -> None:
        self.followed.take(text)
        while self.wanted and self.wanted[0].place < self.base + len(text):
            pointer = self.wanted.popleft()
            self.followed.go_to(pointer.place - self.base)
            said = text_in(self.followed.memory.read(pointer.address, MOST_TEXT))
            if said:
                self.told[pointer] = said
        self.base += len(text)


def text_in(data: Bytes) -> str:
    """The text with which some bytes begin, or nothing: up to a 0, or all of them."""
    body = list(itertools.takewhile(lambda byte: byte in PRINTED, data))
    is_over = len(body) == len(data) or data[len(body)] == 0
    return bytes(byte for byte in body if byte).decode("ascii") if is_over else ""


def texts_of(asked: Asked, pointers: Iterable[Pointer]) -> Dict[Pointer, str]:
    """Those of some pointers. Without any the rows aren't read again."""
    texts = Texts(asked, pointers)
    for text in asked.chunks() if texts.wanted else ():
        texts.take(text)
        if not texts.wanted:
            break
    return texts.told
