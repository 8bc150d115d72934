"""The latest text of `joint`, and what is looked for in it, backwards from a row.

A place is a number of bytes from the text's beginning. A row begins behind the newline at its
place."""
from __future__ import annotations

import bisect
from typing import Iterator

KEPT = 12 << 20             # bytes of text, about


class CountWindow:
    """texts   chunks of text, in order; begins: their places"""

    def __init__(self, kept: int = KEPT) -> None:
        self.kept = kept
        self.size = 0
        self.end = 0
        self.texts: list[bytes] = []
        self.begins: list[int] = []

    def add(self, text: bytes) -> None:
        self.texts.append(text)
        self.begins.append(self.end)
        self.end += len(text)
        self.size += len(text)

    def surplus(self) -> int:
        """The end of the oldest chunk if there is more text than is kept, else 0."""
        return self.begins[1] if self.size > self.kept and len(self.texts) > 1 else 0

    def drop(self) -> None:
        self.size -= len(self.texts.pop(0))
        del self.begins[0]

    def text_at(self, place: int) -> tuple[bytes, int]:
        """The chunk that a place is in, and its offset there."""
        at = bisect.bisect_right(self.begins, place) - 1
        return self.texts[at], place - self.begins[at]

    def found_before(self, word: bytes, place: int, first: int = 0) -> Iterator[int]:
        """The places of a word before another place and not before a first one, latest first."""
        for at in range(bisect.bisect_right(self.begins, place) - 1, -1, -1):
            text = self.texts[at]
            begin = self.begins[at]
            low = max(0, first - begin)
            offset = text.rfind(word, low, max(0, place - begin))
            while offset >= 0:
                yield begin + offset
                offset = text.rfind(word, low, offset)
            if low:
                break

    def is_of(self, hart: bytes, place: int) -> bool:
        """Whether the row that a place is in is of a hart."""
        text, offset = self.text_at(place)
        return text.startswith(hart + b" ", text.rfind(b"\n", 0, offset) + 1)

    def bytes_at(self, place: int, size: int) -> bytes:
        text, offset = self.text_at(place)
        return text[offset:offset + size]
