"""Lines by number, kept as text, which the search for a word passes over at the speed of memory.

Parsed rows would take less room but ten times as long to make: text goes in as `debug` prints it.
"""
from __future__ import annotations

import bisect
from collections import deque
from typing import Callable, Iterator, NamedTuple, Optional, Sequence


class Pattern(NamedTuple):
    """A line matches if it has the word, and the function accepts it."""
    word: bytes
    accepts: Callable[[bytes], bool]


class LinesPart(NamedTuple):
    """The lines [start, end), which are text[low:high]."""
    start: int
    end: int
    text: bytearray
    low: int
    high: int


class NearPiece(NamedTuple):
    """A line whose offset is known: its piece, its number, and the offset."""
    piece: int
    number: int
    offset: int


def line_around(text: bytearray, at: int) -> tuple[int, int]:
    return text.rfind(b"\n", 0, at) + 1, text.index(b"\n", at)


def nearest(text: bytearray, patterns: Sequence[Pattern], low: int, high: int,
            last: bool) -> Optional[int]:
    """The beginning of the first line in text[low:high] that a pattern matches, or of the last
    one."""
    best = None
    find = text.rfind if last else text.find
    for word, accepts in patterns:
        at = find(word, low, high)
        first = low
        end = high
        while at >= 0:
            begin, behind = line_around(text, at)
            if accepts(bytes(text[begin:behind])):
                best = begin
                low, high = (begin, high) if last else (low, begin)
                break
            first, end = (first, begin) if last else (behind, end)
            at = find(word, first, end)
    return best


class KeptLines:
    """A list of lines that grows and is cut at its end. Its text is in pieces of whole lines."""
    PIECE = 1 << 20  # bytes: a line is found by counting within its piece
    NEAR = 4  # known lines: a search begins beside one of the latest

    def __init__(self) -> None:
        self.texts: list[bytearray] = []
        self.starts: list[int] = []
        self.count = 0
        self.near: deque[NearPiece] = deque(maxlen=self.NEAR)

    def add(self, text: bytes, count: int) -> None:
        if not self.texts or len(self.texts[-1]) > self.PIECE:
            self.texts.append(bytearray())
            self.starts.append(self.count)
        self.texts[-1] += text
        self.count += count

    def piece_of(self, number: int) -> int:
        return bisect.bisect_right(self.starts, number) - 1

    def end_of(self, piece: int) -> int:
        return self.starts[piece + 1] if piece + 1 < len(self.starts) else self.count

    def nearest(self, piece: int, number: int) -> NearPiece:
        """The known line of a piece that is the nearest."""
        known = [near for near in self.near if near.piece == piece]
        known += [NearPiece(piece, self.starts[piece], 0),
                  NearPiece(piece, self.end_of(piece), len(self.texts[piece]))]
        return min(known, key=lambda near: abs(near.number - number))

    def offset(self, piece: int, number: int) -> int:
        """The beginning of a line in its piece, counted from a known line."""
        text = self.texts[piece]
        _, at, offset = self.nearest(piece, number)
        if at == number:
            return offset
        while at < number:
            offset = text.index(b"\n", offset) + 1
            at += 1
        while at > number:
            offset = text.rfind(b"\n", 0, offset - 1) + 1
            at -= 1
        self.near.append(NearPiece(piece, at, offset))
        return offset

    def parts(self, start: int, end: int) -> Iterator[LinesPart]:
        """The lines [start, end), piece by piece."""
        while start < end:
            piece = self.piece_of(start)
            behind = min(end, self.end_of(piece))
            yield LinesPart(start, behind, self.texts[piece], self.offset(piece, start),
                            self.offset(piece, behind))
            start = behind

    def line(self, number: int) -> bytes:
        piece = self.piece_of(number)
        text = self.texts[piece]
        offset = self.offset(piece, number)
        return bytes(text[offset:text.index(b"\n", offset)])

    def text(self, start: int, end: int) -> bytes:
        """The lines [start, end) with the ends of all."""
        return b"".join(part.text[part.low:part.high] for part in self.parts(start, end))

    def cut(self, number: int) -> None:
        """Keeps the first so many lines."""
        while self.starts and self.starts[-1] >= number:
            self.starts.pop()
            self.texts.pop()
        if self.texts:
            del self.texts[-1][self.offset(len(self.texts) - 1, number):]
        self.count = number
        self.near.clear()

    def find(self, patterns: Sequence[Pattern], start: int, end: int,
             last: bool = False) -> Optional[int]:
        """The first line in [start, end), or the last, that a pattern matches, else None."""
        parts = list(self.parts(start, end))
        for part in reversed(parts) if last else parts:
            found = nearest(part.text, patterns, part.low, part.high, last)
            if found is not None:
                count = part.text.count
                number = (part.end - count(b"\n", found, part.high) if last
                          else part.start + count(b"\n", part.low, found))
                self.near.append(NearPiece(self.piece_of(number), number, found))
                return number
        return None
