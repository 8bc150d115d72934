"""The words of memory as the rows tell them."""
from __future__ import annotations

from typing import Iterable, Optional, Sequence

from .elf import Elf

MOST_BYTES = 200            # so many are told of a text
Bytes = Sequence[Optional[int]]


class Memory:
    """known    {address of a word: its value} of words that a row loaded or stored
    filled   words that a `read` call filled since, and that no row has told again
    is_whole whether all else is as the file has it: no row is lost"""

    def __init__(self, elf: Elf, is_whole: bool) -> None:
        self.elf = elf
        self.is_whole = is_whole
        self.known: dict[int, int] = {}
        self.filled: set[int] = set()

    def tells(self, told: bytes) -> None:
        """What a row says: `load ADDRESS=VALUE` or `store ADDRESS=VALUE`, the value being the whole
        word's."""
        _, _, said = told.partition(b" ")
        self.known[int(said[:8], 16) & ~3] = int(said[9:], 16)

    def fill(self, address: int, size: int) -> None:
        """A `read` call filled these bytes, and no row tells with what."""
        for word in words_of(address, size):
            self.known.pop(word, None)
            self.filled.add(word)

    def word(self, address: int) -> Optional[int]:
        """A word's value, or None if nothing tells it."""
        found = self.known.get(address)
        if found is None and address not in self.filled and (self.is_whole
                                                             or self.elf.is_read_only(address)):
            return self.elf.word(address) or 0
        return found

    def read(self, address: int, size: int) -> list[Optional[int]]:
        """Bytes; None for each that isn't known."""
        return bytes_of(map(self.word, words_of(address, size)))[address & 3:(address & 3) + size]


def words_of(address: int, size: int) -> range:
    """The addresses of the words that some bytes are in."""
    return range(address & ~3, address + size, 4) if size else range(0)


def bytes_of(words: Iterable[Optional[int]]) -> list[Optional[int]]:
    """The bytes of some words' values; None for each of one that isn't known."""
    return [byte for word in words
            for byte in ([None] * 4 if word is None else word.to_bytes(4, "little"))]


def quoted(data: Bytes) -> str:
    """Bytes as texts in quotes, and how many between them aren't known."""
    said: list[str] = []
    at = 0
    end = min(len(data), MOST_BYTES)
    while at < end:
        begin = at
        while at < end and (data[at] is None) == (data[begin] is None):
            at += 1
        known = bytes(byte for byte in data[begin:at] if byte is not None)
        said.append(repr(known)[1:] if known else f"({at - begin} unknown)")
    return " ".join(said) + (f" and {len(data) - end} more" if len(data) > end else "")
