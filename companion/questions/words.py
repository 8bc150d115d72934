"""What rows and `read` calls did to the words that a variable is in."""
from __future__ import annotations

from typing import Iterator, NamedTuple, Optional

from ..recording.chunks import LOAD, STORE, touching
from ..recording.cut import loaded_before, stored_bytes
from ..recording.followed import Begins, Fills
from ..recording.log import SystemCall
from ..recording.memory import Bytes, Memory, bytes_of, words_of
from .reading import Asked
from .variables import Variable

LAST_WORD = 0xfffffffc
Word = Optional[int]


class Change(NamedTuple):
    """A store to a word: its place in the chunk, the word, the values before it of the word before,
    of this one and of the one after, and the new value. What a `read` call put there isn't
    known."""
    place: int
    word: int
    before: tuple[Word, Word, Word]
    after: Word
    fill: Optional[SystemCall] = None

    def values(self, address: int, size: int) -> Iterator[Bytes]:
        """Some bytes before and after it."""
        begin = address - self.word + 4
        for words in (self.before, (self.before[0], self.after, self.before[2])):
            yield bytes_of(words)[begin:begin + size] if 0 <= begin <= 12 - size else [None] * size


class Words:
    """Follows the words of a variable through the rows.

    known    {word: its value, or None if nothing tells it}"""

    def __init__(self, asked: Asked, variable: Variable) -> None:
        self.variable = variable
        self.first = variable.address & ~3
        self.end = (variable.end + 3) & ~3
        self.fills = Fills(asked.log, variable.address, variable.end)
        self.begins = Begins(asked.log)
        at_start = Memory(asked.elf, asked.is_whole)
        self.known: dict[int, Word] = {word: at_start.word(word)
                                       for word in words_of(variable.address, variable.size)}
        self.unknown = {word for word, value in self.known.items() if value is None}
        self.stores, self.loads = (touching(variable.address, variable.end, kind)
                                   for kind in (STORE, LOAD))
        self.is_aligned = variable.size == self.end - self.first

    def changes(self, text: bytes) -> Iterator[Change]:
        """The stores of a chunk, and the `read` calls in it."""
        fills = self.fills.within(text)
        until = self.begins.place(text)
        events = [(found.end(), STORE) for found in self.stores.finditer(text)]
        if self.unknown or fills:
            events += [(found.end(), LOAD) for found in self.loads.finditer(text)]
            events.sort()
        for at, kind in events:
            while fills and fills[0][0] < at:
                yield from self.filled(*fills.pop(0))
            word = int(text[at - 9:at - 1], 16) & LAST_WORD
            value = int(text[at:at + 8], 16)
            loaded = loaded_before(text, at) if kind == STORE else b""
            if loaded and word in self.known:
                self.tells(word, int(loaded, 16))
            if kind == STORE and (self.is_aligned or self.is_touched(text, at)):
                yield Change(at, word, self.around(word), value)
            if word in self.known:
                self.tells(word, value if at > until else None)
        for fill in fills:
            yield from self.filled(*fill)

    def is_touched(self, text: bytes, at: int) -> bool:
        """Whether the store whose value begins at a place of a text is to the variable."""
        row = text[text.rfind(b"\n", 0, at) + 1:at]
        address = int(row[-9:-1], 16)
        return (address < self.variable.end
                and self.variable.address < address + stored_bytes(row))

    def around(self, word: int) -> tuple[Word, Word, Word]:
        return self.known.get(word - 4), self.known.get(word), self.known.get(word + 4)

    def tells(self, word: int, value: Word) -> None:
        self.known[word] = value
        (self.unknown.add if value is None else self.unknown.discard)(word)

    def filled(self, at: int, fill: SystemCall) -> Iterator[Change]:
        """What a `read` call did: no row tells what it put there."""
        first = max(fill.address, self.variable.address)
        end = min(fill.address + fill.size, self.variable.end)
        yield Change(at, first & ~3, self.around(first & ~3), None, fill)
        for word in words_of(first, end - first):
            self.known[word] = None
            self.unknown.add(word)
